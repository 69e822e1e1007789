//! Made inputs: a sheet or what is nearly one, lines of packets, and every way to end; and small ones cut everywhere.

use super::lines;
use super::sample;
use super::sheets::Texts;
use crate::bench::sheet_s;
use crate::drafts::Octets;
use crate::good;
use crate::random::Random;
use crate::sheet;

/// How many lines an input has at most; once in a while there are many, which fill any buffer.
const LINES: usize = 40;
const MANY: usize = 4_000;

/// So far before and behind the end of the longest sheet an input is cut.
const ABOUT: usize = 12;

/// So many lines, each with its LF, under the sheet that the text reads to, or S; once in a while one is long.
fn lines_under(random: &mut Random, text: &[u8], count: usize) -> Octets {
    let sheet = sheet::read(text).map_or_else(|_| sheet_s(), |(sheet, _)| sheet);
    let long_at = if random.once_in(4) { random.below(LINES) } else { count };
    let mut all = vec![];
    for at in 0..count {
        let line = if at == long_at { lines::long } else { lines::any };
        all.extend(line(random, &sheet));
        all.push(b'\n');
    }
    all
}

/// Input `at` by chance.
fn any(random: &mut Random, texts: &Texts, at: usize) -> Octets {
    let mut input = texts.at(random, at);
    let count = match random.below(30) {
        0..=2 => 0,
        3..=5 => 1,
        6 => random.below(MANY),
        _ => random.below(LINES),
    };
    input.extend(lines_under(random, &input, count));
    match random.below(3) {
        0 if count > 0 => drop(input.pop()),
        1 => input.extend(vec![b'\n'; random.below(4)]),
        _ => (),
    }
    input
}

/// So many inputs by chance.
pub fn some(seed: u64, count: usize) -> impl Iterator<Item = Octets> {
    let mut random = Random::new(seed);
    let texts = Texts::new(&mut random);
    (0..count).map(move |at| any(&mut random, &texts, at))
}

/// The example of document 01 cut in every place, and an input with the longest sheet cut about the sheet's end.
pub fn cut() -> Vec<Octets> {
    let (example, sheet) = (sample::example(), good::longest());
    let text = sheet.lines().concat();
    let mut inputs: Vec<Octets> = (0..=example.len()).map(|end| example[..end].to_vec()).collect();
    let longest = [&text[..], &lines_under(&mut Random::new(1), &text, LINES)].concat();
    inputs.extend((text.len() - ABOUT..=text.len() + ABOUT).map(|end| longest[..end].to_vec()));
    inputs
}

#[cfg(test)]
mod tests {
    use super::*;
    use crate::look::look;

    #[test]
    fn inputs_follow_from_the_seed() {
        let [one, again, other] = [1, 1, 2].map(|seed| some(seed, 20).collect::<Vec<Octets>>());
        assert!(one == again && one != other);
    }

    #[test]
    fn the_example_is_cut_everywhere() {
        let cuts = cut();
        let end = sample::example().len();
        assert!((0..=end).all(|at| cuts[at].len() == at && sample::example().starts_with(&cuts[at])));
        assert_eq!((look(&cuts[0]), look(&cuts[157])), (b"sheet=1\n".to_vec(), vec![]));
        assert_eq!((look(&cuts[156]), look(&cuts[158])), (b"sheet=14\n".to_vec(), b"refused=1\n".to_vec()));
    }
}
