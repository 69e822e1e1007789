//! Made texts: good sheets, and each line damaged in every way that could be thought of.

use crate::good;
use crate::random::Random;
use crate::sheet::{self, Sheet, KEYS, SEATS};

type Octets = Vec<u8>;

/// Octets that mean something in a sheet, or stand next to those that do.
const TELLING: &[u8] = b"0123456789=,\n\r\t sS+-/:;~!\0\x1f\x20\x21\x7e\x7f\x80\xff";

/// Ways to write a number, `#`; to write what stands before it, with `#` for the key; and to end a line.
const NUMBER_FORMS: &[&str] = &[
    "", "0#", "00#", "+#", "-#", "-0", "+0", "--#", " #", "# ", "\t#", "#\t", "\r#", "#\r", "\0#", "#\0", "#\x0b",
    "0x#", "0b1", "#.", "#.0", "#,", ",#", "#;", "#e0", "#_", "_#", "#=", "=#", "##", "#0", "# #", "one", "#a", "a#",
    "٣", "３", "²", "#\u{a0}", "\u{feff}#", "#\n", "\n#", "/", ":", "#/", "#:",
];
const KEY_FORMS: &[&str] = &[
    "", "=", "#", "#:", "#==", "# =", "#= ", " #=", "\t#=", "\r#=", "\0#=", "\u{feff}#=", "#\0=", "#\n=", "#=\n",
    "\n#=", "#s=", "x#=", "##=", "#=#=",
];
const END_FORMS: &[&str] = &[
    "", "\r\n", "\n\r", "\r", " \n", "\t\n", "\n\n", "\0\n", "\0", ",\n", ";\n", "=\n", " ", "\x0b\n", "\u{2028}",
    "\n#\n",
];

/// One line, in its parts.
struct Line {
    key: &'static str,
    number: u32,
    name: Option<Octets>,
}

impl Line {
    fn of(sheet: &Sheet, at: usize) -> Line {
        match KEYS.get(at) {
            Some(key) => Line { key, number: sheet.numbers[at], name: None },
            None => {
                let s = at - KEYS.len();
                Line { key: "seat", number: sheet.ssrcs[s], name: Some(sheet::name_in(&sheet.users[s]).to_vec()) }
            }
        }
    }

    /// The line with other octets before its number, and another number.
    fn with(&self, front: &[u8], number: &[u8]) -> Octets {
        let mut line = [front, number].concat();
        if let Some(name) = &self.name {
            line.push(b',');
            line.extend(name);
        }
        line.push(b'\n');
        line
    }

    fn front(&self) -> Octets {
        format!("{}=", self.key).into_bytes()
    }

    fn digits(&self) -> Octets {
        self.number.to_string().into_bytes()
    }

    fn octets(&self) -> Octets {
        self.with(&self.front(), &self.digits())
    }
}

/// Numbers at and about the bounds of a line, and at and about those of machine words.
fn numbers(line: &Line) -> Vec<u128> {
    let (least, greatest) = sheet::bounds(line.key);
    let (least, greatest): (u128, u128) = (least.parse().unwrap(), greatest.parse().unwrap());
    let n = line.number as u128;
    let mut numbers = vec![least.saturating_sub(1), least, least + 1, greatest - 1, greatest, greatest + 1];
    numbers.extend((0..=17).chain([99, 100, 190, 191, 192, 65535, 65536, 4294967294]));
    for bits in [8, 16, 31, 32, 33, 48, 63, 64, 65, 96] {
        let power: u128 = 1 << bits;
        numbers.extend([power - 1, power, power + 1, power + n, power + least, power + greatest]);
    }
    numbers.extend([(1 << 64) + (1 << 32) + n, 10u128.pow(19), 10u128.pow(20) + n]);
    numbers
}

/// Other ways to write the number of a line, most of them wrong.
fn forms_of_number(line: &Line) -> Vec<Octets> {
    let n = line.number.to_string();
    let mut forms: Vec<String> = numbers(line).iter().map(u128::to_string).collect();
    forms.extend(NUMBER_FORMS.iter().map(|form| form.replace('#', &n)));
    // a thousand digits; the first wraps to n in words of any width up to 999 bits
    forms.extend([format!("1{n:0>999}"), format!("{n:0>1000}"), format!("{n}{:0>999}", 0), "9".repeat(1000)]);
    let mut forms: Vec<Octets> = forms.into_iter().map(String::into_bytes).collect();
    forms.extend([b"\x80".to_vec(), b"\xff\xfe".to_vec()]);
    forms
}

/// Other ways to write what stands before the number of a line.
fn forms_of_key(line: &Line) -> Vec<Octets> {
    let key = line.key;
    let (but_last, last) = key.split_at(key.len() - 1);
    let (first, but_first) = key.split_at(1);
    let mut keys = vec![
        key.to_uppercase(),
        first.to_uppercase() + but_first,
        but_last.to_string() + &last.to_uppercase(),
        but_last.to_string(),
        but_first.to_string(),
        but_last.to_string() + "x",
        "x".to_string() + but_first,
    ];
    keys.extend(KEYS.iter().chain(&["seat"]).map(|other| other.to_string()));
    let mut forms: Vec<String> = KEY_FORMS.iter().map(|form| form.replace('#', key)).collect();
    forms.extend(keys.into_iter().map(|key| key + "="));
    forms.into_iter().map(String::into_bytes).collect()
}

/// Other ways to end a line, and none; another line before or behind it.
fn forms_of_end(line: &Line) -> Vec<Octets> {
    let whole = line.octets();
    let bare = &whole[..whole.len() - 1];
    let mut forms = vec![vec![], b"\n".to_vec(), [&whole[..], &whole].concat(), [b"\n", &whole[..]].concat()];
    forms.extend(END_FORMS.iter().map(|end| [bare, end.as_bytes()].concat()));
    forms
}

/// Names that are good or nearly so, in place of `name`.
fn names_about(name: &[u8]) -> Vec<Octets> {
    let mut names: Vec<Octets> =
        [0, 1, 2, 59, 60, 61, 62, 120, 256, 257, 316, 1000].map(|length| vec![b'u'; length]).to_vec();
    for octet in TELLING {
        names.push(vec![*octet]);
        for at in [0, 30, 59] {
            let mut long = [b'u'; 60];
            long[at] = *octet;
            names.push(long.to_vec());
        }
        names.push([name, &[*octet]].concat());
        names.push([&[*octet], name].concat());
    }
    names.extend([
        name.to_ascii_uppercase(),
        name.to_ascii_lowercase(),
        "ü".into(),
        "sip:ü".into(),
        name[1..].to_vec(),
    ]);
    names
}

/// Other ways to write a seat's line: its name, its comma, and what the other seats have.
fn forms_of_seat(line: &Line, sheet: &Sheet) -> Vec<Octets> {
    let Some(name) = &line.name else {
        return vec![];
    };
    let n = line.number;
    let written = |ssrc: u32, name: &[u8]| [format!("seat={ssrc},").as_bytes(), name, b"\n"].concat();
    let mut forms: Vec<Octets> = names_about(name).iter().map(|other| written(n, other)).collect();
    for s in 0..sheet.rows() {
        let other = sheet::name_in(&sheet.users[s]);
        forms.push(written(sheet.ssrcs[s], name));
        forms.push(written(n, other));
        forms.push(written(sheet.ssrcs[s], other));
        forms.extend([[other, b"x"].concat(), other[1..].to_vec()].map(|near| written(n, &near)));
    }
    for between in ["", ";", ",,", ", ", " ,", "\t,", "=", "\0", "\n,", ",\n"] {
        forms.push([format!("seat={n}{between}").as_bytes(), name, b"\n"].concat());
    }
    forms.extend(
        [format!("seat={n}\n"), format!("seat={n},\n"), "seat=,\n".into(), "seat=\n".into()].map(String::into_bytes),
    );
    forms
}

/// Numbers that other lines have: a clash, or none.
fn forms_of_clash(line: &Line, sheet: &Sheet) -> Vec<Octets> {
    sheet.numbers.iter().chain(&sheet.ssrcs).map(|n| line.with(&line.front(), n.to_string().as_bytes())).collect()
}

/// Every way that line `at`, counted from 0, is written instead.
fn forms_of_line(sheet: &Sheet, at: usize) -> Vec<Octets> {
    let line = Line::of(sheet, at);
    let mut forms: Vec<Octets> = forms_of_number(&line).iter().map(|number| line.with(&line.front(), number)).collect();
    forms.extend(forms_of_key(&line).iter().map(|front| line.with(front, &line.digits())));
    forms.extend(forms_of_end(&line));
    forms.extend(forms_of_clash(&line, sheet));
    forms.extend(forms_of_seat(&line, sheet));
    forms
}

/// The text with one line written otherwise.
fn replaced(sheet: &Sheet, at: usize, form: Octets) -> Octets {
    let mut lines = sheet.lines();
    lines[at] = form;
    lines.concat()
}

/// The text with each two lines swapped.
fn swaps(sheet: &Sheet) -> Vec<Octets> {
    let lines = sheet.lines();
    let mut texts = vec![];
    for a in 0..lines.len() {
        for b in a + 1..lines.len() {
            let mut lines = lines.clone();
            lines.swap(a, b);
            texts.push(lines.concat());
        }
    }
    texts
}

fn cuts(text: &[u8]) -> impl Iterator<Item = Octets> + '_ {
    (0..text.len()).map(|end| text[..end].to_vec())
}

/// The text with something behind or before it, and in other encodings.
fn surrounded(text: &[u8]) -> Vec<Octets> {
    let mut texts: Vec<Octets> =
        [&b"\n"[..], b"x", b"\0", b"\xff\xfe", b"seat=77,sip:more\n", b"82CC0003\n", b"\r\n", b" ", text]
            .iter()
            .map(|tail| [text, tail].concat())
            .collect();
    texts.extend(["\u{feff}", " ", "\n", "\r", "\0", "#\n"].map(|front| [front.as_bytes(), text].concat()));
    texts.push([text, &[b'z'; 60000]].concat());
    texts.push(text.iter().flat_map(|c| [*c, 0]).collect());
    texts.push(text.to_ascii_uppercase());
    texts.push(text.iter().flat_map(|c| if *c == b'\n' { b"\r\n".to_vec() } else { vec![*c] }).collect());
    texts.push(text.iter().map(|c| if *c == b'\n' { b'\r' } else { *c }).collect());
    texts.push(text.iter().rev().copied().collect());
    texts
}

/// Every way of damage on a sheet of every size.
pub fn systematic(random: &mut Random) -> Vec<Octets> {
    let mut texts =
        vec![vec![], b"\n".to_vec(), b"server".to_vec(), b"server=".to_vec(), b"server=1".to_vec(), vec![b'\n'; 30]];
    let mut sheets: Vec<Sheet> = (1..=SEATS).map(|seats| good::sheet(random, seats)).collect();
    sheets.push(good::longest());
    for sheet in &sheets {
        let text = sheet.lines().concat();
        texts.push(text.clone());
        for at in 0..sheet.lines().len() {
            texts.extend(forms_of_line(sheet, at).into_iter().map(|form| replaced(sheet, at, form)));
        }
        texts.extend(swaps(sheet));
        texts.extend(cuts(&text));
        texts.extend(surrounded(&text));
    }
    texts
}

fn damage_line(random: &mut Random, sheet: &Sheet, lines: &mut Vec<Octets>) {
    let at = random.below(lines.len());
    let other = random.below(lines.len());
    match random.below(6) {
        0 => lines.swap(at, other),
        1 => drop(lines.remove(at)),
        2 => lines.insert(at, lines[other].clone()),
        _ => lines[at] = random.pick(&forms_of_line(sheet, at.min(KEYS.len() + sheet.rows() - 1))).clone(),
    }
}

fn damage_octet(random: &mut Random, text: &mut Octets) {
    if text.is_empty() {
        return;
    }
    let at = random.below(text.len());
    let octet = if random.once_in(3) { random.octet() } else { *random.pick(TELLING) };
    match random.below(4) {
        0 => text.insert(at, octet),
        1 => drop(text.remove(at)),
        2 => text.truncate(at),
        _ => text[at] = octet,
    }
}

/// A good sheet, or one with a few faults anywhere.
pub fn any(random: &mut Random) -> Octets {
    let seats = random.below(SEATS) + 1;
    let sheet = good::sheet(random, seats);
    let mut lines = sheet.lines();
    for _ in 0..random.below(3) {
        damage_line(random, &sheet, &mut lines);
    }
    let mut text = lines.concat();
    if random.once_in(3) {
        for _ in 0..=random.below(2) {
            damage_octet(random, &mut text);
        }
    }
    if random.once_in(4) {
        text.extend((0..random.below(40)).map(|_| *random.pick(TELLING)).collect::<Octets>());
    }
    text
}
