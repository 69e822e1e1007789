//! Compares what the calls answered: with the second program's answers, and by what the octets written read back to.

use super::answers;
use super::call::{Answer, Call, Function, Part};
use super::tally::Tally;
use super::{cases, rows, shown};
use crate::controller::sending::message_of;
use crate::packet;
use crate::writer;
use std::io::{self, Read};

/// How many calls are shown whose answers differ.
const SHOWN: usize = 5;

/// The octets that an answer says were written.
fn written(answer: &Answer) -> Option<&[u8]> {
    match &answer.after[..] {
        [Part::Octets(out), Part::Numbers(written)] => out.get(..*written.first()? as usize),
        _ => None,
    }
}

/// Whether what was written reads back to what the call's message says.
fn reads_back(call: &Call, packet: &[u8]) -> Option<bool> {
    let same = |sheet, message, names| {
        let read = packet::read(sheet, packet).ok()?;
        Some(writer::meaning(&read, packet) == writer::meaning(message, names))
    };
    match (call.function, &call.parts[..]) {
        (Function::Write, [Part::Numbers(sheet), Part::Numbers(message), Part::Octets(names), ..]) => {
            same(&rows::sheet_in(sheet)?, &rows::message_in(message)?, names)
        }
        (
            Function::Packet,
            [Part::Numbers(sheet), Part::Users(users), Part::Number(stream), Part::Numbers(answer), ..],
        ) => {
            let sheet = rows::whole_sheet_in(sheet, users)?;
            let message = message_of(&sheet, *stream as u8, &rows::answer_in(answer)?.answer)?;
            same(&sheet, &message, &sheet.users[*stream as usize])
        }
        _ => None,
    }
}

/// Whether a call wrote a packet, by its answer.
fn writes(call: &Call, answer: &Answer) -> bool {
    let is_writer = [Function::Write, Function::Packet].contains(&call.function);
    is_writer && answer.returned == 0 && written(answer) != Some(&[])
}

/// What is wrong with an answer to a call, if anything is.
fn wrong(call: &Call, expected: &Answer, got: &[u8]) -> Option<String> {
    let octets = expected.octets();
    if got.len() != octets.len() {
        return Some(format!("  octets in the answer: {}, and not {}", got.len(), octets.len()));
    }
    if let Some(at) = (0..got.len()).find(|at| got[*at] != octets[*at]) {
        let second = shown::answer(call, expected);
        let face = shown::answer_from(call, got).map_or(format!("{got:?}"), |answer| shown::answer(call, &answer));
        let asked = shown::call(call);
        return Some(format!(
            "{asked}\n  second program: {second}\n  face: {face}\n  from octet {at} of the answer on"
        ));
    }
    let is_same =
        !writes(call, expected) || written(expected).and_then(|packet| reads_back(call, packet)) == Some(true);
    (!is_same).then(|| format!("{}\n  reads back as another message", shown::call(call)))
}

/// Judges the answer to one call, which is at the front of those to come.
fn judge(tally: &mut Tally, call: &Call, answers: &mut impl Read) -> io::Result<Option<String>> {
    let expected = answers::answer(call);
    let mut got = vec![];
    answers.take(expected.octets().len() as u64).read_to_end(&mut got)?;
    let wrong = wrong(call, &expected, &got);
    tally.note(call, &expected, wrong.is_none() && writes(call, &expected));
    Ok(wrong)
}

/// Compares the answers to all calls, and prints the counts; true where they agree and the calls show enough.
pub fn compare(seed: u64, rounds: usize, mut answers: impl Read) -> io::Result<bool> {
    let mut tally = Tally::default();
    let (mut calls, mut different) = (0, 0);
    cases::each(seed, rounds, &mut |call| {
        calls += 1;
        if let Some(wrong) = judge(&mut tally, &call, &mut answers)? {
            different += 1;
            if different <= SHOWN {
                println!("call {calls} differs\n{wrong}");
            }
        }
        Ok(())
    })?;
    let enough = tally.print();
    let behind = io::copy(&mut answers, &mut io::sink())?;
    if behind > 0 {
        println!("{behind} octets follow the last answer");
    }
    println!("{calls} calls compared; {different} differ");
    Ok(different == 0 && enough && behind == 0)
}

#[cfg(test)]
mod tests {
    use super::*;
    use crate::drafts::replaced;
    use crate::face::call::FUNCTIONS;
    use crate::face::good;
    use crate::random::Random;

    #[test]
    fn every_octet_of_an_answer_counts() {
        let random = &mut Random::new(1);
        let sheet = good::sheet(random);
        for call in
            FUNCTIONS.into_iter().flat_map(|function| good::all(random, &sheet, function)).collect::<Vec<Call>>()
        {
            let expected = answers::answer(&call);
            let octets = expected.octets();
            assert_eq!((expected.returned, wrong(&call, &expected, &octets)), (0, None));
            for (at, octet) in octets.iter().enumerate() {
                assert!(wrong(&call, &expected, &replaced(&octets, at, !octet)).is_some(), "octet {at} of {call:?}");
            }
            assert!(wrong(&call, &expected, &octets[1..]).is_some());
        }
    }

    #[test]
    fn another_message_read_back_is_seen() {
        let random = &mut Random::new(1);
        let sheet = good::sheet(random);
        let calls = good::all(random, &sheet, Function::Write);
        for call in &calls {
            let expected = answers::answer(call);
            for other in &calls {
                let packet = written(&expected).unwrap();
                assert_eq!(reads_back(other, packet), Some(call == other));
            }
        }
    }
}
