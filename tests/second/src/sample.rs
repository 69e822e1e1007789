//! The few cases that the program `answers` is run on by itself: crates/answers/stdin, and their answers in stdout.

use crate::asked::{self, Asked};
use crate::bench::{self, s_with, S};
use crate::controller::sample as controller;
use crate::packet::Message;
use crate::sheet::Sheet;
use crate::wire::Case;

/// Packets under S that are refused with 1, 2, 3, 4 and 5: one octet short, type 205, the number of no message, an ID
/// of 192, and no Result.
pub const REFUSED: [&str; 5] = [
    "82CC0003000003E84D435631140200",
    "82CD0003000003E84D43563114020001",
    "88CC0003000003E84D43563114020001",
    "82CC0003000003E84D435631C0020001",
    "82CC0002000003E84D435631",
];

/// Sheet S, and the edges that document 01 gives beside it.
fn texts() -> Vec<String> {
    vec![
        S.to_string(),
        s_with("limit=1\n", "limit=0\n"),
        s_with("limit=1\n", "limit=9\n"),
        s_with("ack=7\n", "ack=6\n"),
        s_with("resultid=20\n", "resultid=14\n"),
    ]
}

fn packets(hex: [&str; 5]) -> Vec<Vec<u8>> {
    hex.map(bench::octets).to_vec()
}

/// A message to write, whose names lie in those of the bench.
fn write(sheet: &Sheet, message: &Message, room: usize) -> Case {
    Case::Write(sheet.clone(), message.clone(), bench::NAMES.to_vec(), room)
}

/// P1 to P5 into a buffer that is longer; and P3 refused with 12, 5 and 11: no sheet, a name past the end, one octet short.
fn writings(s: &Sheet) -> Vec<Case> {
    let messages = bench::messages();
    let request = &messages[2];
    let beyond = Message { user: Some(5..11), ..request.clone() };
    let mut cases: Vec<Case> = messages.iter().map(|message| write(s, message, 32)).collect();
    cases.extend([write(&Sheet::ZERO, request, 32), write(s, &beyond, 32), write(s, request, 27)]);
    cases
}

/// Every question about sheets and packets, with P1 to P5 among the packets and the messages.
pub fn cases() -> Vec<Case> {
    let s = bench::sheet_s();
    let mut cases: Vec<Case> = texts().into_iter().map(|text| Case::Read(text.into_bytes())).collect();
    cases.extend([
        Case::Valid(s.clone()),
        Case::BySsrc(s.clone(), 2),
        Case::ByUser(s.clone(), b"sip:c".to_vec()),
        Case::UserId(b"sip:d".to_vec()),
        Case::Packets(s.clone(), packets(bench::PACKETS)),
        Case::Packets(s.clone(), packets(REFUSED)),
        Case::Packets(Sheet::ZERO, packets(bench::PACKETS)),
    ]);
    let request = bench::octets(bench::PACKETS[2]);
    let cut = |length: usize| Case::Fields(request[..length].to_vec(), vec![12]);
    cases.extend([Case::Fields(request.clone(), vec![12, 20, 28, 0, 13, 32]), cut(13), cut(12)]);
    cases.extend(writings(&s));
    cases
}

/// Cases by their octets.
pub fn each<C: Asked>(cases: &[C]) -> Vec<Vec<u8>> {
    cases.iter().map(Asked::octets).collect()
}

/// Every question of `answers`, each case by its octets: those above, and behind them those of the controller.
pub fn octets() -> Vec<Vec<u8>> {
    [each(&cases()), each(&controller::cases())].concat()
}

/// The answers to all of them.
pub fn answer_octets() -> Vec<u8> {
    [asked::answer_octets(&cases()), asked::answer_octets(&controller::cases())].concat()
}

#[cfg(test)]
mod tests {
    use super::*;
    use crate::wire::WRITTEN;

    /// Whether the files of a program have these cases and answers.
    fn is_run_on(program: &str, cases: Vec<Vec<u8>>, answers: Vec<u8>) -> bool {
        let folder = format!("{}/../../crates/{program}", env!("CARGO_MANIFEST_DIR"));
        let file = |name: &str| std::fs::read(format!("{folder}/{name}")).unwrap();
        let mut written = vec![];
        asked::write_cases(&mut written, cases.into_iter()).unwrap();
        written == file("stdin") && answers == file("stdout")
    }

    #[test]
    fn the_programs_are_run_on_these_cases() {
        let reception = crate::reception::sample::cases();
        assert!(is_run_on("answers", octets(), answer_octets()));
        assert!(is_run_on("schedules", each(&reception), asked::answer_octets(&reception)));
    }

    #[test]
    fn document_01_has_the_octets_that_are_written() {
        for (case, hex) in writings(&bench::sheet_s()).iter().zip(bench::PACKETS) {
            let (packet, answer) = (bench::octets(hex), case.answer().body());
            assert_eq!(answer[WRITTEN..WRITTEN + packet.len()], packet);
        }
    }
}
