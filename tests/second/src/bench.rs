//! The bench cases of document 01.

use crate::packet::Message;
use crate::sheet::{self, Sheet};

pub const S: &str =
    "server=1000\nlimit=1\nrequest=1\nresponse=2\nendrequest=3\nendresponse=4\ntxend=5\ntxendresponse=6\n\
    ack=7\nresultid=20\nseats=3\nseat=1,sip:a\nseat=2,sip:b\nseat=3,sip:c\n";

/// P1 to P5.
pub const PACKETS: [&str; 5] = [
    "82CC0003000003E84D43563114020001",
    "82CC0004000003E84D4356311402000002020000",
    "81CC0006000000024D43563006057369703A620006057369703A6100",
    "85CC0003000003E84D43563202020008",
    "87CC0004000003E84D4356320A0200020C020100",
];

/// The octets that the names of P3's message lie in.
pub const NAMES: &[u8] = b"sip:asip:b";

/// P1 to P5 as messages.
pub fn messages() -> [Message; 5] {
    let empty = Message::default();
    let server = Message { ssrc: 1000, ..empty.clone() };
    [
        Message { kind: 2, result: Some(1), ..server.clone() },
        Message { kind: 2, result: Some(0), cause: Some(0), ..server.clone() },
        Message { kind: 1, ssrc: 2, user: Some(5..10), named: Some(0..5), ..empty },
        Message { kind: 5, cause: Some(8), ..server.clone() },
        Message { kind: 7, source: Some(2), about: Some(1), ..server },
    ]
}

/// The value that S reads to.
pub fn sheet_s() -> Sheet {
    sheet::read(S.as_bytes()).expect("sheet S").0
}

/// S with one change.
pub fn s_with(from: &str, to: &str) -> String {
    assert!(S.contains(from));
    S.replace(from, to)
}

/// The octets that are written in hex.
pub fn octets(hex: &str) -> Vec<u8> {
    assert!(hex.len().is_multiple_of(2));
    (0..hex.len()).step_by(2).map(|at| u8::from_str_radix(&hex[at..at + 2], 16).expect("hex digits")).collect()
}
