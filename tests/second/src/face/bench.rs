//! The bench cases of document 01 through the face, each answer written by hand.

use super::answers::answer;
use super::call::{lent_numbers, Answer, Call, Part};
use super::made;
use super::rows::NONE;
use crate::bench::{octets, s_with, sheet_s, PACKETS, S};
use crate::reception::record::{watched, Record, Records, ENDING, FREE, IDLE};
use crate::reception::steps::Attempt;
use crate::reception::table::{Event, What, DISCARDED};
use crate::sheet::SEATS;
use crate::wire::lent;

/// P1 to P5 as rows. P3's names stand at octets 14 and 22.
const MESSAGES: [[u32; 12]; 5] = [
    [2, 1000, 0, 0, 0, 0, 0, 1, NONE, NONE, NONE, NONE],
    [2, 1000, 0, 0, 0, 0, 0, 0, 0, NONE, NONE, NONE],
    [1, 2, 0, 14, 5, 22, 5, NONE, NONE, NONE, NONE, NONE],
    [5, 1000, 0, 0, 0, 0, 0, NONE, 8, NONE, NONE, NONE],
    [7, 1000, 0, 0, 0, 0, 0, NONE, NONE, NONE, 2, 1],
];

/// P6 to P12 and the last step of P13: limit, the record seen, the event and the attempt.
const ATTEMPTS: [(u32, [u8; 2], [u32; 4], [u32; 11]); 9] = [
    (1, [1, 0], [1, 0, 1, 0], [0, 1, 0, 2, 2, 1, 2, 1, NONE, 10, 4]),
    (1, [2, 2], [1, 0, 1, 0], [0, 2, 2, 2, 2, 1, 2, 1, NONE, 0, 0]),
    (1, [2, 2], [1, 0, 2, 0], [0, 2, 2, 2, 2, 2, 2, 0, 0, 0, 0]),
    (2, [2, 2], [1, 0, 2, 0], [0, 2, 2, 2, 6, 1, 2, 1, NONE, 2, 4]),
    (1, [1, 0], [1, 0, 0, 0], [0, 1, 0, 1, 0, 2, 2, 0, 1, 0, 0]),
    (1, [2, 2], [4, 0, 0, 0], [0, 2, 2, 2, 2, 8, 0, NONE, NONE, 0, 0]),
    (1, [1, 0], [4, 0, 0, 0], [0, 1, 0, 3, 0, 4, 5, NONE, 8, 0, 1]),
    (1, [2, 2], [2, 0, 1, 0], [0, 2, 2, 1, 0, 3, 4, NONE, NONE, 0, 8]),
    (1, [3, 0], [1, 0, 1, 0], [0, 3, 0, 3, 0, 2, 2, 0, 1, 0, 0]),
];

fn numbers(row: &[u32]) -> Part {
    Part::Numbers(row.to_vec())
}

/// The call with another value of one parameter.
fn with(mut call: Call, at: usize, part: Part) -> Call {
    call.parts[at] = part;
    call
}

fn taken(after: Vec<Part>) -> Answer {
    Answer { returned: 0, after }
}

fn refused(call: &Call, returned: u32) -> bool {
    answer(call) == Answer { returned, after: call.lent() }
}

fn first(record: Record) -> Records {
    let mut records = [FREE; SEATS];
    records[0] = record;
    records
}

#[test]
fn sheet_s_and_its_edges() {
    let users = [&b"sip:a"[..], &[0; 55], b"sip:b", &[0; 55], b"sip:c", &[0; 55 + 300]].concat();
    let row = [1000, 1, 1, 2, 3, 4, 5, 6, 7, 20, 3, 1, 2, 3, 0, 0, 0, 0, 0];
    let after = vec![numbers(&row), Part::Users(users), numbers(&[157])];
    assert_eq!(answer(&made::sheet(S.as_bytes())), taken(after));
    for (from, to, returned) in [
        ("limit=1", "limit=0", 12 + 256 * 2),
        ("limit=1", "limit=9", 12 + 256 * 2),
        ("ack=7", "ack=6", 12 + 256 * 9),
        ("resultid=20", "resultid=14", 12 + 256 * 10),
    ] {
        assert!(refused(&made::sheet(s_with(from, to).as_bytes()), returned), "{to}");
    }
}

#[test]
fn p1_to_p5_read_and_written() {
    for (packet, row) in PACKETS.map(octets).iter().zip(MESSAGES) {
        assert_eq!(answer(&made::read(&sheet_s(), packet)), taken(vec![numbers(&row)]));
        let written = answer(&made::write(&sheet_s(), &row, packet, packet.len() + 1));
        let out = [&packet[..], &lent(packet.len() + 1)[packet.len()..]].concat();
        assert_eq!(written, taken(vec![Part::Octets(out), numbers(&[packet.len() as u32])]));
        assert!(refused(&made::write(&sheet_s(), &row, packet, packet.len() - 1), 11));
    }
}

#[test]
fn fields_of_p3() {
    let p3 = octets(PACKETS[2]);
    let places = [(12, [6, 14, 5, 20]), (20, [6, 22, 5, 28]), (28, [NONE, 28, 0, 28])];
    for (place, field) in places {
        assert_eq!(answer(&made::field(&p3, place)), taken(vec![numbers(&field)]));
    }
    assert!([0, 8, 13, 16, 29, 32, NONE].iter().all(|place| refused(&made::field(&p3, *place), 4)));
}

#[test]
fn p3_is_a_request_by_1_on_0() {
    let p3 = octets(PACKETS[2]);
    assert_eq!(answer(&made::event(&sheet_s(), &p3)), taken(vec![numbers(&[1, 0, 1, 0])]));
    assert!(refused(&made::event(&sheet_s(), &octets(PACKETS[0])), 8));
}

#[test]
fn p6_to_p13_worked_out() {
    let no_event = Event { stream: 0, what: What::Open };
    for (limit, seen, event, attempt) in ATTEMPTS {
        let mut sheet = sheet_s();
        sheet.set("limit", limit);
        let call = with(made::work_out(&sheet, FREE, no_event), 1, Part::Octets(seen.to_vec()));
        assert_eq!(answer(&with(call, 2, numbers(&event))), taken(vec![numbers(&attempt)]));
    }
}

#[test]
fn p6_is_stored_and_p13_is_stale() {
    let none = Attempt { stream: 0, seen: FREE, wanted: FREE, answer: DISCARDED };
    let store = |own| with(made::store(&sheet_s(), &none, &first(own)), 1, numbers(&ATTEMPTS[0].3));
    let after = [2, 2, 0, 0, 0, 0, 0, 0, 0, 0, 0, 0, 0, 0, 0, 0];
    let p6 = taken(vec![Part::Octets(after.to_vec()), numbers(&[1, 2, 1, NONE, 10, 4])]);
    assert_eq!(answer(&store(IDLE)), p6);
    assert!(refused(&store(ENDING), 10) && refused(&store(watched(1)), 9));
    let short = |own| with(store(own), 3, numbers(&[0; 5]));
    assert!(refused(&short(IDLE), 11) && refused(&short(ENDING), 10));
}

#[test]
fn what_is_seen_and_counted() {
    let mut sheet = sheet_s();
    sheet.set("limit", 2);
    let mut records = first(watched(6));
    assert_eq!(answer(&made::seen(&sheet, &records, 0)), taken(vec![Part::Octets(vec![2, 6])]));
    assert_eq!(answer(&made::count(&sheet, &records, 0)), taken(vec![numbers(&[2])]));
    assert!(refused(&made::seen(&sheet_s(), &records, 0), 9) && refused(&made::count(&sheet, &records, 3), 9));
    records[0] = FREE;
    records[7] = watched(255);
    assert_eq!(answer(&made::count(&sheet, &records, 0)), taken(vec![numbers(&[0])]));
    let mut octets = vec![0; 16];
    octets[14] = 4;
    assert!(refused(&with(made::seen(&sheet, &records, 0), 1, Part::Octets(octets)), 9));
}

#[test]
fn what_answers_send() {
    let send = |row: &[u32], room| with(made::packet(&sheet_s(), 0, &DISCARDED, room), 3, numbers(row));
    let sent = |packet: &str| {
        let packet = octets(packet);
        let written = numbers(&[packet.len() as u32]);
        taken(vec![Part::Octets(packet), written])
    };
    assert_eq!(answer(&send(&[1, 2, 1, NONE, 10, 4], 16)), sent(PACKETS[0]));
    assert_eq!(answer(&send(&[2, 2, 0, 0, 0, 0], 20)), sent(PACKETS[1]));
    assert_eq!(answer(&send(&[4, 5, NONE, 8, 0, 1], 16)), sent(PACKETS[3]));
    assert_eq!(answer(&send(&[5, 7, NONE, NONE, 1, 0], 20)), sent(PACKETS[4]));
    let ended = sent("84CC0004000003E84D43563206057369703A6100");
    assert_eq!(answer(&send(&[3, 4, NONE, NONE, 0, 8], 20)), ended);
    let nothing = taken(vec![Part::Octets(lent(3)), numbers(&[0])]);
    assert_eq!(answer(&send(&[8, 0, NONE, NONE, 0, 0], 3)), nothing);
    assert!(refused(&send(&[1, 2, 1, NONE, 10, 4], 15), 11));
    for row in [[1, 2, 1, 0, 10, 4], [2, 2, 0, 65536, 0, 0], [2, 2, 0, NONE, 0, 0], [8, 0, 0, 0, 0, 0]] {
        assert!(refused(&send(&row, 64), 9), "{row:?}");
    }
}

#[test]
fn one_refusal_before_another() {
    let (p1, row) = (octets(PACKETS[0]), MESSAGES[0]);
    let call = made::write(&sheet_s(), &row, &p1, 16);
    let short = |call| with(call, 4, numbers(&[]));
    let spoilt = |call| with(call, 1, numbers(&row[..11]));
    let no_sheet = |call| with(call, 0, numbers(&lent_numbers(19)));
    assert!(refused(&short(call.clone()), 11));
    assert!(refused(&short(spoilt(call.clone())), 5));
    assert!(refused(&no_sheet(short(spoilt(call))), 12));
}
