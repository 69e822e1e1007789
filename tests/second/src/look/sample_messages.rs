//! The messages of samples/every.txt: such as are read, and such as are refused with 5.

use crate::packet::{INDICATOR, MESSAGE_TYPE, REJECT_CAUSE, SOURCE, USER_ID};

/// A message under S: its kind, whether an Ack is asked, its SSRC, its fields by ID and value.
pub type Made = (u8, bool, u32, &'static [(u8, &'static [u8])]);

/// The ID of a Result on S, and an ID that no message uses.
const RESULT: u8 = 20;
const UNUSED: u8 = 191;

const SERVER: u32 = 1000;
const SIXTY: &[u8] = b"sip:abcdefghijklmnopqrstuvwxyz-ABCDEFGHIJKLMNOPQRSTUVWXYZ~!1";
const SIXTY_ONE: &[u8] = b"sip:abcdefghijklmnopqrstuvwxyz-ABCDEFGHIJKLMNOPQRSTUVWXYZ~!12";

/// Every kind: without and with what it may have, with an Ack asked, in another order, with fields that are skipped,
/// and with numbers and names at their edges.
pub const READ: [Made; 30] = [
    (1, false, 2, &[(USER_ID, b"sip:b"), (USER_ID, b"sip:a")]),
    (1, false, 2, &[(USER_ID, b"sip:b"), (USER_ID, b"sip:a"), (INDICATOR, &[0xBE, 0xEF])]),
    (1, true, 2, &[(USER_ID, b"sip:b"), (USER_ID, b"sip:a")]),
    (1, true, 1, &[(INDICATOR, &[0, 0]), (USER_ID, b"!"), (UNUSED, b"skipped"), (USER_ID, b"~")]),
    (1, false, 0, &[(REJECT_CAUSE, &[0]), (USER_ID, SIXTY), (0, b""), (RESULT, &[0, 2]), (USER_ID, SIXTY)]),
    (2, false, SERVER, &[(RESULT, &[0, 1])]),
    (2, false, SERVER, &[(RESULT, &[0, 1]), (INDICATOR, &[0, 1])]),
    (2, true, SERVER, &[(RESULT, &[0, 1])]),
    (2, false, SERVER, &[(RESULT, &[0, 0]), (REJECT_CAUSE, &[0, 0])]),
    (2, true, SERVER, &[(RESULT, &[0, 0]), (REJECT_CAUSE, &[1, 0]), (INDICATOR, &[0xFF, 0xFF])]),
    (2, false, SERVER, &[(INDICATOR, &[0x80, 0]), (REJECT_CAUSE, b"\0\x05and a phrase"), (RESULT, &[0, 0])]),
    (2, false, u32::MAX, &[(USER_ID, b""), (SOURCE, &[1]), (RESULT, &[0, 1]), (MESSAGE_TYPE, &[1, 1])]),
    (3, false, 2, &[(USER_ID, b"sip:a")]),
    (3, false, 2, &[(USER_ID, b"sip:a"), (INDICATOR, &[1, 0])]),
    (3, true, 3, &[(INDICATOR, &[0, 10]), (USER_ID, SIXTY)]),
    (3, false, 2, &[(REJECT_CAUSE, b""), (RESULT, &[9]), (USER_ID, b"kind=3,-"), (UNUSED, &[0xFF; 7])]),
    (4, false, SERVER, &[(USER_ID, b"sip:a")]),
    (4, true, SERVER, &[(USER_ID, b"-")]),
    (4, false, SERVER, &[(INDICATOR, &[0, 1]), (USER_ID, b"sip:c"), (INDICATOR, &[2])]),
    (5, false, SERVER, &[(REJECT_CAUSE, &[0, 8])]),
    (5, false, SERVER, &[(REJECT_CAUSE, &[0xFF, 0xFF]), (INDICATOR, &[0, 0])]),
    (5, true, SERVER, &[(USER_ID, b""), (INDICATOR, &[0x7F, 0xFF]), (REJECT_CAUSE, b"\x01\0\0\xFF\n"), (RESULT, b"")]),
    (6, false, 1, &[]),
    (6, true, 2, &[]),
    (6, false, 1 << 31, &[(0, b""), (INDICATOR, &[1]), (INDICATOR, &[2]), (USER_ID, &[0x20]), (SOURCE, b"")]),
    (7, false, SERVER, &[(SOURCE, &[0, 2]), (MESSAGE_TYPE, &[1, 0])]),
    (7, true, 3, &[(SOURCE, &[0, 0]), (MESSAGE_TYPE, &[0, 0])]),
    (7, false, 3, &[(MESSAGE_TYPE, &[0xFF, 0]), (SOURCE, &[0xFF, 0xFF])]),
    (
        7,
        false,
        3,
        &[(INDICATOR, &[1]), (SOURCE, &[1, 0]), (USER_ID, b" "), (MESSAGE_TYPE, &[0x80, 0]), (INDICATOR, b"")],
    ),
    (
        7,
        true,
        3,
        &[(REJECT_CAUSE, &[1]), (REJECT_CAUSE, &[2]), (SOURCE, &[0, 10]), (MESSAGE_TYPE, &[7, 0]), (0, &[0; 4])],
    ),
];

/// Every kind that has fields, with one missing, repeated, or of a wrong length or value.
pub const REFUSED_5: [Made; 38] = [
    (1, false, 2, &[]),
    (1, false, 2, &[(USER_ID, b"sip:b")]),
    (1, false, 2, &[(USER_ID, b"sip:b"), (USER_ID, b"sip:a"), (USER_ID, b"sip:c")]),
    (1, false, 2, &[(USER_ID, b""), (USER_ID, b"sip:a")]),
    (1, false, 2, &[(USER_ID, b"sip:b"), (USER_ID, SIXTY_ONE)]),
    (1, false, 2, &[(USER_ID, b"sip: b"), (USER_ID, b"sip:a")]),
    (1, false, 2, &[(USER_ID, b"sip:b"), (USER_ID, b"sip:a\x7F")]),
    (1, false, 2, &[(USER_ID, b"sip:b"), (USER_ID, b"sip:\xE4")]),
    (1, true, 2, &[(USER_ID, b"sip:b"), (USER_ID, b"sip:a"), (INDICATOR, &[1])]),
    (1, true, 2, &[(INDICATOR, &[0, 1]), (USER_ID, b"sip:b"), (USER_ID, b"sip:a"), (INDICATOR, &[0, 1])]),
    (2, false, SERVER, &[]),
    (2, false, SERVER, &[(REJECT_CAUSE, &[0, 0])]),
    (2, false, SERVER, &[(RESULT, &[0, 2])]),
    (2, false, SERVER, &[(RESULT, &[1, 0]), (REJECT_CAUSE, &[0, 0])]),
    (2, false, SERVER, &[(RESULT, &[1])]),
    (2, false, SERVER, &[(RESULT, &[0, 0, 1])]),
    (2, false, SERVER, &[(RESULT, &[0, 1]), (RESULT, &[0, 1])]),
    (2, false, SERVER, &[(RESULT, &[0, 0])]),
    (2, false, SERVER, &[(RESULT, &[0, 1]), (REJECT_CAUSE, &[0, 0])]),
    (2, false, SERVER, &[(REJECT_CAUSE, &[0, 0]), (RESULT, &[0, 1])]),
    (2, false, SERVER, &[(RESULT, &[0, 0]), (REJECT_CAUSE, &[1])]),
    (2, false, SERVER, &[(REJECT_CAUSE, &[0, 1]), (RESULT, &[0, 0]), (REJECT_CAUSE, &[0, 1])]),
    (2, true, SERVER, &[(RESULT, &[0, 1]), (INDICATOR, &[0, 0, 0])]),
    (3, false, 2, &[]),
    (3, false, 2, &[(USER_ID, b"sip:a"), (USER_ID, b"sip:a")]),
    (3, false, 2, &[(USER_ID, b"sip:a"), (INDICATOR, b"")]),
    (3, false, 2, &[(USER_ID, b"sip:a\n")]),
    (4, false, SERVER, &[]),
    (4, false, SERVER, &[(USER_ID, b"sip:a"), (USER_ID, b"sip:b")]),
    (4, false, SERVER, &[(USER_ID, SIXTY_ONE)]),
    (5, false, SERVER, &[]),
    (5, false, SERVER, &[(REJECT_CAUSE, &[8])]),
    (5, false, SERVER, &[(REJECT_CAUSE, &[0, 8]), (REJECT_CAUSE, &[0, 8])]),
    (7, false, SERVER, &[(SOURCE, &[0, 2])]),
    (7, false, SERVER, &[(MESSAGE_TYPE, &[1, 0])]),
    (7, false, SERVER, &[(SOURCE, &[2]), (MESSAGE_TYPE, &[1, 0])]),
    (7, false, SERVER, &[(SOURCE, &[0, 2]), (MESSAGE_TYPE, &[1, 1])]),
    (7, false, SERVER, &[(SOURCE, &[0, 2]), (MESSAGE_TYPE, &[1, 0]), (SOURCE, &[0, 2])]),
];
