//! Packets, written from document 01 alone: what stands at a place among the fields, and which message a packet is.

use crate::sheet::{self, Sheet};
use std::ops::{Range, RangeInclusive};

/// The messages in the order of their kinds, from 1: their letters, and the sheet's key for their number.
pub const MESSAGES: [(&[u8; 4], &str); 7] = [
    (b"MCV0", "request"),
    (b"MCV1", "response"),
    (b"MCV2", "endrequest"),
    (b"MCV2", "endresponse"),
    (b"MCV2", "txend"),
    (b"MCV2", "txendresponse"),
    (b"MCV2", "ack"),
];

/// The kinds whose messages may have an Indicator.
pub const INDICATED: [u32; 4] = [1, 2, 3, 5];

pub fn kinds() -> RangeInclusive<u32> {
    1..=MESSAGES.len() as u32
}

/// Where the fields begin.
pub const HEAD: usize = 12;
pub const LONGEST: usize = 256;

/// The IDs of the fields; that of a Result is on the sheet.
pub const REJECT_CAUSE: u8 = 2;
pub const USER_ID: u8 = 6;
pub const SOURCE: u8 = 10;
pub const MESSAGE_TYPE: u8 = 12;
pub const INDICATOR: u8 = 13;

/// From here on an ID is refused.
pub const NO_ID: u8 = 192;

/// The values of a message. What its kind has not is absent; names are places in the octets beside it, a packet's or others.
#[derive(Clone, Default, PartialEq, Eq, Debug)]
pub struct Message {
    pub kind: u32,
    pub ssrc: u32,
    pub ack: bool,
    pub user: Option<Range<usize>>,
    pub named: Option<Range<usize>>,
    pub result: Option<u16>,
    pub cause: Option<u16>,
    pub indicator: Option<u16>,
    pub source: Option<u16>,
    pub about: Option<u8>,
}

/// A message, or the number of the refusal.
pub type Reading = Result<Message, u32>;

/// A field: where it stands, what it holds, and where the next one stands.
#[derive(Clone, PartialEq, Eq, Debug)]
pub struct Field<'a> {
    pub at: usize,
    pub id: u8,
    pub value: &'a [u8],
    pub next: usize,
}

impl Field<'_> {
    fn pair(&self) -> Option<[u8; 2]> {
        self.value.try_into().ok()
    }

    /// Indicator and Source: any number of two octets.
    fn number(&self) -> Option<u16> {
        self.pair().map(u16::from_be_bytes)
    }

    fn result(&self) -> Option<u16> {
        self.number().filter(|number| *number <= 1)
    }

    /// A cause, whatever phrase follows it.
    fn cause(&self) -> Option<u16> {
        self.value.first_chunk().copied().map(u16::from_be_bytes)
    }

    fn message_type(&self) -> Option<u8> {
        let [value, zero] = self.pair()?;
        (zero == 0).then_some(value)
    }

    /// The place of a User ID.
    fn name(&self) -> Option<Range<usize>> {
        let start = self.at + 2;
        sheet::is_user_id(self.value).then_some(start..start + self.value.len())
    }
}

/// What is left of `octets` behind so many of them, which have to be there and to be zeros.
fn skip_zeros(octets: &[u8], count: usize) -> Option<&[u8]> {
    let (zeros, rest) = octets.split_at_checked(count)?;
    zeros.iter().all(|octet| *octet == 0).then_some(rest)
}

/// The field that `octets` begin with, which stand at a place in a packet.
fn first_field(octets: &[u8], at: usize) -> Option<Field<'_>> {
    let [id, length, rest @ ..] = octets else {
        return None;
    };
    let (value, rest) = rest.split_at_checked(*length as usize)?;
    let taken = 2 + value.len();
    let rest = skip_zeros(rest, taken.next_multiple_of(4) - taken)?;
    (*id < NO_ID).then_some(Field { at, id: *id, value, next: at + octets.len() - rest.len() })
}

/// A field, none at the end, or the number of the refusal.
pub type Step<'a> = Result<Option<Field<'a>>, u32>;

/// The field at a place of any octets, none where they end there, or 4.
pub fn field_at(octets: &[u8], place: usize) -> Step<'_> {
    if place < HEAD || !place.is_multiple_of(4) {
        return Err(4);
    }
    match octets.get(place..) {
        None => Err(4),
        Some([]) => Ok(None),
        Some(rest) => first_field(rest, place).map(Some).ok_or(4),
    }
}

/// The fields of a packet, which are all good.
struct Fields<'a>(&'a [u8]);

impl<'a> Fields<'a> {
    fn of(packet: &'a [u8]) -> Result<Fields<'a>, u32> {
        let mut place = HEAD;
        while let Some(field) = field_at(packet, place)? {
            place = field.next;
        }
        Ok(Fields(packet))
    }

    /// The fields that have this ID, in their order.
    fn with_id(&self, id: u8) -> impl Iterator<Item = Field<'a>> + 'a {
        let packet = self.0;
        let at = move |place| field_at(packet, place).ok().flatten();
        std::iter::successors(at(HEAD), move |field| at(field.next)).filter(move |field| field.id == id)
    }

    /// The field that may be absent and never stands twice.
    fn at_most_once(&self, id: u8) -> Option<Option<Field<'a>>> {
        let mut fields = self.with_id(id);
        let first = fields.next();
        fields.next().is_none().then_some(first)
    }

    /// The field that has to be there once.
    fn once(&self, id: u8) -> Option<Field<'a>> {
        self.at_most_once(id)?
    }

    fn indicator(&self) -> Option<Option<u16>> {
        match self.at_most_once(INDICATOR)? {
            None => Some(None),
            Some(field) => field.number().map(Some),
        }
    }

    /// The cause beside this Result: there exactly if the Result is 0.
    fn cause_beside(&self, result: u16) -> Option<Option<u16>> {
        match (result, self.at_most_once(REJECT_CAUSE)?) {
            (0, Some(field)) => field.cause().map(Some),
            (1, None) => Some(None),
            _ => None,
        }
    }
}

fn receive_request(fields: &Fields) -> Option<Message> {
    let mut names = fields.with_id(USER_ID);
    let (user, source) = (names.next()?, names.next()?);
    if names.next().is_some() {
        return None;
    }
    let (user, named) = (Some(user.name()?), Some(source.name()?));
    Some(Message { user, named, indicator: fields.indicator()?, ..Message::default() })
}

fn receive_response(fields: &Fields, result_id: u8) -> Option<Message> {
    let result = fields.once(result_id)?.result()?;
    let cause = fields.cause_beside(result)?;
    Some(Message { result: Some(result), cause, indicator: fields.indicator()?, ..Message::default() })
}

fn end_request(fields: &Fields) -> Option<Message> {
    Some(Message { indicator: fields.indicator()?, ..end_response(fields)? })
}

fn end_response(fields: &Fields) -> Option<Message> {
    Some(Message { named: Some(fields.once(USER_ID)?.name()?), ..Message::default() })
}

fn transmission_end(fields: &Fields) -> Option<Message> {
    let cause = fields.once(REJECT_CAUSE)?.cause()?;
    Some(Message { cause: Some(cause), indicator: fields.indicator()?, ..Message::default() })
}

fn ack(fields: &Fields) -> Option<Message> {
    let source = fields.once(SOURCE)?.number()?;
    let about = fields.once(MESSAGE_TYPE)?.message_type()?;
    Some(Message { source: Some(source), about: Some(about), ..Message::default() })
}

/// What the fields of a message of this kind say.
fn content(kind: u32, fields: &Fields, result_id: u8) -> Option<Message> {
    match kind {
        1 => receive_request(fields),
        2 => receive_response(fields, result_id),
        3 => end_request(fields),
        4 => end_response(fields),
        5 => transmission_end(fields),
        6 => Some(Message::default()),
        7 => ack(fields),
        _ => None,
    }
}

fn is_size_right(packet: &[u8]) -> bool {
    (HEAD..=LONGEST).contains(&packet.len()) && packet.len().is_multiple_of(4)
}

/// Version 2, no padding, an APP packet, and as many words as its length says, and one.
fn is_head_right(packet: &[u8]) -> bool {
    let words = usize::from(u16::from_be_bytes([packet[2], packet[3]])) + 1;
    packet[0] >> 5 == 0b100 && packet[1] == 204 && words * 4 == packet.len()
}

/// Checks 1 and 2.
fn check_head(packet: &[u8]) -> Result<(), u32> {
    if !is_size_right(packet) {
        return Err(1);
    }
    if !is_head_right(packet) {
        return Err(2);
    }
    Ok(())
}

/// What a field reader says that is made at a place of a packet and steps once.
pub fn field_in(packet: &[u8], place: usize) -> Step<'_> {
    check_head(packet)?;
    field_at(packet, place)
}

/// What a good sheet says about packets: the number of each kind, and the ID of a Result.
pub struct Numbers {
    kinds: [u8; MESSAGES.len()],
    result_id: u8,
}

impl Numbers {
    pub fn on(sheet: &Sheet) -> Numbers {
        let number = |key: &str| sheet.number(key) as u8;
        Numbers { kinds: MESSAGES.map(|(_, key)| number(key)), result_id: number("resultid") }
    }

    /// The kind that has these letters and this number.
    fn kind_of(&self, letters: &[u8], number: u8) -> Option<u32> {
        let mut kinds = MESSAGES.iter().zip(self.kinds);
        kinds.position(|((its, _), its_number)| letters == *its && number == its_number).map(|at| at as u32 + 1)
    }

    /// The message of a packet, or the first that holds of 1, 2, 3, 4 and 5.
    pub fn read(&self, packet: &[u8]) -> Reading {
        check_head(packet)?;
        let kind = self.kind_of(&packet[8..HEAD], packet[0] & 0x0F).ok_or(3u32)?;
        let fields = Fields::of(packet)?;
        let content = content(kind, &fields, self.result_id).ok_or(5u32)?;
        let ssrc = u32::from_be_bytes([packet[4], packet[5], packet[6], packet[7]]);
        Ok(Message { kind, ssrc, ack: packet[0] & 0x10 != 0, ..content })
    }
}

/// The message of a packet, or 12 where no sheet reads to the value, or the first that holds of 1, 2, 3, 4 and 5.
pub fn read(sheet: &Sheet, packet: &[u8]) -> Reading {
    if !sheet.is_valid_alone() {
        return Err(12);
    }
    Numbers::on(sheet).read(packet)
}

#[cfg(test)]
mod tests {
    use super::*;
    use crate::bench::{messages, octets, s_with, sheet_s, PACKETS};

    fn read_s(hex: &str) -> Reading {
        read(&sheet_s(), &octets(hex))
    }

    #[test]
    fn bench_cases_read_as_named() {
        let mut expected = messages();
        (expected[2].user, expected[2].named) = (Some(14..19), Some(22..27));
        for (hex, message) in PACKETS.iter().zip(expected) {
            assert_eq!(read_s(hex), Ok(message));
        }
        let request = octets(PACKETS[2]);
        assert_eq!((&request[14..19], &request[22..27]), (&b"sip:b"[..], &b"sip:a"[..]));
    }

    #[test]
    fn refusals_are_given_in_their_order() {
        let bad = Sheet { ssrcs: [1; 8], ..sheet_s() };
        assert_eq!(read(&bad, &[]), Err(12));
        assert_eq!(read_s(""), Err(1));
        assert_eq!(read_s("82CC0003000003E84D4356311402000100"), Err(1));
        assert_eq!(read_s(&format!("82CC0040000003E84D435631{:0<496}", "")), Err(1));
        for head in ["42CC0003", "A2CC0003", "82CB0003", "82CC0004", "82CC0103"] {
            assert_eq!(read_s(&format!("{head}000003E84D435632C0020001")), Err(2), "{head}");
        }
        assert_eq!(read_s("82CC0003000003E84D435632C0020001"), Err(3));
        assert_eq!(read_s("82CC0004000003E84D43563114020002C0000000"), Err(4));
        assert_eq!(read_s("82CC0003000003E84D43563114020002"), Err(5));
    }

    #[test]
    fn letters_and_number_go_together() {
        assert_eq!(read_s("81CC0003000003E84D43563114020001"), Err(3));
        let shared = sheet::read(s_with("request=1\n", "request=2\n").as_bytes()).unwrap().0;
        assert_eq!(read(&shared, &octets(PACKETS[0])).unwrap().kind, 2);
        assert!(read_s("92CC0003000003E84D43563114020001").unwrap().ack);
    }

    #[test]
    fn fields_are_judged_before_content() {
        for field in ["BF020000", "00000000", "14000000", "06010700", "0A0100000C000000"] {
            let words = 2 + field.len() / 8;
            assert!(read_s(&format!("86CC{words:04X}000003E84D435632{field}")).is_ok(), "{field}");
        }
        for field in ["C0020000", "FF000000", "00030000", "00000001", "00000100", "00010001", "05FF0000"] {
            assert_eq!(read_s(&format!("86CC0003000003E84D435632{field}")), Err(4), "{field}");
        }
    }

    #[test]
    fn a_cause_beside_result_1_is_refused_on_either_side() {
        assert_eq!(read_s("82CC0004000003E84D4356311402000102020000"), Err(5));
        assert_eq!(read_s("82CC0004000003E84D4356310202000014020001"), Err(5));
        assert_eq!(read_s("82CC0004000003E84D4356311402000114020001"), Err(5));
        assert_eq!(read_s("82CC0003000003E84D43563114020000"), Err(5));
        assert_eq!(read_s("82CC0003000003E84D43563114020100"), Err(5));
        assert_eq!(read_s("82CC0005000003E84D43563102050007666F6F00140200000D020000"), Err(2));
        let phrase = read_s("82CC0006000003E84D43563102050007666F6F00140200000D02FFFF").unwrap();
        assert_eq!((phrase.result, phrase.cause, phrase.indicator), (Some(0), Some(7), Some(65535)));
    }

    #[test]
    fn lengths_and_values_have_edges() {
        let end = |field: &str| read_s(&format!("83CC{:04X}000003E84D435632{field}", 2 + field.len() / 8));
        let name = |length: usize| {
            let padding = "00".repeat((length + 2).next_multiple_of(4) - length - 2);
            end(&format!("06{length:02X}{}{padding}", "7E".repeat(length)))
        };
        assert_eq!(name(60).unwrap().named, Some(14..74));
        assert_eq!((name(0), name(61)), (Err(5), Err(5)));
        assert_eq!((end("06012000"), end("06017F00")), (Err(5), Err(5)));
        assert!(end("06012100").is_ok() && end("060121000D020000").is_ok());
        assert_eq!((end("060121000D010000"), end("060121000D03000000000000")), (Err(5), Err(5)));
        let ack = |about: &str| read_s(&format!("87CC0004000003E84D4356320A020002{about}"));
        assert_eq!((ack("0C02FF00").unwrap().about, ack("0C020101")), (Some(255), Err(5)));
    }

    #[test]
    fn a_place_is_judged_before_the_field() {
        let request = octets(PACKETS[2]);
        let first = Field { at: 12, id: 6, value: b"sip:b", next: 20 };
        let second = Field { at: 20, id: 6, value: b"sip:a", next: 28 };
        assert_eq!(field_at(&request, 12), Ok(Some(first)));
        assert_eq!(field_at(&request, 20), Ok(Some(second)));
        assert_eq!(field_at(&request, 28), Ok(None));
        for place in [0, 8, 11, 13, 14, 32, usize::MAX, usize::MAX - 3] {
            assert_eq!(field_at(&request, place), Err(4), "{place}");
        }
        assert_eq!((field_at(&request[..13], 12), field_at(&request[..19], 12)), (Err(4), Err(4)));
        assert_eq!((field_at(&request[..8], 8), field_at(&request[..12], 12)), (Err(4), Ok(None)));
    }

    #[test]
    fn a_field_reader_is_made_past_checks_1_and_2() {
        let request = octets(PACKETS[2]);
        for place in [0, 12, 13, 20, 28, 32] {
            assert_eq!(field_in(&request, place), field_at(&request, place), "{place}");
            assert_eq!(field_in(&request[..13], place), Err(1), "{place}");
            assert_eq!(field_in(&request[..12], place), Err(2), "{place}");
        }
    }
}
