//! The call sheet, written from document 01 alone: its reader, which values some sheet reads to, and the searches.

pub const KEYS: [&str; 11] = [
    "server", "limit", "request", "response", "endrequest", "endresponse", "txend", "txendresponse", "ack", "resultid",
    "seats",
];
pub const MCV2: [&str; 5] = ["endrequest", "endresponse", "txend", "txendresponse", "ack"];
pub const SEATS: usize = 8;
pub const WIDTH: usize = 60;

pub type Row = [u8; WIDTH];

/// A sheet's value: the numbers in the order of `KEYS`, and a SSRC and a User ID for each of eight seats.
#[derive(Clone, PartialEq, Eq, Hash, Debug)]
pub struct Sheet {
    pub numbers: [u32; KEYS.len()],
    pub ssrcs: [u32; SEATS],
    pub users: [Row; SEATS],
}

/// The sheet at the front of a text and how many octets it took, or the number of its first bad or missing line.
pub type Reading = Result<(Sheet, usize), u32>;

pub fn place(key: &str) -> usize {
    KEYS.iter().position(|k| *k == key).expect("a key of the sheet")
}

/// The least and the greatest number that a line may have, in decimal.
pub fn bounds(key: &str) -> (&'static str, &'static str) {
    match key {
        "server" | "seat" => ("0", "4294967295"),
        "limit" | "seats" => ("1", "8"),
        "resultid" => ("15", "191"),
        _ => ("0", "15"),
    }
}

impl Sheet {
    pub const ZERO: Sheet = Sheet { numbers: [0; KEYS.len()], ssrcs: [0; SEATS], users: [[0; WIDTH]; SEATS] };

    pub fn number(&self, key: &str) -> u32 {
        self.numbers[place(key)]
    }

    pub fn set(&mut self, key: &str, number: u32) {
        self.numbers[place(key)] = number;
    }

    /// How many of the eight rows are on the sheet.
    pub fn rows(&self) -> usize {
        SEATS.min(self.number("seats") as usize)
    }

    /// The lines that a value is written as, each with its LF.
    pub fn lines(&self) -> Vec<Vec<u8>> {
        let mut lines: Vec<Vec<u8>> =
            KEYS.iter().map(|key| format!("{key}={}\n", self.number(key)).into_bytes()).collect();
        for s in 0..self.rows() {
            let mut line = format!("seat={},", self.ssrcs[s]).into_bytes();
            line.extend_from_slice(name_in(&self.users[s]));
            line.push(b'\n');
            lines.push(line);
        }
        lines
    }

    /// Whether some sheet reads to this value: if any does, it is the one that the value is written as.
    pub fn is_valid(&self) -> bool {
        let text = self.lines().concat();
        read(&text) == Ok((self.clone(), text.len()))
    }

    /// Whether some sheet reads to this value's numbers and SSRCs, whatever the User IDs are.
    pub fn is_valid_alone(&self) -> bool {
        let mut named = self.clone();
        named.users = [[0; WIDTH]; SEATS];
        for s in 0..self.rows() {
            named.users[s][0] = b'a' + s as u8;
        }
        named.is_valid()
    }

    /// The User IDs of the seats.
    pub fn user_ids(&self) -> impl Iterator<Item = &[u8]> {
        self.users[..self.rows()].iter().map(name_in)
    }

    pub fn seat_by_ssrc(&self, ssrc: u32) -> Option<usize> {
        (0..self.rows()).find(|s| self.ssrcs[*s] == ssrc)
    }

    pub fn seat_by_user(&self, name: &[u8]) -> Option<usize> {
        let row = row_of(name).filter(|_| is_user_id(name))?;
        (0..self.rows()).find(|s| self.users[*s] == row)
    }
}

/// A row without the zeros at its end.
pub fn name_in(row: &Row) -> &[u8] {
    &row[..row.iter().rposition(|c| *c != 0).map_or(0, |last| last + 1)]
}

/// A name at fixed width, if it is not too long.
pub fn row_of(name: &[u8]) -> Option<Row> {
    let mut row = [0; WIDTH];
    row.get_mut(..name.len())?.copy_from_slice(name);
    Some(row)
}

pub fn is_user_id(name: &[u8]) -> bool {
    (1..=WIDTH).contains(&name.len()) && name.iter().all(|c| (0x21..=0x7E).contains(c))
}

/// Whether one decimal without leading zeros is not above another, by value and at any length.
fn not_above(a: &str, b: &str) -> bool {
    (a.len(), a) <= (b.len(), b)
}

fn decimal(digits: &[u8], (least, greatest): (&str, &str)) -> Option<u32> {
    let text = std::str::from_utf8(digits).ok()?;
    let is_plain = text.bytes().all(|c| c.is_ascii_digit()) && (text == "0" || !text.starts_with('0'));
    if text.is_empty() || !is_plain || !not_above(least, text) || !not_above(text, greatest) {
        return None;
    }
    text.parse().ok()
}

/// What follows `key=` on a line that has its LF.
fn value<'a>(line: &'a [u8], key: &str) -> Option<&'a [u8]> {
    line.strip_suffix(b"\n")?.strip_prefix(key.as_bytes())?.strip_prefix(b"=")
}

fn number_on(line: &[u8], key: &str) -> Option<u32> {
    decimal(value(line, key)?, bounds(key))
}

fn seat_on(line: &[u8]) -> Option<(u32, Row)> {
    let value = value(line, "seat")?;
    let comma = value.iter().position(|c| *c == b',')?;
    let ssrc = decimal(&value[..comma], bounds("seat"))?;
    let name = &value[comma + 1..];
    Some((ssrc, row_of(name).filter(|_| is_user_id(name))?))
}

/// Judges line `at`, counted from 0, against those already in `sheet`, and puts it there.
fn take(sheet: &mut Sheet, at: usize, line: &[u8]) -> Option<()> {
    if let Some(key) = KEYS.get(at) {
        let number = number_on(line, key)?;
        let is_taken = |other: &&str| place(other) < at && sheet.number(other) == number;
        if MCV2.contains(key) && MCV2.iter().any(is_taken) {
            return None;
        }
        sheet.set(key, number);
    } else {
        let (ssrc, user) = seat_on(line)?;
        let s = at - KEYS.len();
        if sheet.ssrcs[..s].contains(&ssrc) || sheet.users[..s].contains(&user) {
            return None;
        }
        sheet.ssrcs[s] = ssrc;
        sheet.users[s] = user;
    }
    Some(())
}

pub fn read(text: &[u8]) -> Reading {
    let mut sheet = Sheet::ZERO;
    let mut used = 0;
    let mut lines = text.split_inclusive(|c| *c == b'\n');
    let mut at = 0;
    while at < KEYS.len() + sheet.rows() {
        let line = lines.next().unwrap_or(b"");
        take(&mut sheet, at, line).ok_or(at as u32 + 1)?;
        used += line.len();
        at += 1;
    }
    Ok((sheet, used))
}

#[cfg(test)]
mod tests {
    use super::*;
    use crate::bench::{s_with, S};

    fn read_with(from: &str, to: &str) -> Reading {
        read(s_with(from, to).as_bytes())
    }

    #[test]
    fn sheet_s_reads_as_written() {
        let (sheet, used) = read(S.as_bytes()).unwrap();
        assert_eq!(sheet.numbers, [1000, 1, 1, 2, 3, 4, 5, 6, 7, 20, 3]);
        assert_eq!(sheet.ssrcs, [1, 2, 3, 0, 0, 0, 0, 0]);
        let names: Vec<&[u8]> = sheet.users.iter().map(name_in).collect();
        assert_eq!(names, [&b"sip:a"[..], b"sip:b", b"sip:c", b"", b"", b"", b"", b""]);
        assert_eq!(used, 157);
        assert!(sheet.is_valid());
    }

    #[test]
    fn edges_of_document_01() {
        assert_eq!(read_with("limit=1\n", "limit=0\n"), Err(2));
        assert_eq!(read_with("limit=1\n", "limit=9\n"), Err(2));
        assert_eq!(read_with("ack=7\n", "ack=6\n"), Err(9));
        assert_eq!(read_with("resultid=20\n", "resultid=14\n"), Err(10));
    }

    #[test]
    fn of_two_lines_that_clash_the_later_is_bad() {
        assert_eq!(read_with("endrequest=3\n", "endrequest=6\n"), Err(8));
        assert_eq!(read_with("seat=1,", "seat=3,"), Err(14));
        assert_eq!(read_with("sip:b", "sip:a"), Err(13));
        assert!(read_with("request=1\n", "request=2\n").is_ok());
    }

    #[test]
    fn lines_end_in_one_lf() {
        assert_eq!(read(b""), Err(1));
        assert_eq!(read(&S.as_bytes()[..S.len() - 1]), Err(14));
        assert_eq!(read_with("limit=1\n", "limit=1\r\n"), Err(2));
        assert_eq!(read_with("limit=1\n", ""), Err(2));
        assert_eq!(read_with("sip:a\n", "sip:a"), Err(14));
        let (sheet, _) = read(S.replace("seats=3", "seats=2").replace("sip:a\n", "sip:a").as_bytes()).unwrap();
        assert_eq!(name_in(&sheet.users[0]), b"sip:aseat=2,sip:b");
        assert_eq!(read([S, "more"].concat().as_bytes()), read(S.as_bytes()));
    }

    #[test]
    fn numbers_are_judged_by_value() {
        for bad in ["01", "+1", "-1", " 1", "", "4294967297", "18446744073709551617", "0x1", "1.0"] {
            assert_eq!(read_with("limit=1\n", &format!("limit={bad}\n")), Err(2), "{bad}");
        }
        assert!(read_with("server=1000", "server=4294967295").is_ok());
        assert_eq!(read_with("server=1000", "server=4294967296"), Err(1));
        assert_eq!(read_with("server=1000", &format!("server=1{:0>999}", 1000)), Err(1));
    }
}
