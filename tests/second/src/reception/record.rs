//! Stream records, written from document 01 alone: a phase and receivers, and which of them are legal in a call.

use crate::sheet::{Sheet, SEATS};

#[derive(Clone, Copy, PartialEq, Eq, Hash, Debug)]
pub enum Phase {
    Free,
    Idle,
    Watched,
    Ending,
}

/// A phase and a byte of receivers, bit r for seat r.
#[derive(Clone, Copy, PartialEq, Eq, Hash, Debug)]
pub struct Record {
    pub phase: Phase,
    pub receivers: u8,
}

/// One for each seat as transmitter.
pub type Records = [Record; SEATS];

pub const FREE: Record = Record { phase: Phase::Free, receivers: 0 };
pub const IDLE: Record = Record { phase: Phase::Idle, receivers: 0 };
pub const ENDING: Record = Record { phase: Phase::Ending, receivers: 0 };

pub const fn watched(receivers: u8) -> Record {
    Record { phase: Phase::Watched, receivers }
}

/// What the rules look at in a sheet.
#[derive(Clone, Copy, PartialEq, Eq, Hash, Debug)]
pub struct Call {
    pub seats: u8,
    pub limit: u32,
}

/// A call, or in its place refusal 12 (line 0), which comes before all other checks.
pub type Judged = Result<Call, u32>;

/// Refused with 12 if no sheet reads to the value.
pub fn call_of(sheet: &Sheet) -> Judged {
    if !sheet.is_valid_alone() {
        return Err(12);
    }
    Ok(Call { seats: sheet.number("seats") as u8, limit: sheet.number("limit") })
}

impl Record {
    /// C11.
    pub fn count(self) -> u32 {
        self.receivers.count_ones()
    }

    /// Whether a seat, one of eight, receives.
    pub fn has(self, r: u8) -> bool {
        self.receivers >> r & 1 == 1
    }
}

impl Call {
    pub fn has_seat(self, seat: u8) -> bool {
        seat < self.seats
    }

    pub fn is_legal(self, stream: u8, record: Record) -> bool {
        if record.phase != Phase::Watched {
            return record.receivers == 0;
        }
        let may_receive = |r| self.has_seat(r) && r != stream;
        let only_such = (0..SEATS as u8).all(|r| may_receive(r) || !record.has(r));
        record.receivers != 0 && only_such && record.count() <= self.limit
    }
}

#[cfg(test)]
mod tests {
    use super::*;
    use crate::bench::sheet_s;

    /// The legal bytes of a phase on stream 0.
    fn legal(limit: u32, phase: Phase) -> Vec<u8> {
        let call = Call { seats: 3, limit };
        (0..=255).filter(|receivers| call.is_legal(0, Record { phase, receivers: *receivers })).collect()
    }

    #[test]
    fn legal_records_of_stream_0() {
        assert_eq!(legal(1, Phase::Watched), [0x02, 0x04]);
        assert_eq!(legal(2, Phase::Watched), [0x02, 0x04, 0x06]);
        assert_eq!(legal(8, Phase::Watched), [0x02, 0x04, 0x06]);
        for phase in [Phase::Free, Phase::Idle, Phase::Ending] {
            assert_eq!(legal(8, phase), [0]);
        }
    }

    #[test]
    fn calls_of_sheets() {
        assert_eq!(call_of(&sheet_s()), Ok(Call { seats: 3, limit: 1 }));
        assert_eq!(call_of(&Sheet::ZERO), Err(12));
    }

    #[test]
    fn receivers_are_bits() {
        assert_eq!(watched(0b1000_0110).count(), 3);
        assert_eq!((0..8).map(|r| watched(0b1000_0110).has(r)).position(|has| has), Some(1));
        assert!(watched(0x80).has(7) && !watched(0x7F).has(7));
    }
}
