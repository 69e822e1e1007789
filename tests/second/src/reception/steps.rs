//! The three steps and the count, written from document 01 alone, each with its refusals.

use super::record::{Call, Judged, Record, Records};
use super::table::{table, Answer, Event};

#[derive(Clone, Copy, PartialEq, Eq, Debug)]
pub struct Attempt {
    pub stream: u8,
    pub seen: Record,
    pub wanted: Record,
    pub answer: Answer,
}

fn check_seat(call: Call, seat: u8) -> Result<(), u32> {
    if call.has_seat(seat) {
        Ok(())
    } else {
        Err(9)
    }
}

fn check_record(call: Call, stream: u8, record: Record) -> Result<(), u32> {
    if call.is_legal(stream, record) {
        Ok(())
    } else {
        Err(9)
    }
}

pub fn read(call: Judged, records: &Records, stream: u8) -> Result<Record, u32> {
    let call = call?;
    check_seat(call, stream)?;
    let record = records[usize::from(stream)];
    check_record(call, stream, record)?;
    Ok(record)
}

pub fn work_out(call: Judged, seen: Record, event: Event) -> Result<Attempt, u32> {
    let call = call?;
    check_seat(call, event.stream)?;
    if let Some(by) = event.what.by() {
        check_seat(call, by)?;
    }
    check_record(call, event.stream, seen)?;
    let (wanted, answer) = table(call.limit, seen, event);
    Ok(Attempt { stream: event.stream, seen, wanted, answer })
}

/// Gives the answer where it took.
pub fn store(call: Judged, records: &mut Records, attempt: Attempt) -> Result<Answer, u32> {
    let own = read(call, records, attempt.stream)?;
    check_record(call?, attempt.stream, attempt.seen)?;
    check_record(call?, attempt.stream, attempt.wanted)?;
    if own != attempt.seen {
        return Err(10);
    }
    records[usize::from(attempt.stream)] = attempt.wanted;
    Ok(attempt.answer)
}

/// C11 of a stream, refused as a read is.
pub fn count(call: Judged, records: &Records, stream: u8) -> Result<u32, u32> {
    read(call, records, stream).map(Record::count)
}

#[cfg(test)]
mod tests {
    use super::*;
    use crate::reception::families::start;
    use crate::reception::record::{watched, ENDING, FREE, IDLE};
    use crate::reception::table::{Done, What, DISCARDED};

    const S: Judged = Ok(Call { seats: 3, limit: 1 });

    fn on_stream_0(what: What) -> Event {
        Event { stream: 0, what }
    }

    /// Reads and works out an event on stream 0.
    fn worked_out(records: &Records, what: What) -> Attempt {
        work_out(S, read(S, records, 0).unwrap(), on_stream_0(what)).unwrap()
    }

    #[test]
    fn p13() {
        let mut records = start(IDLE);
        let late = worked_out(&records, What::Request { by: 1 });
        let t11 = worked_out(&records, What::T11Expired);
        assert_eq!((late.seen, late.wanted, records), (IDLE, watched(0x02), start(IDLE)));
        let done = store(S, &mut records, t11).map(|answer| answer.done);
        assert_eq!((done, records), (Ok(Done::EndRequest), start(ENDING)));
        assert_eq!((store(S, &mut records, late), records), (Err(10), start(ENDING)));
        let again = worked_out(&records, What::Request { by: 1 });
        let stored = store(S, &mut records, again).unwrap();
        assert_eq!((stored.done, stored.cause, records), (Done::Reject, Some(1), start(ENDING)));
    }

    #[test]
    fn seats_off_the_sheet() {
        let attempt = worked_out(&start(IDLE), What::Open);
        for seat in [3, 7, 8, 255] {
            assert_eq!(read(S, &start(IDLE), seat), Err(9));
            assert_eq!(count(S, &start(IDLE), seat), Err(9));
            assert_eq!(work_out(S, FREE, Event { stream: seat, what: What::Open }), Err(9));
            assert_eq!(work_out(S, IDLE, on_stream_0(What::Request { by: seat })), Err(9));
            assert_eq!(work_out(S, IDLE, on_stream_0(What::End { by: seat })), Err(9));
            assert_eq!(store(S, &mut start(IDLE), Attempt { stream: seat, ..attempt }), Err(9));
        }
    }

    #[test]
    fn no_sheet_comes_first() {
        let attempt = worked_out(&start(IDLE), What::Open);
        let bad = watched(1);
        for stream in [0, 255] {
            assert_eq!(read(Err(12), &start(bad), stream), Err(12));
            assert_eq!(count(Err(12), &start(bad), stream), Err(12));
            assert_eq!(work_out(Err(12), bad, Event { stream, what: What::Open }), Err(12));
            assert_eq!(store(Err(12), &mut start(bad), Attempt { stream, ..attempt }), Err(12));
        }
    }

    #[test]
    fn records_that_are_not_legal() {
        let bad = Record { receivers: 2, ..IDLE };
        assert_eq!(read(S, &start(bad), 0), Err(9));
        assert_eq!(count(S, &start(bad), 0), Err(9));
        assert_eq!(work_out(S, bad, on_stream_0(What::Open)), Err(9));
        assert_eq!(read(S, &start(bad), 1), Ok(watched(4)));
        assert_eq!(count(S, &start(bad), 1), Ok(1));
    }

    #[test]
    fn stores_in_the_order_of_their_checks() {
        let bad = Record { receivers: 2, ..IDLE };
        let attempt = worked_out(&start(IDLE), What::Open);
        let cases = [
            (IDLE, attempt, Ok(DISCARDED)),
            (FREE, attempt, Err(10)),
            (bad, attempt, Err(9)),
            (IDLE, Attempt { wanted: bad, ..attempt }, Err(9)),
            (bad, Attempt { seen: bad, ..attempt }, Err(9)),
            (FREE, Attempt { seen: bad, ..attempt }, Err(9)),
            (FREE, Attempt { wanted: watched(6), ..attempt }, Err(9)),
        ];
        for (own, attempt, said) in cases {
            let mut records = start(own);
            assert_eq!((store(S, &mut records, attempt), records), (said, start(own)), "{attempt:?}");
        }
    }
}
