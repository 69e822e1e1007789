//! Times this program's own functions on fixed inputs, beside those of the face (bench/calls.c): the sheet is judged in every
//! call, as it is there.

use super::rows;
use crate::controller::events::{event_of, judged};
use crate::controller::sending;
use crate::drafts::Octets;
use crate::packet::{self, Message, HEAD, LONGEST};
use crate::reception::record::{call_of, Records, FREE};
use crate::reception::steps::{self, Attempt};
use crate::reception::table::Event;
use crate::sheet::{self, Sheet, SEATS};
use crate::{bench, writer};
use std::hint::black_box;
use std::path::Path;
use std::time::{Duration, Instant};
use std::{fs, io};

/// What is timed: how long all calls took, and how many they were.
type Timed = (Duration, usize);

/// An event on these records, and the attempt that it makes.
struct Moment {
    records: Records,
    event: Event,
    attempt: Attempt,
}

/// Goes so many rounds over the inputs.
fn timed<'a, T>(inputs: &'a [T], rounds: usize, mut call: impl FnMut(&'a T)) -> Timed {
    let begun = Instant::now();
    for _ in 0..rounds {
        inputs.iter().for_each(&mut call);
    }
    (begun.elapsed(), rounds * inputs.len())
}

/// The places of a packet's fields and of its end; a bad field is the last.
fn places(packet: &[u8]) -> Vec<usize> {
    let next = |place: &usize| packet::field_at(packet, *place).ok().flatten().map(|field| field.next);
    std::iter::successors(Some(HEAD), next).collect()
}

fn messages<'a>(sheet: &Sheet, packets: &'a [Octets]) -> Vec<(Message, &'a Octets)> {
    packets.iter().map(|packet| (packet::read(sheet, packet).expect("a good packet"), packet)).collect()
}

/// The events in their order, begun with all streams free.
fn moments(sheet: &Sheet, events: &[Octets]) -> Vec<Moment> {
    let mut records = [FREE; SEATS];
    let mut moment = |octets: &Octets| {
        let row: Vec<u32> = octets.iter().copied().map(u32::from).collect();
        let (before, event) = (records, rows::event_in(&row).expect("an event"));
        let seen = steps::read(call_of(sheet), &before, event.stream).expect("a legal record");
        let attempt = steps::work_out(call_of(sheet), seen, event).expect("seats on the sheet");
        steps::store(call_of(sheet), &mut records, attempt).expect("the record that was seen");
        Moment { records: before, event, attempt }
    };
    events.iter().map(&mut moment).collect()
}

fn time_packets(call: &str, sheet: &Sheet, inputs: &[Octets], rounds: usize) -> Option<Timed> {
    let mut out = [0; LONGEST];
    Some(match call {
        "sheet" => timed(inputs, rounds, |text| _ = black_box(sheet::read(text))),
        "read" => timed(inputs, rounds, |packet| _ = black_box(packet::read(sheet, packet))),
        "event" => timed(inputs, rounds, |packet| _ = black_box(event_of(judged(sheet), packet))),
        "write" => timed(&messages(sheet, inputs), rounds, |(message, names)| {
            _ = black_box(writer::write(sheet, message, names, &mut out));
        }),
        "field" => {
            let steps: Vec<_> =
                inputs.iter().flat_map(|packet| places(packet).into_iter().map(move |at| (packet, at))).collect();
            timed(&steps, rounds, |(packet, at)| _ = black_box(packet::field_at(packet, *at)))
        }
        _ => return None,
    })
}

fn time_streams(call: &str, sheet: &Sheet, inputs: &[Octets], rounds: usize) -> Option<Timed> {
    let moments = moments(sheet, inputs);
    let (mut out, mut now) = ([0; LONGEST], [FREE; SEATS]);
    let seen = |records: &Records, at: &Moment| steps::read(call_of(sheet), records, at.event.stream);
    Some(match call {
        "seen" => timed(&moments, rounds, |at| _ = black_box(seen(&at.records, at))),
        "work_out" => timed(&moments, rounds, |at| {
            _ = black_box(steps::work_out(call_of(sheet), at.attempt.seen, at.event));
        }),
        "store" => timed(&moments, rounds, |at| _ = black_box(steps::store(call_of(sheet), &mut now, at.attempt))),
        "count" => timed(&moments, rounds, |at| {
            _ = black_box(steps::count(call_of(sheet), &at.records, at.event.stream));
        }),
        "packet" => timed(&moments, rounds, |at| {
            _ = black_box(sending::packet_of(sheet, at.event.stream, &at.attempt.answer, &mut out));
        }),
        "steps" => timed(&moments, rounds, |at| {
            let worked = seen(&now, at).and_then(|record| steps::work_out(call_of(sheet), record, at.event));
            _ = black_box(worked.and_then(|attempt| steps::store(call_of(sheet), &mut now, attempt)));
        }),
        _ => return None,
    })
}

/// Prints how many nanoseconds so many rounds of a call over a file's inputs took, and how many calls they were.
pub fn time(call: &str, path: &Path, rounds: usize) -> io::Result<bool> {
    let file = fs::read_to_string(path)?;
    let mut inputs: Vec<Octets> = file.lines().map(bench::octets).collect();
    let (sheet, _) = sheet::read(&inputs.remove(0)).expect("a good sheet");
    let timed = time_packets(call, &sheet, &inputs, rounds).or_else(|| time_streams(call, &sheet, &inputs, rounds));
    let Some((took, calls)) = timed else {
        return Ok(false);
    };
    println!("{} {calls}", took.as_nanos());
    Ok(true)
}
