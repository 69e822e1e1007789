//! The second program: makes cases from a seed, answers them from document 01 alone, and compares the proved program's answers.
//!
//!     second make SEED ROUNDS > CASES
//!     second compare SEED ROUNDS < ANSWERS
//!     second reception make SEED ROUNDS > CASES
//!     second reception compare SEED ROUNDS < ANSWERS
//!     second controller make SEED ROUNDS > CASES
//!     second controller compare SEED ROUNDS < ANSWERS
//!     second face make SEED ROUNDS > CASES
//!     second face compare SEED ROUNDS < ANSWERS
//!     second face time CALL INPUTS ROUNDS
//!     second look < INPUT
//!     second look make SEED COUNT DIR
//!     second sample cases > crates/answers/stdin
//!     second sample answers > crates/answers/stdout
//!     second reception sample cases > crates/schedules/stdin
//!     second reception sample answers > crates/schedules/stdout
//!     second sample bench > samples/bench.txt
//!     second sample every > samples/every.txt

mod asked;
mod bench;
mod compare;
mod controller;
mod damage;
mod drafts;
mod face;
mod good;
mod look;
mod messages;
mod packet;
mod packets;
mod places;
mod random;
mod reception;
mod rooms;
mod sample;
mod sheet;
mod shown;
mod tally;
mod texts;
mod to_write;
mod values;
mod wire;
mod writer;

use asked::Asked;
use random::Random;
use std::io::{self, BufWriter, Write};
use std::path::Path;
use std::process::ExitCode;
use wire::Case;

const USAGE: &str = "second [reception|controller|face] make SEED ROUNDS | \
    [reception|controller|face] compare SEED ROUNDS | face time CALL INPUTS ROUNDS | look | look make SEED COUNT DIR | \
    [reception] sample cases | [reception] sample answers | sample bench | sample every";

/// Every case about sheets and packets that is thought of, then so many rounds of cases by chance.
fn cases(seed: u64, rounds: usize) -> Vec<Case> {
    let random = &mut Random::new(seed);
    let mut cases: Vec<Case> = texts::systematic(random).into_iter().map(Case::Read).collect();
    cases.extend(values::systematic(random).into_iter().map(Case::Valid));
    cases.extend(values::systematic_searches(random));
    cases.extend(values::systematic_names().into_iter().map(Case::UserId));
    cases.extend(packets::systematic(random));
    cases.extend(places::systematic(random));
    cases.extend(messages::systematic(random));
    for _ in 0..rounds {
        cases.push(Case::Read(texts::any(random)));
        cases.push(Case::Valid(values::any(random)));
        cases.push(values::any_search(random));
        cases.push(Case::UserId(values::any_name(random)));
        cases.push(packets::some(random));
        cases.push(places::some(random));
        cases.extend(messages::some(random));
    }
    cases
}

fn print_cases(cases: impl ExactSizeIterator<Item = Vec<u8>>) -> io::Result<bool> {
    let mut out = BufWriter::new(io::stdout().lock());
    asked::write_cases(&mut out, cases)?;
    out.flush().map(|()| true)
}

fn print(octets: &[u8]) -> io::Result<bool> {
    io::stdout().write_all(octets).map(|()| true)
}

/// Makes cases, or compares the answers to them, if the words ask for that.
fn run_on<C: Asked>(words: &[&str], cases: fn(u64, usize) -> Vec<C>) -> Option<io::Result<bool>> {
    let made = |seed: &str, rounds: &str| Some(cases(seed.parse().ok()?, rounds.parse().ok()?));
    match words {
        ["make", seed, rounds] => Some(print_cases(made(seed, rounds)?.iter().map(C::octets))),
        ["compare", seed, rounds] => Some(asked::compare(&made(seed, rounds)?, io::stdin().lock())),
        _ => None,
    }
}

/// Does what the words ask, if they ask something; false where answers differ or the cases show too little.
fn run(words: &[&str]) -> Option<io::Result<bool>> {
    match words {
        ["reception", "sample", "cases"] => Some(print_cases(sample::each(&reception::sample::cases()).into_iter())),
        ["reception", "sample", "answers"] => Some(print(&asked::answer_octets(&reception::sample::cases()))),
        ["reception", words @ ..] => run_on(words, reception::cases),
        ["controller", words @ ..] => run_on(words, controller::cases),
        ["face", "make", seed, rounds] => {
            Some(face::make(seed.parse().ok()?, rounds.parse().ok()?, io::stdout().lock()))
        }
        ["face", "compare", seed, rounds] => {
            Some(face::compare(seed.parse().ok()?, rounds.parse().ok()?, io::stdin().lock()))
        }
        ["face", "time", call, inputs, rounds] => Some(face::time(call, Path::new(inputs), rounds.parse().ok()?)),
        ["look"] => Some(look::run().map(|()| true)),
        ["look", "make", seed, count, dir] => Some(look::make(seed.parse().ok()?, count.parse().ok()?, Path::new(dir))),
        ["sample", "cases"] => Some(print_cases(sample::octets().into_iter())),
        ["sample", "answers"] => Some(print(&sample::answer_octets())),
        ["sample", "bench"] => Some(print(&look::sample::bench())),
        ["sample", "every"] => Some(print(&look::sample::every())),
        _ => run_on(words, cases),
    }
}

fn main() -> ExitCode {
    let words: Vec<String> = std::env::args().skip(1).collect();
    let words: Vec<&str> = words.iter().map(String::as_str).collect();
    match run(&words) {
        Some(Ok(true)) => ExitCode::SUCCESS,
        Some(Ok(false)) => ExitCode::FAILURE,
        Some(Err(fault)) => {
            eprintln!("second: {fault}");
            ExitCode::FAILURE
        }
        None => {
            eprintln!("usage: {USAGE}");
            ExitCode::from(2)
        }
    }
}
