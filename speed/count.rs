//! Counts the instructions of pieces of work, by valgrind: they are the same from run to run, where times swing.

use crate::calls::{self, CALLS};
use crate::reader::{in_one_call, in_short_calls, Feed, Reader, CALL};
use crate::{door, plain, streams};
use std::hint::black_box;
use std::process::Command;

fn mixed_stream() -> Vec<u8> {
    streams::mixed(crate::OPERATIONS).handset
}

fn one_call<R: Reader>(feed: Feed<R>, stream: &[u8]) {
    black_box(in_one_call(feed, stream, &mut crate::room()));
}

fn short_calls<R: Reader>(feed: Feed<R>, stream: &[u8]) {
    black_box(in_short_calls(feed, stream, &mut crate::room()));
}

// Pieces of work on the mixed stream. Every other piece is a call of the table.
const ONE: &str = "ours, one call";
const SHORT: &str = "ours, calls of 64 bytes";
const PLAIN_ONE: &str = "plain Rust, one call";
const PLAIN_SHORT: &str = "plain Rust, calls of 64 bytes";

const SISTER_ONE: &str = "the sister, one call";
const SISTER_SHORT: &str = "the sister, calls of 64 bytes";

fn on_the_sisters_stream(times: usize, work: impl Fn(&[u8])) {
    let stream = streams::sisters(crate::OPERATIONS);
    for _ in 0..times {
        work(&stream);
    }
}

fn on_the_mixed_stream(times: usize, work: impl Fn(&[u8])) {
    let stream = mixed_stream();
    for _ in 0..times {
        work(&stream);
    }
}

/// Does a piece of work so many times.
pub fn repeat(work: &str, times: usize) {
    match work {
        ONE => on_the_mixed_stream(times, |stream| one_call(door::Handset::feed, stream)),
        SHORT => on_the_mixed_stream(times, |stream| short_calls(door::Handset::feed, stream)),
        PLAIN_ONE => on_the_mixed_stream(times, |stream| one_call(plain::Handset::feed, stream)),
        PLAIN_SHORT => on_the_mixed_stream(times, |stream| short_calls(plain::Handset::feed, stream)),
        SISTER_ONE => on_the_sisters_stream(times, |stream| one_call(door::Sister::feed, stream)),
        SISTER_SHORT => on_the_sisters_stream(times, |stream| short_calls(door::Sister::feed, stream)),
        call => (0..times).for_each(|_| calls::make_named(call)),
    }
}

// All that valgrind counts of this program while it does a piece of work so many times; none where valgrind can't say.
fn counted(work: &str, times: usize) -> Option<u64> {
    let this = std::env::current_exe().ok()?;
    let mut valgrind = Command::new("valgrind");
    valgrind.args(["--tool=cachegrind", "--cache-sim=no", "--cachegrind-out-file=/dev/null"]);
    let said = valgrind.arg(this).args(["repeat", work, &times.to_string()]).output().ok()?.stderr;
    let said = String::from_utf8_lossy(&said);
    let refs = said.lines().find_map(|line| match line.split_whitespace().collect::<Vec<_>>()[..] {
        [_, "I", "refs:", count] => Some(count.replace(',', "")),
        _ => None,
    });
    refs?.parse().ok()
}

// The instructions of a piece of work: what a second time adds to the first.
fn instructions(work: &str) -> f64 {
    match (counted(work, 1), counted(work, 2)) {
        (Some(once), Some(twice)) => twice as f64 - once as f64,
        _ => {
            eprintln!("bench: valgrind did not count: {work}");
            std::process::exit(1);
        }
    }
}

/// The mixed stream in one call and in short ones, beside the plain reader; and each call by itself.
pub fn table() {
    let bytes = mixed_stream().len();
    println!("Instructions for the mixed stream, {bytes} bytes");
    let counts = [ONE, PLAIN_ONE, SHORT, PLAIN_SHORT].map(|work| {
        let count = instructions(work);
        println!("  {work:<44}{count:>12.0} {:>7.2} a byte", count / bytes as f64);
        count
    });
    let [one, plain_one, short, plain_short] = counts;
    println!("  ours takes {:.2} of the plain reader's, {:.2} in calls of {CALL} bytes", one / plain_one, short / plain_short);
    println!("  a call costs {:.0} beside its bytes", (short - one) / (bytes / CALL) as f64);
    let hers = streams::sisters(crate::OPERATIONS).len();
    println!("\nInstructions for the sister's mixed stream, {hers} bytes");
    for work in [SISTER_ONE, SISTER_SHORT] {
        let count = instructions(work);
        println!("  {work:<44}{count:>12.0} {:>7.2} a byte", count / hers as f64);
    }
    let each: Vec<f64> = calls::names().map(|call| instructions(call) / CALLS as f64).collect();
    println!("\nThe calls of include/handset.h, each by itself, with some 10 instructions of the loop that makes them");
    calls::report("instructions", &each);
}
