//! Times the handset's stream call against a plain Rust reader of the same language and against the terminal parsers that are
//! installed, on the same work, in one run; going over a stream's parts and the choice check against that call; and each call of the
//! C library by itself. Ours are the calls of include/handset.h. `./bench` builds and runs it; nothing here is part of the gate.

mod calls;
mod count;
mod door;
mod plain;
mod race;
mod reader;
mod streams;
#[cfg(feature = "tsm")]
mod tsm;
#[cfg(feature = "vte")]
mod vte_screen;
#[cfg(feature = "vterm")]
mod vterm;

use race::{race, report, Candidate};
use reader::{in_one_call, in_short_calls, mark, same, Feed, Reader, CALL};

const OPERATIONS: usize = 20_000;

/// Room for a call's answers.
fn room() -> [u8; 64] {
    [0; 64]
}

fn one_call<R: Reader>(feed: Feed<R>, bytes: &[u8]) -> u64 {
    mark(in_one_call(feed, bytes, &mut room()))
}

fn short_calls<R: Reader>(feed: Feed<R>, bytes: &[u8]) -> u64 {
    mark(in_short_calls(feed, bytes, &mut room()))
}

fn ours(bytes: &[u8]) -> u64 {
    one_call(door::Handset::feed, bytes)
}

fn plain_parts(bytes: &[u8]) -> u64 {
    plain::Parts(bytes).count() as u64
}

// What speed/door.rs says of the header is what the archive does: the two readers have the same record at power-on, and the same after
// a stream that gives every field a value of its own.
fn check_door() {
    same("the interface", true, door::is_of_this_interface());
    same("the length of a record", true, door::is_as_long());
    for stream in [Vec::new(), streams::every_field()] {
        let (plain, _) = in_one_call(plain::Handset::feed, &stream, &mut room());
        let (ours, _) = in_one_call(door::Handset::feed, &stream, &mut room());
        same("the record", plain.record(), ours.record());
    }
}

// Hands back the best time of our call.
fn mixed(work: &streams::Work, rounds: usize) -> f64 {
    let (stream, ansi) = (&work.handset[..], &work.ansi[..]);
    let expected = one_call(plain::Handset::feed, stream);
    same("plain, frames where they stand", expected, one_call(plain::Handset::feed_where_it_stands, stream));
    same("ours, one call", expected, ours(stream));

    println!("20,000 mixed operations: {} bytes for the handset, {} bytes as ANSI; best of {rounds}", stream.len(), ansi.len());
    let mut all = vec![
        Candidate::new("ours, one call", stream.len(), || ours(stream)),
        Candidate::new("plain Rust, one call", stream.len(), || one_call(plain::Handset::feed, stream)),
        Candidate::new("plain Rust, frames read where they stand", stream.len(), || one_call(plain::Handset::feed_where_it_stands, stream)),
    ];
    #[cfg(feature = "vte")]
    {
        vte_screen::agrees(work);
        all.push(Candidate::new("vte and a small screen, the same in ANSI", ansi.len(), || vte_screen::run(ansi)));
    }
    #[cfg(feature = "vterm")]
    {
        let mut terminal = vterm::Terminal::new();
        all.push(Candidate::new("libvterm and its screen, the same in ANSI", ansi.len(), move || terminal.run(ansi)));
    }
    #[cfg(feature = "tsm")]
    {
        let mut terminal = tsm::Terminal::new();
        all.push(Candidate::new("libtsm and its screen, the same in ANSI", ansi.len(), move || terminal.run(ansi)));
    }
    race(&mut all, rounds);
    report(&all);
    all[0].best
}

fn in_calls(stream: &[u8], rounds: usize, one_call_took: f64) {
    let expected = short_calls(plain::Handset::feed, stream);
    same("plain, short calls, frames where they stand", expected, short_calls(plain::Handset::feed_where_it_stands, stream));
    same("ours, short calls", expected, short_calls(door::Handset::feed, stream));

    println!("\nThe same stream in calls of {CALL} bytes");
    let mut all = vec![
        Candidate::new("ours", stream.len(), || short_calls(door::Handset::feed, stream)),
        Candidate::new("plain Rust", stream.len(), || short_calls(plain::Handset::feed, stream)),
        Candidate::new("plain Rust, frames read where they stand", stream.len(), || {
            short_calls(plain::Handset::feed_where_it_stands, stream)
        }),
    ];
    #[cfg(target_arch = "x86_64")]
    {
        same("behind the door, short calls", expected, short_calls(door::Handset::feed_behind_the_door, stream));
        all.push(Candidate::new("the proved call behind the door", stream.len(), || {
            short_calls(door::Handset::feed_behind_the_door, stream)
        }));
    }
    race(&mut all, rounds);
    report(&all);
    let [times, more] = [all[0].best / one_call_took, all[0].best - one_call_took];
    println!("  ours against one call: {times:.2} times; a call costs {:.0} ns beside its bytes", more / (stream.len() / CALL) as f64);
}

fn sister(rounds: usize, one_call_took: f64) {
    let stream = streams::sisters(OPERATIONS);
    let expected = one_call(door::Sister::feed, &stream);
    println!("\nThe sister: 20,000 mixed operations of hers, {} bytes", stream.len());
    let mut all = [
        Candidate::new("ours, one call", stream.len(), || one_call(door::Sister::feed, &stream)),
        Candidate::new("ours, calls of 64 bytes", stream.len(), || short_calls(door::Sister::feed, &stream)),
    ];
    same("the sister again", expected, one_call(door::Sister::feed, &stream));
    race(&mut all, rounds);
    report(&all);
    println!("  one call against one of the first edition's: {:.2} times", all[0].best / one_call_took);
}

fn pictures(rounds: usize) {
    let pictures = streams::pictures(2_000);
    same("pictures", one_call(plain::Handset::feed, &pictures), ours(&pictures));
    println!("\n2,000 picture frames: {} bytes", pictures.len());
    let mut all = [
        Candidate::new("ours", pictures.len(), || ours(&pictures)),
        Candidate::new("plain Rust", pictures.len(), || one_call(plain::Handset::feed, &pictures)),
    ];
    race(&mut all, rounds);
    report(&all);
}

fn parts(stream: &[u8], rounds: usize) {
    // The longer stream is cut anywhere, so it may end in a tail.
    let twice = streams::mixed_of(2 * stream.len());
    let count = plain_parts(stream);
    same("parts", count, door::count_parts(stream));
    same("parts of a stream of double length", plain_parts(&twice), door::count_parts(&twice));
    println!("\nThe mixed stream part by part, each asked for where the one before ends: {count} parts");
    let mut all = [
        Candidate::new("ours, a call for each part", stream.len(), || door::count_parts(stream)),
        Candidate::new("plain Rust", stream.len(), || plain_parts(stream)),
        Candidate::new("the stream call, ours, one call", stream.len(), || ours(stream)),
        Candidate::new("ours, a stream of double length", twice.len(), || door::count_parts(&twice)),
    ];
    race(&mut all, rounds);
    report(&all[..3]);
    let [parts, call, longer] = [all[0].best, all[2].best, all[3].best];
    let [of_the_call, of_the_parts] = [parts / call, longer / parts];
    println!("  parts: {:.3} ms, {of_the_call:.2} of the stream call; at double length {of_the_parts:.2} times as long", parts / 1e6);
}

fn choice_screens(rounds: usize) {
    let screens = streams::screens(4_000);
    let short_of_a_label = screens.len() - 30;
    same("a stream of choice screens breaks no rule", 0, door::choice_broken_at(&screens));
    let broken_at = door::choice_broken_at(&screens[..short_of_a_label]);
    same("one without its last label breaks one at its end", short_of_a_label as u64, broken_at);
    println!("\n4,000 choice screens: {} bytes, checked against the shop's rules", screens.len());
    let mut all = [
        Candidate::new("the choice check", screens.len(), || door::choice_broken_at(&screens)),
        Candidate::new("the stream call, ours, one call", screens.len(), || ours(&screens)),
    ];
    race(&mut all, rounds);
    report(&all);
    println!("  the check: {:.2} bytes a nanosecond, {:.2} of the stream call", 1.0 / all[0].for_each_byte(), all[0].best / all[1].best);
}

fn growth(rounds: usize) {
    println!("\nGrowth with length: the mixed stream, one call");
    for length in [100_000, 1_000_000, 10_000_000] {
        let long = streams::mixed_of(length);
        let mut all = [Candidate::new("", long.len(), || ours(&long))];
        race(&mut all, (rounds * 400_000 / length).max(8));
        println!("  {:>10} bytes {:>7.2} ns a byte", long.len(), all[0].for_each_byte());
    }
}

fn times(rounds: usize) {
    let work = streams::mixed(OPERATIONS);
    let one_call_took = mixed(&work, rounds);
    in_calls(&work.handset, rounds, one_call_took);
    sister(rounds, one_call_took);
    pictures(rounds);
    parts(&work.handset, rounds);
    choice_screens(rounds);
    growth(rounds);
    calls::times(rounds);
}

fn number(word: &str) -> usize {
    word.parse().expect("a number")
}

// The words are ./bench's, but for those by which the count runs this program again.
fn main() {
    check_door();
    let words: Vec<String> = std::env::args().skip(1).collect();
    match words.iter().map(String::as_str).collect::<Vec<_>>()[..] {
        ["--count"] => count::table(),
        ["repeat", work, count] => count::repeat(work, number(count)),
        [rounds] => times(number(rounds)),
        _ => panic!("words that ./bench does not say"),
    }
}
