//! What is asked of every reader of the handset's streams that is timed, and one number by which two of them are compared.

use crate::door;
use std::hint::black_box;

/// So many bytes in each of the short calls.
pub const CALL: usize = 64;

/// How a stream call ended.
pub struct Fed {
    pub number: u8,
    pub used: u64,
    pub written: u64,
}

pub trait Reader {
    fn power_on() -> Self;

    /// Its record as include/handset.h lays it out.
    fn record(&self) -> door::Handset;
}

/// A stream call of a reader.
pub type Feed<R> = fn(&mut R, &[u8], &mut [u8]) -> Fed;

/// A stream in one call, from the power-on record.
pub fn in_one_call<R: Reader>(feed: Feed<R>, bytes: &[u8], room: &mut [u8]) -> (R, Fed) {
    let mut reader = R::power_on();
    let fed = feed(&mut reader, bytes, room);
    (reader, fed)
}

/// A stream in calls of 64 bytes, and what is left over in a last one. Each call is lent the whole room.
pub fn in_short_calls<R: Reader>(feed: Feed<R>, bytes: &[u8], room: &mut [u8]) -> (R, Fed) {
    let mut reader = R::power_on();
    let pieces = bytes.chunks_exact(CALL);
    let rest = pieces.remainder();
    for piece in pieces {
        black_box(feed(&mut reader, piece, room));
    }
    let fed = feed(&mut reader, rest, room);
    (reader, fed)
}

/// One number taken from most of what a call left: text, picture, labels, the small numbers and both counts, in this order.
pub fn mark<R: Reader>((reader, fed): (R, Fed)) -> u64 {
    const PRIME: u64 = 1_000_003;
    let record = reader.record();
    let s = &record.small.settings;
    let small = [
        s.screen.mode,
        s.screen.overlay,
        s.screen.row,
        s.screen.column,
        s.left.len,
        s.right.len,
        s.icons.s,
        s.icons.u,
        s.icons.f,
        s.icons.r,
        s.icons.p,
        s.icons.w,
        s.volume.which,
        s.volume.level,
    ];
    let bytes = record.text.iter().chain(&record.picture).chain(&s.left.codes).chain(&s.right.codes).chain(&small);
    let numbers = bytes.map(|&b| b as u64).chain([fed.used, fed.written]);
    numbers.fold(0, |mark, n| (mark * 31 + n % PRIME) % PRIME)
}

/// Ends the program where two readers, or the header and the archive, differ.
pub fn same<T: PartialEq + std::fmt::Debug>(what: &str, expected: T, found: T) {
    if expected != found {
        eprintln!("bench: not the same: {what}\n{expected:?}\n{found:?}");
        std::process::exit(1);
    }
}
