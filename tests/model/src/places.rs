//! The part that stands at a place of a stream, the verdict of a frame, and
//! a listing of each.

use crate::commands::{out_of_range, refused};
use crate::fields::in_range;
use crate::record::*;
use crate::stream::{good, parting, take, Part};

/// The kinds of parts, in the order of their numbers in a script.
#[derive(Clone, Copy, PartialEq, Eq, Debug)]
pub enum Kind {
    /// No part: the stream has ended.
    None,
    Text,
    Skipped,
    Closed,
    Abandoned,
    Tail,
}

impl Kind {
    pub fn word(self) -> &'static str {
        match self {
            Kind::None => "none",
            Kind::Text => "text",
            Kind::Skipped => "skipped",
            Kind::Closed => "closed",
            Kind::Abandoned => "abandoned",
            Kind::Tail => "tail",
        }
    }
}

/// A part by its places: where the next one begins, and from where to where
/// the bytes of a frame lie, without its ESC and its CR. A part that is no
/// frame has them empty, at its end.
#[derive(Clone, Copy, PartialEq, Eq, Debug)]
pub struct Found {
    pub kind: Kind,
    pub end: usize,
    pub body: usize,
    pub body_end: usize,
}

/// The part at a place, read as if the stream began there with no frame open.
/// At the end and past it there is none, and all its places are that one.
pub fn part_at(stream: &[u8], place: usize) -> Found {
    let no_frame = |kind, end| Found { kind, end, body: end, body_end: end };
    match stream.get(place) {
        None => no_frame(Kind::None, place),
        Some(&ESC) => frame_at(stream, place),
        Some(0x20..) => no_frame(Kind::Text, place + 1),
        Some(_) => no_frame(Kind::Skipped, place + 1),
    }
}

/// The frame whose ESC is at this place, however long it is. CR closes it and
/// is a part of it; the ESC that abandons it is not.
fn frame_at(stream: &[u8], place: usize) -> Found {
    let body = place + 1;
    let mut body_end = body;
    while body_end < stream.len() && ![ESC, CR].contains(&stream[body_end]) {
        body_end += 1;
    }
    let (kind, end) = match stream.get(body_end) {
        Some(&CR) => (Kind::Closed, body_end + 1),
        Some(_) => (Kind::Abandoned, body_end),
        None => (Kind::Tail, body_end),
    };
    Found { kind, end, body, body_end }
}

/// The parts from a place on, one after the other. The last is the one that
/// is none.
pub fn parts_from(stream: &[u8], place: usize) -> Vec<Found> {
    let mut parts = vec![part_at(stream, place)];
    while let Some(last) = parts.last().filter(|last| last.kind != Kind::None) {
        parts.push(part_at(stream, last.end));
    }
    parts
}

/// What becomes of a closed frame.
#[derive(Clone, Copy, PartialEq, Eq, Debug)]
pub enum Verdict {
    /// It is overlong or outside the grammar.
    Bad,
    /// It is good; this is its first number out of range.
    PassedOver(u16),
    Obeyed,
    /// It is good and in range, and the record does not let it be obeyed: it
    /// is answered as a bad one is. The sister alone has such frames.
    Refused,
}

/// The verdict of a frame of the first edition by the bytes between ESC and CR,
/// where a frame can name so many rows.
pub fn verdict(body: &[u8], rows: u8) -> Verdict {
    let Some(good) = good(false, body) else {
        return Verdict::Bad;
    };
    match good.command.first_out_of_range(&good.numbers, rows.into()) {
        Some(number) => Verdict::PassedOver(number),
        None => Verdict::Obeyed,
    }
}

/// What becomes of a frame on this record, which is in range. That a frame is
/// open in it plays no part.
pub fn judge(record: &Record, body: &[u8]) -> Verdict {
    let Some(good) = good(record.edition.sister, body) else {
        return Verdict::Bad;
    };
    match out_of_range(record, &good) {
        Some(number) => Verdict::PassedOver(number),
        None if refused(record, &good) => Verdict::Refused,
        None => Verdict::Obeyed,
    }
}

/// What would become of a frame if it came now. None: the record is out of
/// range.
pub fn judgement(record: &Record, body: &[u8]) -> Option<Verdict> {
    in_range(record).then(|| judge(record, body))
}

/// A line for each part of a stream: its place, its kind, its end.
pub fn list_parts(stream: &[u8]) -> String {
    let mut out = String::new();
    let mut place = 0;
    for part in parts_from(stream, 0) {
        if part.kind != Kind::None {
            out += &format!("{place} {} {}\n", part.kind.word(), part.end);
        }
        place = part.end;
    }
    out
}

/// A line for each closed frame of a stream: its place and its verdict, by the
/// record that there then is. From a record with no frame open.
pub fn list_verdicts(start: &Record, stream: &[u8]) -> String {
    let mut out = String::new();
    let mut record = start.clone();
    let mut place = 0;
    for (part, behind) in parting(stream) {
        if let Part::Closed(body) = &part {
            out += &match judge(&record, body) {
                Verdict::Bad => format!("{place} bad\n"),
                Verdict::Refused => format!("{place} refused\n"),
                Verdict::PassedOver(number) => format!("{place} passed over {number}\n"),
                Verdict::Obeyed => format!("{place} obeyed\n"),
            };
        }
        take(&mut record, &part);
        place = behind;
    }
    out
}
