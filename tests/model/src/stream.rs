//! The stream call. The whole stream is parted first; then the parts are
//! taken in order.

use crate::commands::{self, mark};
use crate::fields::in_range;
use crate::grammar::{spelt, Spelt};
use crate::record::*;

/// A part of a stream. The bytes are those between ESC and the end.
#[derive(Clone, PartialEq, Eq, Debug)]
pub enum Part {
    Text(u8),
    Skipped(u8),
    Closed(Vec<u8>),
    Abandoned(Vec<u8>),
    Tail(Vec<u8>),
}

/// A part and the place just behind its last byte. The byte that ends a
/// frame stands there less one for a closed frame (its CR), and right there
/// for an abandoned one (the ESC of the next).
pub type Placed = (Part, usize);

/// The one way in which a stream parts, from outside a frame.
pub fn parting(stream: &[u8]) -> Vec<Placed> {
    let mut parts = vec![];
    let mut at = 0;
    while at < stream.len() {
        let first = stream[at];
        if first != ESC {
            at += 1;
            let part = if first >= 0x20 { Part::Text(first) } else { Part::Skipped(first) };
            parts.push((part, at));
            continue;
        }
        let inside = &stream[at + 1..];
        let length = inside.iter().position(|b| [ESC, CR].contains(b));
        let body = inside[..length.unwrap_or(inside.len())].to_vec();
        at += 1 + body.len();
        let part = match length.map(|length| inside[length]) {
            None => Part::Tail(body),
            Some(ESC) => Part::Abandoned(body),
            Some(_) => {
                at += 1;
                Part::Closed(body)
            }
        };
        parts.push((part, at));
    }
    parts
}

/// The record's open frame as the bytes that stand before the new ones. An
/// overlong frame stands there as some frame of more than 250 bytes.
pub fn standing(frame: &Frame) -> Vec<u8> {
    match frame.state {
        0 => vec![],
        1 => [&[ESC], &frame.bytes[..usize::from(frame.length)]].concat(),
        _ => [&[ESC][..], &[b'!'; FRAME + 1]].concat(),
    }
}

/// What a closed frame spells. None: it is bad, overlong or outside the
/// grammar of its edition.
pub fn good(sister: bool, body: &[u8]) -> Option<Spelt> {
    spelt(sister, body).filter(|_| body.len() <= FRAME)
}

/// The unfinished tail as a frame of the record.
fn tail(body: &[u8]) -> Frame {
    let mut frame = NO_FRAME;
    if body.len() > FRAME {
        frame.state = 2;
    } else {
        frame.state = 1;
        frame.length = body.len() as u8;
        frame.bytes[..body.len()].copy_from_slice(body);
    }
    frame
}

/// Takes one part; gives its answer.
pub fn take(record: &mut Record, part: &Part) -> Vec<u8> {
    let sister = record.edition.sister;
    match part {
        Part::Text(code) => commands::text(record, *code),
        Part::Skipped(_) => (),
        Part::Abandoned(_) => return mark(sister).to_vec(),
        Part::Closed(body) => {
            let Some(good) = good(sister, body) else {
                return mark(sister).to_vec();
            };
            let answer = commands::answer(record, &good);
            commands::take(record, &good);
            return answer;
        }
        Part::Tail(body) => record.frame = tail(body),
    }
    vec![]
}

/// All answers of a stream, where there is room for each: the place of the
/// byte that is answered, and its answer. From a record in range.
pub fn answers(record: &Record, bytes: &[u8]) -> Vec<(usize, Vec<u8>)> {
    let before = standing(&record.frame).len();
    let mut record = record.clone();
    let parts = parts_of_call(&record, bytes);
    record.frame = NO_FRAME;
    let mut answers = vec![];
    for (part, behind) in &parts {
        let answer = take(&mut record, part);
        if !answer.is_empty() {
            let place = match part {
                Part::Closed(_) => behind - 1,
                _ => *behind,
            };
            answers.push((place - before, answer));
        }
    }
    answers
}

/// How many bytes a call uses: up to the byte whose whole answer has no room,
/// or all.
pub fn used(record: &Record, bytes: &[u8], room: usize) -> usize {
    let mut needed = 0;
    answers(record, bytes)
        .into_iter()
        .find(|(_, answer)| {
            needed += answer.len();
            needed > room
        })
        .map_or(bytes.len(), |(place, _)| place)
}

/// The room that a call on this record and these bytes can need, where it
/// closes no question: the number and the bound. Each answer is that of a
/// frame, and a frame is opened by an ESC that is offered, or was open before.
/// None is longer than a mark.
pub fn bound(record: &Record, bytes: &[u8]) -> (u8, usize) {
    if !in_range(record) {
        return (1, 0);
    }
    let offered = bytes.iter().filter(|&&byte| byte == ESC).count();
    let before = match record.frame.state {
        0 => 0,
        _ => 1, // open or overlong
    };
    (0, (offered + before) * mark(record.edition.sister).len())
}

/// The parts of a call: the open frame and the used bytes.
pub fn parts_of_call(record: &Record, used: &[u8]) -> Vec<Placed> {
    parting(&[&standing(&record.frame), used].concat())
}

/// The stream call: the number, the used and the written count.
pub fn call(record: &mut Record, bytes: &[u8], answers: &mut [u8]) -> (u8, usize, usize) {
    if !in_range(record) {
        return (1, 0, 0);
    }
    let used = used(record, bytes, answers.len());
    let parts = parts_of_call(record, &bytes[..used]);
    record.frame = NO_FRAME;
    let mut written = 0;
    for (part, _) in &parts {
        let answer = take(record, part);
        answers[written..][..answer.len()].copy_from_slice(&answer);
        written += answer.len();
    }
    (0, used, written)
}
