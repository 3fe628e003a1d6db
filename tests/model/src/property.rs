//! Checks of the model against itself.

use std::collections::BTreeMap;

use crate::choice::{self, Broken};
use crate::commands::{self, mark, table, LONGEST};
use crate::fields::{contents, field, in_range, FIELDS};
use crate::generate::{
    self, asked, choices, close_bodies, judged, number_commands, parted, random_record, respelt, stream_of, Dice,
    MODES, OVERLAYS,
};
use crate::grammar::{readings, spelt, Spelt};
use crate::keys;
use crate::places::{judge, list_parts, list_verdicts, parts_from, verdict, Found, Kind, Verdict};
use crate::record::*;
use crate::rng::Rng;
use crate::script::{self, command, command_count, Answer, Call};
use crate::seen::{self, Column, Half, Owner, Phase, PHASES};
use crate::stream::{self, parting, Part};
use crate::writers::{self, of_her_kind, HER_KINDS};

type Held = Result<(), String>;

/// What must hold, or why the check fails.
macro_rules! hold {
    ($holds:expr, $($why:tt)+) => {
        if !$holds {
            return Err(format!($($why)+));
        }
    };
}

/// Cutting a stream elsewhere changes nothing, if unused bytes are offered
/// again first and the room in the end takes all answers: every place of a cut,
/// with any room for the first call.
pub fn cut_anywhere(seed: u64, sister: bool) -> Held {
    let mut rng = Dice::new(seed ^ 0xC08, sister);
    let start = random_record(seed, sister);
    let pieces = rng.between(1, 5);
    let mut bytes = match rng.one_in(2) {
        true => asked(&mut rng, pieces),
        false => stream_of(&mut rng, pieces),
    };
    bytes.truncate(400);
    let (whole, all) = with_room_for_all(&start, &bytes);
    for cut in 0..=bytes.len() {
        for _ in 0..3 {
            let mut record = start.clone();
            let mut room = vec![7; rng.between(0, 34)];
            let (number, used, written) = stream::call(&mut record, &bytes[..cut], &mut room);
            let (end, rest) = with_room_for_all(&record, &bytes[used..]);
            let untouched = room[written..].iter().all(|&byte| byte == 7);
            hold!(number == 0 && used <= cut && untouched, "the first call of a cut at {cut}");
            hold!(end == whole && [&room[..written], &rest].concat() == all, "a cut at {cut} changed something");
        }
    }
    Ok(())
}

/// A call with room for all answers: the record and what was said.
fn with_room_for_all(record: &Record, bytes: &[u8]) -> (Record, Vec<u8>) {
    let mut record = record.clone();
    let mut room = vec![7; LONGEST * bytes.len()];
    let (_, _, written) = stream::call(&mut record, bytes, &mut room);
    room.truncate(written);
    (record, room)
}

/// A call stops exactly before the byte whose whole answer does not fit. The
/// bytes are given one by one, to learn what each of them is answered; for
/// every room it is then known where a call stops.
pub fn stops(seed: u64, sister: bool) -> Held {
    let mut rng = Dice::new(seed ^ 0x570, sister);
    let start = random_record(seed, sister);
    let mut bytes = asked(&mut rng, 4);
    bytes.extend(stream_of(&mut rng, 2));
    bytes.truncate(400);
    // The record before each byte and at the end, and all said before it.
    let mut steps = vec![(start.clone(), vec![])];
    for byte in &bytes {
        let (record, said) = &steps[steps.len() - 1];
        let (next, more) = with_room_for_all(record, &[*byte]);
        let said = [&said[..], &more].concat();
        steps.push((next, said));
    }
    let total = steps[bytes.len()].1.len();
    for room in (0..=60).chain([total.saturating_sub(1), total, total + 1]) {
        let used = steps.iter().position(|(_, said)| said.len() > room).map_or(bytes.len(), |place| place - 1);
        let (wanted, said) = &steps[used];
        let mut record = start.clone();
        let mut buffer = vec![7; room];
        let counts = stream::call(&mut record, &bytes, &mut buffer);
        let mut lent = vec![7; room];
        lent[..said.len()].copy_from_slice(said);
        hold!(counts == (0, used, said.len()) && &record == wanted && buffer == lent, "room {room}: {counts:?}");
    }
    Ok(())
}

/// The same stream, but each question that it closes gets one sign more, so
/// that it asks nothing.
fn without_questions(start: &Record, bytes: &[u8]) -> Vec<u8> {
    let before = stream::standing(&start.frame).len();
    let mut out = vec![];
    let mut from = 0;
    for (part, behind) in stream::parts_of_call(start, bytes) {
        let Part::Closed(body) = part else { continue };
        if stream::good(start.edition.sister, &body).is_some_and(|good| good.command.is_question()) {
            let end = behind - 1 - before;
            out.extend(&bytes[from..end]);
            out.push(b'!');
            from = end;
        }
    }
    out.extend(&bytes[from..]);
    out
}

/// With any room a call writes no more than the bound, and all of it are
/// question marks, each with CR LF of the sister; with the bound as its room it
/// uses all. What was written and the bound of what is left are no more than the
/// bound. Questions too get no more answers than it says, though longer ones.
pub fn bound_holds(seed: u64, sister: bool) -> Held {
    let mut rng = Dice::new(seed ^ 0xB09, sister);
    let mut start = random_record(seed, sister);
    let long = if sister { 3 } else { 1 };
    match rng.below(6) {
        0 => start.frame = NO_FRAME,
        1 => {
            start.frame = NO_FRAME;
            start.frame.state = 2;
        }
        2 => {
            start.frame = NO_FRAME;
            start.frame.state = 1;
        }
        _ => (),
    }
    let pieces = rng.between(1, 12);
    let with = match rng.one_in(3) {
        true => asked(&mut rng, pieces),
        false => stream_of(&mut rng, pieces),
    };
    let answers = stream::answers(&start, &with).len();
    hold!(stream::bound(&start, &with).1 >= long * answers, "{answers} answers");
    let bytes = without_questions(&start, &with);
    let (number, bound) = stream::bound(&start, &bytes);
    let escapes = bytes.split(|&byte| byte == ESC).count() - 1;
    let open = usize::from(start.frame != NO_FRAME);
    hold!((number, bound) == (0, long * (escapes + open)), "bound {bound}");
    let more = bound + 1 + rng.below(300);
    for room in (0..=bound.min(40)).chain([bound.saturating_sub(1), bound, more]) {
        let mut record = start.clone();
        let mut buffer = vec![7; room];
        let (number, used, written) = stream::call(&mut record, &bytes, &mut buffer);
        let marks = buffer[..written].chunks(long).all(|said| said == &b"?\r\n"[..long]);
        hold!(number == 0 && written <= bound && marks, "{written} bytes with room {room}");
        hold!(room < bound || used >= bytes.len(), "room {room} is too small");
        hold!(written + stream::bound(&record, &bytes[used..]).1 <= bound, "the bound rises with room {room}");
    }
    Ok(())
}

/// The bound is reached, whatever stands in the record: by ESC n times and CR,
/// and without an ESC by the CR of a frame that is bad. One place less is too
/// small a room then.
pub fn bound_reached(seed: u64, sister: bool) -> Held {
    let mut rng = Rng::new(seed ^ 0xB0A);
    let any = random_record(seed, sister);
    let mark = mark(sister);
    let mut states = vec![any];
    for state in 0..3 {
        let mut record = states[0].clone();
        record.frame = NO_FRAME;
        record.frame.state = state;
        states.push(record);
    }
    for start in &states {
        let open = usize::from(start.frame.state != 0);
        for n in [0, 1, 2, 3, rng.between(4, 254), 255, 256, rng.below(4096)] {
            let mut bytes = [&vec![ESC; n][..], &[CR]].concat();
            if n == 0 && start.frame.length > 0 {
                // Whatever frame is open, so many bytes more make it bad.
                bytes.splice(0..0, [b'!'; FRAME + 1]);
            }
            let (number, bound) = stream::bound(start, &bytes);
            hold!((number, bound) == (0, mark.len() * (n + open)), "bound {bound} for {n} and {open}");
            for room in [bound, bound + 5] {
                let mut record = start.clone();
                let mut buffer = vec![7; room];
                let counts = stream::call(&mut record, &bytes, &mut buffer);
                hold!(
                    counts == (0, bytes.len(), bound) && buffer[..bound] == mark.repeat(n + open),
                    "{counts:?} for {n} and {open}"
                );
            }
            for room in (0..bound).rev().take(mark.len()) {
                let mut record = start.clone();
                let (_, used, written) = stream::call(&mut record, &bytes, &mut vec![7; room]);
                let wanted = (bytes.len() - 1, bound - mark.len());
                hold!((used, written) == wanted, "{used} used with room {room}");
            }
        }
    }
    Ok(())
}

/// Good data of k columns has at most 2k bytes, and 2k where every column
/// stands by itself.
pub fn picture_data_short(seed: u64) -> Held {
    let mut rng = Rng::new(seed ^ 0xB0C);
    let runs = rng.pick(&[0, 2, 3]);
    for _ in 0..20 {
        let (mut data, mut columns) = (vec![], 0);
        for _ in 0..rng.between(1, 50) {
            if runs > 0 && rng.one_in(runs) {
                let letter = rng.between(0, 24);
                data.push(b'a' + letter as u8);
                columns += letter + 1;
            }
            data.extend(format!("{:02X}", rng.byte()).bytes());
            columns += 1;
        }
        let body = [&b"Gr0,"[..], &data, b"z"].concat();
        let read = spelt(rng.one_in(2), &body).map(|good| good.codes.len());
        hold!(read == (columns <= COLUMNS).then_some(columns), "{columns} columns, read {read:?}");
        if data.len() > 2 * columns || (runs == 0 && data.len() != 2 * columns) {
            let bytes = data.len();
            return Err(format!("{bytes} bytes for {columns} columns"));
        }
    }
    Ok(())
}

/// Contrast and marks are changed by their own frames alone, obeyed; the hook
/// switch and the edition by none, nor by keys and seconds.
pub fn own_frames(seed: u64) -> Held {
    let mut rng = Dice::new(seed ^ 0x0F7, false);
    let start = random_record(seed, false);
    let mut bytes = stream_of(&mut rng, 10);
    bytes.extend(asked(&mut rng, 6));
    let mut record = start.clone();
    record.frame = NO_FRAME;
    let (mut contrast, mut marks) = (start.contrast, start.marks);
    for (part, _) in stream::parts_of_call(&start, &bytes) {
        let good = match &part {
            Part::Closed(body) => stream::good(false, body),
            _ => None,
        };
        match good {
            Some(good) if commands::obeyed(&record, &good) => match good.command.name {
                "Contrast" => contrast = good.numbers[0] as u8,
                "Inverse" => {
                    marks = std::array::from_fn(|row| good.numbers[0] == row as u16 + 1);
                }
                _ => (),
            },
            _ => (),
        }
        stream::take(&mut record, &part);
        let now = (record.contrast, record.hook, record.marks, record.edition);
        hold!(now == (contrast, start.hook, marks, start.edition), "{part:?} changed {now:?}");
    }
    let other = (record.contrast, record.hook, record.marks, record.edition);
    keys::call(&mut record, &[1, 700, 701], &[3, 255, 131], &mut [0; 4]);
    script::second(&mut record);
    hold!(other == (record.contrast, record.hook, record.marks, record.edition), "keys and seconds");
    Ok(())
}

/// The fields that an obeyed frame of the sister may change, by the letters of
/// her note; `but` stands before those that it may not.
fn changed_by(body: &[u8]) -> &'static str {
    let digit = body.last().is_some_and(u8::is_ascii_digit);
    match body {
        [.., b'?'] if body[0] != b'G' && !body.starts_with(b"IK") => "",
        b"&00" => "but sister,Time1,Time2,contrast,brightness,speaker volume,duration",
        b"&D" => "text,large line,row,column",
        b"&K" => "text,large line",
        b"IDMD" | b"IDME" => "display",
        b"IEe" | b"IEs" => "keypad flag",
        b"IEc" => "keypad flag,left",
        b"IER" => "left",
        [b'I', b'E', ..] if digit && body != b"IE0" => "duration",
        [b'I', b'D', ..] => "text mode,overlay,row,column",
        [b'&', b'C', ..] => "cursor shown",
        [b'&', b'H', ..] => "row,column",
        b"IK0" => "left label length,left label codes,right label length,right label codes",
        [b'I', b'K', b'1', ..] => "left label length,left label codes",
        [b'I', b'K', b'2', ..] => "right label length,right label codes",
        [b'G', ..] => "picture",
        [b'I', letter, ..] => match letter {
            b'A' => "contrast",
            b'B' => "buzzer",
            b'E' => "backlight mode,left,PWM",
            b'F' => "icon F",
            b'J' | b'L' => "volume which,volume level,hidden",
            b'M' => "mute,hidden",
            b'N' => "brightness",
            b'P' => "icon P",
            b'R' => "icon R",
            b'S' => "icon S",
            b'T' => "Time1,Time2",
            b'U' => "icon U",
            b'V' => "speaker volume",
            b'W' => "icon W",
            b'Z' => "inverse mark",
            _ => "",
        },
        _ => "",
    }
}

/// Each part of a stream changes what it is there for and nothing beside it; a
/// frame that is not obeyed changes nothing. The edition stays.
pub fn her_own_frames(seed: u64) -> Held {
    let mut rng = Dice::new(seed ^ 0x0F8, true);
    let mut record = random_record(seed, true);
    record.frame = NO_FRAME;
    let mut bytes = stream_of(&mut rng, 10);
    bytes.extend(asked(&mut rng, 10));
    for (part, _) in parting(&bytes) {
        let mut before = record.clone();
        let said = stream::take(&mut record, &part);
        let may = match &part {
            Part::Text(_) => "text,large line,column",
            Part::Closed(body) if judge(&before, body) == Verdict::Obeyed => changed_by(body),
            Part::Tail(_) => "frame state,frame length,frame bytes",
            _ => "",
        };
        let (but, may) = may.strip_prefix("but ").map_or((false, may), |others| (true, others));
        for (number, row) in FIELDS.iter().enumerate() {
            let same = contents(&mut before, number as u16) == contents(&mut record, number as u16);
            hold!(same || may.split(',').any(|name| name == row.name) != but, "{part:?} changed {}", row.name);
        }
        let ended = said.is_empty() || said.ends_with(b"\r\n");
        hold!(ended && in_range(&record), "{part:?} leaves the range, or says {said:?}");
    }
    Ok(())
}

/// A restart stands for the record of power-on with six numbers of before; what
/// comes behind it is read on from there.
pub fn restarts(seed: u64) -> Held {
    let mut rng = Dice::new(seed ^ 0x0F9, true);
    let start = random_record(seed, true);
    let (before, behind) = (stream_of(&mut rng, 4), stream_of(&mut rng, 4));
    // An open frame is abandoned by the ESC of the restart.
    let (first, said) = with_room_for_all(&start, &[&before[..], &[ESC]].concat());
    let mut wanted = sister_power_on();
    for name in ["Time1", "Time2", "contrast", "brightness", "speaker volume", "duration"] {
        let number = field(name);
        crate::fields::set(&mut wanted, number, 0, crate::fields::get(&first, number));
    }
    let (again, nothing) = with_room_for_all(&first, b"&00\r");
    hold!(again == wanted && nothing.is_empty() && in_range(&again), "the record after a restart");
    let (end, more) = with_room_for_all(&wanted, &behind);
    let whole = [&before[..], b"\x1B&00\r", &behind].concat();
    hold!(with_room_for_all(&start, &whole) == (end, [said, more].concat()), "the bytes behind a restart");
    Ok(())
}

/// No call but S and power-on changes the edition or takes a record out of its
/// range; and one that refuses a record leaves it.
pub fn stays_in_range(seed: u64, sister: bool) -> Held {
    for (call, before, _) in generate::calls(3 * seed + u64::from(sister), 150, "ZPSFKCHR") {
        let mut after = before.clone();
        script::perform(&mut after, &call);
        if "ZPS".contains(script::letter(&call)) {
            continue;
        }
        hold!(in_range(&before) || before == after, "{call:?} changes what it refuses");
        hold!(in_range(&before) == in_range(&after), "{call:?} leaves the range");
        hold!(before.edition.sister == after.edition.sister, "{call:?} changes the edition");
    }
    Ok(())
}

/// The sister's key log once more, by the set of keys that are down.
pub fn her_log_by_sets(seed: u64) -> Held {
    let mut rng = Rng::new(seed ^ 0x107);
    let mut record = random_record(seed, true);
    (record.edition.keys, record.edition.ptt, record.hook) = (NO_KEYS, false, true);
    (record.time1, record.time2) = rng.pick(&[(0, 0), (4, 0), (4, 4), (12, 12)]);
    let mut down = std::collections::BTreeSet::new();
    let (mut wrong, mut long, mut since, mut now) = (false, false, 0_u16, rng.next() as u16);
    let few: Vec<u8> = (0..3).map(|_| rng.below(21) as u8).chain([21, 22]).collect();
    for _ in 0..200 {
        now = now.wrapping_add(rng.pick(&[0, 1, 39, 40, 41, 119, 120, 121]));
        let key = rng.pick(&few);
        let after = u32::from(now.wrapping_sub(since));
        let due = |time: u8| time > 0 && after >= 10 * u32::from(time);
        let byte = rng.pick(&[key, 128 + key, 255, 255]);
        let text = match byte {
            255 if down.len() == 1 && !wrong && due(if long { record.time2 } else { record.time1 }) => {
                let event = if long { 'r' } else { 'l' };
                (long, since) = (true, now);
                down.iter().map(|key| (char::from(keys::SIGNS[usize::from(*key)]), event)).next()
            }
            255 => None,
            0..=20 => {
                let (first, new) = (down.is_empty(), down.insert(byte));
                let second = new && !first && !wrong;
                if first {
                    (long, since) = (false, now);
                }
                wrong |= second;
                let sign = char::from(keys::SIGNS[usize::from(byte)]);
                first.then_some((sign, 's')).or(second.then_some(('F', 'x')))
            }
            128..=148 => {
                let was = down.remove(&(byte - 128));
                let told = was && !wrong;
                wrong &= !down.is_empty();
                told.then_some((char::from(keys::SIGNS[usize::from(byte - 128)]), 'e'))
            }
            _ => {
                let (sign, now) = (if byte % 128 == 21 { 'H' } else { 'P' }, byte < 128);
                let was = if sign == 'H' { !record.hook } else { record.edition.ptt };
                (was != now).then_some((sign, if now { 's' } else { 'e' }))
            }
        };
        let wanted = text.map_or(String::new(), |(sign, event)| format!("\x1BK{sign}{event}\r\n"));
        let mut room = [7; 6];
        let (number, used, written) = keys::call(&mut record, &[now], &[byte], &mut room);
        hold!((number, used) == (0, 1) && room[..written] == *wanted.as_bytes(), "{byte} at {now}: {wanted:?}");
    }
    Ok(())
}

/// The clearing of a line, in every mode, row and column.
pub fn lines_cleared(seed: u64, sister: bool) -> Held {
    let mut rng = Rng::new(seed ^ 0xC1E);
    let mut start = random_record(seed, sister);
    start.frame = NO_FRAME;
    start.overlay = rng.pick(&OVERLAYS);
    for code in start.text.iter_mut().chain(&mut start.line) {
        if !rng.one_in(4) {
            *code = rng.between(0x21, 0xFF) as u8;
        }
    }
    for (mode, rows, end) in [(0, 4, 16), (1, 4, 16), (5, 5, 16), (6, 5, 16), (10, 1, 24)] {
        for (row, column) in (0..rows).flat_map(|row| (0..=end).map(move |column| (row, column))) {
            start.mode = mode;
            (start.row, start.column) = (row, column);
            let frame: &[u8] = if sister { b"\x1B&K\r" } else { b"\x1B[K\r" };
            let (record, said) = with_room_for_all(&start, frame);
            let mut wanted = start.clone();
            for place in column..end {
                match mode {
                    10 => wanted.line[usize::from(place)] = b' ',
                    _ => wanted.text[usize::from(16 * row + place)] = b' ',
                }
            }
            hold!(record == wanted && said.is_empty(), "[K at {row} {column} in mode {mode}");
        }
    }
    Ok(())
}

/// Marks are seen in the row and in every column of a text row, and nowhere
/// else; without them the rest is the same.
pub fn marks_seen(seed: u64) -> Held {
    let mut rng = Rng::new(seed ^ 0x3A7);
    let mut plain = record_to_see(&mut rng, seed);
    plain.marks = [false; TEXT_ROWS];
    let phase = rng.pick(&PHASES);
    for marked in 0..TEXT_ROWS {
        let mut record = plain.clone();
        record.marks[marked] = true;
        for row in 0..7 {
            let with_mark = |owner: Owner| match owner {
                Owner::Text { row, codes, .. } => Owner::Text { row, codes, mark: usize::from(row) == marked },
                other => other,
            };
            let (number, owner) = seen::row(&plain, row, phase);
            hold!(seen::row(&record, row, phase) == (number, with_mark(owner)), "mark {marked} in row {row}");
            for column in 0..96 {
                let there = match seen::column(&plain, row, column, phase) {
                    (0, Column::Text { row, code, .. }) => Column::Text { row, code, mark: usize::from(row) == marked },
                    (_, other) => other,
                };
                hold!(seen::column(&record, row, column, phase) == (0, there), "mark {marked} at {row} {column}");
            }
        }
    }
    Ok(())
}

/// The part that lies at these places, its bytes taken from the stream.
fn part_of(bytes: &[u8], place: usize, found: &Found) -> Option<Part> {
    let body = bytes.get(found.body..found.body_end)?.to_vec();
    let frame = bytes[place] == ESC && found.body == place + 1;
    let byte = body.is_empty() && found.end == place + 1 && found.body == found.end;
    match found.kind {
        Kind::None => None,
        Kind::Text => byte.then_some(Part::Text(bytes[place])),
        Kind::Skipped => byte.then_some(Part::Skipped(bytes[place])),
        Kind::Closed => (frame && found.end == found.body_end + 1).then_some(Part::Closed(body)),
        Kind::Abandoned => (frame && found.end == found.body_end).then_some(Part::Abandoned(body)),
        Kind::Tail => (frame && found.end == found.body_end).then_some(Part::Tail(body)),
    }
}

/// From every place the parts follow one another to the end of the stream.
/// They are those of the parting of the bytes from there on.
pub fn parts_by_place(seed: u64) -> Held {
    let mut rng = Dice::new(seed ^ 0xD11, seed % 3 == 0);
    let bytes = parted(&mut rng);
    let past = bytes.len() + 2;
    let places: Vec<usize> = match past {
        0..=400 => (0..=past).collect(),
        _ => (0..40).map(|_| rng.below(past + 1)).collect(),
    };
    for place in places {
        let rest = parting(bytes.get(place..).unwrap_or(&[]));
        let found = parts_from(&bytes, place);
        let mut at = place;
        for ((part, behind), found) in rest.iter().zip(&found) {
            hold!(
                part_of(&bytes, at, found).as_ref() == Some(part) && found.end == place + behind,
                "from {place} on, {found:?} at {at}"
            );
            at = found.end;
        }
        let none = Found { kind: Kind::None, end: at, body: at, body_end: at };
        let ended = at == bytes.len().max(place) && found.last() == Some(&none);
        hold!(found.len() == rest.len() + 1 && ended, "the parts from {place} on end at {at}");
    }
    Ok(())
}

/// Taking the parts by their places, each frame by its verdict, gives what the
/// stream call gives.
pub fn parts_make_the_call(seed: u64, sister: bool) -> Held {
    let mut rng = Dice::new(seed ^ 0xD12, sister);
    let start = random_record(seed, sister);
    let offered = match rng.one_in(3) {
        true => parted(&mut rng),
        false => stream_of(&mut rng, 8),
    };
    let bytes = [stream::standing(&start.frame), offered.clone()].concat();
    let mut record = start.clone();
    record.frame = NO_FRAME;
    let mut said = vec![];
    let mut place = 0;
    for found in parts_from(&bytes, 0) {
        let body = &bytes[found.body..found.body_end];
        match found.kind {
            Kind::None | Kind::Skipped => (),
            Kind::Text => commands::text(&mut record, bytes[place]),
            Kind::Abandoned => said.extend(mark(sister)),
            Kind::Tail => drop(stream::take(&mut record, &Part::Tail(body.to_vec()))),
            Kind::Closed => match (judge(&record, body), spelt(sister, body)) {
                (Verdict::PassedOver(_), Some(_)) => (),
                (Verdict::Obeyed, Some(good)) => {
                    said.extend(commands::answer(&record, &good));
                    commands::take(&mut record, &good);
                }
                _ => said.extend(mark(sister)),
            },
        }
        place = found.end;
    }
    hold!((record, said) == with_room_for_all(&start, &offered), "the parts make another call");
    Ok(())
}

/// Two records of one text mode that are unlike in every field which a frame
/// can change: an obeyed frame that is no question changes one of them at
/// least.
fn unlike(mode: u8, sister: bool) -> [Record; 2] {
    let plain = Record { mode, ..if sister { sister_power_on() } else { power_on() } };
    let hers = Edition { brightness: 1, speaker: 1, pwm: false, ptt: true, ..plain.edition };
    let other = Record {
        display: false,
        overlay: 11,
        shown: true,
        row: u8::from(mode != LARGE),
        column: 2,
        text: [b'x'; TEXT_ROWS * CODES],
        line: [b'x'; LINE],
        left: label_of(b"x"),
        right: label_of(b"x"),
        picture: [1; 7 * COLUMNS],
        icons: [1; 6],
        volume: Volume { which: 1, level: 1, mute: true, hidden: false },
        time1: 5,
        time2: 4,
        buzzer: 1,
        backlight: Backlight { mode: 2, duration: 2, left: 1, keypad: true },
        contrast: 1,
        hook: false,
        marks: [true, false, false, false, false],
        edition: if sister { hers } else { FIRST },
        ..plain.clone()
    };
    [plain, other]
}

/// The verdict says what the stream call does to a whole frame. The verdicts of
/// the first edition rest on the text mode alone.
pub fn verdict_comes_true(seed: u64, sister: bool) -> Held {
    let mut rng = Dice::new(seed ^ 0xD13, sister);
    for body in (0..40).map(|_| judged(&mut rng)) {
        if body.contains(&ESC) || body.contains(&CR) {
            // No whole frame has such bytes.
            let bad = MODES.iter().all(|&mode| judge(&unlike(mode, sister)[0], &body) == Verdict::Bad);
            hold!(bad && verdict(&body, 5) == Verdict::Bad, "{body:?} is good");
            continue;
        }
        let bytes = [&[ESC], &body[..], &[CR]].concat();
        let questions: &[&str] = match sister {
            false => &["IA", "IH", "&V"],
            true => &["&H?", "&V?", "KH?", "KP?", "IA?", "IDM?", "IE?", "IN?", "IT?", "IV?"],
        };
        let question = questions.iter().any(|form| form.as_bytes() == body);
        for mode in MODES {
            let records = unlike(mode, sister);
            let told = records.clone().map(|record| judge(&record, &body));
            let ends = records.clone().map(|record| with_room_for_all(&record, &bytes));
            let same = [0, 1].map(|at| ends[at].0 == records[at]);
            for at in [0, 1] {
                let said = &ends[at].1;
                let true_now = match told[at] {
                    Verdict::Bad | Verdict::Refused => same[at] && said == mark(sister),
                    Verdict::PassedOver(_) => same[at] && said.is_empty(),
                    Verdict::Obeyed if question => same[at] && said.len() > 3,
                    Verdict::Obeyed => said.is_empty(),
                };
                hold!(true_now, "{body:?} in mode {mode}: {:?}", told[at]);
                let first = sister || told[at] == verdict(&body, script::rows_of_verdict(mode));
                hold!(first && (sister || told[at] != Verdict::Refused), "{body:?}: two verdicts");
            }
            hold!(
                question || told != [Verdict::Obeyed; 2] || same != [true; 2],
                "{body:?} in mode {mode} does nothing"
            );
        }
    }
    Ok(())
}

/// A record with what a refusal goes by in all ways: steps at the ends of their
/// range and beside them, the light in each of its modes, any text mode.
fn about_to_refuse(rng: &mut Rng, start: &Record) -> Record {
    let mut record = start.clone();
    (record.mode, record.row, record.column) = (rng.pick(&MODES), 0, 0);
    if record.edition.sister {
        record.contrast = rng.pick(&[0, 1, 19, 20]);
        (record.edition.brightness, record.edition.speaker) = rng.pick(&[(0, 7), (1, 6), (99, 1), (100, 0)]);
        (record.backlight.mode, record.edition.pwm) =
            rng.pick(&[(0, false), (1, false), (2, false), (2, false), (1, true), (2, true)]);
        record.backlight.left = 0;
    }
    record
}

/// What a judgement says is what the stream call then does with the frame: a
/// bad one and a refused one get the mark and change nothing, one passed over is
/// met with silence and changes nothing. The judgement itself changes nothing,
/// no frame that is open plays a part in it, and it refuses the records that the
/// stream call refuses.
pub fn judgement_comes_true(seed: u64, sister: bool) -> Held {
    // Those that the record's state may refuse, and those that go by its mode.
    const STEPS: [&str; 9] = ["IA+", "IA-", "IN+", "IN-", "IV+", "IV-", "IEe", "IEc", "IEs"];
    const ROWS: [&str; 5] = ["[3;0H", "[4;0H", "[0;16H", "IZ4", "IZ5"];
    let mut rng = Dice::new(seed ^ 0xD15, sister);
    let mut other = Dice::new(seed ^ 0xD16, !sister);
    let start = random_record(seed, sister);
    let frames = [0, 1, 2].map(|state| Frame { state, ..NO_FRAME });
    let mut counts = [0; 4];
    for _ in 0..80 {
        let record = about_to_refuse(&mut rng, &start);
        let body = match rng.below(9) {
            0 | 1 => rng.pick(&STEPS).into(),
            2 => respelt(sister, rng.pick(&ROWS)),
            3 => judged(&mut other),
            _ => judged(&mut rng),
        };
        let ask = |record: &Record| {
            let mut after = record.clone();
            let answer = script::perform(&mut after, &Call::Judgement { body: body.clone() });
            (answer, after == *record)
        };
        let (answer, kept) = ask(&record);
        let (Answer::Judgement(Some(told)), true) = (&answer, kept) else {
            return Err(format!("{body:?}: {answer:?}"));
        };
        counts[match told {
            Verdict::Bad => 0,
            Verdict::PassedOver(_) => 1,
            Verdict::Obeyed => 2,
            Verdict::Refused => 3,
        }] += 1;
        let mut wrong = record.clone();
        wrong.icons[ICON_S] = 2;
        hold!(ask(&wrong) == (Answer::Judgement(None), true), "{body:?} on a record out of range");
        hold!(stream::call(&mut wrong, b"", &mut []) == (1, 0, 0), "a record out of range is fed");
        if body.contains(&ESC) || body.contains(&CR) {
            hold!(*told == Verdict::Bad, "{body:?} is no whole frame");
            continue;
        }
        let bytes = [&[ESC], &body[..], &[CR]].concat();
        for frame in frames {
            let open = Record { frame, ..record.clone() };
            hold!(ask(&open) == (answer.clone(), true), "{body:?} with a frame in the state {}", frame.state);
            let (after, said) = with_room_for_all(&open, &bytes);
            // The frame's own ESC abandons what is open.
            let before = if frame.state > 0 { mark(sister) } else { b"" };
            let said = said.strip_prefix(before).unwrap_or(b"nothing of what is open");
            let same = after == Record { frame: NO_FRAME, ..record.clone() };
            let came_true = match told {
                Verdict::Bad | Verdict::Refused => same && said == mark(sister),
                Verdict::PassedOver(_) => same && said.is_empty(),
                Verdict::Obeyed => said != mark(sister),
            };
            hold!(came_true, "{body:?}: {told:?}, and then {said:?}");
        }
    }
    hold!(sister || counts[3] == 0, "the first edition refuses a good frame");
    hold!(!counts[..3].contains(&0), "too few frames to tell: {counts:?}");
    Ok(())
}

/// Whether a number is in the range that the papers have for these letters
/// where a frame can name so many rows: read from the papers once more, so that
/// the table of commands is held against it.
fn number_fits(letters: &str, n: u16, rows: u16) -> bool {
    match letters {
        "ID" => n < 2 || n == 5 || n == 6 || (10..19).contains(&n),
        "IS" | "IR" | "IM" => n < 2,
        "IU" => n < 2 || n == 255,
        "IF" => n < 7,
        "IP" => n < 20,
        "IW" => n < 4,
        "IL" | "IJ" | "II" => n < 11,
        "IB" | "IE" => n < 256,
        "IA" => n > 0 && n < 21,
        "IZ" => n < rows + 1,
        _ => false,
    }
}

/// The same of the sister's frames.
fn her_number_fits(letters: &str, n: u16, rows: u16) -> bool {
    match letters {
        "&C" | "IS" | "IR" | "IM" => n < 2,
        "IDM" => n < 13,
        "IA" => n > 0 && n < 21,
        "IB" => n < 256,
        "IE" => n < 251,
        "IF" => n < 7,
        "IJ" | "IL" => n < 11,
        "IN" => n < 101,
        "IP" => n < 20,
        "IU" => n < 3,
        "IV" => n < 8,
        "IW" => n < 4,
        "IZ" => n < rows + 1,
        _ => false,
    }
}

/// The verdicts of the sister's frames with one number, and with two. With
/// both times 0 the keys send no more than their first and last message.
pub fn her_verdicts_of_numbers() -> Held {
    let many: Vec<u16> = (0..60).chain([99, 250, 251, 255, 256, 999]).collect();
    for (mode, rows) in [(0, 4), (1, 4), (5, 5), (6, 5), (10, 0)] {
        let record = Record { mode, ..sister_power_on() };
        let check = |body: String, wrong: Option<u16>| {
            let wanted = wrong.map_or(Verdict::Obeyed, Verdict::PassedOver);
            match judge(&record, body.as_bytes()) {
                told if told == wanted => Ok(()),
                told => Err(format!("{body} in mode {mode}: {told:?}")),
            }
        };
        for command in number_commands(true).into_iter().filter(|command| command.ranges().len() == 1) {
            let letters = String::from_utf8(command.spell::<u16>(&[], &[])).unwrap_or_default();
            for n in 0..1000 {
                check(format!("{letters}{n}"), (!her_number_fits(&letters, n, rows)).then_some(n))?;
            }
        }
        for (a, b) in many.iter().flat_map(|&a| many.iter().map(move |&b| (a, b))) {
            let column = (b > 15).then_some(b);
            check(format!("&H{a};{b}"), if a < rows { column } else { Some(a) })?;
            let time2 = (b != 0 && !(4..=50).contains(&b)).then_some(b);
            let time1 = (4..=50).contains(&a) || (a == 0 && b == 0);
            check(format!("IT{a};{b}"), if time1 { time2 } else { Some(a) })?;
        }
    }
    Ok(())
}

/// The sister's commands with all numbers 0 to 300 have one reading each, their
/// own; and no frame of hers that the first edition does not know is good there,
/// nor the other way round, unless it is one of those that both have.
pub fn her_commands_read_back() -> Held {
    const BOTH: &str = "IS IU IF IR IP IW IL IJ IM IB IE IA IZ";
    for (sister, command) in [false, true].into_iter().flat_map(|s| table(s).iter().map(move |c| (s, c))) {
        let count = command.ranges().len();
        let most = |place: usize| if count > place { 300 } else { 0 };
        let rest: &[u8] = if command.name == "Picture" { b"00" } else { b"" };
        for (a, b) in (0..=most(0)).flat_map(|a| (0..=most(1)).map(move |b| (a, b))) {
            let (a, b) = (if command.has_number() { a } else { a % 10 }, b);
            let body = command.spell(&[a, b][..count], rest);
            let own = readings(sister, &body);
            let one = own.len() == 1 && own[0].command == command && own[0].numbers == [a, b][..count];
            hold!(one, "{body:?} reads back as {own:?}");
            let text = String::from_utf8_lossy(&body).into_owned();
            let letters = text.trim_end_matches(|sign: char| sign.is_ascii_digit());
            let shared = (BOTH.split(' ').any(|both| both == letters) && text != letters)
                || ["IK", "Gr"].contains(&&text[..2])
                || (letters.starts_with("IT") && text.contains(';'))
                || ["&D", "IEE", "IEA", "IES", "IER", "IEe"].contains(&&text[..]);
            hold!(readings(!sister, &body).len() == usize::from(shared), "{text} in the other edition");
        }
    }
    Ok(())
}

/// The verdicts of frames with one number, and with two: the number that is
/// told is the first out of range.
pub fn verdicts_of_numbers() -> Held {
    let check = |body: String, mode: u8, wrong: Option<u16>| {
        let wanted = wrong.map_or(Verdict::Obeyed, Verdict::PassedOver);
        match verdict(body.as_bytes(), script::rows_of_verdict(mode)) {
            told if told == wanted => Ok(()),
            told => Err(format!("{body} in mode {mode}: {told:?}")),
        }
    };
    let one = number_commands(false).into_iter().filter(|command| command.ranges().len() == 1);
    let letters: Vec<Vec<u8>> = one.map(|command| command.spell::<u16>(&[], &[])).collect();
    let many: Vec<u16> = (0..60).chain([99, 255, 256, 999]).collect();
    for (mode, rows) in [(0, 4), (1, 4), (5, 5), (6, 5), (10, 0), (2, 5), (255, 5)] {
        for letters in letters.iter().map(|letters| std::str::from_utf8(letters).unwrap_or("")) {
            for n in 0..1000 {
                let wrong = (!number_fits(letters, n, rows)).then_some(n);
                check(format!("{letters}{n}"), mode, wrong)?;
            }
        }
        for row in 0..10 {
            check(format!("Gr{row},00z"), mode, (row > 6).then_some(row))?;
        }
        for (a, b) in many.iter().flat_map(|&a| many.iter().map(move |&b| (a, b))) {
            let column = (b > 15).then_some(b);
            let wrong = if a < rows { column } else { Some(a) };
            check(format!("[{a};{b}H"), mode, wrong)?;
            let time2 = (b != 0 && !(4..=50).contains(&b)).then_some(b);
            let wrong = if (4..=50).contains(&a) { time2 } else { Some(a) };
            check(format!("IT{a};{b}"), mode, wrong)?;
        }
    }
    Ok(())
}

/// The listings of a stream tell of the same frames, and of as many question
/// marks as the stream call gives.
pub fn listings(seed: u64, sister: bool) -> Held {
    let mut rng = Dice::new(seed ^ 0xD14, sister);
    let bytes = stream_of(&mut rng, 20);
    let start = if sister { sister_power_on() } else { power_on() };
    let (parts, verdicts) = (list_parts(&bytes), list_verdicts(&start, &bytes));
    let place = |line: &str| line.split(' ').next().map(str::to_string);
    let closed = parts.lines().filter(|line| line.contains(" closed "));
    let same = closed.map(place).eq(verdicts.lines().map(place));
    let bad = verdicts.lines().filter(|line| line.ends_with(" bad") || line.ends_with(" refused")).count();
    let abandoned = parts.lines().filter(|line| line.contains(" abandoned "));
    let answers = stream::answers(&start, &bytes);
    let marks = answers.iter().filter(|(_, said)| said[..] == *mark(sister));
    hold!(same && bad + abandoned.count() == marks.count(), "the listings differ");
    Ok(())
}

/// The n of a frame IDn, by its digits.
fn number_of_mode(body: &[u8]) -> Option<u16> {
    let digits = std::str::from_utf8(body.strip_prefix(b"ID")?).ok()?;
    let n: u16 = digits.parse().ok()?;
    (n < 1000 && n.to_string() == digits).then_some(n)
}

/// The rules of a choice screen in one pass, with a record: a later screen
/// empties its labels, so what it has when they are looked at was set since.
fn choice_in_one_pass(bytes: &[u8]) -> Option<Broken> {
    let mut record = power_on();
    let mut waits = false;
    let mut place = 0;
    for found in parts_from(bytes, 0) {
        let body = &bytes[found.body..found.body_end];
        let closed = found.kind == Kind::Closed;
        let mode = number_of_mode(body).filter(|_| closed);
        let looked = mode.is_some() || matches!(found.kind, Kind::Text | Kind::None);
        let lacks = record.left.length == 0 || record.right.length == 0;
        // An abandoned frame is answered at the ESC of the next.
        let mut offered = bytes[place..found.end].to_vec();
        if found.kind == Kind::Abandoned {
            offered.push(ESC);
        }
        let (after, said) = with_room_for_all(&record, &offered);
        let broken = [
            place == 0 && !(closed && [&b"ID0"[..], b"ID5"].contains(&body)),
            waits && looked && lacks,
            said == [QUESTION],
            found.kind != Kind::Abandoned && after.frame != NO_FRAME,
        ];
        if let Some(rule) = (1..).zip(broken).find_map(|(rule, b)| b.then_some(rule)) {
            let offset = place;
            return Some(Broken { rule, offset });
        }
        record = after;
        waits &= !looked;
        if place > 0 && matches!(mode, Some(0 | 1 | 5 | 6 | 10)) {
            waits = true;
            (record.left, record.right) = (NO_LABEL, NO_LABEL);
        }
        place = found.end;
    }
    None
}

/// The rules set out over the parts say what one pass says; and a stream that
/// keeps them gets no question mark and leaves no frame open.
pub fn choices_in_one_pass(seed: u64) -> Held {
    let mut rng = Dice::new(seed ^ 0xE11, false);
    for bytes in (0..20).map(|_| choices(&mut rng)) {
        let told = choice::check(&bytes);
        let once = choice_in_one_pass(&bytes);
        hold!(told == once, "{told:?} and {once:?}");
        if told.is_none() {
            let marks = stream::answers(&power_on(), &bytes);
            let any = marks.iter().any(|(_, said)| said[..] == [QUESTION]);
            let (end, _) = with_room_for_all(&power_on(), &bytes);
            hold!(!any && end.frame == NO_FRAME, "yes to a stream that is not heard");
        }
    }
    Ok(())
}

/// A good frame that has no part in the rules, put between two parts, moves
/// the broken place and changes nothing else.
pub fn choices_with_others(seed: u64) -> Held {
    let mut rng = Dice::new(seed ^ 0xE12, false);
    for _ in 0..10 {
        let bytes = choices(&mut rng);
        let told = choice::check(&bytes);
        let parts = parts_from(&bytes, 0);
        let between: Vec<usize> =
            parts.iter().filter(|part| ![Kind::None, Kind::Tail].contains(&part.kind)).map(|part| part.end).collect();
        if between.is_empty() {
            continue;
        }
        let place = rng.pick(&between);
        let other: &[u8] =
            rng.pick(&[&b"\x1BIDD\r"[..], b"\x1BIA\r", b"\x1BIP20\r", b"\x1B[9;99H\r", b"\x1B&#\r", b"\x1BGr0,00z\r"]);
        let with = [&bytes[..place], other, &bytes[place..]].concat();
        let wanted = told.map(|broken| Broken {
            rule: broken.rule,
            offset: match broken.offset {
                before if before < place => before,
                at => at + other.len(),
            },
        });
        hold!(choice::check(&with) == wanted, "{other:?} at {place}: {wanted:?}");
    }
    Ok(())
}

/// Every row of up to five frames that have to do with the rules, and of text
/// and a bad frame, behind a first screen or not: the rules and one pass agree,
/// and rule 1 breaks at 0 alone.
pub fn short_choices() -> Held {
    let frames: [&[u8]; 10] = [
        b"\x1BID0\r",
        b"\x1BID10\r",
        b"\x1BID11\r",
        b"\x1BID2\r",
        b"\x1BIK0\r",
        b"\x1BIK1a\r",
        b"\x1BIK2b\r",
        b"\x1BIK1\r",
        b"A",
        b"\x1BQ\r",
    ];
    for (first, most) in [(&b""[..], 4), (b"\x1BID5\r", 5)] {
        for count in 0..=most {
            for row in 0..10_usize.pow(count) {
                let place = |digit: u32| row / 10_usize.pow(digit) % 10;
                let frames = (0..count).map(|digit| frames[place(digit)]);
                let bytes: Vec<u8> = [first].into_iter().chain(frames).flatten().copied().collect();
                let told = choice::check(&bytes);
                let at_0 = told.is_some_and(|broken| broken.offset == 0);
                let rule_1 = told.is_some_and(|broken| broken.rule == 1);
                hold!(told == choice_in_one_pass(&bytes) && at_0 == rule_1, "{bytes:?}: {told:?}");
            }
        }
    }
    Ok(())
}

/// No frame can be read in two ways.
pub fn one_reading(seed: u64, sister: bool) -> Held {
    let mut rng = Dice::new(seed ^ 0x0E1, sister);
    let bytes = stream_of(&mut rng, 8);
    for (part, _) in parting(&bytes) {
        if let Part::Closed(body) = part {
            hold!(readings(sister, &body).len() <= 1, "two readings of {body:?}");
        }
    }
    Ok(())
}

/// What is written reads back in an edition: one closed frame and one skipped
/// LF.
fn reads_back(sister: bool, frame: &[u8], command: &str, numbers: &[u16], codes: &[u8]) -> Held {
    let parts: Vec<Part> = parting(frame).into_iter().map(|(part, _)| part).collect();
    let [Part::Closed(body), Part::Skipped(LF)] = &parts[..] else {
        return Err(format!("{command:?}: written {frame:?}"));
    };
    let all = readings(sister, body);
    let [good] = &all[..] else {
        return Err(format!("{command:?}: {} readings", all.len()));
    };
    hold!(
        good.is(command) && good.numbers == numbers && good.codes == codes,
        "{command:?} {numbers:?} reads back as {good:?}"
    );
    Ok(())
}

/// Every command with all numbers 0 to 300.
pub fn commands_read_back() -> Held {
    for number in 0..command_count() {
        let command = command(number);
        let count = command.ranges().len();
        let most = |place: usize| if count > place { 300 } else { 0 };
        for a in 0..=most(0) {
            for b in 0..=most(1) {
                let mut room = [0; 40];
                let (number, length) = writers::command(command, [a, b], &mut room);
                if number == 0 {
                    reads_back(false, &room[..length], command.name, &[a, b][..count], &[])?;
                }
            }
        }
    }
    Ok(())
}

/// Every kind of the sister's writer with all numbers 0 to 300: it writes what
/// the papers have in range and nothing else, what it writes reads back, and
/// where the text mode has five rows and no step is at its end she obeys it.
pub fn her_kinds_read_back() -> Held {
    let mut ready = Record { mode: 5, ..sister_power_on() };
    ready.edition.pwm = false;
    for kind in 0..=255 {
        let Some(command) = of_her_kind(kind) else {
            for numbers in [[0, 0], [1, 1], [4, 4]] {
                hold!(writers::her_command(kind, numbers, &mut [0; 40]) == (2, 0), "kind {kind}");
            }
            continue;
        };
        let count = command.ranges().len();
        let letters = String::from_utf8(command.spell::<u16>(&[], &[])).unwrap_or_default();
        let times = |n: u16| (4..=50).contains(&n);
        let fits = |a: u16, b: u16| match &letters[..] {
            "&H;" => a < 5 && b < 16,
            "IT;" => (times(a) && (times(b) || b == 0)) || (a == 0 && b == 0),
            _ => count == 0 || her_number_fits(&letters, a, 5),
        };
        let tried = |has: bool| if has { (0..=300).chain([511, 512, 65_535]).collect() } else { vec![0, 65_535] };
        let (firsts, seconds): (Vec<u16>, Vec<u16>) = (tried(count > 0), tried(count > 1));
        for (a, b) in firsts.iter().flat_map(|&a| seconds.iter().map(move |&b| (a, b))) {
            let mut room = [7; 40];
            let (number, length) = writers::her_command(kind, [a, b], &mut room);
            hold!(number == if fits(a, b) { 0 } else { 2 }, "kind {kind} with {a} and {b}: {number}");
            hold!(room[length..].iter().all(|&byte| byte == 7), "kind {kind} writes past its count");
            if number != 0 {
                continue;
            }
            reads_back(true, &room[..length], command.name, &[a, b][..count], &[])?;
            let body = &room[1..length - 2];
            hold!(judge(&ready, body) == Verdict::Obeyed, "{body:?} is not obeyed");
            let short = writers::her_command(kind, [a, b], &mut vec![7; length - 1]);
            hold!(short == (3, 0), "kind {kind} in a room that is too small");
        }
    }
    Ok(())
}

/// Labels and picture rows read back.
pub fn rows_read_back(seed: u64) -> Held {
    let mut rng = Rng::new(seed ^ 0x60D);
    let mut room = [0; 300];
    let length = rng.between(0, 7);
    let codes: Vec<u8> = (0..length).map(|_| rng.between(0x20, 0xFF) as u8).collect();
    for (side, command) in [(0, "LeftLabel"), (1, "RightLabel")] {
        let (number, length) = writers::label(side, &codes, &mut room);
        hold!(number == 0, "label {codes:?} gives {number}");
        for sister in [false, true] {
            reads_back(sister, &room[..length], command, &[], &codes)?;
        }
    }
    let row = rng.below(7) as u8;
    let mut columns: Vec<u8> = vec![];
    for _ in 0..rng.between(1, 40) {
        let run = rng.pick(&[1, 1, 1, 2, 3, 25, 26, 27, 52, 53]);
        columns.extend(vec![rng.byte() & if row == 6 { 31 } else { 255 }; run]);
    }
    columns.truncate(rng.between(1, 96));
    let (number, length) = writers::picture(row, &columns, &mut room);
    hold!(number == 0, "picture gives {number}");
    reads_back(false, &room[..length], "Picture", &[row.into()], &columns)?;
    reads_back(true, &room[..length], "Picture", &[row.into()], &columns)
}

/// Cutting a key log elsewhere changes nothing.
pub fn log_cutting(seed: u64, sister: bool) -> Held {
    let mut rng = Rng::new(seed ^ 0x106);
    let start = random_record(seed, sister);
    let long = if sister { 6 } else { 1 };
    let entries = rng.between(1, 60);
    let mut now = rng.next() as u16;
    let (mut ticks, mut edges) = (vec![], vec![]);
    for _ in 0..entries {
        now = now.wrapping_add(rng.pick(&[0, 1, 39, 40, 119, 120, 121, 500, 40_000]));
        ticks.push(now);
        let key = if sister { rng.pick(&[0, 0, 1, 20, 21, 22]) } else { rng.below(3) as u8 };
        edges.push(rng.pick(&[key, 128 + key, 255, 255]));
    }
    let mut whole = start.clone();
    let mut all = vec![0; long * entries];
    let (_, used, written) = keys::call(&mut whole, &ticks, &edges, &mut all);
    hold!(used == entries, "log used {used} of {entries}");
    let mut cut = start;
    let mut sent: Vec<u8> = vec![];
    let mut from = 0;
    while from < entries {
        let to = (from + rng.below(9)).min(entries);
        let mut room = vec![0; rng.below(3 * long)];
        let (_, used, written) = keys::call(&mut cut, &ticks[from..to], &edges[from..to], &mut room);
        sent.extend(&room[..written]);
        from += used;
    }
    hold!(cut == whole && sent == all[..written], "cutting the log changed something");
    Ok(())
}

/// Two different good frames without picture data never mean the same
/// command; and what a writer writes for it is that very frame.
pub fn one_spelling(seed: u64, sister: bool) -> Held {
    let mut rng = Dice::new(seed ^ 0x0E5, sister);
    let mut bodies = close_bodies(&mut rng, 300);
    bodies.extend(parting(&stream_of(&mut rng, 40)).into_iter().filter_map(|(part, _)| match part {
        Part::Closed(body) if body.len() <= FRAME => Some(body),
        _ => None,
    }));
    let mut spelling: BTreeMap<String, Vec<u8>> = BTreeMap::new();
    let (mut again, mut refused) = (0, 0);
    for body in bodies {
        let Some(good) = spelt(sister, &body) else {
            refused += 1;
            continue;
        };
        if good.is("Picture") {
            continue;
        }
        let written = written(sister, &good);
        hold!(
            written.is_empty() || written == [&[ESC], &body[..], &[CR, LF]].concat(),
            "{body:?} is written {written:?}"
        );
        match spelling.get(&format!("{good:?}")) {
            Some(first) if *first == body => again += 1,
            Some(first) => return Err(format!("{first:?} and {body:?} mean {good:?}")),
            None => drop(spelling.insert(format!("{good:?}"), body)),
        }
    }
    hold!(again >= 20 && refused >= 20 && spelling.len() >= 20, "too few frames to tell");
    Ok(())
}

/// What an edition's writers write for a command; nothing where it is out of
/// range.
fn written(sister: bool, good: &Spelt) -> Vec<u8> {
    let (mut room, mut numbers) = ([0; 40], [0; 2]);
    numbers[..good.numbers.len()].copy_from_slice(&good.numbers);
    let kind = HER_KINDS.iter().find(|(_, name)| good.is(name));
    let (_, count) = match (good.command.name, kind) {
        ("LeftLabel", _) => writers::label(0, &good.codes, &mut room),
        ("RightLabel", _) => writers::label(1, &good.codes, &mut room),
        (_, Some((kind, _))) if sister => writers::her_command(*kind, numbers, &mut room),
        _ if sister => (2, 0),
        _ => writers::command(good.command, numbers, &mut room),
    };
    room[..count].to_vec()
}

/// A stream with no obeyed IT frame, read from two records that differ in
/// Time2 at most, gives the same answers and records that differ in Time2 at
/// most. An obeyed IT frame makes them equal.
pub fn time2_alone(seed: u64) -> Held {
    let mut rng = Dice::new(seed ^ 0x712, false);
    let start = if rng.one_in(3) { power_on() } else { random_record(seed, false) };
    let mut other = start.clone();
    other.time2 = rng.pick(&[0, 4, 12, 50]);
    if start == power_on() && rng.one_in(2) {
        other = former_power_on();
    }
    let times = |part: &Part| match part {
        Part::Closed(body) if body.len() <= FRAME => {
            spelt(false, body).is_some_and(|good| good.is("Times") && commands::obeyed(&start, &good))
        }
        _ => false,
    };
    let bytes = loop {
        let mut bytes = stream_of(&mut rng, 12);
        if rng.one_in(3) {
            bytes.extend(rng.pick(&[&b"\x1BIT3;4\r"[..], b"\x1BIT4;51\r", b"\x1BIT12;3\r\n"]));
        }
        let parts = stream::parts_of_call(&start, &bytes);
        if !parts.iter().any(|(part, _)| times(part)) {
            break bytes;
        }
    };
    let mut ends = [start.clone(), other.clone()].map(|mut record| {
        let mut answers = vec![0; LONGEST * bytes.len()];
        let counts = stream::call(&mut record, &bytes, &mut answers);
        (record, counts, answers)
    });
    let kept = ends[0].0.time2 == start.time2 && ends[1].0.time2 == other.time2;
    ends[1].0.time2 = start.time2;
    hold!(kept && ends[0] == ends[1], "Time2 changed something");
    ends[1].0.time2 = other.time2;
    let [first, second] = ends.map(|(mut record, _, _)| {
        stream::call(&mut record, b"\x1B\x1BIT20;8\r", &mut [0; 4]);
        record
    });
    hold!(first == second && first.time2 == 8, "an IT frame leaves them apart");
    Ok(())
}

/// The phase is seen in the SMS panel of the flashing letter alone: there the
/// pause shows what U 0 shows, and lit what U 1 shows.
pub fn phases(seed: u64, sister: bool) -> Held {
    let record = random_record(seed, sister);
    let mut letter = record.clone();
    letter.icons[ICON_U] = 255;
    for u in [0, 1] {
        let mut steady = record.clone();
        steady.icons[ICON_U] = u;
        let like = PHASES[usize::from(u == 0)];
        for row in 0..9 {
            let [lit, pause] = PHASES.map(|phase| seen::row(&steady, row, phase));
            hold!(lit == pause, "the phase changes U {u}");
            hold!(seen::row(&letter, row, like) == lit, "U 255 {like:?} isn't U {u}");
            if let (_, Owner::IconBar(bar)) = lit {
                hold!(seen::sms(&steady, Phase::Pause) == (0, bar.sms), "panel and icon bar");
            }
        }
        hold!(seen::sms(&letter, like) == seen::sms(&steady, Phase::Lit), "panel of U 255 {like:?}");
    }
    Ok(())
}

/// A record that shows the large line in half of all cases.
fn record_to_see(rng: &mut Rng, seed: u64) -> Record {
    let mut record = random_record(seed, seed % 3 == 0);
    record.display = !rng.one_in(8);
    record.overlay = rng.pick(&OVERLAYS);
    if rng.one_in(2) {
        (record.mode, record.row) = (LARGE, 0);
        record.column = rng.below(LINE + 1) as u8;
        let end = rng.below(LINE + 1);
        for (place, code) in record.line.iter_mut().enumerate() {
            *code = if place < end { rng.between(0x20, 0xFF) as u8 } else { 0x20 };
        }
    }
    record
}

/// What a row's answer says of one of its columns.
fn column_of_row(owner: &Owner, column: u8) -> Column {
    let (at, cell) = (usize::from(column), usize::from(column) / 6);
    let in_label = |label: &Label, cell: usize| match cell < usize::from(label.length) {
        true => label.codes[cell],
        false => 0,
    };
    match *owner {
        Owner::Nothing => Column::Nothing,
        Owner::IconBar(bar) => Column::IconBar(bar),
        Owner::Text { row, codes, mark } => Column::Text { row, code: codes[cell], mark },
        Owner::Picture { row, columns } => Column::Picture { row, dots: columns[at] },
        Owner::Small { codes } => Column::Small { code: codes[cell] },
        Owner::Big { half, codes } => Column::Big { half, code: codes[at / 12] },
        // Two labels of 42 columns leave twelve between them.
        Owner::SoftKeys { w, .. } | Owner::PictureWithRocker { w, .. } if at >= 42 && at < 96 - 42 => {
            Column::Rocker { w }
        }
        Owner::PictureWithRocker { row, columns, .. } => Column::Picture { row, dots: columns[at] },
        Owner::SoftKeys { left, .. } if at < 42 => Column::Left { cell: cell as u8, code: in_label(&left, cell) },
        Owner::SoftKeys { right, .. } => Column::Right { cell: cell as u8 - 9, code: in_label(&right, cell - 9) },
    }
}

/// The row question and the column question agree at every column; and a
/// display that is off shows nothing.
pub fn rows_and_columns(seed: u64) -> Held {
    let mut rng = Rng::new(seed ^ 0xC01);
    let record = record_to_see(&mut rng, seed);
    for phase in PHASES {
        for row in 0..7 {
            let (_, owner) = seen::row(&record, row, phase);
            hold!(record.display || owner == Owner::Nothing, "row {row} of a display off");
            if let Owner::PictureWithRocker { columns, .. } = &owner {
                hold!(columns[42..54] == [0; 12], "columns under the rocker");
            }
            for column in 0..96 {
                let there = seen::column(&record, row, column, phase);
                hold!(there == (0, column_of_row(&owner, column)), "row {row} column {column}: {there:?}");
            }
            hold!(seen::column(&record, row, 96, phase) == (4, Column::Nothing), "column 96");
        }
        hold!(seen::column(&record, 7, rng.below(96) as u8, phase) == (4, Column::Nothing), "row 7");
    }
    Ok(())
}

/// The cursor is no part of what is seen, but for the column in mode 10: up
/// to the last code of the line it changes nothing.
pub fn cursor_unseen(seed: u64) -> Held {
    let mut rng = Rng::new(seed ^ 0xC02);
    let record = record_to_see(&mut rng, seed);
    let mut other = record.clone();
    other.shown = !other.shown;
    if other.mode == LARGE {
        other.column = 0;
        let last = seen::codes_in_line(&other);
        if usize::from(record.column) <= last {
            other.column = rng.below(last + 1) as u8;
        } else {
            other.column = record.column;
        }
    } else {
        other.row = rng.below(rows(other.mode).unwrap_or(1).into()) as u8;
        other.column = rng.below(17) as u8;
    }
    for row in 0..7 {
        hold!(seen::row(&record, row, Phase::Lit) == seen::row(&other, row, Phase::Lit), "row {row} shows the cursor");
    }
    Ok(())
}

/// The large line as the note has it: eight big characters, and with each
/// one more the first of them is shifted to the small ones, until 24 stand.
pub fn shifting(seed: u64, sister: bool) -> Held {
    let mut rng = Rng::new(seed ^ 0x5F7);
    let mut record = random_record(seed, sister);
    let frames = |words: &str| -> Vec<u8> {
        let frame = |word: &str| [&[ESC], &respelt(sister, word)[..], &[CR]].concat();
        words.split(' ').flat_map(frame).collect()
    };
    record.frame = NO_FRAME;
    let feed = |record: &mut Record, bytes: &[u8]| {
        stream::call(record, bytes, &mut [0; 4]);
    };
    feed(&mut record, &frames("&# IDE ID10"));
    let seen_now = |record: &Record| {
        [1, 2, 3].map(|row| match seen::row(record, row, Phase::Lit) {
            (0, Owner::Small { codes }) => codes.to_vec(),
            (0, Owner::Big { half, codes }) if (half == Half::Upper) == (row == 2) => codes.to_vec(),
            _ => vec![],
        })
    };
    let (mut small, mut big): (Vec<u8>, Vec<u8>) = (vec![], vec![]);
    let mut all = vec![];
    for _ in 0..rng.below(31) {
        let code = rng.pick(&[0x20, b'1', b'z', 0xFF, 0x80]);
        feed(&mut record, &[code]);
        if all.len() < 24 {
            all.push(code);
            big.push(code);
            if big.len() > 8 {
                small.push(big.remove(0));
            }
        }
        let pad = |codes: &[u8], count: usize| {
            let mut codes = codes.to_vec();
            codes.resize(count, 0x20);
            codes
        };
        let wanted = [pad(&small, 16), pad(&big, 8), pad(&big, 8)];
        hold!(seen_now(&record) == wanted, "after {all:?}");
    }
    // Other modes keep the line; what is seen of it again ends with its last
    // code that is no blank.
    let line = record.line;
    feed(&mut record, &[frames("ID0 ID17"), b"text".to_vec(), frames("ID10")].concat());
    let end = all.iter().rposition(|&code| code != 0x20).map_or(0, |last| last + 1);
    let mut again = record.clone();
    again.line.fill(0x20);
    feed(&mut again, &all[..end]);
    hold!(record.line == line && seen_now(&record) == seen_now(&again), "the line isn't kept");
    Ok(())
}

type Check = fn(u64) -> Held;
type OfBoth = fn(u64, bool) -> Held;
type Once = fn() -> Held;

/// All checks that take no seed.
pub const ONCE: [(&str, Once); 6] = [
    ("short choices are judged in one pass", short_choices),
    ("commands read back", commands_read_back),
    ("a verdict tells the first number out of range", verdicts_of_numbers),
    ("the sister's commands read back", her_commands_read_back),
    ("what the sister's writer writes reads back", her_kinds_read_back),
    ("the sister's verdicts tell the first number out of range", her_verdicts_of_numbers),
];

/// All checks that take a seed.
pub const CHECKS: [(&str, Check); 13] = [
    ("a column takes two bytes at most", picture_data_short),
    ("contrast, hook and marks have their own frames", own_frames),
    ("what the sister keeps has its own frames", her_own_frames),
    ("a restart is read on from", restarts),
    ("the sister's keys by sets", her_log_by_sets),
    ("marks are seen in text rows alone", marks_seen),
    ("from any place the parts go on to the end", parts_by_place),
    ("a choice is judged in one pass", choices_in_one_pass),
    ("other frames are no part of a choice", choices_with_others),
    ("labels and pictures read back", rows_read_back),
    ("Time2 changes no stream", time2_alone),
    ("row and column questions agree", rows_and_columns),
    ("the cursor is not seen", cursor_unseen),
];

/// All checks that take a seed and an edition.
pub const BOTH: [(&str, OfBoth); 15] = [
    ("a cut at any place changes nothing", cut_anywhere),
    ("a call stops where an answer does not fit", stops),
    ("a call writes no more than the bound", bound_holds),
    ("the bound is reached", bound_reached),
    ("no call leaves the range or the edition", stays_in_range),
    ("a line is cleared from the cursor on", lines_cleared),
    ("the parts by their places make the call", parts_make_the_call),
    ("a verdict comes true", verdict_comes_true),
    ("a judgement comes true", judgement_comes_true),
    ("the listings tell of the same frames", listings),
    ("a frame has one reading", one_reading),
    ("cutting a key log elsewhere changes nothing", log_cutting),
    ("a command has one spelling", one_spelling),
    ("the phase changes the flashing letter alone", phases),
    ("the large line shifts as the note says", shifting),
];
