//! Scripts: one call a line, and what each call answers.

use crate::choice::{self, Broken};
use crate::commands::{self, COMMANDS};
use crate::fields::{backlight_in_range, contents, field, in_range, set, FIELDS};
use crate::grammar::Command;
use crate::places::{judgement, parts_from, verdict, Found, Verdict};
use crate::record::*;
use crate::seen::{self, Bar, Column, Owner, Phase, PHASES};
use crate::{keys, stream, writers};

/// Limits of a line.
pub const ROOM: u16 = 300;
pub const BYTES: usize = 4096;
pub const ENTRIES: usize = 1024;
pub const LENT: usize = 300;

/// The letters of the calls: how many bytes each has at least, and how many
/// more at most. The key log has entries of three bytes.
pub const LETTERS: [(char, usize, usize); 23] = [
    ('P', 0, 0),
    ('O', 0, 0),
    ('Z', 0, 0),
    ('S', 5, 0),
    ('R', 0, 0),
    ('F', 2, BYTES),
    ('N', 0, BYTES),
    ('D', 2, BYTES),
    ('J', 1, BYTES),
    ('I', 0, BYTES),
    ('E', 0, BYTES),
    ('K', 4, 3 * ENTRIES),
    ('C', 0, 0),
    ('H', 1, 0),
    ('B', 0, 0),
    ('Q', 2, 0),
    ('U', 3, 0),
    ('M', 1, 0),
    ('V', 0, 0),
    ('W', 7, 0),
    ('Y', 7, 0),
    ('T', 3, LENT),
    ('G', 3, LENT),
];

#[derive(Clone, PartialEq, Eq, Debug)]
pub enum Call {
    PowerOn,
    FormerPowerOn,
    SisterPowerOn,
    Set {
        field: u16,
        place: u16,
        value: u16,
    },
    InRange,
    Stream {
        room: u16,
        bytes: Vec<u8>,
    },
    /// The room that a stream call with these bytes can need.
    Bound {
        bytes: Vec<u8>,
    },
    /// The parts of a stream from a place on.
    Parts {
        place: u16,
        bytes: Vec<u8>,
    },
    /// The verdict of a frame in a text mode.
    Verdict {
        mode: u8,
        body: Vec<u8>,
    },
    /// The verdict of a frame if it came now, on the record.
    Judgement {
        body: Vec<u8>,
    },
    /// The check of a stream by the rules of a choice screen.
    Choice {
        bytes: Vec<u8>,
    },
    Keys {
        room: u16,
        ticks: Vec<u16>,
        edges: Vec<u8>,
    },
    Second,
    /// The hook call: 0 is off-hook, any other byte on-hook.
    Hook {
        on: u8,
    },
    Thin,
    Row {
        row: u8,
        phase: Phase,
    },
    Column {
        row: u8,
        column: u8,
        phase: Phase,
    },
    Sms {
        phase: Phase,
    },
    Volume,
    Command {
        room: u16,
        command: u16,
        numbers: [u16; 2],
    },
    /// The sister's command writer; she need not have the kind.
    HerCommand {
        room: u16,
        kind: u8,
        numbers: [u16; 2],
    },
    Label {
        room: u16,
        side: u8,
        codes: Vec<u8>,
    },
    Picture {
        room: u16,
        row: u8,
        columns: Vec<u8>,
    },
    /// A line that can't be taken, as it stands (an empty one among them).
    Other(Vec<u8>),
}

/// What a call answers, apart from the record.
#[derive(Clone, PartialEq, Eq, Debug)]
pub enum Answer {
    /// The record alone.
    Done,
    InRange(bool),
    Counts {
        number: u8,
        used: usize,
        written: usize,
        buffer: Vec<u8>,
    },
    Bound(u8, usize),
    Parts(Vec<Found>),
    Verdict(Verdict),
    /// None: the record is out of range.
    Judgement(Option<Verdict>),
    /// What is broken, if something is.
    Choice(Option<Broken>),
    Number(u8),
    Thin(u8, Backlight),
    Row(u8, Owner),
    Column(u8, Column),
    Sms(u8, u8),
    Volume(u8, u8, u8),
    Written {
        number: u8,
        count: usize,
        buffer: Vec<u8>,
    },
    What,
    /// An empty line: no answer.
    Silence,
}

// Reading a line.

/// The bytes of pairs of hexadecimal digits.
fn bytes(pairs: &[u8]) -> Option<Vec<u8>> {
    let digit = |byte: u8| char::from(byte).to_digit(16).map(|n| n as u8);
    pairs.chunks(2).map(|pair| Some(digit(pair[0])? * 16 + digit(*pair.get(1)?)?)).collect()
}

/// The call of a line.
pub fn parse(line: &[u8]) -> Call {
    let call = words(line).and_then(|(letter, bytes)| known(letter, &bytes));
    call.unwrap_or_else(|| Call::Other(line.to_vec()))
}

/// A letter and bytes.
pub fn words(line: &[u8]) -> Option<(char, Vec<u8>)> {
    match line {
        [letter] => Some((char::from(*letter), vec![])),
        [letter, b' ', pairs @ ..] => Some((char::from(*letter), bytes(pairs)?)),
        _ => None,
    }
}

fn known(letter: char, bytes: &[u8]) -> Option<Call> {
    let &(_, least, more) = LETTERS.iter().find(|(known, _, _)| *known == letter)?;
    let (head, rest) = bytes.split_at_checked(least).filter(|(_, rest)| rest.len() <= more)?;
    let rest = rest.to_vec();
    let pair = |place: usize| u16::from_be_bytes([head[place], head[place + 1]]);
    let room = || Some(pair(0)).filter(|&room| room <= ROOM);
    // 0 lit, 1 the pause; no other byte is a phase.
    let phase = || PHASES.get(usize::from(*head.last()?)).copied();
    Some(match letter {
        'P' => Call::PowerOn,
        'O' => Call::FormerPowerOn,
        'Z' => Call::SisterPowerOn,
        'R' => Call::InRange,
        'C' => Call::Second,
        'B' => Call::Thin,
        'V' => Call::Volume,
        'H' => Call::Hook { on: head[0] },
        'M' => Call::Sms { phase: phase()? },
        'Q' => Call::Row { row: head[0], phase: phase()? },
        'U' => Call::Column { row: head[0], column: head[1], phase: phase()? },
        'S' => {
            let (field, place, value) = (head[0].into(), pair(1), pair(3));
            let there = FIELDS.get(usize::from(field))?.places > usize::from(place);
            return there.then_some(Call::Set { field, place, value });
        }
        'F' => Call::Stream { room: room()?, bytes: rest },
        'N' => Call::Bound { bytes: rest },
        'D' => Call::Parts { place: pair(0), bytes: rest },
        'J' => Call::Verdict { mode: head[0], body: rest },
        'I' => Call::Judgement { body: rest },
        'E' => Call::Choice { bytes: rest },
        'K' => {
            let (ticks, edges) = rest.split_at_checked(2 * usize::from(pair(2)))?;
            let ticks: Vec<u16> = ticks.chunks(2).map(|t| u16::from_be_bytes([t[0], t[1]])).collect();
            let few = ticks.len() <= ENTRIES && edges.len() <= ENTRIES;
            let room = room().filter(|_| few)?;
            Call::Keys { room, ticks, edges: edges.to_vec() }
        }
        'W' => {
            let command = Some(u16::from(head[2])).filter(|&command| command < command_count())?;
            Call::Command { room: room()?, command, numbers: [pair(3), pair(5)] }
        }
        'Y' => Call::HerCommand { room: room()?, kind: head[2], numbers: [pair(3), pair(5)] },
        'T' => {
            let side = Some(head[2]).filter(|&side| side < 2)?;
            Call::Label { room: room()?, side, codes: rest }
        }
        'G' => Call::Picture { room: room()?, row: head[2], columns: rest },
        _ => return None,
    })
}

// Writing a line.

pub fn hex(bytes: &[u8]) -> String {
    const DIGITS: &[u8; 16] = b"0123456789ABCDEF";
    let digits = |byte: &u8| [byte >> 4, byte & 15].map(|n| char::from(DIGITS[usize::from(n)]));
    bytes.iter().flat_map(digits).collect()
}

/// A word, and bytes if there are some.
pub fn with_pairs(word: &str, bytes: &[u8]) -> String {
    match bytes {
        [] => word.to_string(),
        _ => format!("{word} {}", hex(bytes)),
    }
}

/// Numbers of two bytes each, high byte first.
fn pairs(numbers: &[usize]) -> Vec<u8> {
    numbers.iter().flat_map(|&n| (n as u16).to_be_bytes()).collect()
}

/// The line of a call, without its end.
pub fn line(call: &Call) -> Vec<u8> {
    let with = |room: &u16, head: &[u8], rest: &[u8]| [&room.to_be_bytes()[..], head, rest].concat();
    let bytes: Vec<u8> = match call {
        Call::Other(line) => return line.clone(),
        Call::Set { field, place, value } => [&[*field as u8][..], &place.to_be_bytes(), &value.to_be_bytes()].concat(),
        Call::Stream { room, bytes } => with(room, &[], bytes),
        Call::Parts { place, bytes } => with(place, &[], bytes),
        Call::Bound { bytes } | Call::Choice { bytes } | Call::Judgement { body: bytes } => bytes.clone(),
        Call::Verdict { mode, body } => [&[*mode][..], body].concat(),
        Call::Keys { room, ticks, edges } => {
            let all: Vec<usize> = [ticks.len()].into_iter().chain(ticks.iter().map(|&t| t.into())).collect();
            with(room, &pairs(&all), edges)
        }
        Call::Row { row, phase } => vec![*row, *phase as u8],
        Call::Column { row, column, phase } => vec![*row, *column, *phase as u8],
        Call::Sms { phase } => vec![*phase as u8],
        Call::Hook { on } => vec![*on],
        Call::Command { room, command, numbers } => with(room, &[*command as u8], &pairs(&numbers.map(usize::from))),
        Call::HerCommand { room, kind, numbers } => with(room, &[*kind], &pairs(&numbers.map(usize::from))),
        Call::Label { room, side, codes } => with(room, &[*side], codes),
        Call::Picture { room, row, columns } => with(room, &[*row], columns),
        _ => vec![],
    };
    with_pairs(&letter(call).to_string(), &bytes).into_bytes()
}

/// The letter of a call.
pub fn letter(call: &Call) -> char {
    match call {
        Call::PowerOn => 'P',
        Call::FormerPowerOn => 'O',
        Call::SisterPowerOn => 'Z',
        Call::Set { .. } => 'S',
        Call::InRange => 'R',
        Call::Stream { .. } => 'F',
        Call::Bound { .. } => 'N',
        Call::Parts { .. } => 'D',
        Call::Verdict { .. } => 'J',
        Call::Judgement { .. } => 'I',
        Call::Choice { .. } => 'E',
        Call::Keys { .. } => 'K',
        Call::Second => 'C',
        Call::Hook { .. } => 'H',
        Call::Thin => 'B',
        Call::Row { .. } => 'Q',
        Call::Column { .. } => 'U',
        Call::Sms { .. } => 'M',
        Call::Volume => 'V',
        Call::Command { .. } => 'W',
        Call::HerCommand { .. } => 'Y',
        Call::Label { .. } => 'T',
        Call::Picture { .. } => 'G',
        Call::Other(_) => 'X',
    }
}

// Calling.

/// The buffer lent to a call.
pub fn lent(room: u16) -> Vec<u8> {
    (0..usize::from(room)).map(|place| ((place * 7 + 3) % 256) as u8).collect()
}

/// Commands that the command writer knows.
pub fn command_count() -> u16 {
    COMMANDS.iter().take_while(|command| !command.has_rest()).count() as u16
}

/// The command with this number in a script.
pub fn command(number: u16) -> &'static Command {
    &COMMANDS[usize::from(number)]
}

/// Rows that a frame can name in the mode of a verdict. A mode that is none
/// has five: that is the driver's choice, for a number that no record in range
/// holds.
pub fn rows_of_verdict(mode: u8) -> u8 {
    match rows(mode) {
        Some(_) => rows_to_name(mode),
        None => TEXT_ROWS as u8,
    }
}

/// The thin entry: judges the backlight's own ranges, whosever it is.
pub fn thin(light: &mut Backlight) -> u8 {
    if !backlight_in_range(light) {
        return 1;
    }
    commands::second(light);
    0
}

/// A call that changes a record in range, and leaves another as it is.
fn on_record(record: &mut Record, change: impl Fn(&mut Record)) -> u8 {
    if !in_range(record) {
        return 1;
    }
    change(record);
    0
}

/// The second call on the record.
pub fn second(record: &mut Record) -> u8 {
    on_record(record, |record| commands::second(&mut record.backlight))
}

/// The hook call.
pub fn hook(record: &mut Record, on: bool) -> u8 {
    on_record(record, |record| record.hook = on)
}

fn powered(record: &mut Record, on: Record) -> Answer {
    *record = on;
    Answer::Done
}

/// Makes one call on the record.
pub fn perform(record: &mut Record, call: &Call) -> Answer {
    let counts = |(number, used, written), buffer| Answer::Counts { number, used, written, buffer };
    let written = |(number, count), buffer| Answer::Written { number, count, buffer };
    match call {
        Call::PowerOn => powered(record, power_on()),
        Call::FormerPowerOn => powered(record, former_power_on()),
        Call::SisterPowerOn => powered(record, sister_power_on()),
        Call::Set { field, place, value } => match set(record, *field, usize::from(*place), *value) {
            true => Answer::Done,
            false => Answer::What,
        },
        Call::InRange => Answer::InRange(in_range(record)),
        Call::Stream { room, bytes } => {
            let mut buffer = lent(*room);
            counts(stream::call(record, bytes, &mut buffer), buffer)
        }
        Call::Bound { bytes } => {
            let (number, bound) = stream::bound(record, bytes);
            Answer::Bound(number, bound)
        }
        Call::Parts { place, bytes } => Answer::Parts(parts_from(bytes, usize::from(*place))),
        Call::Verdict { mode, body } => Answer::Verdict(verdict(body, rows_of_verdict(*mode))),
        Call::Judgement { body } => Answer::Judgement(judgement(record, body)),
        Call::Choice { bytes } => Answer::Choice(choice::check(bytes)),
        Call::Keys { room, ticks, edges } => {
            let mut buffer = lent(*room);
            counts(keys::call(record, ticks, edges, &mut buffer), buffer)
        }
        Call::Second => Answer::Number(second(record)),
        Call::Hook { on } => Answer::Number(hook(record, *on != 0)),
        Call::Thin => {
            let mut light = record.backlight;
            Answer::Thin(thin(&mut light), light)
        }
        Call::Row { row, phase } => {
            let (number, owner) = seen::row(record, *row, *phase);
            Answer::Row(number, owner)
        }
        Call::Column { row, column, phase } => {
            let (number, column) = seen::column(record, *row, *column, *phase);
            Answer::Column(number, column)
        }
        Call::Sms { phase } => {
            let (number, panel) = seen::sms(record, *phase);
            Answer::Sms(number, panel)
        }
        Call::Volume => {
            let (number, panel, level) = seen::volume(record);
            Answer::Volume(number, panel, level)
        }
        Call::Command { room, command: n, numbers } => {
            let mut buffer = lent(*room);
            written(writers::command(command(*n), *numbers, &mut buffer), buffer)
        }
        Call::HerCommand { room, kind, numbers } => {
            let mut buffer = lent(*room);
            written(writers::her_command(*kind, *numbers, &mut buffer), buffer)
        }
        Call::Label { room, side, codes } => {
            let mut buffer = lent(*room);
            written(writers::label(*side, codes, &mut buffer), buffer)
        }
        Call::Picture { room, row, columns } => {
            let mut buffer = lent(*room);
            written(writers::picture(*row, columns, &mut buffer), buffer)
        }
        Call::Other(line) if line.is_empty() => Answer::Silence,
        Call::Other(_) => Answer::What,
    }
}

// Printing.

/// A line: a word and bytes.
fn put(out: &mut Vec<u8>, word: &str, bytes: &[u8]) {
    out.extend(with_pairs(word, bytes).into_bytes());
    out.push(LF);
}

/// The lines of a record: each has a word and fields, one after the other.
const PRINTED: [(&str, &str); 14] = [
    ("screen", "display,text mode,overlay,cursor shown,row,column"),
    ("labels", "left label length,right label length"),
    ("left", "left label codes"),
    ("right", "right label codes"),
    ("icons", "icon S,icon U,icon F,icon R,icon P,icon W,volume which,volume level,mute,hidden,buzzer"),
    ("backlight", "backlight mode,duration,left,keypad flag"),
    ("switches", "contrast,hook,inverse mark"),
    ("keys", "held,held key,held tick,stage,Time1,Time2"),
    (
        "edition",
        "sister,brightness,speaker volume,PWM,PTT,sister's stage,sister's key,sister's tick,sister's keys down",
    ),
    ("frame", "frame state,frame length"),
    ("bytes", "frame bytes"),
    ("text", "text"),
    ("line", "large line"),
    ("picture", "picture"),
];

/// The lines of a record that have these words.
fn print_lines(out: &mut Vec<u8>, record: &Record, words: &[&str]) {
    let mut record = record.clone();
    for (word, names) in PRINTED.iter().filter(|(word, _)| words.contains(word)) {
        let mut bytes = vec![];
        for name in names.split(',') {
            for value in contents(&mut record, field(name)) {
                let from = usize::from(!name.ends_with("tick"));
                bytes.extend(&value.to_be_bytes()[from..]);
            }
        }
        put(out, word, &bytes);
    }
}

pub fn print_record(out: &mut Vec<u8>, record: &Record) {
    print_lines(out, record, &PRINTED.map(|(word, _)| word));
}

fn put_bar(out: &mut Vec<u8>, bar: &Bar) {
    let (volume, level) = bar.volume;
    put(out, "icon bar", &[bar.f, bar.p, bar.r, bar.sms, volume, level]);
}

/// An owner, its row or half, its mark, and its cells. Text rows alone have
/// marks; half 0 is the upper one, 1 the lower.
fn put_owner(out: &mut Vec<u8>, owner: &Owner) {
    let (row, cells): ([u8; 3], &[u8]) = match owner {
        Owner::Nothing => return,
        Owner::IconBar(bar) => return put_bar(out, bar),
        Owner::SoftKeys { left, right, w } => {
            put(out, "soft keys", &[*w]);
            let labels = Record { left: *left, right: *right, ..power_on() };
            return print_lines(out, &labels, &["labels", "left", "right"]);
        }
        Owner::Text { row, codes, mark } => ([2, *row, u8::from(*mark)], codes),
        Owner::Picture { row, columns } => ([3, *row, 0], columns),
        Owner::Small { codes } => ([4, 0, 0], codes),
        Owner::Big { half, codes } => ([5, *half as u8, 0], codes),
        Owner::PictureWithRocker { row, columns, .. } => ([6, *row, 0], columns),
    };
    put(out, "row", &row);
    put(out, "cells", cells);
    if let Owner::PictureWithRocker { w, .. } = owner {
        put(out, "rocker", &[*w]);
    }
}

/// A column as an owner, where in it, the value there, and the mark.
pub fn cell(column: &Column) -> Option<[u8; 4]> {
    Some(match *column {
        Column::Nothing | Column::IconBar(_) => return None,
        Column::Text { row, code, mark } => [2, row, code, u8::from(mark)],
        Column::Picture { row, dots } => [3, row, dots, 0],
        Column::Small { code } => [4, 0, code, 0],
        Column::Big { half, code } => [5, half as u8, code, 0],
        Column::Left { cell, code } => [6, cell, code, 0],
        Column::Rocker { w } => [7, 0, w, 0],
        Column::Right { cell, code } => [8, cell, code, 0],
    })
}

/// A verdict as its number, and the frame's first number that is out of range.
/// J never has 3: it does not ask for the sister's frames.
fn numbered(verdict: Verdict) -> [u8; 3] {
    let (verdict, out) = match verdict {
        Verdict::Bad => (0, 0),
        Verdict::PassedOver(number) => (1, number),
        Verdict::Obeyed => (2, 0),
        Verdict::Refused => (3, 0),
    };
    let [high, low] = out.to_be_bytes();
    [verdict, high, low]
}

/// Prints an answer, and the record (as it now stands) where it follows.
pub fn print(out: &mut Vec<u8>, call: &Call, answer: &Answer, record: &Record) {
    let letter = letter(call).to_string();
    let told = |number: u8, numbers: &[usize]| [&[number][..], &pairs(numbers)].concat();
    let first = match answer {
        Answer::Silence => return,
        Answer::What => return put(out, "what", &[]),
        Answer::Done => vec![0],
        Answer::InRange(yes) => vec![u8::from(*yes)],
        Answer::Counts { number, used, written, .. } => told(*number, &[*used, *written]),
        Answer::Written { number, count, .. } => told(*number, &[0, *count]),
        Answer::Bound(number, bound) => told(*number, &[*bound]),
        Answer::Parts(_) => vec![],
        Answer::Verdict(verdict) => numbered(*verdict).to_vec(),
        Answer::Judgement(None) => vec![1, 0, 0, 0],
        Answer::Judgement(Some(verdict)) => [&[0][..], &numbered(*verdict)].concat(),
        // Rule 0 is yes.
        Answer::Choice(broken) => broken.map_or(told(0, &[0]), |b| told(b.rule, &[b.offset])),
        Answer::Number(number) | Answer::Thin(number, _) => vec![*number],
        Answer::Row(number, _) | Answer::Column(number, _) => vec![*number],
        Answer::Sms(number, panel) => vec![*number, *panel],
        Answer::Volume(number, panel, level) => vec![*number, *panel, *level],
    };
    put(out, &letter, &first);
    match answer {
        Answer::Counts { buffer, .. } | Answer::Written { buffer, .. } => put(out, "buffer", buffer),
        Answer::Thin(_, light) => {
            let light = Record { backlight: *light, ..power_on() };
            print_lines(out, &light, &["backlight"]);
        }
        Answer::Row(_, owner) => put_owner(out, owner),
        Answer::Column(_, Column::IconBar(bar)) => put_bar(out, bar),
        Answer::Column(_, column) => {
            cell(column).into_iter().for_each(|cell| put(out, "cell", &cell));
        }
        // Its kind, where the next part begins, and where its bytes lie.
        Answer::Parts(parts) => parts.iter().for_each(|part| {
            let places = [part.end, part.body, part.body_end];
            put(out, "part", &told(part.kind as u8, &places));
        }),
        _ => (),
    }
    if matches!(answer, Answer::Done | Answer::Counts { .. } | Answer::Number(_)) {
        print_record(out, record);
    }
}

/// The lines of a script. What stands behind the last line end is a line too.
pub fn lines(script: &[u8]) -> impl Iterator<Item = &[u8]> {
    script.split(|&byte| byte == LF)
}

/// Answers one line.
pub fn answer(record: &mut Record, line: &[u8]) -> Vec<u8> {
    let call = parse(line);
    let answer = perform(record, &call);
    let mut out = vec![];
    print(&mut out, &call, &answer, record);
    out
}
