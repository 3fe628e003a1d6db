//! Random scripts by a seed. The generator makes each call on the model as
//! well, so that it knows the record and the used counts.
//!
//! Commands, fields and the letters of calls are taken from their tables: a
//! new row is tried with values inside and outside its range, spelt right and
//! wrong, without a word here.

use std::ops::{Deref, DerefMut};

use crate::commands::{table, COMMANDS, SCREENS};
use crate::fields::*;
use crate::grammar::{named, spelt, Command, In, MOST_ROWS};
use crate::record::*;
use crate::rng::Rng;
use crate::script::{command_count, parse, perform, with_pairs, Answer, Call, BYTES, LETTERS, ROOM};
use crate::seen::{layout, Phase, PHASES};
use crate::writers::{of_her_kind, HER_KINDS};
use crate::{keys, stream, writers};

/// The letters of all calls; X stands for lines that can't be taken.
pub const KINDS: &str = "POZSRFNDJIEKCHBQUMVWYTGX";

/// Values around the ends of ranges, whosever they are.
const EDGES: [u16; 24] =
    [0, 1, 2, 3, 4, 5, 9, 10, 11, 20, 21, 31, 32, 50, 51, 99, 100, 127, 128, 250, 255, 256, 511, 999];

/// The text modes, and the overlays with none among them.
pub const MODES: [u8; 5] = [0, 1, 5, 6, LARGE];
pub const OVERLAYS: [u8; 9] = [0, 11, 12, 13, 14, 15, 16, 17, 18];

/// Columns of the display at which something ends or begins.
pub const BORDERS: [u8; 6] = [0, 41, 42, 53, 54, 95];

/// Random numbers, and whose frames are made of them.
pub struct Dice {
    rng: Rng,
    pub sister: bool,
}

impl Dice {
    pub fn new(seed: u64, sister: bool) -> Dice {
        Dice { rng: Rng::new(seed), sister }
    }

    fn commands(&self) -> &'static [Command] {
        table(self.sister)
    }

    fn named(&self, name: &str) -> &'static Command {
        named(self.sister, name)
    }

    /// A frame that the first edition spells so.
    fn frame(&self, body: &str) -> Vec<u8> {
        framed(&respelt(self.sister, body))
    }

    /// What is made of these numbers in the other edition.
    fn other<T>(&mut self, make: impl Fn(&mut Dice) -> T) -> T {
        self.sister = !self.sister;
        let made = make(self);
        self.sister = !self.sister;
        made
    }
}

impl Deref for Dice {
    type Target = Rng;
    fn deref(&self) -> &Rng {
        &self.rng
    }
}

impl DerefMut for Dice {
    fn deref_mut(&mut self) -> &mut Rng {
        &mut self.rng
    }
}

/// The bytes of a frame of the first edition as an edition spells that command.
pub fn respelt(sister: bool, body: &str) -> Vec<u8> {
    let Some(good) = spelt(false, body.as_bytes()).filter(|_| sister) else {
        return body.into();
    };
    let screen = |n: &u16| SCREENS.iter().position(|&screen| u16::from(screen) == *n).map_or(999, |at| at as u16);
    let (name, numbers) = match good.command.name {
        "Mode" => ("Mode", good.numbers.iter().map(screen).collect()),
        "CursorShown" => ("Cursor", vec![1]),
        "CursorNotShown" => ("Cursor", vec![0]),
        name => (name, good.numbers),
    };
    named(true, name).spell(&numbers, &good.codes)
}

pub struct Generator {
    rng: Dice,
    kinds: String,
    record: Record,
    /// Bytes not yet used, to be offered again first.
    pending: Vec<u8>,
    /// The clock of the key logs.
    now: u16,
    calls: Vec<(Call, Record, Answer)>,
}

/// The calls of a script, each with the record before it and its answer.
pub fn calls(seed: u64, count: usize, kinds: &str) -> Vec<(Call, Record, Answer)> {
    calls_from(power_on(), seed, count, kinds)
}

/// The same from another record than that at power-on.
fn calls_from(record: Record, seed: u64, count: usize, kinds: &str) -> Vec<(Call, Record, Answer)> {
    let mut rng = Dice::new(seed, record.edition.sister);
    let now = rng.next() as u16;
    let kinds = kinds.to_string();
    let mut generator = Generator { rng, kinds, record, pending: vec![], now, calls: vec![] };
    // Of each three scripts one begins with the sister.
    if seed % 3 == 1 {
        generator.emit(Call::SisterPowerOn);
    }
    let mut idle = 0;
    while generator.calls.len() < count && idle < 100_000 {
        let before = generator.calls.len();
        generator.episode();
        idle = if generator.calls.len() == before { idle + 1 } else { 0 };
    }
    generator.calls.truncate(count);
    generator.calls
}

/// The text of a script.
pub fn script(seed: u64, count: usize, kinds: &str) -> Vec<u8> {
    let mut out = vec![];
    for (place, (call, _, _)) in calls(seed, count, kinds).iter().enumerate() {
        let mut line = crate::script::line(call);
        // Digits may be of either case.
        if place % 4 == 0 && line.len() > 1 {
            line[1..].make_ascii_lowercase();
        }
        // A blank with no bytes behind it does no harm.
        if place % 4 == 1 && line.len() == 1 {
            line.push(b' ');
        }
        out.extend(line);
        out.push(LF);
    }
    out
}

/// A random stream of some pieces.
pub fn stream_of(rng: &mut Dice, pieces: usize) -> Vec<u8> {
    (0..pieces).flat_map(|_| piece(rng)).collect()
}

/// A record of an edition, in range, brought there by random calls.
pub fn random_record(seed: u64, sister: bool) -> Record {
    let start = if sister { sister_power_on() } else { power_on() };
    let mut record = start.clone();
    for (call, before, _) in calls_from(start.clone(), seed, 60, "SFKCH") {
        record = before;
        perform(&mut record, &call);
    }
    if in_range(&record) && record.edition.sister == sister {
        record
    } else {
        start
    }
}

impl Generator {
    fn has(&self, letter: char) -> bool {
        self.kinds.contains(letter)
    }

    /// Makes a call if its letter is wanted.
    fn emit(&mut self, call: Call) -> Option<Answer> {
        let letter = crate::script::letter(&call);
        if letter != 'X' && !self.has(letter) {
            return None;
        }
        let before = self.record.clone();
        let answer = perform(&mut self.record, &call);
        self.rng.sister = self.record.edition.sister;
        self.calls.push((call, before, answer.clone()));
        Some(answer)
    }

    fn episode(&mut self) {
        // Frames, keys and ranges that the sister alone has.
        if self.rng.sister && self.rng.below(10) < 3 {
            return match self.rng.below(31) {
                0..=7 => self.steps(),
                8 | 9 => self.all_rooms(),
                10..=13 => self.asking(),
                14..=17 => self.key_logs(),
                18..=20 => self.judged_steps(),
                21 | 22 => self.judgements(),
                _ => self.out_of_range(),
            };
        }
        match self.rng.below(224) {
            0 => self.power(),
            1..=32 | 174..=179 | 199..=204 => self.streams(),
            33..=44 => self.key_logs(),
            45..=48 => self.seconds(),
            49..=53 => self.questions(),
            54..=76 => self.scene(),
            77..=86 => self.write(),
            87..=92 => self.vary(),
            93..=96 => self.key_logs(),
            97..=113 => self.out_of_range(),
            114 => drop(self.emit(Call::InRange)),
            115..=122 => self.misfits(),
            123..=128 => self.asking(),
            129..=131 => self.hooks(),
            132..=137 => self.bounds(),
            138..=147 | 184..=186 => self.parts(),
            148..=156 | 187..=191 => self.verdicts(),
            157..=164 | 180..=183 | 192..=198 => self.choice_checks(),
            165..=172 => self.out_of_range(),
            206..=215 => self.judgements(),
            216..=222 => self.write_hers(),
            _ => self.pending.clear(),
        }
    }

    /// One of the power-on records, and perhaps a key held long from it.
    fn power(&mut self) {
        let letters: Vec<char> = "POZ".chars().filter(|&letter| self.has(letter)).collect();
        for _ in 0..self.rng.pick(&[1, 1, 1, 2, 3]).min(3 * letters.len()) {
            let letter = self.rng.pick(&letters).to_string();
            self.emit(parse(letter.as_bytes()));
        }
        if self.rng.one_in(2) {
            let sister = self.rng.sister;
            let key = self.rng.below(keys::keys_of(sister).into()) as u8;
            self.now = self.rng.next() as u16;
            let polls = [0, 119, 120, 121, 239, 240, 241, 361, 362];
            let ticks = polls.map(|after| self.now.wrapping_add(after)).to_vec();
            let edges = [&[key][..], &[255; 8]].concat();
            let room = self.rng.below(4) as u16 * if sister { 6 } else { 1 };
            self.emit(Call::Keys { room, ticks, edges });
        }
    }

    /// The sister: a question, for which more and more room is lent until it is
    /// answered, and once more.
    fn all_rooms(&mut self) {
        let (ask, name) = self.rng.pick(&[
            ("&H?", "text mode"),
            ("&H?", "column"),
            ("&V?", "hook"),
            ("KH?", "hook"),
            ("KP?", "PTT"),
            ("IA?", "contrast"),
            ("IDM?", "text mode"),
            ("IDM?", "overlay"),
            ("IE?", "duration"),
            ("IN?", "brightness"),
            ("IT?", "Time1"),
            ("IT?", "Time2"),
            ("IV?", "speaker volume"),
        ]);
        if !in_range(&self.record) {
            return;
        }
        self.renew(name);
        // A number of one digit, if it is in range.
        let mut small = self.record.clone();
        let digit = self.rng.between(4, 9) as u16;
        if set(&mut small, field(name), 0, digit) && in_range(&small) && self.rng.one_in(2) {
            self.put(field(name), 0, digit);
        }
        self.feed(9, [&[ESC], ask.as_bytes()].concat());
        let from = self.rng.below(8) as u16;
        self.more_room(from);
        let needed = frame(ask);
        let room = self.room_near(&needed);
        self.feed(room, needed);
    }

    /// CR for an open frame, with more and more room until it is used.
    fn more_room(&mut self, from: u16) {
        for room in from..ROOM {
            match self.emit(Call::Stream { room, bytes: vec![CR] }) {
                Some(Answer::Counts { number: 0, used: 0, .. }) => (),
                _ => return,
            }
        }
    }

    /// The sister: a number near an end of its range, and steps over it; or the
    /// light in one of its modes, and the frames that go by the mode. Now and
    /// then frames that lie close to hers.
    fn steps(&mut self) {
        if self.rng.one_in(6) {
            let bodies: Vec<Vec<u8>> = (0..8).map(|_| damaged_form(&mut self.rng)).collect();
            return self.feed(30, bodies.iter().flat_map(|body| framed(body)).collect());
        }
        let frames = self.ready_to_step();
        if self.rng.one_in(3) {
            let body = self.rng.pick(&frames);
            self.feed(9, [&[ESC], body.as_bytes()].concat());
            return self.more_room(0);
        }
        let mut bytes = vec![];
        for _ in 0..self.rng.between(1, 6) {
            let one = frame(self.rng.pick(&frames));
            bytes.extend(one);
        }
        let near = self.room_near(&bytes);
        let room = self.rng.pick(&[0, 1, 2, 2, 3, 3, 4, 4, 4, 40, near, near, near]);
        self.feed(room, bytes);
    }

    /// Brings a number near an end of its range, or the light into one of its
    /// modes; gives the frames of the sister that go by it.
    fn ready_to_step(&mut self) -> Vec<&'static str> {
        let (name, most, [up, down, ask]) = self.rng.pick(&[
            ("contrast", 20, ["IA+", "IA-", "IA?"]),
            ("brightness", 100, ["IN+", "IN-", "IN?"]),
            ("speaker volume", 7, ["IV+", "IV-", "IV?"]),
        ]);
        if self.rng.one_in(2) {
            let mode = self.rng.pick(&["IE0", "IEE", "IEA", "IES", "IEP", "IEQ"]);
            let flag = self.rng.below(2) as u16;
            self.put(field("keypad flag"), 0, flag);
            self.feed(9, frame(mode));
            if in_range(&self.record) && self.record.backlight.mode == 2 {
                let left = self.rng.below(self.record.backlight.duration.into());
                self.put(field("left"), 0, left as u16);
            }
            return vec!["IEe", "IEc", "IEs", "IER", "IE?", "IEQ", "IES", "IEA", "IE7"];
        }
        let any = self.rng.between(0, most);
        let value = self.rng.pick(&[0, 0, 1, most - 1, most, most, any]);
        self.put(field(name), 0, value as u16);
        vec![up, down, up, down, ask]
    }

    /// The sister: what a step, or a frame that goes by the light, would do
    /// now, with a frame open or not; then perhaps the frame itself.
    fn judged_steps(&mut self) {
        let frames = self.ready_to_step();
        self.leave_open();
        for _ in 0..self.rng.between(3, 8) {
            let body = self.rng.pick(&frames);
            self.judge(body.into());
        }
    }

    // Judgements.

    /// Perhaps a frame that stays open, often an overlong one; or one that is
    /// open no more.
    fn leave_open(&mut self) {
        let long = self.rng.pick(&[1, 3, 249, 250]);
        let long = self.rng.pick(&[long, FRAME + 1, FRAME + 1, FRAME + 1]);
        match self.rng.below(7) {
            0 | 1 => self.feed(9, [&[ESC][..], &vec![b'0'; long]].concat()),
            2 => {
                let body = judged(&mut self.rng);
                let part = self.rng.below(body.len().min(9) + 1);
                self.feed(9, [&[ESC], &body[..part]].concat());
            }
            3 => self.feed(9, vec![CR]),
            _ => (),
        }
    }

    /// Asks what would become of a frame; now and then it then comes.
    fn judge(&mut self, body: Vec<u8>) {
        let comes = self.rng.one_in(6) && body.len() <= FRAME + 2;
        let bytes = framed(&body);
        self.emit(Call::Judgement { body });
        if comes {
            self.feed(40, bytes);
        }
    }

    /// Frames that are judged on the record, with a frame open or not.
    fn judgements(&mut self) {
        self.leave_open();
        let mut bodies: Vec<Vec<u8>> = match self.rng.below(12) {
            0 | 1 => (0..12).map(|_| damaged_form(&mut self.rng)).collect(),
            2..=4 => (0..3).flat_map(|_| frames_of_one(&mut self.rng)).collect(),
            5..=7 => return self.judged_rows(),
            8 => vec![long_body(&mut self.rng), long_body(&mut self.rng)],
            _ => (0..self.rng.between(1, 6)).map(|_| judged(&mut self.rng)).collect(),
        };
        if self.rng.one_in(6) {
            // What the other edition would be sent.
            bodies.push(self.rng.other(judged));
        }
        bodies.into_iter().for_each(|body| self.judge(body));
    }

    /// A text mode, and frames that name the rows it has and has not.
    fn judged_rows(&mut self) {
        let mode = self.rng.pick(&MODES);
        let name = self.rng.pick(&["Position", "Inverse"]);
        let command = self.rng.named(name);
        self.feed(9, self.rng.frame(&format!("ID{mode}")));
        self.leave_open();
        for body in sweep_at(&mut self.rng, command, 0) {
            self.emit(Call::Judgement { body });
        }
    }

    // Streams.

    fn room(&mut self) -> u16 {
        match self.rng.below(12) {
            0..=2 => 0,
            3 | 4 => 1,
            5 => 2,
            6 => self.rng.between(3, 8) as u16,
            7 | 8 => ROOM,
            9 => self.rng.between(27, 33) as u16,
            _ => self.rng.between(0, 40) as u16,
        }
    }

    /// A room about what the first answers to these bytes need: it takes some
    /// of them, and the next one whole or in part.
    fn room_near(&mut self, bytes: &[u8]) -> u16 {
        if !in_range(&self.record) {
            return self.room();
        }
        let answers = stream::answers(&self.record, bytes);
        let most = self.rng.pick(&[4, 4, 4, 30]);
        let whole = self.rng.below(answers.len().min(most) + 1);
        let needed: usize = answers[..whole].iter().map(|(_, a)| a.len()).sum();
        let next = answers.get(whole).map_or(0, |(_, a)| a.len());
        (needed + self.rng.below(next + 2)).min(ROOM.into()) as u16
    }

    fn streams(&mut self) {
        for _ in 0..self.rng.between(1, 6) {
            let pieces = match self.rng.below(20) {
                0 => self.rng.between(10, 60),
                1..=3 => 0,
                _ => self.rng.between(1, 5),
            };
            let more = match self.rng.one_in(6) {
                true => sender(&mut self.rng, pieces),
                false => stream_of(&mut self.rng, pieces),
            };
            self.pending.extend(more);
            let near = self.rng.one_in(4);
            self.offer(near);
            if self.rng.one_in(4) {
                self.question();
            }
        }
        if self.pending.len() > 3000 {
            self.pending.clear();
        }
    }

    /// Offers what is pending, or a part of it, with any room or one about
    /// what is needed.
    fn offer(&mut self, near: bool) {
        let all = self.pending.len().min(BYTES);
        let cut = match self.rng.below(8) {
            0 => self.rng.below(all + 1),
            1 => all.min(self.rng.between(0, 12)),
            2 => all - self.rng.between(0, 3).min(all),
            _ => all,
        };
        let bytes = self.pending[..cut].to_vec();
        let mut room = if near { self.room_near(&bytes) } else { self.room() };
        if self.rng.one_in(12) {
            if let Some(bound) = self.bound_call(&bytes) {
                room = self.rng.pick(&[room, bound.min(ROOM)]);
            }
        }
        if let Some(Answer::Counts { used, .. }) = self.emit(Call::Stream { room, bytes }) {
            self.pending.drain(..used);
        }
    }

    /// Offers bytes beside those that are pending.
    fn feed(&mut self, room: u16, bytes: Vec<u8>) {
        self.emit(Call::Stream { room, bytes });
    }

    /// Asks for the bound; gives it, where there is one.
    fn bound_call(&mut self, bytes: &[u8]) -> Option<u16> {
        match self.emit(Call::Bound { bytes: bytes.to_vec() }) {
            Some(Answer::Bound(0, bound)) => Some(bound as u16),
            _ => None,
        }
    }

    /// No frame, an open or an overlong one, and bytes for which the bound is
    /// asked. Then they are offered, often with a room about that bound.
    fn bounds(&mut self) {
        let long = self.rng.pick(&[249, 250, 251, 251, 251, 260]);
        let opening = match self.rng.below(9) {
            0 => vec![],
            1 | 2 => vec![CR],
            3 => vec![ESC],
            4 => [&[ESC][..], &text_run(&mut self.rng)].concat(),
            _ => [&[ESC][..], &vec![b'0'; long]].concat(),
        };
        if !opening.is_empty() {
            self.feed(30, opening);
        }
        for _ in 0..self.rng.between(1, 4) {
            let bytes = offered(&mut self.rng);
            let bound = self.bound_call(&bytes);
            if let Some(bound) = bound.filter(|_| self.rng.one_in(3)) {
                let any = self.room();
                let less = bound.saturating_sub(self.rng.between(1, 3) as u16);
                let room = self.rng.pick(&[bound, bound, less, bound + 1, any]);
                self.feed(room.min(ROOM), bytes);
            }
        }
    }

    /// A stream whose parts are asked for from some places.
    fn parts(&mut self) {
        let bytes = parted(&mut self.rng);
        for _ in 0..self.rng.between(1, 4) {
            let place = place_of(&mut self.rng, &bytes);
            self.emit(Call::Parts { place, bytes: bytes.clone() });
        }
    }

    /// Frames that are judged, each in one mode or in all; or all numbers of a
    /// command that should be tried, in one mode.
    fn verdicts(&mut self) {
        let none = no_mode(&mut self.rng);
        let one = self.rng.pick(&MODES);
        let one = self.rng.pick(&[none, one, one]);
        if self.rng.one_in(7) {
            let command = self.first(numbered);
            let by_mode = command.ranges().iter().any(|range| range.by_mode());
            let modes = if by_mode { [&MODES[..], &[none]].concat() } else { vec![one] };
            for mode in modes {
                for body in self.first(|rng| sweep(rng, command)) {
                    self.emit(Call::Verdict { mode, body });
                }
            }
            return;
        }
        for _ in 0..self.rng.between(1, 5) {
            let body = self.first(judged);
            let modes = match self.rng.below(8) {
                0 => [&MODES[..], &[none]].concat(),
                _ => vec![one],
            };
            for mode in modes {
                self.emit(Call::Verdict { mode, body: body.clone() });
            }
        }
    }

    fn choice_checks(&mut self) {
        for _ in 0..self.rng.between(1, 6) {
            let bytes = self.first(choices);
            self.emit(Call::Choice { bytes });
        }
    }

    /// What is made of the first edition's frames, for calls that take no
    /// record.
    fn first<T>(&mut self, make: impl Fn(&mut Dice) -> T) -> T {
        match self.rng.sister {
            true => self.rng.other(make),
            false => make(&mut self.rng),
        }
    }

    /// Questions and other frames, with rooms about what the answers need.
    /// What is asked for may change while a question waits.
    fn asking(&mut self) {
        if self.rng.one_in(2) {
            self.pending.clear();
        }
        let pieces = match self.rng.below(8) {
            0 => self.rng.between(20, 50),
            _ => self.rng.between(1, 5),
        };
        self.pending.extend(asked(&mut self.rng, pieces));
        for _ in 0..self.rng.between(1, 7) {
            self.offer(true);
            if self.pending.is_empty() {
                break;
            }
            match self.rng.below(8) {
                0 => self.hook_call(),
                1 if self.rng.sister => {
                    let names =
                        ["brightness", "speaker volume", "Time1", "duration", "backlight mode", "PTT", "column"];
                    let name = self.rng.pick(&names);
                    self.renew(name);
                }
                1 | 2 => self.renew("contrast"),
                _ => (),
            }
        }
    }

    fn hooks(&mut self) {
        for _ in 0..self.rng.between(1, 3) {
            self.hook_call();
            if self.rng.one_in(2) {
                let length = if self.rng.sister { 8 } else { 5 };
                let room = self.rng.pick(&[length - 1, length, length, length + 1]);
                self.feed(room, self.rng.frame("IH"));
            }
        }
    }

    fn hook_call(&mut self) {
        let any = self.rng.byte();
        let on = self.rng.pick(&[0, 0, 0, 1, 1, 2, 128, 255, any]);
        self.emit(Call::Hook { on });
    }

    // Key logs and seconds.

    fn key_logs(&mut self) {
        for _ in 0..self.rng.between(1, 4) {
            let call = self.key_log();
            self.emit(call);
        }
        if self.rng.one_in(3) {
            self.question();
        }
    }

    fn key_log(&mut self) -> Call {
        let entries = match self.rng.below(20) {
            0 => 0,
            1 => self.rng.between(100, 400),
            _ => self.rng.between(1, 14),
        };
        let mut scratch = self.record.clone();
        let (judge, sister) = (in_range(&scratch), self.rng.sister);
        let (mut ticks, mut edges) = (vec![], vec![]);
        let all = keys::keys_of(sister);
        let (favourite, sober) = (self.rng.below(all.into()) as u8, self.rng.one_in(2));
        for _ in 0..entries {
            let held = keys::held(&scratch);
            // The keys that are down: one, or in the state false some.
            let down: Vec<u8> = match held.down {
                true => vec![held.key % all],
                false => keys::keys_in(scratch.edition.keys.down).filter(|&key| key < all).collect(),
            };
            let key = match self.rng.below(4) {
                0 => self.rng.below(all.into()) as u8,
                1 if !down.is_empty() => self.rng.pick(&down),
                _ => favourite,
            };
            let edge = match self.rng.below(20) {
                3 | 4 if down.len() > 1 => key,
                0..=4 if !down.is_empty() => 128 + self.rng.pick(&down),
                5 => 128 + key,
                6 if !(sister && sober && held.down) => key,
                7..=12 if down.is_empty() => key,
                13 | 14 if sister => self.rng.pick(&[keys::HOOK, keys::PTT, 128 + keys::HOOK, 128 + keys::PTT]),
                _ => 255,
            };
            let time = if held.long { scratch.time2 } else { scratch.time1 };
            let threshold = held.tick.wrapping_add(10 * u16::from(time));
            self.now = match self.rng.below(16) {
                0 => self.now,
                1 => self.now.wrapping_add(1),
                2 => self.rng.next() as u16,
                3 => self.now.wrapping_sub(self.rng.below(5) as u16),
                4 => self.rng.pick(&[0, 1, 65_530, 65_534, 65_535]),
                5 => held.tick,
                6 => held.tick.wrapping_sub(1),
                7 => threshold.wrapping_add(1),
                8 | 9 if held.down => threshold.wrapping_sub(1),
                10..=13 if held.down => threshold,
                _ => self.now.wrapping_add(self.rng.below(200) as u16),
            };
            if let Some(edge) = keys::edge(sister, edge).filter(|_| judge) {
                keys::take(&mut scratch, self.now, edge);
            }
            ticks.push(self.now);
            edges.push(edge);
        }
        if self.rng.one_in(12) && !edges.is_empty() {
            // One behind the last that is listed, or any that is not.
            let place = self.rng.below(edges.len());
            let past = if sister { keys::PTT + 1 } else { all };
            edges[place] = match self.rng.below(3) {
                0 => self.rng.pick(&[past, past + 1, 127, 128 + past, 129 + past, 254]),
                1 => self.rng.between(past.into(), 127) as u8,
                _ => self.rng.between(128 + usize::from(past), 254) as u8,
            };
        }
        if self.rng.one_in(12) {
            match self.rng.below(4) {
                0 => edges.push(self.rng.byte()),
                1 => ticks.push(self.rng.next() as u16),
                2 => edges.clear(),
                _ => drop(ticks.pop()),
            }
        }
        let any = self.rng.between(0, if sister { 60 } else { 30 }) as u16;
        let few = if sister { [0, 5, 6, 7, 11, 12] } else { [0, 0, 1, 1, 2, 2] };
        let few = self.rng.pick(&few);
        let room = self.rng.pick(&[few, any]);
        Call::Keys { room, ticks, edges }
    }

    fn seconds(&mut self) {
        for _ in 0..self.rng.between(1, 4) {
            let call = self.rng.pick(&["B", "C"]);
            self.emit(parse(call.as_bytes()));
        }
    }

    // What is seen.

    /// Asks for a row and a column in it.
    fn look_at(&mut self, row: u8, column: u8) {
        let phase = self.rng.pick(&PHASES);
        self.emit(Call::Row { row, phase });
        self.emit(Call::Column { row, column, phase });
    }

    fn questions(&mut self) {
        match self.rng.below(12) {
            0..=3 => {
                for row in [0, 1, 2, 3, 4, 5, 6, 7, 8, 255] {
                    let phase = self.rng.pick(&PHASES);
                    self.emit(Call::Row { row, phase });
                }
                for phase in PHASES {
                    self.emit(Call::Sms { phase });
                }
                self.emit(Call::Volume);
            }
            4 | 5 => {
                let row = self.rng.below(7) as u8;
                for column in [0, 41, 42, 53, 54, 95, 96, 97, 255] {
                    let phase = self.rng.pick(&PHASES);
                    self.emit(Call::Column { row, column, phase });
                }
            }
            _ => (0..self.rng.between(1, 4)).for_each(|_| self.question()),
        }
    }

    fn question(&mut self) {
        let phase = self.rng.pick(&PHASES);
        let (row, column) = (self.rng.below(8) as u8, self.column());
        let odd_row = self.rng.pick(&[0, 5, 6, 7, 8, 9, 100, 128, 254, 255]);
        let odd_column = self.rng.pick(&[0, 94, 95, 96, 97, 128, 254, 255]);
        let call = match self.rng.below(13) {
            0 | 1 => Call::Sms { phase },
            2 | 3 => Call::Volume,
            4 => Call::InRange,
            5 => Call::Row { row: odd_row, phase },
            6..=8 => Call::Row { row, phase },
            12 => Call::Column { row: odd_row, column: odd_column, phase },
            _ => Call::Column { row, column, phase },
        };
        self.emit(call);
    }

    /// A column of the display, often the first or the last of a cell.
    fn column(&mut self) -> u8 {
        let cell = self.rng.below(16) as u8;
        match self.rng.below(6) {
            0 => self.rng.pick(&BORDERS),
            1 => self.rng.below(96) as u8,
            2 | 3 => cell * 6,
            _ => cell * 6 + 5,
        }
    }

    /// A screen with something in it, perhaps a frame that goes by the screen,
    /// and what is seen.
    fn scene(&mut self) {
        let rng = &mut self.rng;
        let mode = rng.pick(&[0, 1, 5, 6, LARGE, LARGE]);
        let (number, row) = (rng.below(TEXT_ROWS + 1), rng.below(rows(mode).unwrap_or(1).into()));
        // Every row can be marked in mode 5; the mode that comes then keeps
        // the mark.
        let mut bytes = match rng.below(3) {
            0 => [rng.frame("ID5"), rng.frame(&format!("IZ{number}"))].concat(),
            1 => rng.frame("&#"),
            _ => vec![],
        };
        let display = rng.pick(&["IDE", "IDE", "IDE", "IDD"]);
        bytes.extend(rng.frame(display));
        bytes.extend(rng.frame(&format!("ID{mode}")));
        if rng.one_in(3) {
            for side in ["LeftLabel", "RightLabel"] {
                let length = rng.pick(&[0, 1, 3, 5, 6, 7, 7, 7]);
                let codes: Vec<u8> = (0..length).map(|_| text_code(rng)).collect();
                bytes.extend(framed(&rng.named(side).spell::<u16>(&[], &codes)));
            }
            for icon in ["IconS", "IconU", "IconW"] {
                let icon = rng.named(icon);
                bytes.extend(framed(&spelt_well(rng, icon)));
            }
        }
        bytes.extend(rng.frame(&format!("[{row};0H")));
        let any = rng.below(capacity(mode) + 2);
        let length = rng.pick(&[any, any, capacity(mode)]);
        bytes.extend((0..length).map(|_| text_code(rng)));
        if rng.one_in(6) {
            bytes.extend(vec![b' '; rng.below(9)]);
        }
        let any = rng.pick(&OVERLAYS);
        let overlay = rng.pick(&[0, 16, 17, 18, any, any, any, any, any]);
        if overlay > 0 {
            bytes.extend(rng.frame(&format!("ID{overlay}")));
        }
        self.feed(9, bytes);
        if self.has('S') && in_range(&self.record) {
            if !self.record.display && self.rng.one_in(2) {
                self.put(field("display"), 0, 1);
            }
            if self.rng.one_in(2) {
                // No frame brings the cursor to a column of the large line.
                let end = capacity(self.record.mode);
                let any = self.rng.below(end + 1);
                let column = self.rng.pick(&[any, any, any, any, end - 1]);
                self.put(field("column"), 0, column as u16);
            }
            if self.rng.one_in(6) {
                self.renew("inverse mark");
            }
        }
        let any = any_command(&mut self.rng).name;
        let going = ["ClearLine", "ClearLine", "Clear", "Mode", "Position", "Inverse", any];
        if !self.rng.one_in(5) {
            let name = self.rng.pick(&going);
            let command = self.rng.named(name);
            let mut bytes = framed(&spelt_well(&mut self.rng, command));
            if command.ranges().iter().any(|range| range.by_mode()) && self.rng.one_in(2) {
                let all = sweep(&mut self.rng, command);
                bytes = all.iter().flat_map(|body| framed(body)).collect();
            }
            if self.rng.one_in(3) {
                bytes.extend(text_run(&mut self.rng));
            }
            self.feed(9, bytes);
        }
        if self.rng.one_in(8) {
            self.sweep_columns(row);
        }
        // The display row that shows the marked row, and others.
        let mark = self.record.marks.iter().position(|&mark| mark);
        let sign = mark.map(|row| b'0' + row as u8);
        let shown = layout(&self.record).iter().position(|&s| Some(s) == sign);
        let rows: Vec<usize> = match self.rng.below(4) {
            0 => (0..7).collect(),
            1 => vec![1, 2, 3],
            _ if mode == LARGE => vec![1, 2, 3],
            _ => vec![self.rng.below(7), self.rng.below(7)],
        };
        for row in rows.into_iter().chain(shown) {
            let column = self.column();
            self.look_at(row as u8, column);
        }
        if self.rng.one_in(2) {
            let column = self.column();
            self.look_at(5, column);
        }
        if self.rng.one_in(10) {
            BORDERS.into_iter().for_each(|column| self.look_at(5, column));
        }
    }

    /// A row of codes, cleared from each column on, the last one first.
    fn sweep_columns(&mut self, row: usize) {
        let codes: Vec<u8> = (0..CODES).map(|_| text_code(&mut self.rng)).collect();
        let to = |rng: &Dice, column: usize| rng.frame(&format!("[{row};{column}H"));
        let mut bytes = [to(&self.rng, 0), codes].concat();
        if self.record.mode != LARGE {
            (0..CODES).rev().for_each(|c| bytes.extend([to(&self.rng, c), self.rng.frame("[K")].concat()));
            return self.feed(9, bytes);
        }
        let from = self.rng.below(LINE - 6);
        self.feed(9, [self.rng.frame("ID10"), vec![b'0'; LINE]].concat());
        for column in (from..from + 7).rev() {
            self.emit(Call::Set { field: field("column"), place: 0, value: column as u16 });
            self.feed(9, self.rng.frame("[K"));
        }
    }

    // Writers.

    fn write(&mut self) {
        if self.rng.one_in(5) {
            return self.sweep_writer();
        }
        for _ in 0..self.rng.between(1, 4) {
            let call = match self.rng.below(4) {
                0 | 1 => {
                    let number = self.rng.below(command_count().into()) as u16;
                    let mut numbers = [0; 2];
                    for (place, range) in COMMANDS[usize::from(number)].ranges().iter().enumerate() {
                        numbers[place] = number_to_write(&mut self.rng, range);
                    }
                    self.command_call(number, numbers)
                }
                2 => self.label_call(),
                _ => self.picture_call(),
            };
            self.emit(call);
        }
    }

    /// All numbers of a command that should be tried.
    fn sweep_writer(&mut self) {
        let numbered = |n: &u16| !COMMANDS[usize::from(*n)].ranges().is_empty();
        let commands: Vec<u16> = (0..command_count()).filter(numbered).collect();
        let number = self.rng.pick(&commands);
        let ranges = COMMANDS[usize::from(number)].ranges();
        let place = self.rng.below(ranges.len());
        for n in tried(ranges[place]) {
            let mut numbers = [0; 2];
            for (place, range) in ranges.iter().enumerate() {
                numbers[place] = inside(&mut self.rng, range);
            }
            numbers[place] = n;
            let room = 12 + self.rng.below(4) as u16;
            self.emit(Call::Command { room, command: number, numbers });
        }
    }

    /// The sister's command writer: kinds of all sorts; or all numbers of one of
    /// hers that should be tried.
    fn write_hers(&mut self) {
        if self.rng.one_in(5) {
            return self.sweep_her_writer();
        }
        for _ in 0..self.rng.between(2, 7) {
            let (hers, any) = (self.rng.pick(&HER_KINDS).0, self.rng.byte());
            let kind = match self.rng.below(12) {
                // Those of the first edition, and about the ends of hers.
                0 => self.rng.below(command_count().into()) as u8,
                1 => self.rng.pick(&[33, 34, 62, 63, 97, 98, 127, 128, 255, any]),
                _ => hers,
            };
            let ranges = of_her_kind(kind).map_or(vec![], Command::ranges);
            // A number that a command has not is any.
            let beside = self.rng.next() as u16;
            let mut numbers = self.rng.pick(&[[0, 0], [beside, 0], [beside, beside ^ 1], [beside, beside ^ 1]]);
            for (place, range) in ranges.iter().enumerate() {
                numbers[place] = number_to_write(&mut self.rng, range);
            }
            self.write_her(kind, numbers);
        }
    }

    /// A call of her writer, with a room around what is written.
    fn write_her(&mut self, kind: u8, numbers: [u16; 2]) {
        let (_, length) = writers::her_command(kind, numbers, &mut [0; 300]);
        let length = length.max(5);
        let any = self.room_for(length);
        let room = self.rng.pick(&[any, any, any, length as u16 - 1]);
        self.emit(Call::HerCommand { room, kind, numbers });
    }

    fn sweep_her_writer(&mut self) {
        let places = |(kind, name): &(u8, &str)| {
            let (kind, command) = (*kind, named(true, name));
            (0..command.ranges().len()).map(move |place| (kind, command, place)).collect::<Vec<_>>()
        };
        let all: Vec<(u8, &Command, usize)> = HER_KINDS.iter().flat_map(places).collect();
        let (kind, command, place) = self.rng.pick(&all);
        let ranges = command.ranges();
        for n in tried(ranges[place]) {
            let mut numbers = [self.rng.next() as u16; 2];
            for (place, range) in ranges.iter().enumerate() {
                numbers[place] = inside(&mut self.rng, range);
            }
            numbers[place] = n;
            let room = 12 + self.rng.below(4) as u16;
            self.emit(Call::HerCommand { room, kind, numbers });
        }
        if command.takes_zeros() {
            for n in [0, 3, 4, 50, 51] {
                self.write_her(kind, [0, n]);
            }
        }
    }

    /// A room around the exact length.
    fn room_for(&mut self, length: usize) -> u16 {
        let most = usize::from(ROOM);
        let room = match self.rng.below(8) {
            0 => 0,
            1 => length.saturating_sub(1),
            2 | 3 => length,
            4 => length + 1,
            5 => self.rng.below(length + 1),
            _ => self.rng.between(length, most.max(length)),
        };
        room.min(most) as u16
    }

    fn command_call(&mut self, command: u16, numbers: [u16; 2]) -> Call {
        let (_, length) = writers::command(&COMMANDS[usize::from(command)], numbers, &mut [0; 300]);
        Call::Command { room: self.room_for(length.max(5)), command, numbers }
    }

    fn label_call(&mut self) -> Call {
        let length = match self.rng.below(12) {
            0 => self.rng.between(8, 300),
            1 | 2 => 8,
            3 | 4 => 7,
            _ => self.rng.between(0, 9),
        };
        let mut codes: Vec<u8> = (0..length).map(|_| text_code(&mut self.rng)).collect();
        if self.rng.one_in(5) && length > 0 {
            codes[self.rng.below(length)] = self.rng.pick(&[0, 0x0A, 0x0D, 0x1B, 0x1F, 0x10]);
        }
        Call::Label { room: self.room_for(length + 6), side: self.rng.below(2) as u8, codes }
    }

    fn picture_call(&mut self) -> Call {
        let row = match self.rng.below(12) {
            0 => self.rng.pick(&[7, 8, 9, 10, 16, 100, 128, 254, 255]),
            1..=3 => 6,
            _ => self.rng.below(7) as u8,
        };
        let mut columns = columns(&mut self.rng);
        match self.rng.below(12) {
            0 => columns.clear(),
            1 => columns.resize(97, columns[0]),
            2 => columns.resize(self.rng.between(90, 300), self.rng.byte()),
            3 => columns.resize(96, self.rng.byte()),
            _ => (),
        }
        if row == 6 && !self.rng.one_in(4) {
            columns.iter_mut().for_each(|dots| *dots &= 31);
            if self.rng.one_in(4) && !columns.is_empty() {
                let place = self.rng.below(columns.len());
                columns[place] = self.rng.pick(&[31, 32, 33, 64, 255]);
            }
        }
        let (_, length) = writers::picture(row, &columns, &mut [0; 300]);
        Call::Picture { room: self.room_for(length.max(9)), row, columns }
    }

    // Fields.

    fn put(&mut self, field: u16, place: usize, value: u16) {
        // A byte's value is taken modulo 256, and a flag is set by any but 0.
        let most = values(field)[values(field).len() - 1];
        let value = match most {
            255 if self.rng.one_in(10) => value + 256 * self.rng.between(1, 255) as u16,
            1 if value == 1 && self.rng.one_in(4) => self.rng.pick(&[2, 256, 65_535]),
            _ => value,
        };
        self.emit(Call::Set { field, place: place as u16, value });
    }

    /// The values that would leave a field in its range, or bring it out, if
    /// one of them stood at this place: those at the edges of the range, and
    /// all.
    fn values_for(&self, field: u16, place: usize, good: bool) -> [Vec<u16>; 2] {
        let mut tried = self.record.clone();
        let mut judge = |value: &u16| {
            set(&mut tried, field, place, *value);
            fits(&tried, field) == good
        };
        let judged: Vec<(u16, bool)> = values(field).iter().map(|v| (*v, judge(v))).collect();
        let all = |edges: bool| {
            let beside = |at: usize, by: usize| judged.get(at.wrapping_add(by)).is_some_and(|(_, yes)| !yes);
            let edge = |at: usize| beside(at, 1) || beside(at, usize::MAX) || at + 1 == judged.len();
            let chosen = (0..judged.len()).filter(|&at| judged[at].1 && (!edges || edge(at)));
            chosen.map(|at| judged[at].0).collect()
        };
        [all(true), all(false)]
    }

    /// A value for a place of a field that leaves it in its range or brings it
    /// out; none where there is no such value.
    fn value_for(&mut self, field: u16, place: usize, good: bool) -> Option<u16> {
        let [edges, all] = self.values_for(field, place, good);
        let from = if edges.is_empty() || self.rng.one_in(4) { all } else { edges };
        (!from.is_empty()).then(|| self.rng.pick(&from))
    }

    /// Another value in range for a field, and then for those that rest on it.
    fn renew(&mut self, name: &str) {
        if !self.has('S') {
            return;
        }
        let number = field(name);
        let now = contents(&mut self.record, number);
        let [_, all] = self.values_for(number, 0, true);
        if now.iter().all(|value| all == [*value]) {
            // It holds the one value of its range, as what is the sister's does
            // in the first edition.
            return;
        }
        match FIELDS[usize::from(number)].rests_on.first() {
            // Its first places are in use, as many as the other field says;
            // all others hold zero.
            Some(length) if length.ends_with("length") => {
                let used = usize::from(get(&self.record, field(length))).min(now.len());
                for place in (used..now.len()).filter(|&place| now[place] != 0) {
                    self.put(number, place, 0);
                }
                for place in 0..used {
                    let lacks = now[place] == 0 && !fits(&self.record, number);
                    if lacks || self.rng.one_in(used) {
                        let code = text_code(&mut self.rng);
                        self.put(number, place, code.into());
                    }
                }
            }
            _ => {
                // What is wrong at several places becomes zero first, as a set
                // of keys does that is no longer used.
                for place in (0..now.len()).filter(|&place| now[place] != 0) {
                    if now.len() > 1 && !fits(&self.record, number) {
                        self.put(number, place, 0);
                    }
                }
                let any = self.rng.below(now.len());
                for place in (any..now.len()).chain(0..any) {
                    if let Some(value) = self.value_for(number, place, true) {
                        self.put(number, place, value);
                        break;
                    }
                }
            }
        }
        for row in FIELDS.iter().filter(|row| row.rests_on.first() == Some(&name)) {
            self.renew(row.name);
        }
    }

    /// Odd values that are in range.
    fn vary(&mut self) {
        // Few places of the frame hold something, or the script grows long.
        let long = self.record.frame.bytes.iter().filter(|&&byte| byte != 0).count() > 12;
        if !in_range(&self.record) || long {
            return self.pending.clear();
        }
        for _ in 0..self.rng.between(1, 3) {
            let field = &FIELDS[self.rng.below(FIELDS.len())];
            if field.name == "sister" && !self.has_a_twin() {
                continue;
            }
            let base = field.rests_on.last().copied().filter(|_| self.rng.one_in(2));
            self.renew(base.unwrap_or(field.name));
        }
        if self.record.frame.state == 1 || self.rng.one_in(3) {
            let some = vec![b'0'; self.rng.below(5)];
            let more = self.rng.pick(&[&[CR][..], &[ESC], &[], &some]).to_vec();
            self.pending.splice(0..0, more);
            self.offer(false);
        }
    }

    /// Whether the record would be in range in the other edition too.
    fn has_a_twin(&self) -> bool {
        let mut twin = self.record.clone();
        twin.edition.sister ^= true;
        in_range(&twin)
    }

    /// Fields out of range, some calls on them, and back again.
    fn out_of_range(&mut self) {
        if !self.has('S') || !in_range(&self.record) {
            return self.power();
        }
        let mut kept = self.record.clone();
        if self.rng.one_in(6) {
            self.sweep_field();
            return self.restore(&mut kept);
        }
        let fields = match self.rng.below(30) {
            0..=5 => self.rng.between(2, 5),
            6 | 7 => 0,
            _ => 1,
        };
        if fields == 0 {
            self.spoil_together();
        }
        for _ in 0..fields {
            // Where there are more places, more can be wrong.
            let (all, least) = (refusable(self.rng.sister), self.rng.pick(&[1, 1, 1, 2]));
            let all: Vec<u16> = all.into_iter().filter(|&f| places(f) >= least).collect();
            let mut field = self.rng.pick(&all);
            if self.rng.sister && self.rng.one_in(4) {
                // What goes by her light or by the stage of her keys.
                let names =
                    ["duration", "left", "PWM", "sister's key", "sister's key", "sister's tick", "sister's keys down"];
                field = self::field(self.rng.pick(&names));
            }
            self.spoil(field);
            if places(field) > 1 && self.rng.one_in(4) {
                self.spoil(field);
            }
        }
        if self.rng.one_in(3) {
            self.every_call();
        }
        for _ in 0..self.rng.between(2, 6) {
            match self.rng.below(24) {
                0 | 19 => drop(self.emit(Call::InRange)),
                1..=3 => {
                    let pieces = self.rng.below(4);
                    let bytes = stream_of(&mut self.rng, pieces);
                    let keep = std::mem::replace(&mut self.pending, bytes);
                    self.offer(false);
                    self.pending = keep;
                }
                4 | 5 => {
                    let call = self.key_log();
                    self.emit(call);
                }
                6 | 7 => self.seconds(),
                8 | 9 => self.hook_call(),
                10 | 11 => {
                    let bytes = offered(&mut self.rng);
                    self.bound_call(&bytes);
                }
                12 => self.choice_checks(),
                13 => self.parts(),
                14 => self.verdicts(),
                20 => drop(self.emit(Call::Sms { phase: Phase::Lit })),
                21 => drop(self.emit(Call::Volume)),
                22 | 23 => {
                    let body = judged(&mut self.rng);
                    self.emit(Call::Judgement { body });
                }
                _ => self.question(),
            }
        }
        if self.rng.one_in(25) && "POZ".chars().any(|letter| self.has(letter)) {
            return self.power();
        }
        self.restore(&mut kept);
    }

    /// Values that are in range, but not together: those of the other edition,
    /// two marks, times and seconds of the sister.
    fn spoil_together(&mut self) {
        let sister = self.rng.sister;
        match self.rng.below(4) {
            0 => self.put(field("sister"), 0, u16::from(!sister)),
            1 if sister => {
                let time = self.rng.pick(&[4, 12, 50]);
                self.put(field("Time1"), 0, 0);
                self.put(field("Time2"), 0, time);
            }
            2 if sister => {
                let (mode, left) = (self.rng.below(2) as u16, self.rng.pick(&[1, 250, 255]));
                self.put(field("PWM"), 0, 0);
                self.put(field("backlight mode"), 0, mode);
                self.put(field("left"), 0, left);
            }
            _ => {
                let (one, other) = (self.rng.below(TEXT_ROWS), self.rng.below(TEXT_ROWS));
                self.put(field("inverse mark"), one, 1);
                self.put(field("inverse mark"), other, 1);
            }
        }
    }

    /// Every call that takes a record, and the one that takes its backlight.
    fn every_call(&mut self) {
        let any = self.rng.byte();
        let some = self.rng.pick(&[&[][..], &[ESC], &[b'A', ESC, b'Q', CR]]).to_vec();
        self.emit(Call::InRange);
        self.emit(Call::Stream { room: 9, bytes: some.clone() });
        self.emit(Call::Bound { bytes: some });
        // A frame that would be obeyed, passed over or bad in either edition.
        let body = self.rng.pick(&["IK0", "IP20", "Q"]).into();
        self.emit(Call::Judgement { body });
        self.emit(Call::Keys { room: 9, ticks: vec![0, 500], edges: vec![any % 19, 255] });
        self.emit(Call::Second);
        self.emit(Call::Hook { on: any });
        self.emit(Call::Thin);
        self.emit(Call::Volume);
        self.emit(Call::Sms { phase: Phase::Lit });
        self.look_at(any % 8, any);
    }

    /// All values at the edges of a field's range, in it and out of it.
    fn sweep_field(&mut self) {
        let all = refusable(self.rng.sister);
        let field = self.rng.pick(&all);
        let place = self.rng.below(places(field));
        let [wrong, _] = self.values_for(field, place, false);
        let [right, _] = self.values_for(field, place, true);
        for value in wrong.into_iter().chain(right) {
            self.put(field, place, value);
            self.emit(Call::InRange);
        }
    }

    /// Brings back what the fields held.
    fn restore(&mut self, kept: &mut Record) {
        for field in 0..FIELDS.len() as u16 {
            let now = contents(&mut self.record, field);
            for (place, value) in contents(kept, field).into_iter().enumerate() {
                if now[place] != value {
                    self.put(field, place, value);
                }
            }
        }
    }

    /// Puts one field out of range, alone if that can be done; often a field
    /// that it rests on is given another value first.
    fn spoil(&mut self, field: u16) {
        let row = &FIELDS[usize::from(field)];
        let few = self.record.frame.bytes.iter().filter(|&&byte| byte != 0).count() < 6;
        let often = if row.places > 1 { 4 } else { 2 };
        if let Some(base) = row.rests_on.last().filter(|_| few && self.rng.one_in(often)) {
            self.renew(base);
        }
        for tries in 0..40 {
            let used = row.rests_on.first().map_or(0, |base| get(&self.record, self::field(base)));
            let near = self.rng.below(usize::from(used).clamp(1, row.places));
            let any = self.rng.below(row.places);
            let place = self.rng.pick(&[near, any, any, row.places - 1]);
            let Some(value) = self.value_for(field, place, false) else {
                // Perhaps it can be wrong beside other values, as two marks are.
                if tries % 8 == 7 {
                    self.renew(row.rests_on.last().unwrap_or(&row.name));
                }
                continue;
            };
            let mut tried = self.record.clone();
            set(&mut tried, field, place, value);
            if faults(&tried).len() == faults(&self.record).len() + 1 || tries > 30 {
                return self.put(field, place, value);
            }
        }
    }

    // Lines that can't be taken.

    /// Lines that can't be taken, an empty one among them: those of good calls
    /// of any letter, with something wrong in them.
    fn misfits(&mut self) {
        for _ in 0..self.rng.between(2, 6) {
            let line = match self.rng.one_in(4) {
                true => no_place(&mut self.rng),
                false => misfit(&mut self.rng),
            };
            let taken = line.contains(&LF) || !matches!(parse(&line), Call::Other(_));
            if self.has('X') && !taken {
                self.emit(Call::Other(line));
            }
        }
    }
}

/// A field set one place behind its last, or one field behind all.
fn no_place(rng: &mut Dice) -> Vec<u8> {
    let field = rng.below(FIELDS.len() + 1);
    let place = FIELDS.get(field).map_or(0, |field| field.places);
    let bytes = [&[field as u8][..], &(place as u16).to_be_bytes(), &[0, rng.byte()]].concat();
    with_pairs("S", &bytes).into_bytes()
}

fn misfit(rng: &mut Dice) -> Vec<u8> {
    let (letters, least) = (&LETTERS, rng.pick(&[0, 0, 1, 3, 5]));
    let letters: Vec<_> = letters.iter().filter(|(_, bytes, _)| *bytes >= least).collect();
    let &(letter, least, more) = rng.pick(&letters);
    let any = rng.byte();
    let fill = rng.pick(&[0, ESC, b'A', any]);
    let mut bytes = vec![0; least];
    bytes.resize(least + rng.below(4).min(more), fill);
    let kind = rng.below(27);
    match kind {
        0 | 1 | 18..=20 => bytes.truncate(rng.below(least.max(1))),
        2 | 3 | 21..=23 => bytes.resize(least + more + rng.pick(&[1, 1, 2]), fill),
        // A room or a count too great; a field, a command, a side or a phase
        // that is none.
        5 if least > 1 => bytes[..2].copy_from_slice(&rng.pick(&[[1, 0x2D], [255, 255]])),
        4 | 5 | 24 if more > 0 => bytes.resize(rng.pick(&[32_767, 32_767, 32_767, 8191, 40_000]), fill),
        6 if least > 3 => bytes[2..4].copy_from_slice(&rng.pick(&[[4, 1], [255, 255], [0, 9]])),
        6 | 7 | 25 | 26 if least > 0 => {
            let at = rng.pick(&[least - 1, 2.min(least - 1)]);
            bytes[at] = rng.pick(&[2, 2, any, command_count() as u8, command_count() as u8]);
        }
        _ => (),
    }
    let mut line = with_pairs(&letter.to_string(), &bytes).into_bytes();
    let at = rng.below(line.len());
    match kind {
        8 => line[0] = line[0].to_ascii_lowercase(),
        9 if line.len() > 1 => drop(line.remove(1)),
        10 if line.len() > 1 => line[1] = b'\t',
        11 => line.insert(1, b' '),
        12 => line.insert(0, b' '),
        13 => line.push(rng.pick(b" \r0gP")),
        14 => drop(line.pop()),
        15 => line.insert(at, rng.pick(b" -/:@G`gxz\t\0\xFF0")),
        16 => line[at] = rng.pick(b" -/:@G`gxz\t\0\xFF"),
        17 => line = rng.pick(&["", " ", "A", "what", "z 00", "L 0000", "  "]).into(),
        _ => (),
    }
    line
}

// Numbers and frames of commands.

/// A number in range.
fn inside(rng: &mut Dice, range: &In) -> u16 {
    let numbers = range.inside(MOST_ROWS);
    let any = loop {
        let n = rng.below(256) as u16;
        if range.has(n, MOST_ROWS) {
            break n;
        }
    };
    let (first, last) = (numbers[0], numbers[numbers.len() - 1]);
    let one = rng.pick(&numbers);
    rng.pick(&[first, last, one, one, any])
}

/// A number for a writer: mostly in range, else about it or any.
fn number_to_write(rng: &mut Dice, range: &In) -> u16 {
    match rng.below(12) {
        0 => rng.next() as u16,
        1 => rng.below(256) as u16,
        2 => rng.pick(&EDGES),
        3 | 4 => outside(rng, range),
        _ => inside(rng, range),
    }
}

/// A number out of range: right beside it, or far off.
fn outside(rng: &mut Dice, range: &In) -> u16 {
    let near = rng.pick(&range.outside(MOST_ROWS));
    let far = rng.between(256, 999) as u16;
    rng.pick(&[near, near, near, near, far])
}

/// All numbers of a range that should be tried, inside and outside.
pub fn tried(range: &In) -> Vec<u16> {
    [range.inside(MOST_ROWS), range.outside(MOST_ROWS)].concat()
}

fn good_numbers(rng: &mut Dice, command: &Command) -> Vec<u16> {
    if command.takes_zeros() && rng.one_in(4) {
        return vec![0; command.ranges().len()];
    }
    command.ranges().iter().map(|range| inside(rng, range)).collect()
}

/// A label's codes or a picture's data for a command.
fn any_rest(rng: &mut Dice, command: &Command) -> Vec<u8> {
    match command.name {
        "Picture" => {
            let columns = columns(rng);
            data(rng, &columns)
        }
        _ => (0..rng.between(0, 7)).map(|_| text_code(rng)).collect(),
    }
}

/// The bytes of a frame, in range (a cursor row perhaps not in the mode).
fn spelt_well(rng: &mut Dice, command: &Command) -> Vec<u8> {
    let numbers = good_numbers(rng, command);
    let rest = any_rest(rng, command);
    command.spell(&numbers, &rest)
}

/// The bytes of a frame with numbers out of range: one of them, or all.
fn out_of_range_body(rng: &mut Dice) -> Vec<u8> {
    let command = numbered(rng);
    let mut numbers = good_numbers(rng, command);
    let (all, one) = (rng.one_in(3), rng.below(numbers.len()));
    for (place, range) in command.ranges().iter().enumerate() {
        if all || place == one {
            numbers[place] = outside(rng, range);
        }
    }
    if !command.has_number() {
        // The row of a picture has one digit.
        numbers[0] = rng.between(7, 9) as u16;
    }
    let rest = any_rest(rng, command);
    command.spell(&numbers, &rest)
}

/// The bytes of frames with all numbers of a command that should be tried.
fn sweep(rng: &mut Dice, command: &Command) -> Vec<Vec<u8>> {
    let place = rng.below(command.ranges().len());
    sweep_at(rng, command, place)
}

/// The same of one of its numbers.
fn sweep_at(rng: &mut Dice, command: &Command, place: usize) -> Vec<Vec<u8>> {
    let ranges = command.ranges();
    let mut one = |n: u16| {
        let mut numbers: Vec<u16> = ranges.iter().map(|range| inside(rng, range)).collect();
        numbers[place] = n;
        let rest = any_rest(rng, command);
        command.spell(&numbers, &rest)
    };
    tried(ranges[place]).into_iter().map(&mut one).collect()
}

/// The bytes of a frame whose numbers are spelt with zeros before some of
/// them, in range or not. Three digits at most, and rarely four.
fn padded_body(rng: &mut Dice, command: &Command) -> Vec<u8> {
    let mut numbers = good_numbers(rng, command);
    let place = rng.below(numbers.len());
    match rng.below(6) {
        0 | 1 => numbers[place] = outside(rng, command.ranges()[place]),
        2 => numbers[place] = rng.pick(&[0, 1, 4, 12, 99]),
        _ => (),
    }
    let (all, one) = (rng.one_in(4), rng.below(numbers.len()));
    let mut spell = |(place, n): (usize, &u16)| {
        let digits = n.to_string().len();
        let most = if rng.one_in(12) { 4 } else { 3 };
        let width = rng.between(digits + 1, most.max(digits + 1));
        let width = if all || place == one { width } else { digits };
        format!("{n:0width$}")
    };
    let spelt: Vec<String> = numbers.iter().enumerate().map(&mut spell).collect();
    command.spell(&spelt, b"00")
}

/// The commands that carry a number (not the one digit of a picture row).
pub fn number_commands(sister: bool) -> Vec<&'static Command> {
    table(sister).iter().filter(|command| command.has_number()).collect()
}

/// The numbers that set a text mode or an overlay.
pub fn numbers_of_mode(sister: bool) -> Vec<u16> {
    named(sister, "Mode").ranges()[0].inside(MOST_ROWS)
}

fn numbered(rng: &mut Dice) -> &'static Command {
    let all: Vec<&Command> = rng.commands().iter().filter(|c| !c.ranges().is_empty()).collect();
    rng.pick(&all)
}

/// Any command; those with codes or columns are many frames each.
fn any_command(rng: &mut Dice) -> &'static Command {
    let all = rng.commands();
    let long: Vec<&Command> = all.iter().filter(|command| command.has_rest()).collect();
    match rng.below(3) {
        0 => rng.pick(&long),
        _ => &all[rng.below(all.len())],
    }
}

/// Bodies of frames that lie close together: few commands, few values, with
/// and without zeros before the numbers, and whatever a stream brings.
pub fn close_bodies(rng: &mut Dice, count: usize) -> Vec<Vec<u8>> {
    let few = number_commands(rng.sister);
    let few = [rng.pick(&few), rng.pick(&few), rng.named("LightNumber")];
    let mut body = || {
        let any = any_command(rng);
        let command = rng.pick(&[any, few[0], few[1], few[2]]);
        let mut numbers = good_numbers(rng, command);
        match numbers.first_mut() {
            Some(first) if rng.one_in(2) => *first = rng.pick(&[0, 1, 5, 10, 12, 30, 256]),
            _ => (),
        }
        let codes: Vec<u8> = (0..rng.below(3)).map(|_| rng.pick(b"012AB")).collect();
        match command.name {
            "Picture" => command.spell(&numbers, b"00"),
            _ if few.contains(&command) && rng.one_in(3) => padded_body(rng, command),
            _ => command.spell(&numbers, &codes),
        }
    };
    (0..count).map(|_| body()).collect()
}

// Pieces of streams.

/// The frame with these bytes between ESC and CR.
fn framed(body: &[u8]) -> Vec<u8> {
    [&[ESC], body, &[CR]].concat()
}

pub fn frame(body: &str) -> Vec<u8> {
    framed(body.as_bytes())
}

/// A frame ended in some way.
fn closed(rng: &mut Dice, body: &[u8]) -> Vec<u8> {
    let end: &[u8] = match rng.below(8) {
        0..=2 => &[CR],
        3 => &[LF, CR],
        4 => &[CR, CR, LF],
        _ => &[CR, LF],
    };
    [&[ESC], body, end].concat()
}

fn text_code(rng: &mut Dice) -> u8 {
    match rng.below(6) {
        0 => rng.between(0x80, 0xFF) as u8,
        1 => rng.pick(&[0x20, 0x7E, 0x7F, 0x80, 0xFE, 0xFF, b'?', b'[', b'0']),
        _ => rng.between(0x20, 0x7E) as u8,
    }
}

fn text_run(rng: &mut Dice) -> Vec<u8> {
    let length = rng.pick(&[1, 2, 5, 8, 9, 15, 16, 17, 18, 23, 24, 25, 33, 40]);
    let mut code = || match rng.below(20) {
        0 => rng.below(0x1B) as u8,
        1 => rng.between(0x1C, 0x1F) as u8,
        _ => text_code(rng),
    };
    (0..length).map(|_| code()).collect()
}

/// Columns with runs of all lengths.
fn columns(rng: &mut Dice) -> Vec<u8> {
    let length = match rng.below(4) {
        0 => rng.pick(&[1, 2, 26, 27, 28, 52, 53, 54, 78, 79, 95, 96]),
        1 => 96,
        _ => rng.between(1, 96),
    };
    if rng.one_in(8) {
        // No two neighbours equal.
        let step = rng.between(1, 255);
        return (0..length).map(|place| (place * step % 256) as u8).collect();
    }
    let mut columns = vec![];
    while columns.len() < length {
        let run = match rng.below(6) {
            0 => rng.pick(&[25, 26, 27, 28, 52, 53]),
            1 => rng.between(1, 96),
            2 => 2,
            _ => 1,
        };
        let any = rng.byte();
        columns.extend(vec![rng.pick(&[0, 0xFF, 0x1F, 0x20, 0xE0, any]); run]);
    }
    columns.truncate(length);
    columns
}

/// Data that spells these columns, not always in the longest runs.
fn data(rng: &mut Dice, columns: &[u8]) -> Vec<u8> {
    let shortest = rng.one_in(4);
    let mut out = vec![];
    for run in columns.chunk_by(|a, b| a == b) {
        let mut left = run.len();
        while left > 0 {
            let most = left.min(26);
            let times = match rng.below(3) {
                _ if shortest => 1,
                0 => rng.between(1, most),
                _ => most,
            };
            if times > 1 {
                out.push(b'a' + times as u8 - 2);
            }
            out.extend(format!("{:02X}", run[0]).bytes());
            left -= times;
        }
    }
    out
}

/// A frame of the grammar, in range.
fn good_frame(rng: &mut Dice) -> Vec<u8> {
    let command = any_command(rng);
    let body = spelt_well(rng, command);
    closed(rng, &body)
}

/// A frame whose numbers may be anything, of four and five digits too, or
/// whose label is too long.
fn odd_numbers(rng: &mut Dice) -> Vec<u8> {
    let command = match rng.one_in(2) {
        true => numbered(rng),
        false => any_command(rng),
    };
    let mut numbers = good_numbers(rng, command);
    for (place, range) in command.ranges().iter().enumerate() {
        numbers[place] = match rng.below(8) {
            0 => rng.below(65_536) as u16,
            1 | 4 => rng.between(1000, 9999) as u16,
            2 => rng.pick(&EDGES),
            3 => rng.below(10) as u16,
            _ => outside(rng, range),
        };
    }
    let mut rest = any_rest(rng, command);
    if rng.one_in(3) {
        rest.extend((0..rng.between(1, 4)).map(|_| text_code(rng)));
    }
    let body = command.spell(&numbers, &rest);
    closed(rng, &body)
}

/// Signs that frames are made of.
const SIGNS: &[u8] = b"IIIDKGrz,;H[&#0123456789EAabyFfVZhSUPWLJMTBCeRNQcs??+-\x1B\x0D\x0A\x00";

/// One byte changed, dropped or doubled somewhere in a good frame.
fn near_miss(rng: &mut Dice) -> Vec<u8> {
    let mut frame = good_frame(rng);
    for _ in 0..rng.pick(&[1, 1, 1, 2]) {
        let front = if rng.one_in(2) { 6 } else { 300 };
        let place = rng.below(frame.len().min(front));
        match rng.below(5) {
            0 => frame[place] = rng.byte(),
            1 => frame[place] = frame[place].wrapping_add(rng.pick(&[1, 255, 32, 224, 128])),
            2 => frame[place] = rng.pick(SIGNS),
            3 => drop(frame.remove(place)),
            _ => frame.insert(place, frame[place]),
        }
        if frame.is_empty() {
            break;
        }
    }
    frame
}

fn label_frame(rng: &mut Dice) -> Vec<u8> {
    let mut codes: Vec<u8> = (0..rng.between(0, 9)).map(|_| text_code(rng)).collect();
    if rng.one_in(3) && !codes.is_empty() {
        let place = rng.below(codes.len());
        codes[place] = rng.below(0x20) as u8;
    }
    let body = [&b"IK"[..], &[rng.pick(b"0112223")], &codes].concat();
    closed(rng, &body)
}

/// Picture frames good and bad.
fn picture_frame(rng: &mut Dice) -> Vec<u8> {
    let columns = columns(rng);
    let mut data = data(rng, &columns);
    match rng.below(14) {
        0 => data = vec![],
        1 => data.push(rng.pick(b"ayfz0F")),
        2 => data.insert(0, b'y'),
        3 => data.make_ascii_lowercase(),
        4 => data = b"00".repeat(rng.between(94, 99)),
        5 => {
            // Runs that end about column 96.
            let last = char::from(b'a' + rng.between(14, 18) as u8);
            data = format!("y00y11y22{last}AB{}", rng.pick(&["", "1F"])).into_bytes();
        }
        6 => {
            let place = rng.below(data.len());
            data[place] = rng.pick(b"GghyzabAf09 ;,\x0A\x80`{@:/");
        }
        7 => data = b"y00".repeat(rng.between(3, 5)),
        8 => data = rng.pick(&["ff", "y", "fff", "f0F", "0", "c00dFFg331B2Cf00"]).into(),
        _ => (),
    }
    let row = match rng.below(10) {
        0 => rng.pick(&[7, 8, 9]),
        1 | 2 => 6,
        _ => rng.below(7),
    };
    let opening = match rng.below(14) {
        0 => format!("IG{row};"),
        1 => format!("Gr{row};"),
        2 => format!("G{row},"),
        3 => format!("Gr{row:02},"),
        4 => "Gr,".to_string(),
        5 => format!("gr{row},"),
        _ => format!("Gr{row},"),
    };
    let end = rng.pick(&["", "zz", "Z", "z", "z", "z", "z", "z", "z", "z"]);
    let body = [opening.as_bytes(), &data, end.as_bytes()].concat();
    closed(rng, &body)
}

/// A frame of 245 to 260 bytes, ended or not.
fn long_frame(rng: &mut Dice) -> Vec<u8> {
    let opening: &[u8] = rng.pick(&[&b"IK1"[..], b"Gr0,", b"ID0", b"", b"IP1", b"IDM0", b"&00"]);
    let length = match rng.below(6) {
        0 => rng.between(300, 600),
        _ => rng.between(245, 260),
    };
    let mut body = opening.to_vec();
    // A good frame hidden at the front of a long one of zeros, or any bytes.
    let zeros = rng.one_in(3);
    while body.len() < length {
        body.push(match rng.below(30) {
            _ if zeros => b'0',
            0 => LF,
            1 => rng.below(0x0D) as u8,
            _ => text_code(rng),
        });
    }
    let end: &[u8] = rng.pick(&[&[CR][..], &[CR, LF], &[ESC], &[], &[ESC, CR]]);
    [&[ESC], &body[..], end].concat()
}

/// ESC within frames, and frames that never end.
fn torn(rng: &mut Dice) -> Vec<u8> {
    let mut out = vec![];
    for _ in 0..rng.between(1, 4) {
        let frame = good_frame(rng);
        out.extend(&frame[..rng.below(frame.len())]);
        if rng.one_in(4) {
            out.push(ESC);
        }
    }
    out
}

/// What other displays and terminals get: those of ANSI, a panel, a small
/// display, the sister handset. A stroke parts them, ^ is ESC and $ CR.
const FOREIGN: [&str; 4] = [
    "^[2J|^[H|^[1;31m|^[0m|^[?25l|^[10;20H|^[3;4f|^[K|^7|^8|^M|^]0;title\x07|^(B|ls -l$\n",
    "@G$|@S$|%A0400$|%A0000$|%A0001$|@Q$|%A03000004018041$|%A0080$|@S01$|@E02$|%A1000$|%A130062$|\
     %A02$|%A1180$",
    "^?V|^??|^!C1;|^?C|^!c1,1;|^!R240,64,0;|^!B19200,0,8,1,1;|^!S1024;|^2I1;|^!P3;|^!A0;|^!D|^C!|\
     ^2O-Text transmitted at the 2nd interface-|^!E*Text which will be sent back!*|^MS8,4;|^TH|^GH|\
     ^MC2,10,35,0,0,15;|^TW2,2,18,4;|^TP5,2;|^TA4;Hello|^T?P|^GP50,20;|^GL40,20;|^GR30,20;",
    "^IA10$\n|^IA?$\n|^IA+$\n|^IA-$\n|^KH?$\n|^KP?$\n|^&V?$\n|^&K$\n|^&H1;2$\n|^&H?$\n|^&C1$\n|\
     ^&00$\n|^IDM4$\n|^IN50$\n|^IE?$\n|^IZ1$\n|^IV4$\n|^ID10$\n|^ID14$\n|^ID18$\n|^IX$\n|^IU2$\n|\
     ^IT0;0$\n|^IK00$|^IK01$|^IK3x$|^IT20$|^[1H$|^[1;2;3H$|^INIT$$\n|^Q$",
];

fn foreign(rng: &mut Dice) -> Vec<u8> {
    let family: Vec<&str> = rng.pick(&FOREIGN).split('|').collect();
    let mut out = String::new();
    for _ in 0..rng.between(1, 5) {
        out += rng.pick(&family);
        if rng.one_in(4) {
            out += "$\n";
        }
    }
    out.replace('^', "\x1B").replace('$', "\r").into_bytes()
}

fn noise(rng: &mut Dice) -> Vec<u8> {
    let (plain, length) = (rng.one_in(2), rng.between(1, 60));
    let mut sign = || match (plain, rng.below(4)) {
        (true, _) => rng.byte(),
        (_, 0) => rng.pick(&[ESC, CR]),
        _ => rng.pick(SIGNS),
    };
    (0..length).map(|_| sign()).collect()
}

/// Very short frames of the signs of the grammar.
fn short_frame(rng: &mut Dice) -> Vec<u8> {
    let first = if rng.sister { b"IIII&&KG" } else { b"IIIII&[G" };
    let mut body = vec![rng.pick(first)];
    body.extend((0..rng.below(4)).map(|_| rng.pick(SIGNS)));
    if rng.one_in(10) {
        body.clear();
    }
    closed(rng, &body)
}

/// Several commands that have to do with the same fields.
fn story(rng: &mut Dice) -> Vec<u8> {
    let all = rng.commands();
    let first = rng.below(all.len() - 5);
    let mut out = vec![];
    for _ in 0..rng.between(2, 5) {
        let command = &all[first + rng.below(6)];
        out.extend(framed(&spelt_well(rng, command)));
        if rng.one_in(4) {
            out.extend(text_run(rng));
        }
    }
    out
}

/// Forms that lie close to good ones and are outside the grammar.
pub const DAMAGED: &str = "IA00|IA01|IA05|IA010|IA020|IA021|IA000|IA1000|IA+|IA-|IA?|IAA|IA 5|\
    IA5 |IA1;2|IA10\n|IA\n|ia|Ia|iA5|A|A5|IH0|IH1|IH?|IHh|IHH|IH\n|Ih|ih|H|h|&V0|&V1|&V?|&VV|&V |\
    &V\n|&v|V|IV|&VHA209|[K0|[K1|[KK|[KH|[K\n|[k|[0K|[1K|[2K|[;K|[0;0K|K|[|IZ|IZ00|IZ01|IZ05|IZ06|\
    IZ1000|IZZ|IZ1 |IZ1;2|Iz1|Z1";

/// The same of the sister's frames. Among them are frames of the first edition
/// that she does not know, and those of her note that are left out.
pub const HER_DAMAGED: &str = "&C|&C00|&C01|&C1 |&C?|&c1|&C+|&CC|&#|&D0|&D?|&DD|&d|&H|&H1|&H1;|&H;1|&H01;2|\
    &H1;02|&H1;2H|&H1;2;3|[1;2H|&H??|&h?|&H?0|&K0|&K?|&k|[K|&0|&000|&O|&OO|&0O|&O0|&01|&0 0|&00\n|&V|&V?0|\
    &v?|&VV|&S?|&S|&|KH|KH??|kH?|Kh?|KHH|KH: H|KP|Kp?|KPP|KP?0|K?|K|KF?|KFx|KLs|IH|IH?|IA|IA00|IA01|IA010|IA+1|\
    IA++|IA-1|IA--|IA1+|IA??|IA ?|IA1000|ia?|IA\n|IB|IB00|IB?|IB+|ID0|ID10|ID18|IDD|IDE|IDM|IDM00|IDM01|IDM012|\
    IDMD0|IDMe|IDMd|IDM?0|IDm0|IDM+|IDM1000|IE|IE00|IE01|IEr|IEa|IEq|IEp|IEC|IE?0|IE+|IE-|IE1;2|IEER|II0|II5|\
    IK|IK00|IK3|IN|IN00|IN01|IN0100|IN+1|IN-1|IN+-|IN ?|IN1000|In5|INIT|IT|IT0|IT0;|IT;0|IT00;0|IT0;00|\
    IT04;4|IT?;0|IT+|IU|IU02|IU00|IU?|IV|IV00|IV07|IV+1|IV-1|IV?7|IV8+|Iv5|IW?|IX|IX9600|IX?|IZ|IZ00|IZ01|IZ?|\
    ?|+|I|I?";

/// The list for an edition.
pub fn damaged(sister: bool) -> &'static str {
    if sister {
        HER_DAMAGED
    } else {
        DAMAGED
    }
}

fn damaged_form(rng: &mut Dice) -> Vec<u8> {
    let all: Vec<&str> = damaged(rng.sister).split('|').collect();
    rng.pick(&all).into()
}

/// A question, a frame near it in the table, in range or not, or one that lies
/// close to them.
fn asking_frame(rng: &mut Dice) -> Vec<u8> {
    let all = rng.commands();
    let questions: Vec<usize> = (0..all.len()).filter(|&at| all[at].is_question()).collect();
    let at = rng.pick(&questions);
    let body = match rng.below(16) {
        0..=7 => spelt_well(rng, &all[at]),
        8..=10 => {
            let near = (at + rng.below(5)).saturating_sub(2).min(all.len() - 1);
            spelt_well(rng, &all[near])
        }
        11 | 12 => out_of_range_body(rng),
        _ => damaged_form(rng),
    };
    closed(rng, &body)
}

/// Some of these frames, with other things between them now and then.
pub fn asked(rng: &mut Dice, pieces: usize) -> Vec<u8> {
    let mut out = vec![];
    for _ in 0..pieces {
        out.extend(asking_frame(rng));
        match rng.below(16) {
            0 => out.extend(good_frame(rng)),
            1 => out.extend(text_run(rng)),
            2 => out.extend(b"\x1B\r"),
            3 => out.push(ESC),
            _ => (),
        }
    }
    out
}

fn piece(rng: &mut Dice) -> Vec<u8> {
    if rng.one_in(25) {
        // What the other edition would be sent.
        return rng.other(asking_or_good);
    }
    match rng.below(54) {
        0..=13 => good_frame(rng),
        14..=17 => odd_numbers(rng),
        18..=22 => near_miss(rng),
        23 | 24 => label_frame(rng),
        25..=27 => picture_frame(rng),
        28 | 53 => long_frame(rng),
        29..=31 => text_run(rng),
        32 | 33 => torn(rng),
        34 | 35 => foreign(rng),
        36 => noise(rng),
        37..=39 => short_frame(rng),
        40..=42 => story(rng),
        43..=45 => {
            let all = number_commands(rng.sister);
            let command = rng.pick(&all);
            let body = padded_body(rng, command);
            closed(rng, &body)
        }
        46 if rng.sister || rng.one_in(2) => {
            let command = numbered(rng);
            sweep(rng, command).iter().flat_map(|body| framed(body)).collect()
        }
        _ => asking_frame(rng),
    }
}

fn asking_or_good(rng: &mut Dice) -> Vec<u8> {
    match rng.one_in(3) {
        true => asking_frame(rng),
        false => good_frame(rng),
    }
}

/// A sender that behaves: modes, positions, text and frames in range.
fn sender(rng: &mut Dice, pieces: usize) -> Vec<u8> {
    let mut out = vec![];
    for _ in 0..pieces {
        if rng.one_in(3) {
            let (row, column) = (rng.below(6), rng.below(18));
            out.extend(rng.frame(&format!("[{row};{column}H")));
            out.extend(text_run(rng));
        } else {
            out.extend(good_frame(rng));
        }
        out.extend(b"\r\n");
    }
    out
}

// Whole streams, for calls that take no record.

/// Bytes for which the bound is asked: many ESC, few or none.
fn offered(rng: &mut Dice) -> Vec<u8> {
    let count = rng.pick(&[1, 1, 2, 3, 10, 60, 253, 254, 255, 256, 257, 300]);
    let pieces = rng.between(1, 5);
    match rng.below(14) {
        0 => vec![],
        1 => vec![ESC; count],
        2 => [&vec![ESC; count][..], &[CR]].concat(),
        3 => b"\x1B\r".repeat(count),
        // Signs that differ from ESC in a bit or by one, and no ESC.
        4 => (0..count.min(60)).map(|_| rng.pick(b"\x1A\x1C\x1F\x19\x13\x0B\x3B\x5B\x9B\x00\x0D\xFF")).collect(),
        5 => text_run(rng),
        6 => (0..rng.between(1, 200)).map(|_| if rng.one_in(2) { ESC } else { rng.byte() }).collect(),
        // As many bytes as a line takes.
        7 => match rng.below(4) {
            0 => vec![ESC; BYTES],
            1 => [&vec![ESC; BYTES - 1][..], &[CR]].concat(),
            2 => vec![b'A'; BYTES],
            _ => vec![ESC],
        },
        8 => torn(rng),
        9 => noise(rng),
        10 => asked(rng, pieces),
        11 => sender(rng, pieces),
        _ => stream_of(rng, pieces),
    }
}

/// A frame of a length at which something ends, closed, abandoned or left
/// open.
fn measured_frame(rng: &mut Dice) -> Vec<u8> {
    let length = rng.pick(&[0, 0, 1, 2, 249, 250, 251, 252]);
    let sign = rng.pick(b"0A\x80\n");
    let end: &[u8] = rng.pick(&[&[CR][..], &[CR, LF], &[CR, CR], &[ESC], &[]]);
    [&[ESC][..], &vec![sign; length], end].concat()
}

/// A stream of as many bytes as a line takes, or one less. Most are of few
/// parts.
fn full_stream(rng: &mut Dice) -> Vec<u8> {
    let length = BYTES - rng.below(2);
    let [first, sign, last] =
        rng.pick(&[[ESC, ESC, CR], *b"AAA", [ESC, b'A', b'A'], [ESC, b'A', ESC], [ESC, b'A', CR]]);
    let mut bytes = vec![sign; length];
    (bytes[0], bytes[length - 1]) = (first, last);
    bytes
}

/// A stream to be parted.
pub fn parted(rng: &mut Dice) -> Vec<u8> {
    const FEW: &[u8] = b"\x1B\x1B\x1B\x1B\r\r\r\nAI\x00\x1A\x1C\x1F\x20\x7F\x80\xFF";
    let pieces = rng.between(0, 6);
    let mut bytes: Vec<u8> = match rng.below(24) {
        0..=6 => (0..rng.below(13)).map(|_| rng.pick(FEW)).collect(),
        7..=12 => (0..rng.between(1, 4)).flat_map(|_| measured_frame(rng)).collect(),
        13 => torn(rng),
        14 => noise(rng),
        15 => [long_frame(rng), piece(rng)].concat(),
        16 => asked(rng, pieces),
        17 => sender(rng, pieces),
        18 if rng.one_in(3) => full_stream(rng),
        _ => stream_of(rng, pieces),
    };
    bytes.truncate(BYTES);
    bytes
}

/// A place to part a stream from: its start, anywhere in it, about a byte that
/// opens or ends a frame, its end, and past it.
fn place_of(rng: &mut Dice, bytes: &[u8]) -> u16 {
    let length = bytes.len();
    let ends: Vec<usize> = (0..length).filter(|&at| [ESC, CR, LF].contains(&bytes[at])).collect();
    let place = match rng.below(12) {
        0..=3 => 0,
        4..=6 if !ends.is_empty() => (rng.pick(&ends) + rng.below(3)).saturating_sub(1),
        7 => length - rng.below(4).min(length),
        8 => length + rng.below(3),
        9 => rng.pick(&[1, 255, 256, 300, 301, 4095, 4096, 4097, 32_768, 65_535]),
        _ => rng.below(length + 1),
    };
    place as u16
}

/// A mode that is none.
fn no_mode(rng: &mut Dice) -> u8 {
    let any = rng.byte();
    let mode = rng.pick(&[2, 3, 4, 7, 9, 11, 13, 18, 128, 255, any]);
    if MODES.contains(&mode) {
        255
    } else {
        mode
    }
}

/// The bytes of a frame to be judged.
pub fn judged(rng: &mut Dice) -> Vec<u8> {
    let all = rng.commands();
    let command = &all[rng.below(all.len())];
    match rng.below(30) {
        0..=6 => spelt_well(rng, command),
        7..=12 => out_of_range_body(rng),
        13..=19 => damaged_body(rng, command),
        20 => {
            let all = number_commands(rng.sister);
            let command = rng.pick(&all);
            padded_body(rng, command)
        }
        21..=23 => damaged_form(rng),
        24 => inside_of(&label_frame(rng)),
        29 => inside_of(&picture_frame(rng)),
        25 => inside_of(&odd_numbers(rng)),
        26 => inside_of(&short_frame(rng)),
        27 => long_body(rng),
        28 => noise(rng),
        _ => inside_of(&piece(rng)),
    }
}

/// The bytes between the ESC of a stream's first frame and its CR.
fn inside_of(stream: &[u8]) -> Vec<u8> {
    let from = stream.iter().position(|&byte| byte == ESC);
    let body = &stream[from.map_or(0, |escape| escape + 1)..];
    body.split(|&byte| byte == CR).next().unwrap_or(&[]).to_vec()
}

/// The bytes of a good frame, or of one out of range, with a byte too many or
/// too few, a small letter, or another byte in it.
fn damaged_body(rng: &mut Dice, command: &Command) -> Vec<u8> {
    let mut bytes = match rng.one_in(4) {
        true => out_of_range_body(rng),
        false => spelt_well(rng, command),
    };
    let place = rng.below(bytes.len());
    match rng.below(10) {
        0..=3 => {
            let sign = bytes[bytes.len() - 1];
            bytes.push(rng.pick(&[sign, b'0', b' ', b'z', b';', LF, CR, ESC, 0]));
        }
        4..=6 => match rng.one_in(2) && bytes[0].is_ascii_uppercase() {
            true => bytes[..1].make_ascii_lowercase(),
            false => bytes.make_ascii_lowercase(),
        },
        7 => drop(bytes.remove(place)),
        8 => bytes.insert(place, rng.pick(&[b' ', b'0', ESC, CR, LF, 0x1F, 0x80])),
        _ => bytes[place] = rng.byte(),
    }
    bytes
}

/// The bytes of frames of one command: in range, with a byte more, and where it
/// has numbers padded, and each of them or all out of range.
fn frames_of_one(rng: &mut Dice) -> Vec<Vec<u8>> {
    let all = rng.commands();
    let command = &all[rng.below(all.len())];
    let more = [spelt_well(rng, command), vec![rng.pick(b"0 z\n")]].concat();
    let mut bodies = vec![spelt_well(rng, command), more];
    if !command.has_number() {
        return bodies;
    }
    bodies.push(padded_body(rng, command));
    let count = command.ranges().len();
    for wrong in 1..1 << count {
        let mut numbers = good_numbers(rng, command);
        for place in (0..count).filter(|place| wrong >> place & 1 == 1) {
            numbers[place] = rng.between(256, 999) as u16;
        }
        bodies.push(command.spell(&numbers, &[]));
    }
    if command.takes_zeros() {
        bodies.push(command.spell(&vec![0; count], &[]));
    }
    bodies
}

/// The bytes of a frame too long, or just not; none at all now and then.
fn long_body(rng: &mut Dice) -> Vec<u8> {
    let length = rng.pick(&[0, 249, 250, 250, 251, 251, 252, 300, 4095, 4096]);
    let mut bytes = rng.pick(&["IK1", "Gr0,", "ID0", "IP", "[0;0H"]).as_bytes().to_vec();
    bytes.resize(length, rng.pick(b"00 A"));
    bytes
}

// The choice screen.

/// One of these words as a frame, ended by CR and perhaps LF.
fn one_frame(rng: &mut Dice, words: &str) -> Vec<u8> {
    let word = rng.pick(&words.split(' ').collect::<Vec<_>>());
    let end = rng.pick(&["\r", "\r\n"]);
    format!("\x1B{word}{end}").into_bytes()
}

/// What may stand between an IDn and its labels without harm: frames that are
/// obeyed or passed over, questions, and skipped bytes.
fn harmless(rng: &mut Dice) -> Vec<u8> {
    match rng.below(6) {
        0 => rng.pick(&[&[LF][..], &[CR, LF], &[0], &[0x1F]]).to_vec(),
        _ => one_frame(rng, "IDD IDE &C &# [0;0H [9;9H IP3 IP20 IA IA0 IH &V [K IZ1 Gr0,00z IT3;3"),
    }
}

/// Something that may break a rule, or be just right. The word that is none is
/// an empty frame.
fn doubtful(rng: &mut Dice) -> Vec<u8> {
    const FRAMES: &str = "IK0 IK0 IK1 IK1 IK2 IK2 IK1Mine IK2Older ID0 ID1 ID5 ID6 ID10 ID11 ID13 \
        ID18 ID2 ID19 ID999 IDD IDE Q  ID00 ID05 IDM0 IK112345678 IK3x IP05 IK1\n";
    match rng.below(16) {
        0 | 1 => rng.pick(&[&b"A"[..], b"Which?", b" ", b"\xFF"]).to_vec(),
        2 => vec![ESC],
        3 => rng.pick(&["\x1BIK1Ke", "\x1BID0", "\x1BI"]).into(),
        4 => measured_frame(rng),
        5 => harmless(rng),
        6 => good_frame(rng),
        _ => one_frame(rng, FRAMES),
    }
}

/// One screen of a choice: its mode, its labels, and what ends it.
fn one_choice(rng: &mut Dice) -> Vec<Vec<u8>> {
    let mut pieces = vec![one_frame(rng, "ID0 ID1 ID5 ID6 ID10")];
    if rng.one_in(8) {
        pieces.push(one_frame(rng, "IK0"));
    }
    let first = rng.pick(&[1, 2]);
    for side in [first, 3 - first] {
        if rng.one_in(4) {
            pieces.push(harmless(rng));
        }
        if rng.one_in(12) {
            pieces.push(one_frame(rng, &format!("IK{side}")));
        }
        let codes = rng.pick(&["Keep", "Mine", "Older", "a", "0", "1234567"]);
        pieces.push(one_frame(rng, &format!("IK{side}{codes}")));
    }
    if rng.one_in(4) {
        pieces.push(harmless(rng));
    }
    match rng.below(6) {
        0..=2 => pieces.push(choice_text(rng)),
        3 => pieces.push(one_frame(rng, "ID11 ID12 ID13 ID14 ID15 ID16 ID17 ID18 ID2 ID19 ID999")),
        _ => (),
    }
    pieces
}

fn choice_text(rng: &mut Dice) -> Vec<u8> {
    rng.pick(&["Which round?", "K", "Keep which of the two rounds?"]).into()
}

/// A stream that keeps the rules of a choice screen, or all but one or two of
/// them.
pub fn choices(rng: &mut Dice) -> Vec<u8> {
    match rng.below(96) {
        0 => return vec![],
        1 => return full_choice(rng),
        2 => return parted(rng),
        3 => return stream_of(rng, 5),
        _ => (),
    }
    let mut pieces = vec![one_frame(rng, "ID0 ID5")];
    if rng.one_in(2) {
        pieces.push(choice_text(rng));
    }
    for _ in 0..rng.pick(&[0, 1, 1, 1, 2, 2, 3, 12]) {
        pieces.extend(one_choice(rng));
    }
    for _ in 0..rng.pick(&[0, 0, 1, 1, 1, 1, 1, 2]) {
        spoil_choice(rng, &mut pieces);
    }
    let mut bytes = pieces.concat();
    match rng.below(24) {
        0 | 1 => bytes.truncate(rng.below(bytes.len() + 1)),
        2 => bytes.extend(measured_frame(rng)),
        _ => (),
    }
    bytes.truncate(BYTES);
    bytes
}

/// Drops, moves, cuts or changes a piece, or puts in something else.
fn spoil_choice(rng: &mut Dice, pieces: &mut Vec<Vec<u8>>) {
    let count = pieces.len();
    let any = rng.below(count + 1);
    let place = rng.pick(&[0, count, any, any, any, any]);
    let there = place < count;
    match rng.below(8) {
        0 | 1 if there => drop(pieces.remove(place)),
        2 if place + 1 < count => pieces.swap(place, place + 1),
        3 if there => pieces[place] = doubtful(rng),
        4 if there => {
            // Not the whole of it.
            let length = pieces[place].len();
            pieces[place].truncate(rng.below(length));
        }
        _ => pieces.insert(place, doubtful(rng)),
    }
}

/// A choice of as many bytes as a line takes; a rule is broken at its end, or
/// none.
fn full_choice(rng: &mut Dice) -> Vec<u8> {
    let labels = "\x1BIK1Mine\r\x1BIK2Older\r";
    let last = rng.pick(&[labels, "", "A", "\x1B", "\x1B\r", "\x1BID11\r"]).as_bytes();
    let mut bytes = b"\x1BID0\r\x1BID5\r".to_vec();
    bytes.resize(BYTES - last.len(), LF);
    [&bytes, last].concat()
}
