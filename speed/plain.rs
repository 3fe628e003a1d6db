//! A reader of the handset's language as one writes it in Rust by hand: one struct, changed in place, no allocation, safe code,
//! no proof. It shares no code with crates/. It keeps the same rules: the record is judged first, a frame may be cut anywhere,
//! the call stops before an answer that has no room, and the places of the frame that are not used hold zero.

use crate::door;
use crate::reader::{Fed, Reader};

const ESCAPE: u8 = 0x1B;
const CARRIAGE_RETURN: u8 = 0x0D;
const LIMIT: usize = 250;

// The text mode of large digits, and where its line begins in the text.
const LARGE: u8 = 10;
const LINE: usize = 80;

// In the order of the header's numbers for it.
#[derive(Clone, Copy, PartialEq)]
enum Reading {
    Text,
    Frame,
    Overlong,
}

struct Label {
    len: usize,
    codes: [u8; 7],
}

impl Label {
    fn set(&mut self, text: &[u8]) -> bool {
        if text.len() > 7 || text.iter().any(|&b| b < 0x20) {
            return false;
        }
        self.codes = [0; 7];
        self.codes[..text.len()].copy_from_slice(text);
        self.len = text.len();
        true
    }

    fn in_range(&self) -> bool {
        self.len <= 7 && self.codes[..self.len].iter().all(|&b| b >= 0x20) && self.codes[self.len..].iter().all(|&b| b == 0)
    }

    fn record(&self) -> door::Label {
        door::Label { len: self.len as u8, codes: self.codes }
    }
}

struct Volume {
    which: u8,
    level: u8,
    mute: bool,
    hidden: bool,
}

struct Backlight {
    mode: u8,
    duration: u8,
    left: u8,
    keypad: bool,
}

struct Held {
    down: bool,
    key: u8,
    tick: u16,
    long: bool,
}

// What only the sister has, and whether it is she: nothing changes it, but each call looks at it.
struct Edition {
    sister: bool,
    brightness: u8,
    speaker: u8,
    pwm: bool,
    ptt: bool,
    stage: u8,
    key: u8,
    tick: u16,
    down: u32,
}

const FIRST: Edition = Edition { sister: false, brightness: 0, speaker: 0, pwm: false, ptt: false, stage: 0, key: 0, tick: 0, down: 0 };

// All that a frame can change.
struct Display {
    on: bool,
    mode: u8,
    overlay: u8,
    shown: bool,
    row: usize,
    column: usize,
    // Five rows of 16 codes, and then the large line of 24.
    text: [u8; 104],
    labels: [Label; 2],
    picture: [u8; 672],
    icons: [u8; 6],
    volume: Volume,
    times: [u8; 2],
    buzzer: u8,
    backlight: Backlight,
    contrast: u8,
    on_hook: bool,
    inverse: [bool; 5],
}

// What a frame is answered.
#[derive(Clone, Copy, PartialEq)]
enum Reply {
    Silence,
    Bad,
    Contrast,
    Hook,
    Version,
}

pub struct Handset {
    display: Display,
    held: Held,
    reading: Reading,
    len: usize,
    frame: [u8; LIMIT],
    edition: Edition,
}

fn number(digits: &[u8]) -> Option<u16> {
    if digits.is_empty() || digits.len() > 3 || (digits[0] == b'0' && digits.len() > 1) {
        return None;
    }
    let mut n = 0;
    for &d in digits {
        if !d.is_ascii_digit() {
            return None;
        }
        n = n * 10 + (d - b'0') as u16;
    }
    Some(n)
}

fn pair(text: &[u8]) -> Option<(u16, u16)> {
    let at = text.iter().position(|&b| b == b';')?;
    Some((number(&text[..at])?, number(&text[at + 1..])?))
}

fn hex(b: u8) -> Option<u8> {
    match b {
        b'0'..=b'9' => Some(b - b'0'),
        b'A'..=b'F' => Some(b - b'A' + 10),
        _ => None,
    }
}

// The columns that data draws, and how many; none where it is no data.
fn columns(data: &[u8]) -> Option<([u8; 96], usize)> {
    let mut row = [0; 96];
    let mut used = 0;
    let mut rest = data;
    while let [first, ..] = rest {
        let count = match first {
            b'a'..=b'y' => {
                rest = &rest[1..];
                (first - b'a') as usize + 2
            }
            _ => 1,
        };
        let [high, low, later @ ..] = rest else { return None };
        let column = hex(*high)? << 4 | hex(*low)?;
        row.get_mut(used..used + count)?.fill(column);
        used += count;
        rest = later;
    }
    if used == 0 {
        return None;
    }
    Some((row, used))
}

impl Display {
    fn put(&mut self, b: u8) {
        if self.column < self.row_end() {
            self.text[self.row_start() + self.column] = b;
            self.column += 1;
        }
    }

    fn rows(&self) -> usize {
        match self.mode {
            0 | 1 => 4,
            LARGE => 1,
            _ => 5,
        }
    }

    fn row_start(&self) -> usize {
        if self.mode == LARGE { LINE } else { self.row * 16 }
    }

    fn row_end(&self) -> usize {
        if self.mode == LARGE { 24 } else { 16 }
    }

    fn set_mode(&mut self, n: u16) {
        match n {
            0 | 1 | 5 | 6 | 10 => {
                self.mode = n as u8;
                self.overlay = 0;
                self.row = 0;
                self.column = 0;
            }
            11..=18 => self.overlay = n as u8,
            _ => {}
        }
    }

    fn set_volume(&mut self, which: u8, n: u16) {
        match n {
            0 => {
                self.volume.which = 0;
                self.volume.level = 0;
                self.volume.hidden = true;
            }
            1..=10 => {
                self.volume.which = which;
                self.volume.level = n as u8;
                self.volume.hidden = false;
            }
            _ => {}
        }
    }

    fn set_light(&mut self, n: u16) {
        match n {
            0 => {
                self.backlight.mode = 0;
                self.backlight.left = 0;
            }
            1..=255 => self.backlight.duration = n as u8,
            _ => {}
        }
    }

    fn set_icon(&mut self, icon: usize, n: u16, good: bool) {
        if good {
            self.icons[icon] = n as u8;
        }
    }

    fn numbered(&mut self, letter: u8, n: u16) -> bool {
        match letter {
            b'D' => self.set_mode(n),
            b'S' => self.set_icon(0, n, n <= 1),
            b'U' => self.set_icon(1, n, n <= 1 || n == 255),
            b'F' => self.set_icon(2, n, n <= 6),
            b'R' => self.set_icon(3, n, n <= 1),
            b'P' => self.set_icon(4, n, n <= 19),
            b'W' => self.set_icon(5, n, n <= 3),
            b'L' => self.set_volume(1, n),
            b'J' | b'I' => self.set_volume(2, n),
            b'M' => match n {
                0 => self.volume.mute = false,
                1 => {
                    self.volume.mute = true;
                    self.volume.hidden = false;
                }
                _ => {}
            },
            b'B' => {
                if n <= 255 {
                    self.buzzer = n as u8;
                }
            }
            b'E' => self.set_light(n),
            b'A' => {
                if (1..=20).contains(&n) {
                    self.contrast = n as u8;
                }
            }
            b'Z' => self.mark(n),
            _ => return false,
        }
        true
    }

    fn light_letter(&mut self, letter: u8) -> bool {
        match letter {
            b'E' => {
                self.backlight.mode = 1;
                self.backlight.left = 0;
            }
            b'A' => {
                self.backlight.mode = 2;
                self.backlight.left = self.backlight.duration;
            }
            b'S' => self.backlight.mode = 2,
            b'R' => self.backlight.duration = 30,
            b'e' => self.backlight.keypad = true,
            b'r' => self.backlight.keypad = false,
            _ => return false,
        }
        true
    }

    // A question changes nothing.
    fn obey(&mut self, frame: &[u8]) -> Reply {
        match frame {
            b"IA" => Reply::Contrast,
            b"IH" => Reply::Hook,
            b"&V" => Reply::Version,
            _ if self.command(frame) => Reply::Silence,
            _ => Reply::Bad,
        }
    }

    // The whole answer behind what is written; false where it has no room.
    fn say(&self, reply: Reply, answers: &mut [u8], written: &mut usize) -> bool {
        let mut contrast = *b"\x1BIA000";
        let answer: &[u8] = match reply {
            Reply::Silence => b"",
            Reply::Bad => b"?",
            Reply::Contrast if self.contrast < 10 => {
                contrast[3] = b'0' + self.contrast;
                contrast[4] = b'\r';
                &contrast[..5]
            }
            Reply::Contrast => {
                contrast[3] = b'0' + self.contrast / 10;
                contrast[4] = b'0' + self.contrast % 10;
                contrast[5] = b'\r';
                &contrast
            }
            Reply::Hook if self.on_hook => b"\x1BIHH\r",
            Reply::Hook => b"\x1BIHh\r",
            Reply::Version => b"\x1B&VHA209 V.01.01 11.07.2006\r\n",
        };
        let Some(places) = answers.get_mut(*written..*written + answer.len()) else { return false };
        places.copy_from_slice(answer);
        *written += answer.len();
        true
    }

    fn clear_line(&mut self) {
        let start = self.row_start();
        let end = start + self.row_end();
        self.text[start + self.column..end].fill(0x20);
    }

    fn mark(&mut self, n: u16) {
        let rows = if self.mode == LARGE { 0 } else { self.rows() };
        if n as usize <= rows {
            self.inverse = [false; 5];
            if n > 0 {
                self.inverse[n as usize - 1] = true;
            }
        }
    }

    // Whether the frame is good; a number out of range is passed over.
    fn command(&mut self, frame: &[u8]) -> bool {
        match frame {
            [b'[', numbers @ .., b'H'] => match pair(numbers) {
                None => false,
                Some((row, column)) => {
                    if self.mode != LARGE && (row as usize) < self.rows() && column <= 15 {
                        self.row = row as usize;
                        self.column = column as usize;
                    }
                    true
                }
            },
            b"[K" => {
                self.clear_line();
                true
            }
            [b'&', b'#'] => {
                self.text = [0x20; 104];
                self.row = 0;
                self.column = 0;
                true
            }
            [b'&', b'C'] => {
                self.shown = true;
                true
            }
            [b'&', b'D'] => {
                self.shown = false;
                true
            }
            [b'I', b'K', b'0'] => {
                self.labels[0].set(b"") && self.labels[1].set(b"")
            }
            [b'I', b'K', b'1', text @ ..] => self.labels[0].set(text),
            [b'I', b'K', b'2', text @ ..] => self.labels[1].set(text),
            [b'I', b'D', b'D'] => {
                self.on = false;
                true
            }
            [b'I', b'D', b'E'] => {
                self.on = true;
                true
            }
            [b'I', b'E', letter] if self.light_letter(*letter) => true,
            [b'I', b'T', numbers @ ..] => match pair(numbers) {
                None => false,
                Some((time1, time2)) => {
                    if (4..=50).contains(&time1) && (time2 == 0 || (4..=50).contains(&time2)) {
                        self.times = [time1 as u8, time2 as u8];
                    }
                    true
                }
            },
            [b'I', letter, digits @ ..] => match number(digits) {
                None => false,
                Some(n) => self.numbered(*letter, n),
            },
            [b'G', b'r', row @ b'0'..=b'9', b',', data @ .., b'z'] => match columns(data) {
                None => false,
                Some((columns, used)) => {
                    let row = (row - b'0') as usize;
                    if row <= 6 {
                        let kept = if row == 6 { 31 } else { 255 };
                        for (place, column) in self.picture[row * 96..].iter_mut().zip(&columns[..used]) {
                            *place = column & kept;
                        }
                    }
                    true
                }
            },
            _ => false,
        }
    }

    fn in_range(&self) -> bool {
        let [s, u, f, r, p, w] = self.icons;
        let v = &self.volume;
        matches!(self.mode, 0 | 1 | 5 | 6 | LARGE)
            && matches!(self.overlay, 0 | 11..=18)
            && self.row < self.rows()
            && self.column <= self.row_end()
            && self.text.iter().fold(true, |ok, &b| ok & (b >= 0x20))
            && self.labels[0].in_range()
            && self.labels[1].in_range()
            && self.picture[576..].iter().fold(true, |ok, &b| ok & (b < 32))
            && (s <= 1 && (u <= 1 || u == 255) && f <= 6 && r <= 1 && p <= 19 && w <= 3)
            && (v.which <= 2 && (if v.which == 0 { v.level == 0 } else { (1..=10).contains(&v.level) && !v.hidden }))
            && (4..=50).contains(&self.times[0])
            && (self.times[1] == 0 || (4..=50).contains(&self.times[1]))
            && (self.backlight.mode <= 2 && self.backlight.duration >= 1 && (self.backlight.left == 0 || self.backlight.mode == 2))
            && (1..=20).contains(&self.contrast)
            && self.inverse.iter().filter(|&&mark| mark).count() <= 1
    }
}

impl Reader for Handset {
    fn power_on() -> Handset {
        let label = || Label { len: 0, codes: [0; 7] };
        Handset {
            display: Display {
                on: true,
                mode: 0,
                overlay: 0,
                shown: false,
                row: 0,
                column: 0,
                text: [0x20; 104],
                labels: [label(), label()],
                picture: [0; 672],
                icons: [0; 6],
                volume: Volume { which: 0, level: 0, mute: false, hidden: false },
                times: [12, 0],
                buzzer: 0,
                backlight: Backlight { mode: 0, duration: 30, left: 0, keypad: false },
                contrast: 10,
                on_hook: true,
                inverse: [false; 5],
            },
            held: Held { down: false, key: 0, tick: 0, long: false },
            reading: Reading::Text,
            len: 0,
            frame: [0; LIMIT],
            edition: FIRST,
        }
    }

    fn record(&self) -> door::Handset {
        let d = &self.display;
        let [s, u, f, r, p, w] = d.icons;
        let [time1, time2] = d.times;
        let Volume { which, level, mute, hidden } = d.volume;
        let Backlight { mode, duration, left, keypad } = d.backlight;
        let settings = door::Settings {
            screen: door::Screen { display: d.on, mode: d.mode, overlay: d.overlay, row: d.row as u8, column: d.column as u8 },
            shown: d.shown,
            left: d.labels[0].record(),
            right: d.labels[1].record(),
            icons: door::Icons { s, u, f, r, p, w },
            volume: door::Volume { which, level, mute, hidden },
            times: door::Times { time1, time2 },
            buzzer: d.buzzer,
            backlight: door::Backlight { mode, duration, left, keypad },
            contrast: d.contrast,
            hook: d.on_hook,
            inverse: d.inverse,
        };
        let Held { down, key, tick, long } = self.held;
        let held = door::Held { down, key, tick, long_stage: long };
        let Edition { sister, brightness, speaker, pwm, ptt, stage, key, tick, down } = self.edition;
        let keys = door::Keys { stage, key, tick, down };
        let edition = door::Edition { sister, brightness, speaker, pwm, ptt, keys };
        let small = door::Small { settings, held, state: self.reading as u8, len: self.len as u8, edition };
        door::Handset { small, text: d.text, picture: d.picture, frame: self.frame }
    }
}

impl Edition {
    fn is_first(&self) -> bool {
        let keys = self.stage == 0 && self.key == 0 && self.tick == 0 && self.down == 0;
        !self.sister && self.brightness == 0 && self.speaker == 0 && !self.pwm && !self.ptt && keys
    }
}

impl Handset {
    fn in_range(&self) -> bool {
        let h = &self.held;
        let held = if h.down { h.key <= 18 } else { h.key == 0 && h.tick == 0 && !h.long };
        self.display.in_range()
            && held
            && self.edition.is_first()
            && self.len <= LIMIT
            && (self.reading == Reading::Frame || self.len == 0)
            && self.frame[..self.len].iter().fold(true, |ok, &b| ok & (b != ESCAPE) & (b != CARRIAGE_RETURN))
            && self.frame[self.len..].iter().fold(true, |ok, &b| ok & (b == 0))
    }

    /// The stream call, byte by byte.
    #[inline(never)]
    pub fn feed(&mut self, bytes: &[u8], answers: &mut [u8]) -> Fed {
        if !self.in_range() {
            return Fed { number: 1, used: 0, written: 0 };
        }
        let mut written = 0;
        let mut used = 0;
        while used < bytes.len() {
            if !self.take(bytes[used], answers, &mut written) {
                break;
            }
            used += 1;
        }
        self.frame[self.len..].fill(0);
        Fed { number: 0, used: used as u64, written: written as u64 }
    }

    // One byte; false where its answer has no room.
    #[inline(always)]
    fn take(&mut self, b: u8, answers: &mut [u8], written: &mut usize) -> bool {
        if self.reading == Reading::Text {
            if b >= 0x20 {
                self.display.put(b);
            } else if b == ESCAPE {
                self.reading = Reading::Frame;
            }
            return true;
        }
        if b == ESCAPE || b == CARRIAGE_RETURN {
            let whole = b == CARRIAGE_RETURN && self.reading == Reading::Frame;
            let reply = if whole { self.display.obey(&self.frame[..self.len]) } else { Reply::Bad };
            if reply != Reply::Silence && !self.display.say(reply, answers, written) {
                return false;
            }
            self.reading = if b == ESCAPE { Reading::Frame } else { Reading::Text };
            self.len = 0;
        } else if self.reading == Reading::Frame {
            if self.len < LIMIT {
                self.frame[self.len] = b;
                self.len += 1;
            } else {
                self.reading = Reading::Overlong;
                self.len = 0;
            }
        }
        true
    }

    /// The same call, tuned: a frame that stands whole in the bytes is obeyed there and not collected.
    #[inline(never)]
    pub fn feed_where_it_stands(&mut self, bytes: &[u8], answers: &mut [u8]) -> Fed {
        if !self.in_range() {
            return Fed { number: 1, used: 0, written: 0 };
        }
        let mut written = 0;
        let mut used = 0;
        while used < bytes.len() {
            if self.reading == Reading::Text && bytes[used] == ESCAPE {
                let rest = &bytes[used + 1..];
                let end = rest.iter().take(LIMIT + 1).position(|&b| b == CARRIAGE_RETURN || b == ESCAPE);
                if let Some(end) = end {
                    if rest[end] == CARRIAGE_RETURN && self.display.command(&rest[..end]) {
                        used += end + 2;
                        continue;
                    }
                }
            }
            if !self.take(bytes[used], answers, &mut written) {
                break;
            }
            used += 1;
        }
        self.frame[self.len..].fill(0);
        Fed { number: 0, used: used as u64, written: written as u64 }
    }

    /// What a peer's screen is compared with: the rows of text, both labels and icon P.
    #[allow(dead_code)]
    pub fn seen(&self) -> (&[u8], [&[u8]; 2], u8) {
        let d = &self.display;
        (&d.text[..LINE], [&d.labels[0].codes[..d.labels[0].len], &d.labels[1].codes[..d.labels[1].len]], d.icons[4])
    }
}

/// A part of a stream, with its byte or its body; the body of a frame lies behind its ESC.
#[allow(dead_code)]
pub enum Part<'a> {
    Text(u8),
    Skipped(u8),
    Closed(&'a [u8]),
    Abandoned(&'a [u8]),
    Tail(&'a [u8]),
}

/// The parts of a stream, one after the other.
pub struct Parts<'a>(pub &'a [u8]);

impl<'a> Iterator for Parts<'a> {
    type Item = Part<'a>;

    fn next(&mut self) -> Option<Part<'a>> {
        let (&first, behind) = self.0.split_first()?;
        if first != ESCAPE {
            self.0 = behind;
            return Some(if first < 0x20 { Part::Skipped(first) } else { Part::Text(first) });
        }
        let Some(end) = behind.iter().position(|&b| b == ESCAPE || b == CARRIAGE_RETURN) else {
            self.0 = &[];
            return Some(Part::Tail(behind));
        };
        let (body, rest) = behind.split_at(end);
        if rest[0] == ESCAPE {
            self.0 = rest;
            return Some(Part::Abandoned(body));
        }
        self.0 = &rest[1..];
        Some(Part::Closed(body))
    }
}
