//! The record of the handset, held in types that can be out of range,
//! and its power-on values.

/// Bytes that part a stream.
pub const ESC: u8 = 0x1B;
pub const CR: u8 = 0x0D;
pub const LF: u8 = 0x0A;
pub const QUESTION: u8 = b'?';

/// The most bytes an open frame holds.
pub const FRAME: usize = 250;
/// Columns of a picture row, and codes of a text row and of a label.
pub const COLUMNS: usize = 96;
pub const CODES: usize = 16;
pub const LABEL: usize = 7;
/// Codes of the large line: 16 of normal size and 8 big ones (note 3.5.29).
pub const BIG: usize = 8;
pub const LINE: usize = CODES + BIG;
/// The text mode that shows the large line.
pub const LARGE: u8 = 10;
/// Text rows, each with an inverse mark.
pub const TEXT_ROWS: usize = 5;

#[derive(Clone, Copy, PartialEq, Eq, Debug)]
pub struct Label {
    pub length: u8,
    pub codes: [u8; LABEL],
}

/// which: 0 none, 1 private, 2 handsfree.
#[derive(Clone, Copy, PartialEq, Eq, Debug)]
pub struct Volume {
    pub which: u8,
    pub level: u8,
    pub mute: bool,
    pub hidden: bool,
}

/// mode: 0 off, 1 on, 2 auto. duration and left count seconds.
#[derive(Clone, Copy, PartialEq, Eq, Debug)]
pub struct Backlight {
    pub mode: u8,
    pub duration: u8,
    pub left: u8,
    pub keypad: bool,
}

#[derive(Clone, Copy, PartialEq, Eq, Debug)]
pub struct Held {
    pub down: bool,
    pub key: u8,
    pub tick: u16,
    pub long: bool,
}

/// state: 0 none, 1 open, 2 overlong.
#[derive(Clone, Copy, PartialEq, Eq, Debug)]
pub struct Frame {
    pub state: u8,
    pub length: u8,
    pub bytes: [u8; FRAME],
}

/// The sister's keys that are down. stage: 0 none, 1 short, 2 long, 3 false.
/// down: a bit a key, keys 0 to 7 in the first byte, key 0 the lowest bit.
#[derive(Clone, Copy, PartialEq, Eq, Debug)]
pub struct Keys {
    pub stage: u8,
    pub key: u8,
    pub tick: u16,
    pub down: [u8; 4],
}

/// Which handset it is, and what only the sister (AN1900) has: in the first
/// edition all of it is unused. pwm goes with the backlight's mode, on or auto.
#[derive(Clone, Copy, PartialEq, Eq, Debug)]
pub struct Edition {
    pub sister: bool,
    pub brightness: u8,
    pub speaker: u8,
    pub pwm: bool,
    pub ptt: bool,
    pub keys: Keys,
}

/// Places of the icons in `Record::icons`.
pub const ICON_S: usize = 0;
pub const ICON_U: usize = 1;
pub const ICON_F: usize = 2;
pub const ICON_R: usize = 3;
pub const ICON_P: usize = 4;
pub const ICON_W: usize = 5;

#[derive(Clone, PartialEq, Eq, Debug)]
pub struct Record {
    pub display: bool,
    pub mode: u8,
    pub overlay: u8,
    pub shown: bool,
    pub row: u8,
    pub column: u8,
    pub text: [u8; TEXT_ROWS * CODES],
    pub line: [u8; LINE],
    pub left: Label,
    pub right: Label,
    pub picture: [u8; 7 * COLUMNS],
    pub icons: [u8; 6],
    pub volume: Volume,
    pub time1: u8,
    pub time2: u8,
    pub buzzer: u8,
    pub backlight: Backlight,
    pub contrast: u8,
    /// True: on-hook.
    pub hook: bool,
    /// The inverse marks of the text rows.
    pub marks: [bool; TEXT_ROWS],
    pub held: Held,
    pub frame: Frame,
    pub edition: Edition,
}

pub const NO_LABEL: Label = Label { length: 0, codes: [0; LABEL] };

pub const NO_KEY: Held = Held { down: false, key: 0, tick: 0, long: false };

pub const NO_FRAME: Frame = Frame { state: 0, length: 0, bytes: [0; FRAME] };

pub const NO_KEYS: Keys = Keys { stage: 0, key: 0, tick: 0, down: [0; 4] };

pub const FIRST: Edition = Edition { sister: false, brightness: 0, speaker: 0, pwm: false, ptt: false, keys: NO_KEYS };

/// At power-on no key repeats, the contrast is the note's middle value, and
/// the handset lies in its rest.
pub fn power_on() -> Record {
    Record {
        display: true,
        mode: 0,
        overlay: 0,
        shown: false,
        row: 0,
        column: 0,
        text: [0x20; TEXT_ROWS * CODES],
        line: [0x20; LINE],
        left: NO_LABEL,
        right: NO_LABEL,
        picture: [0; 7 * COLUMNS],
        icons: [0; 6],
        volume: Volume { which: 0, level: 0, mute: false, hidden: false },
        time1: 12,
        time2: 0,
        buzzer: 0,
        backlight: Backlight { mode: 0, duration: 30, left: 0, keypad: false },
        contrast: 10,
        hook: true,
        marks: [false; TEXT_ROWS],
        held: NO_KEY,
        frame: NO_FRAME,
        edition: FIRST,
    }
}

/// The power-on record of the former defaults: Time2 alone is another.
pub fn former_power_on() -> Record {
    Record { time2: 12, ..power_on() }
}

/// The sister's power-on record: the note's times, the light in auto with PWM,
/// and values of her own.
pub fn sister_power_on() -> Record {
    let first = former_power_on();
    Record {
        backlight: Backlight { mode: 2, ..first.backlight },
        edition: Edition { sister: true, brightness: 50, speaker: 3, pwm: true, ..FIRST },
        ..first
    }
}

/// The sister's record after a restart: that of power-on, with the six numbers
/// that she keeps while the power is off (her EEPROM).
pub fn restarted(before: &Record) -> Record {
    let mut record = sister_power_on();
    (record.time1, record.time2, record.contrast) = (before.time1, before.time2, before.contrast);
    record.backlight.duration = before.backlight.duration;
    (record.edition.brightness, record.edition.speaker) = (before.edition.brightness, before.edition.speaker);
    record
}

/// The label that holds these codes (at most seven).
pub fn label_of(codes: &[u8]) -> Label {
    let mut label = NO_LABEL;
    label.length = codes.len() as u8;
    label.codes[..codes.len()].copy_from_slice(codes);
    label
}

/// Rows of a text mode that the cursor may stand in; none where the number is
/// no text mode.
pub fn rows(mode: u8) -> Option<u8> {
    match mode {
        0 | 1 => Some(4),
        5 | 6 => Some(5),
        LARGE => Some(1),
        _ => None,
    }
}

/// Rows that a frame can name, to put the cursor there or to mark them: those
/// of the text mode, but none in the mode of the large line.
pub fn rows_to_name(mode: u8) -> u8 {
    match mode {
        LARGE => 0,
        _ => rows(mode).unwrap_or(0),
    }
}

/// The codes of a row in a text mode: its last column is one past them.
pub fn capacity(mode: u8) -> usize {
    match mode {
        LARGE => LINE,
        _ => CODES,
    }
}
