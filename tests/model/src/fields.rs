//! The fields of the record, as a table. A row has the field's name, where it
//! stands, how many places it has, the fields that its range rests on, and its
//! range; the order is that in which a script numbers them.
//!
//! A field whose range rests on another field is judged only while that other
//! field is in range; the record is refused either way.
//!
//! The edition is no field that others are said to rest on, though the ranges
//! of some go by it: it is chosen at power-on, and nothing but S changes it. In
//! the first edition all that only the sister has is unused, in hers the first
//! edition's held key.

use crate::record::*;
use Spot::{Byte, Flag, Word};

pub enum Spot<'a> {
    Flag(&'a mut bool),
    Byte(&'a mut u8),
    Word(&'a mut u16),
}

pub struct Field {
    pub name: &'static str,
    pub places: usize,
    spot: for<'a> fn(&'a mut Record, usize) -> Spot<'a>,
    pub rests_on: &'static [&'static str],
    /// None: whatever its type holds is in range.
    fits: Option<fn(&Record) -> bool>,
}

macro_rules! fields {
    (@fits $r:ident any) => { None };
    (@fits $r:ident $fits:expr) => { Some(|$r| $fits) };
    ($r:ident, $p:ident: $($name:literal, $kind:ident($spot:expr), $places:expr, $rests_on:expr, ($($fits:tt)+));+;) => {
        #[allow(unused_variables)]
        pub static FIELDS: &[Field] = &[$(Field {
            name: $name,
            places: $places,
            spot: |$r, $p| $kind(&mut $spot),
            rests_on: &$rests_on,
            fits: fields!(@fits $r $($fits)+),
        }),+];
    };
}

fields! { r, p:
    "display", Flag(r.display), 1, [], (any);
    "text mode", Byte(r.mode), 1, [], (rows(r.mode).is_some());
    "overlay", Byte(r.overlay), 1, [], (matches!(r.overlay, 0 | 11..=18));
    "cursor shown", Flag(r.shown), 1, [], (any);
    "row", Byte(r.row), 1, ["text mode"], (rows(r.mode).is_none_or(|rows| r.row < rows));
    "column", Byte(r.column), 1, ["text mode"], (rows(r.mode).is_none() || usize::from(r.column) <= capacity(r.mode));
    "text", Byte(r.text[p]), TEXT_ROWS * CODES, [], (r.text.iter().all(|&code| code >= 0x20));
    "left label length", Byte(r.left.length), 1, [], (r.left.length <= 7);
    "left label codes", Byte(r.left.codes[p]), LABEL, ["left label length"], (label_codes(&r.left));
    "right label length", Byte(r.right.length), 1, [], (r.right.length <= 7);
    "right label codes", Byte(r.right.codes[p]), LABEL, ["right label length"], (label_codes(&r.right));
    "picture", Byte(r.picture[p]), 7 * COLUMNS, [], (r.picture[6 * COLUMNS..].iter().all(|&dots| dots < 32));
    "icon S", Byte(r.icons[ICON_S]), 1, [], (r.icons[ICON_S] <= 1);
    "icon U", Byte(r.icons[ICON_U]), 1, [], (matches!(r.icons[ICON_U], 0 | 1 | 255));
    "icon F", Byte(r.icons[ICON_F]), 1, [], (r.icons[ICON_F] <= 6);
    "icon R", Byte(r.icons[ICON_R]), 1, [], (r.icons[ICON_R] <= 1);
    "icon P", Byte(r.icons[ICON_P]), 1, [], (r.icons[ICON_P] <= 19);
    "icon W", Byte(r.icons[ICON_W]), 1, [], (r.icons[ICON_W] <= 3);
    "volume which", Byte(r.volume.which), 1, [], (r.volume.which <= 2);
    "volume level", Byte(r.volume.level), 1, ["volume which"], (match r.volume.which {
        0 => r.volume.level == 0,
        1 | 2 => matches!(r.volume.level, 1..=10),
        _ => true,
    });
    "mute", Flag(r.volume.mute), 1, [], (any);
    "hidden", Flag(r.volume.hidden), 1, ["volume which"], (!r.volume.hidden || !matches!(r.volume.which, 1 | 2));
    "Time1", Byte(r.time1), 1, [], (matches!(r.time1, 4..=50) || (sister(r) && r.time1 == 0));
    "Time2", Byte(r.time2), 1, ["Time1"], (r.time2 == 0 || (matches!(r.time2, 4..=50) && !(sister(r) && r.time1 == 0)));
    "buzzer", Byte(r.buzzer), 1, [], (any);
    "backlight mode", Byte(r.backlight.mode), 1, [], (r.backlight.mode <= 2);
    "duration", Byte(r.backlight.duration), 1, [], (r.backlight.duration >= 1 && r.backlight.duration <= longest(r));
    "left", Byte(r.backlight.left), 1, ["backlight mode"],
        (r.backlight.left == 0 || (r.backlight.mode >= 2 && r.backlight.left <= longest(r)));
    "keypad flag", Flag(r.backlight.keypad), 1, [], (any);
    "held", Flag(r.held.down), 1, [], (!sister(r) || !r.held.down);
    "held key", Byte(r.held.key), 1, ["held"], (r.held.key <= if r.held.down && !sister(r) { 18 } else { 0 });
    "held tick", Word(r.held.tick), 1, ["held"], ((r.held.down && !sister(r)) || r.held.tick == 0);
    "stage", Flag(r.held.long), 1, ["held"], ((r.held.down && !sister(r)) || !r.held.long);
    "frame state", Byte(r.frame.state), 1, [], (r.frame.state <= 2);
    "frame length", Byte(r.frame.length), 1, ["frame state"], (match r.frame.state {
        1 => usize::from(r.frame.length) <= FRAME,
        0 | 2 => r.frame.length == 0,
        _ => true,
    });
    "frame bytes", Byte(r.frame.bytes[p]), FRAME, ["frame length", "frame state"], (frame_bytes(&r.frame));
    "large line", Byte(r.line[p]), LINE, [], (r.line.iter().all(|&code| code >= 0x20));
    "contrast", Byte(r.contrast), 1, [], (matches!(r.contrast, 1..=20) || (sister(r) && r.contrast == 0));
    "hook", Flag(r.hook), 1, [], (any);
    "inverse mark", Flag(r.marks[p]), TEXT_ROWS, [], (r.marks.iter().filter(|&&mark| mark).count() <= 1);
    "sister", Flag(r.edition.sister), 1, [], (any);
    "brightness", Byte(r.edition.brightness), 1, [], (r.edition.brightness <= hers(r, 100));
    "speaker volume", Byte(r.edition.speaker), 1, [], (r.edition.speaker <= hers(r, 7));
    "PWM", Flag(r.edition.pwm), 1, ["backlight mode"], (!r.edition.pwm || (sister(r) && r.backlight.mode != 0));
    "PTT", Flag(r.edition.ptt), 1, [], (!r.edition.ptt || sister(r));
    "sister's stage", Byte(r.edition.keys.stage), 1, [], (r.edition.keys.stage <= hers(r, 3));
    "sister's key", Byte(r.edition.keys.key), 1, ["sister's stage"], (r.edition.keys.key == 0 || match stage(r) {
        1 | 2 => r.edition.keys.key <= 20,
        other => other > 3,
    });
    "sister's tick", Word(r.edition.keys.tick), 1, ["sister's stage"],
        (r.edition.keys.tick == 0 || !matches!(stage(r), 0 | 3));
    "sister's keys down", Byte(r.edition.keys.down[p]), 4, ["sister's stage"], (match stage(r) {
        3 => matches!(u32::from_le_bytes(r.edition.keys.down), 1..=0x1F_FFFF),
        other => other > 3 || r.edition.keys.down == [0; 4],
    });
}

fn sister(record: &Record) -> bool {
    record.edition.sister
}

/// The greatest value of what only the sister has; in the first edition 0.
fn hers(record: &Record, most: u8) -> u8 {
    most * u8::from(sister(record))
}

/// The most seconds of the light.
fn longest(record: &Record) -> u8 {
    if sister(record) {
        250
    } else {
        255
    }
}

/// The stage of the sister's keys; in the first edition it is none.
fn stage(record: &Record) -> u8 {
    hers(record, 1) * record.edition.keys.stage
}

fn label_codes(label: &Label) -> bool {
    let used = usize::from(label.length);
    used > LABEL
        || (label.codes[..used].iter().all(|&code| code >= 0x20) && label.codes[used..].iter().all(|&code| code == 0))
}

/// The places in use are those of an open frame alone.
fn frame_bytes(frame: &Frame) -> bool {
    let used = match frame.state {
        0 | 2 => 0,
        1 if usize::from(frame.length) <= FRAME => usize::from(frame.length),
        _ => return true,
    };
    !frame.bytes[..used].iter().any(|byte| [ESC, CR].contains(byte))
        && frame.bytes[used..].iter().all(|&byte| byte == 0)
}

/// The number of the field with this name.
pub fn field(name: &str) -> u16 {
    let place = FIELDS.iter().position(|field| field.name == name);
    place.unwrap_or_else(|| panic!("no field is called {name}")) as u16
}

/// How many places a field has.
pub fn places(field: u16) -> usize {
    FIELDS[usize::from(field)].places
}

/// The fields that can be out of range in an edition: whether a key is held is
/// never wrong in the first, whether PTT is pressed never in the sister's.
pub fn refusable(sister: bool) -> Vec<u16> {
    let free = if sister { "PTT" } else { "held" };
    let can = |row: &Field| row.fits.is_some() && row.name != free;
    (0..FIELDS.len() as u16).filter(|&field| can(&FIELDS[usize::from(field)])).collect()
}

/// Whether a field is in its range.
pub fn fits(record: &Record, field: u16) -> bool {
    FIELDS[usize::from(field)].fits.is_none_or(|fits| fits(record))
}

pub fn in_range(record: &Record) -> bool {
    FIELDS.iter().all(|field| field.fits.is_none_or(|fits| fits(record)))
}

/// The fields out of range, in order.
pub fn faults(record: &Record) -> Vec<u16> {
    (0..FIELDS.len() as u16).filter(|&field| !fits(record, field)).collect()
}

/// The backlight's own ranges: those of the first edition, since a backlight
/// alone knows none.
pub fn backlight_in_range(light: &Backlight) -> bool {
    in_range(&Record { backlight: *light, ..power_on() })
}

fn spot(record: &mut Record, field: u16, place: usize) -> Option<Spot<'_>> {
    let field = FIELDS.get(usize::from(field)).filter(|field| place < field.places)?;
    Some((field.spot)(record, place))
}

/// Sets one place of one field to any value its type holds. False where
/// there is no such field or place.
pub fn set(record: &mut Record, field: u16, place: usize, value: u16) -> bool {
    match spot(record, field, place) {
        None => return false,
        Some(Flag(flag)) => *flag = value != 0,
        Some(Byte(byte)) => *byte = (value % 256) as u8,
        Some(Word(word)) => *word = value,
    }
    true
}

/// What stands in the places of a field.
pub fn contents(record: &mut Record, field: u16) -> Vec<u16> {
    let held = |place| match spot(record, field, place)? {
        Flag(flag) => Some(u16::from(*flag)),
        Byte(byte) => Some(u16::from(*byte)),
        Word(word) => Some(*word),
    };
    (0..places(field)).filter_map(held).collect()
}

/// What stands in a field of one place.
pub fn get(record: &Record, field: u16) -> u16 {
    contents(&mut record.clone(), field)[0]
}

/// The values that a place of a field can hold; of a word some.
pub fn values(field: u16) -> Vec<u16> {
    match spot(&mut power_on(), field, 0) {
        Some(Flag(_)) => vec![0, 1],
        Some(Word(_)) => (0..256).chain([256, 512, 32_768, 65_535]).collect(),
        _ => (0..256).collect(),
    }
}
