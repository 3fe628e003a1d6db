//! The commands of the handset, as a table for each edition: how each is spelt,
//! with the range of its numbers, and what it does or tells. Then what a text
//! byte and a second do.

use crate::grammar::Effect::{Do, If, Tell};
use crate::grammar::Piece::{Data, Digit, Is, Number, Text};
use crate::grammar::{Command, Effect, In, Piece, Spelt};
use crate::record::*;
use In::{Row, RowFromOne, Spans, SpansOrZeros};

const fn command(name: &'static str, shape: &'static [Piece], effect: Effect) -> Command {
    Command { name, shape, effect }
}

const fn up_to(spans: &'static [(u16, u16)]) -> Piece {
    Number(Spans(spans))
}

/// All commands of an edition.
pub fn table(sister: bool) -> &'static [Command] {
    if sister {
        SISTERS
    } else {
        COMMANDS
    }
}

/// All commands of the first edition. Those that the command writer knows stand first, in the order
/// in which a script numbers them. Neighbours have to do with the same fields:
/// random streams often bring some of them together. II is the note's spelling
/// of the handsfree volume (3.5.25), IJ that of document 01; they are two
/// commands of one effect. The picture frame is spelt as in 3.6.5 of the note.
#[rustfmt::skip]
pub static COMMANDS: &[Command] = &[
    command("DisplayOff", &[Is("IDD")], Do(|r, _, _| r.display = false)),
    command("DisplayOn", &[Is("IDE")], Do(|r, _, _| r.display = true)),
    command("Mode", &[Is("ID"), up_to(&[(0, 1), (5, 6), (10, 18)])], Do(|r, n, _| set_mode(r, n[0]))),
    command("CursorShown", &[Is("&C")], Do(|r, _, _| r.shown = true)),
    command("CursorNotShown", &[Is("&D")], Do(|r, _, _| r.shown = false)),
    command("Clear", &[Is("&#")], Do(|r, _, _| clear(r))),
    command("Position", &[Is("["), Number(Row), Is(";"), up_to(&[(0, 15)]), Is("H")],
        Do(|r, n, _| (r.row, r.column) = (n[0], n[1]))),
    command("LabelsEmpty", &[Is("IK0")], Do(|r, _, _| (r.left, r.right) = (NO_LABEL, NO_LABEL))),
    command("IconS", &[Is("IS"), up_to(&[(0, 1)])], Do(|r, n, _| r.icons[ICON_S] = n[0])),
    command("IconU", &[Is("IU"), up_to(&[(0, 1), (255, 255)])], Do(|r, n, _| r.icons[ICON_U] = n[0])),
    command("IconF", &[Is("IF"), up_to(&[(0, 6)])], Do(|r, n, _| r.icons[ICON_F] = n[0])),
    command("IconR", &[Is("IR"), up_to(&[(0, 1)])], Do(|r, n, _| r.icons[ICON_R] = n[0])),
    command("IconP", &[Is("IP"), up_to(&[(0, 19)])], Do(|r, n, _| r.icons[ICON_P] = n[0])),
    command("IconW", &[Is("IW"), up_to(&[(0, 3)])], Do(|r, n, _| r.icons[ICON_W] = n[0])),
    command("Private", &[Is("IL"), up_to(&[(0, 10)])], Do(|r, n, _| set_volume(r, 1, n[0]))),
    command("HandsfreeJ", &[Is("IJ"), up_to(&[(0, 10)])], Do(|r, n, _| set_volume(r, 2, n[0]))),
    command("HandsfreeI", &[Is("II"), up_to(&[(0, 10)])], Do(|r, n, _| set_volume(r, 2, n[0]))),
    command("Mute", &[Is("IM"), up_to(&[(0, 1)])], Do(|r, n, _| set_mute(r, n[0] == 1))),
    command("Times", &[Is("IT"), up_to(&[(4, 50)]), Is(";"), up_to(&[(0, 0), (4, 50)])],
        Do(|r, n, _| (r.time1, r.time2) = (n[0], n[1]))),
    command("Buzzer", &[Is("IB"), up_to(&[(0, 255)])], Do(|r, n, _| r.buzzer = n[0])),
    command("LightNumber", &[Is("IE"), up_to(&[(0, 255)])], Do(|r, n, _| match n[0] {
        0 => light(r, 0, 0),
        seconds => r.backlight.duration = seconds,
    })),
    command("LightOn", &[Is("IEE")], Do(|r, _, _| light(r, 1, 0))),
    command("LightAutoStart", &[Is("IEA")], Do(|r, _, _| light(r, 2, r.backlight.duration))),
    command("LightAuto", &[Is("IES")], Do(|r, _, _| r.backlight.mode = 2)),
    command("LightDefault", &[Is("IER")], Do(|r, _, _| r.backlight.duration = 30)),
    command("KeypadSet", &[Is("IEe")], Do(|r, _, _| r.backlight.keypad = true)),
    command("KeypadClear", &[Is("IEr")], Do(|r, _, _| r.backlight.keypad = false)),
    command("Contrast", &[Is("IA"), up_to(&[(1, 20)])], Do(|r, n, _| r.contrast = n[0])),
    command("AskContrast", &[Is("IA")], Tell(|r| format!("IA{}\r", r.contrast))),
    command("AskHook", &[Is("IH")], Tell(|r| if r.hook { "IHH\r" } else { "IHh\r" }.to_string())),
    // What the note calls the current version (3.5.15), with no blank before it.
    command("AskVersion", &[Is("&V")], Tell(|_| "&VHA209 V.01.01 11.07.2006\r\n".to_string())),
    command("ClearLine", &[Is("[K")], Do(|r, _, _| clear_line(r))),
    command("Inverse", &[Is("IZ"), Number(RowFromOne)], Do(|r, n, _| mark_row(r, n[0]))),
    command("LeftLabel", &[Is("IK1"), Text], Do(|r, _, codes| r.left = label_of(codes))),
    command("RightLabel", &[Is("IK2"), Text], Do(|r, _, codes| r.right = label_of(codes))),
    command("Picture", &[Is("Gr"), Digit(Spans(&[(0, 6)])), Is(","), Data, Is("z")],
        Do(|r, n, columns| draw(r, n[0], columns))),
];

/// All commands of the sister, note 1900, section 3.5 without baud rate and
/// serial number. One that does what a command of the first edition does has
/// its name. What the scan of the note has lost (the spellings of 3.5.4 and
/// 3.5.5, that of a restart but for its example) is read by the order of the
/// sections. IV sets the speaker, and no icon.
#[rustfmt::skip]
pub static SISTERS: &[Command] = &[
    command("DisplayOff", &[Is("IDMD")], Do(|r, _, _| r.display = false)),
    command("DisplayOn", &[Is("IDME")], Do(|r, _, _| r.display = true)),
    command("Mode", &[Is("IDM"), up_to(&[(0, 12)])], Do(|r, n, _| set_mode(r, SCREENS[usize::from(n[0])]))),
    command("AskMode", &[Is("IDM?")], Tell(|r| format!("IDM: {}\r\n", screen(r)))),
    command("Cursor", &[Is("&C"), up_to(&[(0, 1)])], Do(|r, n, _| r.shown = n[0] == 1)),
    command("Clear", &[Is("&D")], Do(|r, _, _| clear(r))),
    command("Position", &[Is("&H"), Number(Row), Is(";"), up_to(&[(0, 15)])],
        Do(|r, n, _| (r.row, r.column) = (n[0], n[1]))),
    command("AskPosition", &[Is("&H?")], Tell(|r| format!("&H: {};{}\r\n", r.row, r.column))),
    command("ClearLine", &[Is("&K")], Do(|r, _, _| clear_line(r))),
    command("Inverse", &[Is("IZ"), Number(RowFromOne)], Do(|r, n, _| mark_row(r, n[0]))),
    command("LabelsEmpty", &[Is("IK0")], Do(|r, _, _| (r.left, r.right) = (NO_LABEL, NO_LABEL))),
    command("IconS", &[Is("IS"), up_to(&[(0, 1)])], Do(|r, n, _| r.icons[ICON_S] = n[0])),
    // 2 is flashing, which is kept as in the first edition.
    command("IconU", &[Is("IU"), up_to(&[(0, 2)])], Do(|r, n, _| r.icons[ICON_U] = [0, 1, 255][usize::from(n[0])])),
    command("IconF", &[Is("IF"), up_to(&[(0, 6)])], Do(|r, n, _| r.icons[ICON_F] = n[0])),
    command("IconR", &[Is("IR"), up_to(&[(0, 1)])], Do(|r, n, _| r.icons[ICON_R] = n[0])),
    command("IconP", &[Is("IP"), up_to(&[(0, 19)])], Do(|r, n, _| r.icons[ICON_P] = n[0])),
    command("IconW", &[Is("IW"), up_to(&[(0, 3)])], Do(|r, n, _| r.icons[ICON_W] = n[0])),
    command("Private", &[Is("IL"), up_to(&[(0, 10)])], Do(|r, n, _| set_volume(r, 1, n[0]))),
    command("HandsfreeJ", &[Is("IJ"), up_to(&[(0, 10)])], Do(|r, n, _| set_volume(r, 2, n[0]))),
    command("Mute", &[Is("IM"), up_to(&[(0, 1)])], Do(|r, n, _| set_mute(r, n[0] == 1))),
    command("Speaker", &[Is("IV"), up_to(&[(0, 7)])], Do(|r, n, _| r.edition.speaker = n[0])),
    command("AskSpeaker", &[Is("IV?")], Tell(|r| format!("IV: {}\r\n", r.edition.speaker))),
    command("SpeakerUp", &[Is("IV+")], If(|r| r.edition.speaker < 7, |r| r.edition.speaker += 1)),
    command("SpeakerDown", &[Is("IV-")], If(|r| r.edition.speaker > 0, |r| r.edition.speaker -= 1)),
    command("AskPtt", &[Is("KP?")], Tell(|r| format!("KP: {}\r\n", if r.edition.ptt { "P" } else { "p" }))),
    command("AskHook", &[Is("KH?")], Tell(|r| format!("KH: {}\r\n", if r.hook { "H" } else { "h" }))),
    // Both switch the messages off that a held key sends.
    command("Times", &[Is("IT"), Number(SpansOrZeros(&[(4, 50)])), Is(";"), up_to(&[(0, 0), (4, 50)])],
        Do(|r, n, _| (r.time1, r.time2) = (n[0], n[1]))),
    command("AskTimes", &[Is("IT?")], Tell(|r| format!("IT: {};{}\r\n", r.time1, r.time2))),
    command("Buzzer", &[Is("IB"), up_to(&[(0, 255)])], Do(|r, n, _| r.buzzer = n[0])),
    command("Contrast", &[Is("IA"), up_to(&[(1, 20)])], Do(|r, n, _| r.contrast = n[0])),
    command("AskContrast", &[Is("IA?")], Tell(|r| format!("IA: {}\r\n", r.contrast))),
    command("ContrastUp", &[Is("IA+")], If(|r| r.contrast < 20, |r| r.contrast += 1)),
    command("ContrastDown", &[Is("IA-")], If(|r| r.contrast > 0, |r| r.contrast -= 1)),
    command("AskVersion", &[Is("&V?")], Tell(|_| "&V: HA400 V.01.00 25.09.2006\r\n".to_string())),
    command("Restart", &[Is("&00")], Do(|r, _, _| *r = restarted(r))),
    command("Brightness", &[Is("IN"), up_to(&[(0, 100)])], Do(|r, n, _| r.edition.brightness = n[0])),
    command("AskBrightness", &[Is("IN?")], Tell(|r| format!("IN: {}\r\n", r.edition.brightness))),
    command("BrightnessUp", &[Is("IN+")], If(|r| r.edition.brightness < 100, |r| r.edition.brightness += 1)),
    command("BrightnessDown", &[Is("IN-")], If(|r| r.edition.brightness > 0, |r| r.edition.brightness -= 1)),
    command("PwmOn", &[Is("IEP")], Do(|r, _, _| light_by(r, true, 1, 0))),
    command("PwmAuto", &[Is("IEQ")], Do(|r, _, _| light_by(r, true, 2, r.backlight.left))),
    command("LightOn", &[Is("IEE")], Do(|r, _, _| light_by(r, false, 1, 0))),
    command("AskLight", &[Is("IE?")],
        Tell(|r| format!("IE: {};{}\r\n", light_number(r), r.backlight.duration))),
    command("LightNumber", &[Is("IE"), up_to(&[(0, 250)])], Do(|r, n, _| match n[0] {
        0 => light_by(r, false, 0, 0),
        seconds => r.backlight.duration = seconds,
    })),
    command("LightAutoStart", &[Is("IEA")], Do(|r, _, _| light_by(r, false, 2, r.backlight.duration))),
    command("LightAuto", &[Is("IES")], Do(|r, _, _| light_by(r, false, 2, r.backlight.left))),
    command("LightRestart", &[Is("IER")], Do(|r, _, _| start_light(r))),
    command("KeypadSet", &[Is("IEe")], If(normal_auto, |r| r.backlight.keypad = true)),
    command("KeypadClearStart", &[Is("IEc")], If(normal_auto, |r| {
        r.backlight.keypad = false;
        start_light(r);
    })),
    command("KeypadClear", &[Is("IEs")], If(normal_auto, |r| r.backlight.keypad = false)),
    command("LeftLabel", &[Is("IK1"), Text], Do(|r, _, codes| r.left = label_of(codes))),
    command("RightLabel", &[Is("IK2"), Text], Do(|r, _, codes| r.right = label_of(codes))),
    command("Picture", &[Is("Gr"), Digit(Spans(&[(0, 6)])), Is(","), Data, Is("z")],
        Do(|r, n, columns| draw(r, n[0], columns))),
];

/// The text modes and overlays in the order of the sister's numbers (3.5.16),
/// by those of the first edition, as they are kept.
pub const SCREENS: [u8; 13] = [0, 1, 5, 6, LARGE, 11, 12, 13, 14, 15, 16, 17, 18];

/// The sister's number of what is selected: the overlay, or with none the text
/// mode.
fn screen(record: &Record) -> usize {
    let kept = if record.overlay > 0 { record.overlay } else { record.mode };
    SCREENS.iter().position(|&screen| screen == kept).unwrap_or(SCREENS.len())
}

/// The sister's number of the light's mode (3.5.19).
fn light_number(record: &Record) -> u8 {
    match (record.backlight.mode, record.edition.pwm) {
        (2, false) => 0,
        (1, false) => 1,
        (2, true) => 2,
        (1, true) => 3,
        _ => 4,
    }
}

fn normal_auto(record: &Record) -> bool {
    light_number(record) == 0
}

fn clear(record: &mut Record) {
    record.text.fill(0x20);
    record.line.fill(0x20);
    (record.row, record.column) = (0, 0);
}

fn clear_line(record: &mut Record) {
    let column = usize::from(record.column);
    row_of_cursor(record)[column..].fill(0x20);
}

/// Marks the row with this number, counted from 1; 0 marks none.
fn mark_row(record: &mut Record, number: u8) {
    record.marks = std::array::from_fn(|row| row + 1 == usize::from(number));
}

fn draw(record: &mut Record, row: u8, columns: &[u8]) {
    let mask = if row == 6 { 0x1F } else { 0xFF };
    for (column, dots) in columns.iter().enumerate() {
        record.picture[usize::from(row) * COLUMNS + column] = dots & mask;
    }
}

fn set_mute(record: &mut Record, on: bool) {
    record.volume.mute = on;
    record.volume.hidden &= !on;
}

fn set_mode(record: &mut Record, number: u8) {
    if number >= 11 {
        record.overlay = number;
    } else {
        (record.mode, record.overlay) = (number, 0);
        (record.row, record.column) = (0, 0);
    }
}

fn set_volume(record: &mut Record, which: u8, level: u8) {
    let none = level == 0;
    record.volume.which = if none { 0 } else { which };
    record.volume.level = level;
    record.volume.hidden = none;
}

fn light(record: &mut Record, mode: u8, left: u8) {
    (record.backlight.mode, record.backlight.left) = (mode, left);
}

/// The sister's light is lit by PWM or not.
fn light_by(record: &mut Record, pwm: bool, mode: u8, left: u8) {
    record.edition.pwm = pwm;
    light(record, mode, left);
}

/// In auto the seconds start anew.
pub fn start_light(record: &mut Record) {
    if record.backlight.mode == 2 {
        record.backlight.left = record.backlight.duration;
    }
}

/// The first number of a frame that is out of range in the record's text mode.
pub fn out_of_range(record: &Record, spelt: &Spelt) -> Option<u16> {
    let rows = rows_to_name(record.mode).into();
    spelt.command.first_out_of_range(&spelt.numbers, rows)
}

/// Whether the record refuses a frame of the grammar, by more than its ranges.
pub fn refused(record: &Record, spelt: &Spelt) -> bool {
    match spelt.command.effect {
        If(may, _) => !may(record),
        _ => false,
    }
}

/// Whether the record lets this command be obeyed.
pub fn obeyed(record: &Record, spelt: &Spelt) -> bool {
    out_of_range(record, spelt).is_none() && !refused(record, spelt)
}

/// Takes a frame of the grammar: obeyed, or passed over.
pub fn take(record: &mut Record, spelt: &Spelt) {
    if !obeyed(record, spelt) {
        return;
    }
    let numbers: Vec<u8> = spelt.numbers.iter().map(|&n| n as u8).collect();
    match spelt.command.effect {
        Do(effect) => effect(record, &numbers, &spelt.codes),
        If(_, effect) => effect(record),
        Tell(_) => (),
    }
}

/// What a frame of the grammar is answered: a question is told its value, one
/// that the record refuses gets the mark of a bad frame, and to all others
/// nothing is said.
pub fn answer(record: &Record, spelt: &Spelt) -> Vec<u8> {
    match spelt.command.effect {
        Tell(tell) => format!("\x1B{}", tell(record)).into_bytes(),
        _ if refused(record, spelt) => mark(record.edition.sister).to_vec(),
        _ => vec![],
    }
}

/// What a bad frame is answered: the sister ends it as all that she says.
pub fn mark(sister: bool) -> &'static [u8] {
    if sister {
        b"?\r\n"
    } else {
        b"?"
    }
}

/// The bytes of the longest answer: that to the question of the version, in the
/// first edition and of the sister. No answer is longer than hers.
pub const LONGEST_OF_FIRST: usize = 29;
pub const LONGEST: usize = 31;

/// The row that the cursor stands in. In mode 10 it is the large line.
fn row_of_cursor(record: &mut Record) -> &mut [u8] {
    match record.mode {
        LARGE => &mut record.line,
        _ => &mut record.text[usize::from(record.row) * CODES..][..CODES],
    }
}

/// A text byte: stored at the cursor, dropped at the end of the row.
pub fn text(record: &mut Record, code: u8) {
    let column = usize::from(record.column);
    if let Some(place) = row_of_cursor(record).get_mut(column) {
        *place = code;
        record.column += 1;
    }
}

/// A second: left falls by one, not below 0.
pub fn second(light: &mut Backlight) {
    light.left -= light.left.min(1);
}
