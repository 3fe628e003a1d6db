//! The writers: a command, a label, a picture row.
//!
//! Each gives the number and the count. A frame is the command's shape with
//! its values put in, between ESC and CR LF. Each edition has a command writer
//! of its own; labels and picture rows are spelt alike in both.

use crate::grammar::{named, Command, MOST_ROWS};
use crate::record::*;

/// Puts the frame into the room: all of it or nothing.
fn put(command: &Command, numbers: &[u16], rest: &[u8], room: &mut [u8]) -> (u8, usize) {
    let frame = [&[ESC], &command.spell(numbers, rest)[..], &[CR, LF]].concat();
    match room.get_mut(..frame.len()) {
        None => (3, 0),
        Some(places) => {
            places.copy_from_slice(&frame);
            (0, frame.len())
        }
    }
}

/// The sister's commands by the kinds of her writer. What she has of the first
/// edition's commands, in whatever spelling, keeps its number there; her own
/// begin at 64, those among them whose range or effect is another with her.
#[rustfmt::skip]
pub const HER_KINDS: [(u8, &str); 50] = [
    (0, "DisplayOff"), (1, "DisplayOn"), (5, "Clear"), (6, "Position"), (7, "LabelsEmpty"), (8, "IconS"),
    (10, "IconF"), (11, "IconR"), (12, "IconP"), (13, "IconW"), (14, "Private"), (15, "HandsfreeJ"), (17, "Mute"),
    (19, "Buzzer"), (27, "Contrast"), (31, "ClearLine"), (32, "Inverse"),
    (64, "Cursor"), (65, "Restart"), (66, "Mode"),
    (67, "LightNumber"), (68, "LightOn"), (69, "LightAutoStart"), (70, "LightAuto"), (71, "PwmOn"), (72, "PwmAuto"),
    (73, "LightRestart"), (74, "KeypadSet"), (75, "KeypadClearStart"), (76, "KeypadClear"),
    (77, "IconU"), (78, "Brightness"), (79, "Times"), (80, "Speaker"),
    (81, "AskPosition"), (82, "AskVersion"), (83, "AskHook"), (84, "AskPtt"), (85, "AskContrast"), (86, "AskMode"),
    (87, "AskLight"), (88, "AskBrightness"), (89, "AskTimes"), (90, "AskSpeaker"),
    (91, "ContrastUp"), (92, "ContrastDown"), (93, "BrightnessUp"), (94, "BrightnessDown"),
    (95, "SpeakerUp"), (96, "SpeakerDown"),
];

/// The sister's command of a kind. None: she has no such kind.
pub fn of_her_kind(kind: u8) -> Option<&'static Command> {
    HER_KINDS.iter().find(|(known, _)| *known == kind).map(|(_, name)| named(true, name))
}

/// The sister's command writer. A kind that she has not is out of range as a
/// number is; a step is written wherever its value stands, for the writer knows
/// no record.
pub fn her_command(kind: u8, numbers: [u16; 2], room: &mut [u8]) -> (u8, usize) {
    match of_her_kind(kind) {
        Some(known) => command(known, numbers, room),
        None => (2, 0),
    }
}

/// The command writer, of a command of either edition. It knows no mode: it
/// takes cursor rows 0 to 4. A command takes as many of the two numbers as it
/// has.
pub fn command(command: &Command, numbers: [u16; 2], room: &mut [u8]) -> (u8, usize) {
    let numbers = &numbers[..command.ranges().len()];
    match command.first_out_of_range(numbers, MOST_ROWS) {
        Some(_) => (2, 0),
        None => put(command, numbers, &[], room),
    }
}

/// The label writer: side 0 left, 1 right.
pub fn label(side: u8, codes: &[u8], room: &mut [u8]) -> (u8, usize) {
    if codes.len() > LABEL || codes.iter().any(|&code| code < 0x20) {
        return (2, 0);
    }
    let command = named(false, if side == 0 { "LeftLabel" } else { "RightLabel" });
    put(command, &[], codes, room)
}

/// The picture row writer.
pub fn picture(row: u8, columns: &[u8], room: &mut [u8]) -> (u8, usize) {
    let wrong =
        columns.is_empty() || columns.len() > COLUMNS || row > 6 || (row == 6 && columns.iter().any(|&dots| dots > 31));
    if wrong {
        return (2, 0);
    }
    put(named(false, "Picture"), &[row.into()], &data(columns), room)
}

/// The columns as data: each longest run of equal columns in 26s from the
/// left, a single column without a letter.
fn data(columns: &[u8]) -> Vec<u8> {
    let runs = columns.chunk_by(|a, b| a == b).flat_map(|run| run.chunks(26));
    let item = |same: &[u8]| match same.len() {
        1 => format!("{:02X}", same[0]),
        times => format!("{}{:02X}", char::from(b'a' + times as u8 - 2), same[0]),
    };
    runs.map(item).collect::<String>().into_bytes()
}
