//! What is seen: the questions of a row and of a column, the two panels, the
//! list screen.

use crate::commands::LONGEST;
use crate::fields::in_range;
use crate::record::*;

/// The phase of the flashing letter.
#[derive(Clone, Copy, PartialEq, Eq, Debug)]
pub enum Phase {
    Lit,
    Pause,
}

pub const PHASES: [Phase; 2] = [Phase::Lit, Phase::Pause];

/// The icon bar, with its two panels as they show.
#[derive(Clone, Copy, PartialEq, Eq, Debug)]
pub struct Bar {
    pub f: u8,
    pub p: u8,
    pub r: u8,
    pub sms: u8,
    pub volume: (u8, u8),
}

/// Who owns a display row, and its contents.
#[derive(Clone, PartialEq, Eq, Debug)]
pub enum Owner {
    Nothing,
    IconBar(Bar),
    /// A text row and its inverse mark.
    Text {
        row: u8,
        codes: [u8; CODES],
        mark: bool,
    },
    Picture {
        row: u8,
        columns: [u8; COLUMNS],
    },
    SoftKeys {
        left: Label,
        right: Label,
        w: u8,
    },
    /// The codes of the large line that are of normal size.
    Small {
        codes: [u8; CODES],
    },
    /// One half of the big codes.
    Big {
        half: Half,
        codes: [u8; BIG],
    },
    /// Two owners: a picture row with zero in the columns of the rocker
    /// panel, and the rocker.
    PictureWithRocker {
        row: u8,
        columns: [u8; COLUMNS],
        w: u8,
    },
}

#[derive(Clone, Copy, PartialEq, Eq, Debug)]
pub enum Half {
    Upper,
    Lower,
}

/// Who owns one column of a display row, and what is there.
#[derive(Clone, Copy, PartialEq, Eq, Debug)]
pub enum Column {
    Nothing,
    /// The bar whole.
    IconBar(Bar),
    /// A code of a text row and the row's inverse mark.
    Text {
        row: u8,
        code: u8,
        mark: bool,
    },
    Picture {
        row: u8,
        dots: u8,
    },
    Small {
        code: u8,
    },
    Big {
        half: Half,
        code: u8,
    },
    /// A cell of a label and its code, 0 past the label's length.
    Left {
        cell: u8,
        code: u8,
    },
    Rocker {
        w: u8,
    },
    Right {
        cell: u8,
        code: u8,
    },
}

/// Columns of a character and of a big one.
pub const CELL: u8 = 6;
pub const BIG_CELL: u8 = 12;
/// The columns of the rocker panel, between two labels of seven characters.
pub const ROCKER: std::ops::Range<u8> = 42..54;

/// The seven rows of the display: I icon bar, 0 to 4 a text row, s the small
/// codes of the large line, u and l the two halves of its big codes, P the
/// picture row of that place, R that picture row but for the rocker panel, S
/// soft-key bar, a point nothing.
///
/// An overlay is a transparency on the text mode: where it has a blank, the
/// text mode is seen.
pub fn layout(record: &Record) -> [u8; 7] {
    if !record.display {
        return *b".......";
    }
    let below = match record.mode {
        0 | 1 => b"I0123S.",
        5 | 6 => b"01234S.",
        _ => b"Isul.S.",
    };
    let above = match record.overlay {
        11 => b"IPPPP  ",
        12 => b"PPPPP  ",
        13 => b"PPPPPPP",
        14 => b"IPPPPRP",
        15 => b"PPPPPRP",
        16 => b"IPP    ",
        17 => b"I  PP  ",
        18 => b"I    RP",
        _ => b"       ",
    };
    std::array::from_fn(|row| match above[row] {
        b' ' => below[row],
        sign => sign,
    })
}

/// How many codes the large line holds: up to the cursor, and up to the last
/// code that is no blank.
pub fn codes_in_line(record: &Record) -> usize {
    let last = record.line.iter().rposition(|&code| code != 0x20);
    usize::from(record.column).max(last.map_or(0, |place| place + 1))
}

/// The large line as it is seen: the last eight of its codes are big, those
/// before them of normal size; both stand from the left.
fn large_line(record: &Record) -> ([u8; CODES], [u8; BIG]) {
    let count = codes_in_line(record);
    let (first, last) = record.line[..count].split_at(count.saturating_sub(BIG));
    let (mut small, mut big) = ([0x20; CODES], [0x20; BIG]);
    small[..first.len()].copy_from_slice(first);
    big[..last.len()].copy_from_slice(last);
    (small, big)
}

fn icon_bar(record: &Record, phase: Phase) -> Bar {
    Bar {
        f: record.icons[ICON_F],
        p: record.icons[ICON_P],
        r: record.icons[ICON_R],
        sms: sms_shown(record, phase),
        volume: volume_shown(record),
    }
}

fn text_row(record: &Record, row: u8) -> [u8; CODES] {
    std::array::from_fn(|place| record.text[usize::from(row) * CODES + place])
}

fn picture_row(record: &Record, row: u8) -> [u8; COLUMNS] {
    std::array::from_fn(|place| record.picture[usize::from(row) * COLUMNS + place])
}

/// The row question: its number and the owner with its contents.
pub fn row(record: &Record, row: u8, phase: Phase) -> (u8, Owner) {
    if !in_range(record) {
        return (1, Owner::Nothing);
    }
    let Some(&sign) = layout(record).get(usize::from(row)) else {
        return (4, Owner::Nothing);
    };
    let w = record.icons[ICON_W];
    let (small, big) = large_line(record);
    let owner = match sign {
        b'I' => Owner::IconBar(icon_bar(record, phase)),
        b'0'..=b'4' => {
            let row = sign - b'0';
            Owner::Text { row, codes: text_row(record, row), mark: record.marks[usize::from(row)] }
        }
        b's' => Owner::Small { codes: small },
        b'u' => Owner::Big { half: Half::Upper, codes: big },
        b'l' => Owner::Big { half: Half::Lower, codes: big },
        b'P' => Owner::Picture { row, columns: picture_row(record, row) },
        b'R' => {
            let mut columns = picture_row(record, row);
            for column in ROCKER {
                columns[usize::from(column)] = 0;
            }
            Owner::PictureWithRocker { row, columns, w }
        }
        b'S' => Owner::SoftKeys { left: record.left, right: record.right, w },
        _ => Owner::Nothing,
    };
    (0, owner)
}

/// The column question: its number and what stands at that column.
pub fn column(record: &Record, row: u8, column: u8, phase: Phase) -> (u8, Column) {
    if !in_range(record) {
        return (1, Column::Nothing);
    }
    if row > 6 || column > 95 {
        return (4, Column::Nothing);
    }
    let text = |row: u8| record.text[usize::from(row) * CODES + usize::from(column / CELL)];
    let picture = record.picture[usize::from(row) * COLUMNS + usize::from(column)];
    let (small, big) = large_line(record);
    let rocker = ROCKER.contains(&column);
    let seen = match layout(record)[usize::from(row)] {
        b'I' => Column::IconBar(icon_bar(record, phase)),
        sign @ b'0'..=b'4' => {
            let row = sign - b'0';
            Column::Text { row, code: text(row), mark: record.marks[usize::from(row)] }
        }
        b's' => Column::Small { code: small[usize::from(column / CELL)] },
        b'u' => Column::Big { half: Half::Upper, code: big[usize::from(column / BIG_CELL)] },
        b'l' => Column::Big { half: Half::Lower, code: big[usize::from(column / BIG_CELL)] },
        b'R' | b'S' if rocker => Column::Rocker { w: record.icons[ICON_W] },
        b'P' | b'R' => Column::Picture { row, dots: picture },
        b'S' if column < ROCKER.start => {
            Column::Left { cell: column / CELL, code: label_code(&record.left, column / CELL) }
        }
        b'S' => {
            let cell = (column - ROCKER.end) / CELL;
            Column::Right { cell, code: label_code(&record.right, cell) }
        }
        _ => Column::Nothing,
    };
    (0, seen)
}

/// The code in a cell of a label; 0 past its length.
fn label_code(label: &Label, cell: u8) -> u8 {
    if cell < label.length {
        label.codes[usize::from(cell)]
    } else {
        0
    }
}

/// 0 nothing, 1 Read, 2 Unread. U 255 flashes: in its pauses the panel is
/// that of U 0.
fn sms_shown(record: &Record, phase: Phase) -> u8 {
    match (record.icons[ICON_U], phase, record.icons[ICON_S]) {
        (1, _, _) | (255, Phase::Lit, _) => 2,
        (_, _, 1) => 1,
        (_, _, _) => 0,
    }
}

/// Panel (0 nothing, 1 Mute, 2 private, 3 handsfree) and level.
fn volume_shown(record: &Record) -> (u8, u8) {
    let volume = &record.volume;
    match (volume.hidden, volume.mute, volume.which) {
        (true, _, _) | (false, false, 0) => (0, 0),
        (false, true, _) => (1, 0),
        (false, false, which) => (which + 1, volume.level),
    }
}

/// The SMS panel: its number and the panel.
pub fn sms(record: &Record, phase: Phase) -> (u8, u8) {
    if in_range(record) {
        (0, sms_shown(record, phase))
    } else {
        (1, 0)
    }
}

/// The volume panel: its number, the panel and the level.
pub fn volume(record: &Record) -> (u8, u8, u8) {
    if in_range(record) {
        let (panel, level) = volume_shown(record);
        (0, panel, level)
    } else {
        (1, 0, 0)
    }
}

/// The listing of the program "list screen" for a stream, from a power-on
/// record. It counts answers, not their bytes, and tells what is kept: modes and
/// the flashing letter have the same numbers in both editions.
pub fn listing(start: &Record, stream: &[u8]) -> String {
    let mut record = start.clone();
    let replies = crate::stream::answers(&record, stream).len();
    let mut room = vec![0; LONGEST * stream.len()];
    crate::stream::call(&mut record, stream, &mut room);
    let plain = |codes: &[u8]| -> String {
        codes.iter().map(|&code| if (0x20..0x7F).contains(&code) { char::from(code) } else { '.' }).collect()
    };
    let label = |label: &Label| plain(&label.codes[..usize::from(label.length)]);
    let mut lines = vec![
        format!("REPLIES {replies}"),
        format!("MODE {} OVER {} DISPLAY {}", record.mode, record.overlay, u8::from(record.display)),
        format!("CURSOR {} {} {}", u8::from(record.shown), record.row, record.column),
    ];
    for (row, codes) in record.text.chunks(CODES).enumerate() {
        lines.push(format!("TEXT {row} [{}]", plain(codes)));
    }
    lines.push(format!("LEFT [{}]", label(&record.left)));
    lines.push(format!("RIGHT [{}]", label(&record.right)));
    let [s, u, f, r, p, w] = record.icons;
    lines.push(format!("ICONS {s} {u} {f} {r} {p} {w}"));
    lines.push(format!(
        "VOLUME {} {} {} {}",
        record.volume.which,
        record.volume.level,
        u8::from(record.volume.mute),
        u8::from(record.volume.hidden)
    ));
    lines.iter().map(|line| format!("{line}\n")).collect()
}
