//! Each call of include/handset.h by itself, as a firmware makes it; and the proved call behind one of them, so that what the door
//! before it costs is seen.

use crate::door::*;
use crate::race::{race, Candidate};
use crate::reader::{same, Feed, Reader, CALL};
use std::mem::MaybeUninit;

/// So many calls are one piece of work, since one alone is too short for the clock.
pub const CALLS: usize = 2_000;

const ROOM: usize = 256;

// numbers of the header
const DISPLAY_ROWS: usize = 7;
const DISPLAY_COLUMNS: usize = 96;
const LABEL_SIZE: usize = 7;
const LIT: u8 = 0;
const LEFT: u8 = 0;
const MODE_0: u8 = 0;
const ICON_P: u8 = 12;
const POLL: u8 = 255;
const DONE: u8 = 0;
const OBEYED: u8 = 2;
const PART_TEXT: u8 = 1;

const TEXT: &[u8; CALL] = b"The meter stands in the cellar, on the left, behind the red door";
const LABEL_FRAME: &[u8] = b"IK1Keep";
const SCREEN: &[u8] = b"\x1bID0\r\n\x1bID5\r\n\x1bIK1Mine\r\n\x1bIK2Theirs\r\nWhich do we keep?";

// What a firmware has: its record, room for bytes, and places for what a call stores.
struct Desk {
    phone: Handset,
    room: [u8; ROOM],
    used: u64,
    written: u64,
    number: u16,
    panel: MaybeUninit<Panel>,
    row: MaybeUninit<Row>,
    column: MaybeUninit<Column>,
    part: Part,
}

impl Desk {
    fn new() -> Desk {
        Desk {
            phone: Handset::power_on(),
            room: [0; ROOM],
            used: 0,
            written: 0,
            number: 0,
            panel: MaybeUninit::uninit(),
            row: MaybeUninit::uninit(),
            column: MaybeUninit::uninit(),
            part: Part::default(),
        }
    }

    // The cursor goes back first, so that every one of these calls finds places for its text.
    fn feed_text(&mut self, feed: Feed<Handset>) -> u8 {
        self.phone.small.settings.screen.column = 0;
        feed(&mut self.phone, TEXT, &mut self.room).number
    }
}

// A call, the bytes or entries that it takes, and the number that it is to end with: the time of a refused call says nothing.
struct Call {
    name: &'static str,
    bytes: usize,
    ends: u8,
    once: fn(&mut Desk, usize) -> u8,
}

const fn call(name: &'static str, bytes: usize, ends: u8, once: fn(&mut Desk, usize) -> u8) -> Call {
    Call { name, bytes, ends, once }
}

// The calls of the header, in its order.
const ALL: &[Call] = &[
    call("handset_interface", 0, INTERFACE as u8, |_, _| unsafe { handset_interface() as u8 }),
    call("handset_power_on", 0, DONE, |d, _| unsafe {
        handset_power_on(&mut d.phone);
        DONE
    }),
    call("handset_power_on_former", 0, DONE, |d, _| unsafe {
        handset_power_on_former(&mut d.phone);
        DONE
    }),
    call("handset_sister_power_on", 0, DONE, |d, _| unsafe {
        handset_sister_power_on(&mut d.phone);
        DONE
    }),
    call("handset_in_range", 0, 1, |d, _| unsafe { handset_in_range(&d.phone) as u8 }),
    call("handset_feed", 0, DONE, |d, _| d.phone.feed(b"", &mut d.room).number),
    call("handset_feed, text", CALL, DONE, |d, _| d.feed_text(Handset::feed)),
    call("handset_take_log, a poll", 1, DONE, |d, i| {
        let (tick, edge, room) = (i as u16, POLL, d.room.as_mut_ptr());
        unsafe { handset_take_log(&mut d.phone, &tick, 1, &edge, 1, room, ROOM as u64, &mut d.used, &mut d.written) }
    }),
    call("handset_second", 0, DONE, |d, _| unsafe { handset_second(&mut d.phone) }),
    call("handset_light_second", 0, DONE, |d, _| unsafe { handset_light_second(&mut d.phone.small.settings.backlight) }),
    call("handset_hook", 0, DONE, |d, i| unsafe { handset_hook(&mut d.phone, (i % 2) as u8) }),
    call("handset_room_needed, text", CALL, DONE, |d, _| unsafe {
        handset_room_needed(&d.phone, TEXT.as_ptr(), CALL as u64, &mut d.written)
    }),
    call("handset_sms_seen", 0, DONE, |d, _| unsafe { handset_sms_seen(&d.phone, LIT, d.panel.as_mut_ptr()) }),
    call("handset_volume_seen", 0, DONE, |d, _| unsafe { handset_volume_seen(&d.phone, d.panel.as_mut_ptr()) }),
    call("handset_row_seen", 0, DONE, |d, i| unsafe {
        handset_row_seen(&d.phone, (i % DISPLAY_ROWS) as u8, LIT, d.row.as_mut_ptr())
    }),
    call("handset_column_seen", 0, DONE, |d, i| {
        let (row, column) = ((i % DISPLAY_ROWS) as u8, (i % DISPLAY_COLUMNS) as u8);
        unsafe { handset_column_seen(&d.phone, row, column, LIT, d.column.as_mut_ptr()) }
    }),
    call("handset_write_command", 0, DONE, |d, i| unsafe {
        handset_write_command(ICON_P, (i % 20) as u16, 0, d.room.as_mut_ptr(), ROOM as u64, &mut d.written)
    }),
    call("handset_write_label", LABEL_SIZE, DONE, |d, _| unsafe {
        handset_write_label(LEFT, TEXT.as_ptr(), LABEL_SIZE as u64, d.room.as_mut_ptr(), ROOM as u64, &mut d.written)
    }),
    call("handset_write_picture_row", DISPLAY_COLUMNS, DONE, |d, _| {
        let (columns, room) = (d.phone.picture.as_ptr(), d.room.as_mut_ptr());
        unsafe { handset_write_picture_row(0, columns, DISPLAY_COLUMNS as u64, room, ROOM as u64, &mut d.written) }
    }),
    call("handset_judge, a label's frame", LABEL_FRAME.len(), OBEYED, |d, _| unsafe {
        handset_judge(MODE_0, LABEL_FRAME.as_ptr(), LABEL_FRAME.len() as u64, &mut d.number)
    }),
    call("handset_check_choice, a screen", SCREEN.len(), DONE, |d, _| unsafe {
        handset_check_choice(SCREEN.as_ptr(), SCREEN.len() as u64, &mut d.used)
    }),
    call("handset_part_at, a byte of text", 1, PART_TEXT, |d, i| unsafe {
        handset_part_at(TEXT.as_ptr(), CALL as u64, (i % CALL) as u64, &mut d.part)
    }),
    #[cfg(target_arch = "x86_64")]
    call("proved_feed", 0, DONE, |d, _| d.phone.feed_behind_the_door(b"", &mut d.room).number),
    #[cfg(target_arch = "x86_64")]
    call("proved_feed, text", CALL, DONE, |d, _| d.feed_text(Handset::feed_behind_the_door)),
];

// Each call that is made with and without the door: the difference is what the door costs.
#[cfg(target_arch = "x86_64")]
const DOORS: &[[&str; 2]] = &[["handset_feed", "proved_feed"], ["handset_feed, text", "proved_feed, text"]];
#[cfg(not(target_arch = "x86_64"))]
const DOORS: &[[&str; 2]] = &[];

fn place_of(name: &str) -> usize {
    ALL.iter().position(|call| call.name == name).expect("a call of the table")
}

// Makes a call so many times, and hands back how many of them ended as they should.
fn make(call: &Call, desk: &mut Desk) -> u64 {
    (0..CALLS).map(|i| ((call.once)(desk, i) == call.ends) as u64).sum()
}

/// The same for one that is named; all of them are to end as they should.
pub fn make_named(name: &str) {
    same(name, CALLS as u64, make(&ALL[place_of(name)], &mut Desk::new()));
}

pub fn names() -> impl Iterator<Item = &'static str> {
    ALL.iter().map(|call| call.name)
}

/// One line with a figure for each call, in the table's order, and what the door costs.
pub fn report(unit: &str, figures: &[f64]) {
    println!("  {:<36}{:>8}{unit:>14}", "", "bytes");
    for (call, figure) in ALL.iter().zip(figures) {
        println!("  {:<36}{:>8}{figure:>14.0}", call.name, call.bytes);
    }
    for [with, without] in DOORS {
        println!("  the door before {without}: {:.0}", figures[place_of(with)] - figures[place_of(without)]);
    }
}

fn candidate(call: &'static Call) -> Candidate<'static> {
    let mut desk = Desk::new();
    Candidate::new(call.name, call.bytes, move || make(call, &mut desk))
}

/// How long each call takes.
pub fn times(rounds: usize) {
    names().for_each(make_named);
    let mut all: Vec<Candidate> = ALL.iter().map(candidate).collect();
    race(&mut all, rounds);
    let each: Vec<f64> = all.iter().map(|timed| timed.best / CALLS as f64).collect();
    println!("\nThe calls of include/handset.h, each by itself");
    report("ns", &each);
}
