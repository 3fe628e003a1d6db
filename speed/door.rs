//! The C library as include/handset.h declares it: its structs in C's layout, and its calls. Addresses and numbers are all that cross,
//! so the same declarations serve on every processor.

use crate::reader::{Fed, Reader};
use std::mem::{offset_of, size_of, MaybeUninit};

/// The header's HANDSET_INTERFACE.
pub const INTERFACE: u32 = 5;

#[repr(C)]
#[derive(Clone, Copy, Debug, PartialEq)]
pub struct Screen {
    pub display: bool,
    pub mode: u8,
    pub overlay: u8,
    pub row: u8,
    pub column: u8,
}

#[repr(C)]
#[derive(Clone, Copy, Debug, PartialEq)]
pub struct Label {
    pub len: u8,
    pub codes: [u8; 7],
}

#[repr(C)]
#[derive(Clone, Copy, Debug, PartialEq)]
pub struct Icons {
    pub s: u8,
    pub u: u8,
    pub f: u8,
    pub r: u8,
    pub p: u8,
    pub w: u8,
}

#[repr(C)]
#[derive(Clone, Copy, Debug, PartialEq)]
pub struct Volume {
    pub which: u8,
    pub level: u8,
    pub mute: bool,
    pub hidden: bool,
}

// Here a unit of time is its number: nothing is reckoned with it.
#[repr(C)]
#[derive(Clone, Copy, Debug, PartialEq)]
pub struct Times {
    pub time1: u8,
    pub time2: u8,
}

#[repr(C)]
#[derive(Clone, Copy, Debug, PartialEq)]
pub struct Backlight {
    pub mode: u8,
    pub duration: u8,
    pub left: u8,
    pub keypad: bool,
}

#[repr(C)]
#[derive(Clone, Copy, Debug, PartialEq)]
pub struct Settings {
    pub screen: Screen,
    pub shown: bool,
    pub left: Label,
    pub right: Label,
    pub icons: Icons,
    pub volume: Volume,
    pub times: Times,
    pub buzzer: u8,
    pub backlight: Backlight,
    pub contrast: u8,
    pub hook: bool,
    pub inverse: [bool; 5],
}

#[repr(C)]
#[derive(Clone, Copy, Debug, PartialEq)]
pub struct Held {
    pub down: bool,
    pub key: u8,
    pub tick: u16,
    pub long_stage: bool,
}

#[repr(C)]
#[derive(Clone, Copy, Debug, PartialEq)]
pub struct Keys {
    pub stage: u8,
    pub key: u8,
    pub tick: u16,
    pub down: u32,
}

#[repr(C)]
#[derive(Clone, Copy, Debug, PartialEq)]
pub struct Edition {
    pub sister: bool,
    pub brightness: u8,
    pub speaker: u8,
    pub pwm: bool,
    pub ptt: bool,
    pub keys: Keys,
}

#[repr(C)]
#[derive(Clone, Copy, Debug, PartialEq)]
pub struct Small {
    pub settings: Settings,
    pub held: Held,
    pub state: u8,
    pub len: u8,
    pub edition: Edition,
}

#[repr(C)]
#[derive(Clone, Copy, Debug, PartialEq)]
pub struct Handset {
    pub small: Small,
    pub text: [u8; 104],
    pub picture: [u8; 672],
    pub frame: [u8; 250],
}

#[repr(C)]
#[derive(Default)]
pub struct Part {
    pub kind: u8,
    pub end: u64,
    pub body: u64,
    pub body_end: u64,
}

#[repr(C)]
pub struct Panel {
    pub panel: u8,
    pub level: u8,
}

#[repr(C)]
pub struct Bar {
    pub f: u8,
    pub p: u8,
    pub r: u8,
    pub sms: u8,
    pub volume: u8,
    pub level: u8,
}

#[repr(C)]
pub struct Row {
    pub owner: u8,
    pub place: u8,
    pub inverse: bool,
    pub codes: [u8; 16],
    pub columns: [u8; 96],
    pub bar: Bar,
    pub left: Label,
    pub right: Label,
    pub w: u8,
}

#[repr(C)]
pub struct Column {
    pub owner: u8,
    pub place: u8,
    pub shown: u8,
    pub value: u8,
    pub inverse: bool,
    pub bar: Bar,
}

extern "C" {
    pub fn handset_interface() -> u32;
    pub fn handset_power_on(h: *mut Handset);
    pub fn handset_power_on_former(h: *mut Handset);
    pub fn handset_sister_power_on(h: *mut Handset);
    pub fn handset_in_range(h: *const Handset) -> bool;
    pub fn handset_feed(h: *mut Handset, bytes: *const u8, count: u64, room: *mut u8, size: u64, used: *mut u64, written: *mut u64) -> u8;
    pub fn handset_take_log(
        h: *mut Handset,
        ticks: *const u16,
        tick_count: u64,
        edges: *const u8,
        edge_count: u64,
        room: *mut u8,
        size: u64,
        used: *mut u64,
        written: *mut u64,
    ) -> u8;
    pub fn handset_second(h: *mut Handset) -> u8;
    pub fn handset_light_second(light: *mut Backlight) -> u8;
    pub fn handset_hook(h: *mut Handset, on: u8) -> u8;
    pub fn handset_room_needed(h: *const Handset, bytes: *const u8, count: u64, needed: *mut u64) -> u8;
    pub fn handset_sms_seen(h: *const Handset, phase: u8, seen: *mut Panel) -> u8;
    pub fn handset_volume_seen(h: *const Handset, seen: *mut Panel) -> u8;
    pub fn handset_row_seen(h: *const Handset, row: u8, phase: u8, seen: *mut Row) -> u8;
    pub fn handset_column_seen(h: *const Handset, row: u8, column: u8, phase: u8, seen: *mut Column) -> u8;
    pub fn handset_write_command(kind: u8, a: u16, b: u16, room: *mut u8, size: u64, written: *mut u64) -> u8;
    pub fn handset_write_label(side: u8, codes: *const u8, count: u64, room: *mut u8, size: u64, written: *mut u64) -> u8;
    pub fn handset_write_picture_row(row: u8, columns: *const u8, count: u64, room: *mut u8, size: u64, written: *mut u64) -> u8;
    pub fn handset_judge(mode: u8, frame: *const u8, count: u64, number_out: *mut u16) -> u8;
    pub fn handset_check_choice(bytes: *const u8, count: u64, offset: *mut u64) -> u8;
    pub fn handset_part_at(bytes: *const u8, count: u64, place: u64, part: *mut Part) -> u8;
}

// The proved call behind handset_feed. It hands structs over in x86-64's way, whatever the processor.
#[cfg(target_arch = "x86_64")]
#[repr(C)]
struct ProvedFed {
    number: u8,
    small: Small,
    used: u64,
    written: u64,
}

#[cfg(target_arch = "x86_64")]
extern "C" {
    fn proved_feed(
        small: Small,
        text: *mut u8,
        picture: *mut u8,
        frame: *mut u8,
        bytes: *const u8,
        bytes_len: u64,
        answers: *mut u8,
        answers_len: u64,
    ) -> ProvedFed;
}

impl Handset {
    pub fn feed(&mut self, bytes: &[u8], room: &mut [u8]) -> Fed {
        let (mut used, mut written) = (0, 0);
        let (count, size) = (bytes.len() as u64, room.len() as u64);
        let number = unsafe { handset_feed(self, bytes.as_ptr(), count, room.as_mut_ptr(), size, &mut used, &mut written) };
        Fed { number, used, written }
    }

    /// The same call without the door: the small part is handed over and stored again here, as a program without a door would.
    #[cfg(target_arch = "x86_64")]
    pub fn feed_behind_the_door(&mut self, bytes: &[u8], room: &mut [u8]) -> Fed {
        let [text, picture, frame] = [self.text.as_mut_ptr(), self.picture.as_mut_ptr(), self.frame.as_mut_ptr()];
        let (count, size) = (bytes.len() as u64, room.len() as u64);
        let fed = unsafe { proved_feed(self.small, text, picture, frame, bytes.as_ptr(), count, room.as_mut_ptr(), size) };
        self.small = fed.small;
        Fed { number: fed.number, used: fed.used, written: fed.written }
    }
}

impl Reader for Handset {
    fn power_on() -> Handset {
        let mut handset = MaybeUninit::uninit();
        unsafe {
            handset_power_on(handset.as_mut_ptr());
            handset.assume_init()
        }
    }

    fn record(&self) -> Handset {
        *self
    }
}

/// The handset of AN1900: the same calls, from another power-on record.
pub struct Sister(Handset);

impl Sister {
    pub fn feed(&mut self, bytes: &[u8], room: &mut [u8]) -> Fed {
        self.0.feed(bytes, room)
    }
}

impl Reader for Sister {
    fn power_on() -> Sister {
        let mut handset = MaybeUninit::uninit();
        unsafe {
            handset_sister_power_on(handset.as_mut_ptr());
            Sister(handset.assume_init())
        }
    }

    fn record(&self) -> Handset {
        self.0
    }
}

/// How many parts a stream has: each is asked for where the one before ends, until none is there.
pub fn count_parts(bytes: &[u8]) -> u64 {
    const NONE: u8 = 0;
    let (mut count, mut place, mut part) = (0, 0, Part::default());
    while unsafe { handset_part_at(bytes.as_ptr(), bytes.len() as u64, place, &mut part) } != NONE {
        count += 1;
        place = part.end;
    }
    count
}

/// Where a stream breaks a rule of the choice screen first; 0 also where it breaks none.
pub fn choice_broken_at(bytes: &[u8]) -> u64 {
    let mut offset = 0;
    unsafe { handset_check_choice(bytes.as_ptr(), bytes.len() as u64, &mut offset) };
    offset
}

/// Whether the archive is of the interface that stands here.
pub fn is_of_this_interface() -> bool {
    unsafe { handset_interface() == INTERFACE }
}

/// Whether a record is as long in the archive as here: one that is stored at power-on in a larger place ends where it does here, with
/// the last byte of an empty frame. The padding behind it is left alone.
pub fn is_as_long() -> bool {
    const UNTOUCHED: u8 = 0xA5;
    const EMPTY: u8 = 0;
    let mut place = MaybeUninit::<[Handset; 2]>::uninit();
    let bytes = unsafe {
        place.as_mut_ptr().write_bytes(UNTOUCHED, 1);
        handset_power_on(place.as_mut_ptr().cast());
        &*place.as_ptr().cast::<[u8; 2 * size_of::<Handset>()]>()
    };
    let (record, behind) = bytes.split_at(offset_of!(Handset, frame) + 250);
    record.last() == Some(&EMPTY) && behind.iter().all(|&byte| byte == UNTOUCHED)
}
