//! The key engines, each a list of rules, and what they send: key codes in the
//! first edition, messages in the sister's.

use crate::commands::start_light;
use crate::fields::in_range;
use crate::record::*;
use Edge::{Poll, Press, Release};

/// Keys 0 to 18: name, short, long and repeat code.
pub const KEYS: [(&str, u8, u8, Option<u8>); 19] = [
    ("left soft", 0x4C, 0xCC, Some(0xEC)),
    ("right soft", 0x52, 0xD2, Some(0xE2)),
    ("ESC", 0x45, 0xC5, None),
    ("ENTER", 0x41, 0xC1, None),
    ("up", 0x55, 0xD5, Some(0xE5)),
    ("down", 0x44, 0xC4, Some(0xE4)),
    ("1", 0x31, 0xB1, Some(0xF1)),
    ("2", 0x32, 0xB2, Some(0xF2)),
    ("3", 0x33, 0xB3, Some(0xF3)),
    ("4", 0x34, 0xB4, Some(0xF4)),
    ("5", 0x35, 0xB5, Some(0xF5)),
    ("6", 0x36, 0xB6, Some(0xF6)),
    ("7", 0x37, 0xB7, Some(0xF7)),
    ("8", 0x38, 0xB8, Some(0xF8)),
    ("9", 0x39, 0xB9, Some(0xF9)),
    ("0", 0x30, 0xB0, Some(0xF0)),
    ("*", 0x2A, 0xAA, Some(0xEA)),
    ("#", 0x23, 0xA3, Some(0xEB)),
    ("ON/OFF", 0x4F, 0xCF, Some(0xEF)),
];

/// The sister's keys 0 to 20 and her two switches, by the signs of their
/// messages (1900, 3.3.4). The first nineteen keys are those of above; then
/// MUTE, REC/SOS, HOOK and PTT.
pub const SIGNS: [u8; 23] = *b"LREAUD1234567890*#OMNHP";
pub const HOOK: u8 = 21;
pub const PTT: u8 = 22;

/// Keys that can be held, and with the switches all that has edges.
pub fn keys_of(sister: bool) -> u8 {
    if sister {
        HOOK
    } else {
        19
    }
}

fn listed(sister: bool) -> u8 {
    if sister {
        PTT + 1
    } else {
        19
    }
}

#[derive(Clone, Copy, PartialEq, Eq, Debug)]
pub enum Edge {
    Press(u8),
    Release(u8),
    Poll,
}

/// The edge that a byte lists in an edition.
pub fn edge(sister: bool, byte: u8) -> Option<Edge> {
    match byte {
        255 => Some(Poll),
        press if press < listed(sister) => Some(Press(press)),
        release if (128..128 + listed(sister)).contains(&release) => Some(Release(release - 128)),
        _ => None,
    }
}

/// The one key that is held in either edition. The sister's keys in the state
/// false are none.
pub fn held(record: &Record) -> Held {
    let Keys { stage, key, tick, .. } = record.edition.keys;
    match (record.edition.sister, stage) {
        (false, _) => record.held,
        (true, 1 | 2) => Held { down: true, key, tick, long: stage == 2 },
        (true, _) => NO_KEY,
    }
}

/// Ticks of 10 ms since the held reading.
pub fn elapsed(record: &Record, now: u16) -> u32 {
    (u32::from(now) + 65_536 - u32::from(held(record).tick)) % 65_536
}

/// A time of 100 ms units in ticks of 10 ms.
pub fn ticks(time: u8) -> u32 {
    10 * u32::from(time)
}

/// One entry as the rules see it, with the record before it.
struct Entry<'a> {
    record: &'a Record,
    held: Held,
    edge: Edge,
    now: u16,
}

impl Entry<'_> {
    fn short(&self) -> bool {
        self.held.down && !self.held.long
    }
    fn long(&self) -> bool {
        self.held.down && self.held.long
    }
    fn release(&self) -> bool {
        self.edge == Release(self.held.key)
    }
    fn reached(&self, time: u8) -> bool {
        elapsed(self.record, self.now) >= ticks(time)
    }
    fn codes(&self) -> (u8, u8, Option<u8>) {
        let (_, short, long, repeat) = KEYS[usize::from(self.held.key)];
        (short, long, repeat)
    }

    // Of the sister.

    fn stage(&self) -> u8 {
        self.record.edition.keys.stage
    }
    /// The key that is pressed or released; the switches are none.
    fn key(&self) -> Option<u8> {
        match self.edge {
            Press(key) | Release(key) => Some(key).filter(|&key| key < HOOK),
            Poll => None,
        }
    }
    fn pressed(&self) -> Option<u8> {
        self.key().filter(|_| matches!(self.edge, Press(_)))
    }
    fn released(&self) -> Option<u8> {
        self.key().filter(|_| matches!(self.edge, Release(_)))
    }
    fn message(&self, event: u8) -> Vec<u8> {
        let key = match self.edge {
            Press(key) | Release(key) => key,
            Poll => self.held.key,
        };
        message(SIGNS[usize::from(key)], event)
    }
}

/// A message of the sister: of a key and an event, or `Fx`.
fn message(sign: u8, event: u8) -> Vec<u8> {
    vec![ESC, b'K', sign, event, CR, LF]
}

/// A rule: when it is taken, what it sends, and what it does.
pub struct Rule {
    pub name: &'static str,
    when: fn(&Entry) -> bool,
    sends: fn(&Entry) -> Vec<u8>,
    then: fn(&mut Record, &Entry),
}

const fn rule(
    name: &'static str,
    when: fn(&Entry) -> bool,
    sends: fn(&Entry) -> Vec<u8>,
    then: fn(&mut Record, &Entry),
) -> Rule {
    Rule { name, when, sends, then }
}

fn nothing(_: &Entry) -> Vec<u8> {
    vec![]
}

/// The rules of an edition. The first that fits an entry is taken; where none
/// fits, nothing happens.
pub fn rules(sister: bool) -> &'static [Rule] {
    if sister {
        SISTERS
    } else {
        RULES
    }
}

#[rustfmt::skip]
static RULES: &[Rule] = &[
    rule("press with no key held", |e| matches!(e.edge, Press(_)) && !e.held.down, nothing, |r, e| {
        if let Press(key) = e.edge {
            r.held = Held { down: true, key, tick: e.now, long: false };
        }
        start_light(r);
    }),
    rule("poll gives the long code", |e| e.edge == Poll && e.short() && e.reached(e.record.time1),
        |e| vec![e.codes().1],
        |r, e| (r.held.long, r.held.tick) = (true, e.now)),
    rule("poll gives the repeat code",
        |e| e.edge == Poll && e.long() && e.record.time2 != 0 && e.codes().2.is_some() && e.reached(e.record.time2),
        |e| e.codes().2.into_iter().collect(),
        |r, e| r.held.tick = e.now),
    rule("release gives the short code", |e| e.release() && e.short() && !e.reached(e.record.time1),
        |e| vec![e.codes().0],
        |r, _| r.held = NO_KEY),
    rule("release gives the long code", |e| e.release() && e.short() && e.reached(e.record.time1),
        |e| vec![e.codes().1],
        |r, _| r.held = NO_KEY),
    rule("release after the long code", |e| e.release() && e.long(), nothing, |r, _| r.held = NO_KEY),
];

/// The sister's. Her switches stand apart from her keys: they are told on a
/// change alone, whatever else is down, and start no seconds.
#[rustfmt::skip]
static SISTERS: &[Rule] = &[
    rule("HOOK is lifted", |e| e.edge == Press(HOOK) && e.record.hook, |e| e.message(b's'), |r, _| r.hook = false),
    rule("HOOK is put back", |e| e.edge == Release(HOOK) && !e.record.hook, |e| e.message(b'e'), |r, _| r.hook = true),
    rule("PTT is pressed", |e| e.edge == Press(PTT) && !e.record.edition.ptt, |e| e.message(b's'),
        |r, _| r.edition.ptt = true),
    rule("PTT is released", |e| e.edge == Release(PTT) && e.record.edition.ptt, |e| e.message(b'e'),
        |r, _| r.edition.ptt = false),
    rule("press with none down", |e| e.pressed().is_some() && e.stage() == 0, |e| e.message(b's'), |r, e| {
        r.edition.keys = Keys { stage: 1, key: e.pressed().unwrap_or(0), tick: e.now, ..NO_KEYS };
        start_light(r);
    }),
    rule("press of a second key", |e| e.held.down && e.pressed().is_some_and(|key| key != e.held.key),
        |_| message(b'F', b'x'),
        |r, e| {
            let both = [Some(e.held.key), e.pressed()].into_iter().flatten();
            r.edition.keys = Keys { stage: 3, down: set_of(both), ..NO_KEYS };
        }),
    rule("press in the state false", |e| e.pressed().is_some() && e.stage() == 3, nothing, |r, e| {
        let keys = keys_in(r.edition.keys.down).chain(e.pressed());
        r.edition.keys.down = set_of(keys);
    }),
    rule("release in the state false", |e| e.released().is_some() && e.stage() == 3, nothing, |r, e| {
        let down = set_of(keys_in(r.edition.keys.down).filter(|&key| Some(key) != e.released()));
        r.edition.keys = if down == NO_KEYS.down { NO_KEYS } else { Keys { down, ..r.edition.keys } };
    }),
    rule("release of the held key", |e| e.held.down && e.release(), |e| e.message(b'e'),
        |r, _| r.edition.keys = NO_KEYS),
    rule("poll gives the long message",
        |e| e.edge == Poll && e.short() && e.record.time1 != 0 && e.reached(e.record.time1),
        |e| e.message(b'l'),
        |r, e| (r.edition.keys.stage, r.edition.keys.tick) = (2, e.now)),
    rule("poll gives the repeated message",
        |e| e.edge == Poll && e.long() && e.record.time2 != 0 && e.reached(e.record.time2),
        |e| e.message(b'r'),
        |r, e| r.edition.keys.tick = e.now),
];

/// The keys of a set, a bit each.
pub fn keys_in(set: [u8; 4]) -> impl Iterator<Item = u8> {
    let bits = u32::from_le_bytes(set);
    (0..32).filter(move |key| bits >> key & 1 == 1)
}

pub fn set_of(keys: impl Iterator<Item = u8>) -> [u8; 4] {
    keys.fold(0, |bits: u32, key| bits | 1 << key).to_le_bytes()
}

/// Takes one entry: the rule that was taken and what is sent.
pub fn take(record: &mut Record, now: u16, edge: Edge) -> (Option<&'static str>, Vec<u8>) {
    let before = record.clone();
    let entry = Entry { record: &before, held: held(&before), edge, now };
    let Some(rule) = rules(before.edition.sister).iter().find(|rule| (rule.when)(&entry)) else {
        return (None, vec![]);
    };
    (rule.then)(record, &entry);
    (Some(rule.name), (rule.sends)(&entry))
}

/// The key log call: the number, the used and the written count.
pub fn call(record: &mut Record, ticks: &[u16], edges: &[u8], room: &mut [u8]) -> (u8, usize, usize) {
    if !in_range(record) {
        return (1, 0, 0);
    }
    if ticks.len() != edges.len() {
        return (5, 0, 0);
    }
    let sister = record.edition.sister;
    let Some(edges) = edges.iter().map(|&b| edge(sister, b)).collect::<Option<Vec<_>>>() else {
        return (4, 0, 0);
    };
    let log: Vec<(u16, Edge)> = ticks.iter().copied().zip(edges).collect();

    // Which entries send, if there were room for all.
    let mut ahead = record.clone();
    let sent: Vec<(usize, Vec<u8>)> = log
        .iter()
        .enumerate()
        .map(|(place, &(now, edge))| (place, take(&mut ahead, now, edge).1))
        .filter(|(_, sent)| !sent.is_empty())
        .collect();

    // The first that does not fit whole is where the call stops.
    let mut needed = 0;
    let fitting: Vec<&(usize, Vec<u8>)> = sent
        .iter()
        .take_while(|(_, sent)| {
            needed += sent.len();
            needed <= room.len()
        })
        .collect();
    let used = sent.get(fitting.len()).map_or(log.len(), |&(place, _)| place);
    for &(now, edge) in &log[..used] {
        take(record, now, edge);
    }
    let bytes: Vec<u8> = fitting.iter().flat_map(|(_, sent)| sent.clone()).collect();
    room[..bytes.len()].copy_from_slice(&bytes);
    (0, used, bytes.len())
}
