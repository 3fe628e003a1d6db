//! Counts what random scripts reach, and names what they should reach. What
//! has to do with commands, fields and letters goes by their tables. What is
//! seen on a record of the sister counts apart, under a name that says so.

use std::collections::HashMap;

use crate::choice::{self, Broken, Piece};
use crate::commands::{self, mark, table, LONGEST, LONGEST_OF_FIRST};
use crate::fields::*;
use crate::generate::{self, damaged, tried, BORDERS, MODES, OVERLAYS};
use crate::grammar::{spelt, Command, Spelt, MOST_ROWS};
use crate::keys::{self, Edge, KEYS, SIGNS};
use crate::places::{Found, Kind, Verdict};
use crate::record::*;
use crate::script::{self, cell, command, command_count, letter, words, Answer, Call, LETTERS};
use crate::seen::{self, Column, Half, Owner, Phase};
use crate::stream::{self, Part};
use crate::writers;

macro_rules! see {
    ($cover:expr, $($name:tt)+) => { $cover.add(format!($($name)+)) };
}

#[derive(Default)]
pub struct Cover {
    counts: HashMap<String, u64>,
    /// Stands before each name: whose record it is.
    whose: &'static str,
}

/// Stands before all that is seen on the sister's record.
const HERS: &str = "sister: ";

/// What scripts should reach. In corners stands what takes the place: words
/// between strokes, all numbers from one to another, or all that a list has.
const WANTED: &str = "
frame <command> obeyed
frame <ranged> passed over
<command> obeyed under overlay <overlay>
<command> obeyed with <the display off|a key held|a mark|a line that isn't blank>
<placed> obeyed in mode <mode>
<placed> obeyed in mode <mode> with <the display off|a mark|a line that isn't blank>
frame <number> with the number 0
padded zero in <number>
<1..2> zeros before number 0 of <number>
<1..2> zeros before number 1 of <two>
all numbers of <two> padded
padded <number>, else obeyed
padded <narrow>, else passed over
<four digits|a zero and three digits> in <number>
writer <written> <0|3>
writer <written with numbers> 2
answer <F|N|I|C|H|B|M|V|R> <0|1>
answer K <0|1|4|5>
answer <Q|U> <0|1|4>
answer <W|Y|T|G> <0|2|3>
refused <R|F|N|I|K|C|H|Q|U|M|V> for <refusable> alone
refused B for <backlight mode|duration|left> alone
field <field> set at its <first|last> place
field <flag> set to <0|1|2 or more>
<sister's key|sister's keys down> <1|255> refused
sister's tick <1|65535> refused
PWM 1 refused
field inverse mark place <0..4> set to <0|1>
field sister's keys down place <0..3> set to <1|255>
row 4 refused in mode <0|1>
row 5 refused in mode <5|6>
row 1 refused in mode 10
column 17 refused in mode <0|1|5|6>
column 25 refused in mode 10
column 16 in range in mode <0|1|5|6>
column 24 in range in mode 10
frame <length|bytes> wrong in state <0..2>
key <key> <short at release|long at poll|long at release>
key <repeating key> repeat
rule <rule>
<short poll|long poll|short release> <one below|at|one above> the threshold
elapsed runs over
poll of a long key <without repeat code|with Time2 0>
poll at 120 of a long key with times 12;0: nothing
poll at 120 of a long key with times 12;12: a code
poll at 119 of a long key with times 12;12: nothing
press while a key is held
release of a key not held
poll with none held
press restarts the light
empty log
log and bad edge past the stop
unequal lengths and a bad edge
log stops at a <poll|release>
<power-on|former power-on|sister power-on> <from itself|from another|in range|out of range>
key log right after <power-on|former power-on>
field sister set in range to <the first|the sister>
second <at left 0|at left 1|lowers left>
a line that can't be taken
an empty line
line <M|Q|U> with <no phase|a byte behind the phase|phase 2|another phase that is none>
line S one place behind <field>
line N with 32767 bytes
line H with 3 bytes
row <0..6> in mode <mode> overlay <overlay>
column of row <0..6> in mode <mode> overlay <overlay>
<panel|icon bar|icon bar by its column> with U <0|1|255> S <0|1> in the phase <Lit|Pause>
row <0..6> in the phase <Lit|Pause>
sms <0..2>
volume panel <0..3>
volume level <1..10>
owner <0..8>
column owner <0..8>
column <border> of row 5 under overlay <overlay>
<first|last> column of <text|small> cell <0..15>
<first|last> column of <upper|lower> big cell <0..7>
<first|last> column of <left|right> label cell <0..6>
<first|last> column of <left|right> label cell <0..6>, empty
rocker <0..3> <by its column|beside a picture>
U of row <6|7> and column <95|96>
U 4 for <the row alone|the column alone|both>
U 1 with a row or column that is none
picture row with the rocker, not blank below it
column of a display off
display off asked
display off with a mark
line of <0..24> codes by row <1..3>
line of <0..24> codes by a column of row <1..3>
codes of the line counted by <the cursor|the last code|both>
ID<screen> obeyed in mode <mode>
ID<screen> obeyed with a line that isn't blank
ID<mode> obeyed with a mark
text to the large line under overlay <overlay>
cursor frame 0;0 in mode 10
cursor frame in mode 10, else <obeyed|passed over>
[K at column <0..16> in mode <0|1|5|6>
[K at column <0..24> in mode 10
[K blanks from column <0..15> in mode <0|1|5|6>
[K blanks from column <0..23> in mode 10
[K in row <0..3> in mode <mode with rows>
[K in row 4 in mode <5|6>
[K in row 0 in mode 10
[K of blanks in mode <mode>
mark <0..4> seen by <row|column>
text row <0..4> seen beside another's mark
IZ<1..5> <to the same mark|to a row with another marked|with none marked>
IZ0 with <mark 0|mark 1|mark 2|mark 3|mark 4|none marked>
mark 4 not seen in mode <0|1|10>
owner <0|1|3|4|5|6|7|8> with a mark in the record
column owner <3..8> with a mark in the record
three marks and more refused
stop at <CR|ESC>
stop at <CR|ESC> of an overlong frame
stop <with room 0|after some answers>
room 0 and all used
room just enough
room one short
frame <abandoned|open before the call>
frame <abandoned overlong|closed overlong|overlong before the call>
frame closed <empty|with 250 bytes>
frame outside the grammar
bad frame <damaged>
label of zeros
IK00
picture row of two digits
tail <of 0 bytes|of 250 bytes|overlong>
text <stored|stored in the large line|dropped|dropped behind the large line>
text stored in <its last place|the last place of the large line>
byte skipped
picture frame of 96 columns
picture frame of row 6 cut to five bits
label frame of <0|7> codes
picture of 200 bytes written
label of 7 codes written
<asked> stopped <at once|behind an answer>
<asked> answered behind an answer
<asked> open before, <answered|stopped>
<question> <abandoned|left open|open before, spoilt>
contrast <1..20> told
<on-hook|off-hook> told
hook call to <on-hook|off-hook> from <on-hook|off-hook>
hook call to <on-hook|off-hook> while AskHook waits
hook call <0|1|2|128|255>
hook call with a <frame open|frame overlong|key held>
three answers of several bytes in one call
a question mark behind a long answer
stop at ESC behind a long answer
more than 255 bytes of answers in one call
stop with room 300
bound with <frame> and <offered>
refused N with <frame> and <no bytes|bytes without ESC|ESC alone|some ESC>
bound <reached|not reached|passed by questions> with <frame>
bound with <frame>, <1A|1C|0B|3B|5B|9B|0D> and no ESC
room of the bound, all used, with <frame>
room of one less than the bound, <all used|stopped>, with <frame>
bound <0|1|2|3|10|254|255|256|257|4096|4097>
bound with an open frame of 250 bytes
room of the bound, stopped by a question
part <part> <at place 0|asked for at a later place|that ends at 256 or later>
part <part> behind place 300, asked for there
part <text|skipped|closed>, then <none|text|skipped|closed|abandoned|tail>
part abandoned, then <closed|abandoned|tail>
part tail, then none
part <closed|abandoned|tail> of <0|1|249|250|251|252> bytes
part <closed|abandoned|tail> with a good frame in it
parts from within a frame <closed|abandoned|tail>
part skipped <00|0A|0D|1A|1C|1F>
part text <20|7F|80|FF>
parts of <0|1|4095|4096> bytes
parts of no bytes from a later place
parts from <the end|one place past the end|place 65535>
parts from the <CR of a frame|LF behind a frame|ESC that abandons a frame>
<parts|choice> with <the record out of range|a frame open in the record>
a part that ends at 4096
more than 256 parts
verdict <bad|passed over|obeyed> in <judged mode>
verdict of <placed> obeyed in <judged mode>
verdict of <ranged> passed over in <judged mode>
verdict of Position passed over in mode 10
verdict bad of <command> and a byte more
verdict bad of <capital> in small letters
verdict bad of <number>, padded
verdict with a number above 255 of <number>
verdict of <two> for <the first|the second|both> out of range
verdict bad of <damaged>
verdict of <0|249|250|251|4095|4096> bytes
verdict bad with <1B|0D|0A> in the frame
verdict passed over for the number <0|999>
verdict with the record out of range
verdict in a mode that the record has not
judgement <bad|passed over|obeyed> in mode <mode>
judgement <bad|passed over|obeyed> with <frame>
judgement of <command> obeyed
judgement of <ranged> passed over
judgement bad of <command> and a byte more
judgement bad of <number>, padded
judgement with a number above 255 of <number>
judgement of <two> for <the first|the second|both> out of range
judgement bad of <damaged>
judgement of <0|249|250|251|4095|4096> bytes
judgement bad with <1B|0D|0A> in the frame
judgement passed over for the number <0|999>
judgement bad of a frame that the other edition has
choice yes
choice broken by rule <1..4>
choice broken by rule <1..4> alone
choice broken by rule <2..4> at 256 or later
choice broken by rule <3..4> in the first screen
choice that begins with <no part|text|skipped|bad|abandoned|tail|ID1|ID6|ID10|ID11|ID2>
choice that begins with <DisplayOff|DisplayOn|LeftLabel>
choice yes that begins with <ID0|ID5>
choice yes of <ID0|ID5> alone
choice yes of <ID0|ID5> with text and no labels
choice screen <mode> <with|without> labels at <look>
choice broken for the <left|right> label, <never set|set to nothing|emptied by IK0|set too late>
choice broken for the <left|right> label, set before the screen alone
choice yes with the <left|right> label set again
choice yes with <0..3> later screens
choice yes with <DisplayOff|DisplayOn|LabelsEmpty|a frame passed over> behind its screen
choice yes with <question> behind its screen
choice yes with a skipped byte behind its screen
choice breaks rule 1 before rule <2..4>
choice breaks rule 2 before rule <3..4>
choice breaks rule 3 before rule <2|4>
choice breaks rule 4 before rule 2
choice breaks rules 1 and <3..4> at place 0
choice broken by <an abandoned frame|an empty frame|a frame of 251 bytes|another bad frame>
choice broken by a tail of <0|1|251> bytes
choice of <0|1|4096> bytes
choice yes of 4096 bytes
choice broken by rule 2 at 4096
";

/// What scripts should reach on records of the sister.
const WANTED_OF_HERS: &str = "
frame <command> obeyed
frame <ranged> passed over
frame <refusing> refused
<command> obeyed with <an overlay|the display off|a key held|keys in the state false|a mark|a line that isn't blank>
<placed> obeyed in mode <mode>
frame <number> with the number 0
padded zero in <number>
<1..2> zeros before number 0 of <number>
<1..2> zeros before number 1 of <two>
all numbers of <two> padded
padded <number>, else obeyed
padded <narrow>, else passed over
<four digits|a zero and three digits> in <number>
answer <F|N|I|C|H|B|M|V|R> <0|1>
answer K <0|1|4|5>
answer <Q|U> <0|1|4>
refused <R|F|N|I|K|C|H|Q|U|M|V> for <refusable> alone
refused B for <backlight mode|duration|left> alone
B taken though the record is refused for <duration|left> alone
PWM 1 refused with the light off
Time2 <4|12|50> refused with Time1 0
left <1|255> refused in light mode <0..1>
left <251|255> refused in light mode 2
sister's key <1|255> refused in stage <0|3>
sister's key <21|255> refused in stage <1..2>
sister's tick <1|65535> refused in stage <0|3>
sister's keys down refused in stage <0..3>
sister's keys down empty refused in stage 3
sister's keys down with key <21|31> refused in stage 3
edge <23|127|151|254> not listed
message <message>
rule <rule>
<short poll|long poll> <one below|at|one above> the threshold
elapsed runs over
poll of a <short key with Time1 0|long key with Time2 0>
poll <with none held|in the state false>
press of the held key again
press of a key that is down in the state false
press with <HOOK lifted|PTT pressed>
release of <a key not held|a key not down in the state false|the last key in the state false>
state false with <1..4> keys
press starts the seconds <with|without> PWM
press of a second key with seconds to start
<press|release> of <HOOK|PTT> <that changes it|that changes nothing> in stage <0..3>
<press|release> of <HOOK|PTT> with seconds to start
empty log
log and bad edge past the stop
unequal lengths and a bad edge
log stops at a <press|poll|release>
log stops with <0..5> left
message sent with <6|7> left
key log right after power-on
second <at left 0|at left 1|lowers left>
second lowers left <with|without> PWM
row <0..6> in mode <mode> overlay <0|18>
sms <0..2>
volume panel <0..3>
owner <0..8>
column owner <0..8>
IDM<screen> obeyed in mode <mode>
text to the large line under overlay <overlay>
cursor frame 0;0 in mode 10
cursor frame in mode 10, else <obeyed|passed over>
[K blanks from column <0..15> in mode <0|1|5|6>
[K at column 16 in mode <0|1|5|6>
[K at column 24 in mode 10
mark <0..4> seen by <row|column>
stop at <CR|ESC>
stop at <CR|ESC> of an overlong frame
stop <with room 0|after some answers>
room 0 and all used
frame <abandoned|open before the call>
frame <abandoned overlong|closed overlong|overlong before the call>
frame closed <empty|with 250 bytes>
frame outside the grammar
bad frame <damaged>
tail <of 0 bytes|of 250 bytes|overlong>
text <stored|stored in the large line|dropped|dropped behind the large line>
picture frame of 96 columns
picture frame of row 6 cut to five bits
label frame of <0|7> codes
mark stopped with <0..2> left
mark written with <3|4> left
<refusing> stopped with <0..2> left
<refusing> written with <3|4> left
<asked> stopped <at once|behind an answer>
<asked> answered behind an answer
<asked> open before, <answered|stopped>
<question> <abandoned|left open|open before, spoilt>
contrast <0|1|20> told
brightness <0|100> told
speaker volume <0..7> told
<PTT|no PTT> told
<on-hook|off-hook> told
light <0..4> told
duration <1|250> told
times <0;0|4;0|4;4|50;50|12;12> told
screen <0..12> told
place <0;0|0;16|3;15|4;16> told
place 0;<0|24> told in mode 10
<contrast|brightness|speaker volume> stepped <up|down> <to its end|from its end|in between>
<lighting> in light mode <0..4>
<lighting> in light mode <0..4> with the keypad flag
<lighting> in light mode <0|2> with seconds to start
hook call to <on-hook|off-hook> from <on-hook|off-hook>
hook call to <on-hook|off-hook> while AskHook waits
hook call with a <frame open|key held>
Restart with <text|a frame|an ESC|nothing> behind it
Restart with <HOOK lifted|PTT pressed|another contrast|another brightness|another speaker volume|another time|another duration>
three answers of several bytes in one call
a question mark behind a long answer
stop at ESC behind a long answer
more than 255 bytes of answers in one call
stop with room 300
bound with <frame> and <no bytes|bytes without ESC|ESC alone|one ESC|256 ESC or more|some ESC>
refused N with <frame> and <no bytes|bytes without ESC|ESC alone|some ESC>
bound <reached|not reached|passed by questions> with <frame>
room of the bound, all used, with <frame>
room of <1|2> less than the bound, <all used|stopped>
bound <0|3|6|9|12288|12291>
room of the bound, stopped by a question
judgement <bad|passed over|obeyed> in mode <mode>
judgement <bad|passed over|obeyed|refused> with <frame>
judgement of <command> obeyed
judgement of <ranged> passed over
judgement of <refusing> refused
judgement of <refusing> <obeyed|refused> with <frame>
judgement of <KeypadSet|KeypadClearStart|KeypadClear> obeyed in light mode 0
judgement of <KeypadSet|KeypadClearStart|KeypadClear> refused in light mode <1..4>
judgement of ContrastUp obeyed at <0|19>
judgement of ContrastDown obeyed at <1|20>
judgement of BrightnessUp obeyed at <0|99>
judgement of BrightnessDown obeyed at <1|100>
judgement of SpeakerUp obeyed at <0|6>
judgement of SpeakerDown obeyed at <1|7>
judgement bad of <command> and a byte more
judgement bad of <number>, padded
judgement with a number above 255 of <number>
judgement of <two> for <the first|the second|both> out of range
judgement of IT0;0 obeyed
judgement bad of <damaged>
judgement of <0|249|250|251|4095|4096> bytes
judgement bad with <1B|0D|0A> in the frame
judgement passed over for the number <0|999>
judgement bad of a frame that the other edition has
";

/// What is open when the bound is asked for, and what is offered.
const FRAMES: &str = "no frame|an open frame|an overlong frame";
const OFFERED: &str = "no bytes|4,096 bytes without ESC|bytes without ESC|4,096 ESC|ESC alone|\
    one ESC|256 ESC or more|some ESC";

/// What makes the labels of a choice screen be looked at.
const LOOKS: &str = "text|a text mode|an overlay|an IDn passed over|the end";

/// The list that a word in corners stands for, by the sister's tables or those
/// of the first edition.
fn list(word: &str, sister: bool) -> Vec<String> {
    let strings = |list: &[u8]| list.iter().map(u8::to_string).collect();
    let of = |keep: &dyn Fn(&Command) -> bool| {
        let kept = table(sister).iter().filter(|command| keep(command));
        kept.map(|command| command.name.to_string()).collect()
    };
    let written = |c: &Command| !c.has_rest();
    // Padded it would be passed over: it has a number out of range below 100.
    let narrow = |c: &Command| c.ranges().iter().any(|range| range.outside(MOST_ROWS)[0] < 100);
    // Those that can be spelt in capitals: no small letter is in them.
    let capital = |c: &Command| {
        let body = String::from_utf8(c.spell::<u16>(&[], &[])).unwrap_or_default();
        body.to_uppercase() == body && body.to_lowercase() != body
    };
    let names = |keep: &dyn Fn(u16) -> bool| {
        let kept = (0..FIELDS.len() as u16).filter(|&field| keep(field));
        kept.map(|field| FIELDS[usize::from(field)].name.to_string()).collect()
    };
    let keys = |all: bool| {
        let kept = KEYS.iter().filter(|(_, _, _, repeat)| all || repeat.is_some());
        kept.map(|(name, _, _, _)| name.to_string()).collect()
    };
    match word {
        "command" => of(&|_| true),
        // In some mode no row can be named, and so no frame that names one obeyed.
        "placed" => of(&|c| c.ranges().iter().all(|range| !range.inside(0).is_empty())),
        "ranged" => of(&|c| !c.ranges().is_empty()),
        "number" => of(&Command::has_number),
        "two" => of(&|c| c.ranges().len() > 1),
        "narrow" => of(&|c| c.has_number() && narrow(c)),
        "written" => of(&written),
        "written with numbers" => of(&|c| written(c) && !c.ranges().is_empty()),
        "question" => of(&Command::is_question),
        "refusing" => of(&Command::may_be_refused),
        "lighting" => of(&|c| c.spell::<u16>(&[], &[]).starts_with(b"IE")),
        "capital" => of(&capital),
        "screen" => generate::numbers_of_mode(sister).iter().map(u16::to_string).collect(),
        "mode" => strings(&MODES),
        "mode with rows" => strings(&MODES[..4]),
        "overlay" => strings(&OVERLAYS),
        "border" => strings(&BORDERS),
        "field" => names(&|_| true),
        "flag" => names(&|field| values(field).len() == 2),
        "refusable" => names(&|field| refusable(sister).contains(&field)),
        "key" => keys(true),
        "repeating key" => keys(false),
        "rule" => keys::rules(sister).iter().map(|rule| rule.name.to_string()).collect(),
        "message" => messages(),
        "damaged" => damaged(sister).split('|').map(|form| format!("{form:?}")).collect(),
        "asked" => asked(sister).iter().map(|(name, length)| format!("{name} of {length}")).collect(),
        "part" => PARTS[1..].iter().map(|kind| kind.word().to_string()).collect(),
        "judged mode" => [&MODES[..], &[255]].concat().into_iter().map(mode_name).collect(),
        "frame" => FRAMES.split('|').map(str::to_string).collect(),
        "offered" => OFFERED.split('|').map(str::to_string).collect(),
        "look" => LOOKS.split('|').map(str::to_string).collect(),
        other => vec![other.to_string()],
    }
}

/// The questions, each with a length of its answer.
const ASKED: &[(&str, usize)] =
    &[("AskContrast", 5), ("AskContrast", 6), ("AskHook", 5), ("AskVersion", LONGEST_OF_FIRST)];
const ASKED_OF_HERS: &[(&str, usize)] = &[
    ("AskPosition", 10),
    ("AskPosition", 11),
    ("AskVersion", LONGEST),
    ("AskHook", 8),
    ("AskPtt", 8),
    ("AskContrast", 8),
    ("AskContrast", 9),
    ("AskMode", 9),
    ("AskMode", 10),
    ("AskLight", 10),
    ("AskLight", 11),
    ("AskLight", 12),
    ("AskBrightness", 8),
    ("AskBrightness", 9),
    ("AskBrightness", 10),
    ("AskTimes", 10),
    ("AskTimes", 11),
    ("AskTimes", 12),
    ("AskSpeaker", 8),
];

fn asked(sister: bool) -> &'static [(&'static str, usize)] {
    if sister {
        ASKED_OF_HERS
    } else {
        ASKED
    }
}

/// The sister's key messages, by sign and event: switches have neither a long
/// nor a repeated one.
fn messages() -> Vec<String> {
    let events = |sign: u8| if b"HP".contains(&sign) { "se" } else { "slre" };
    let of = |sign: u8| events(sign).chars().map(move |event| format!("{}{event}", char::from(sign)));
    SIGNS.into_iter().flat_map(of).chain(["Fx".to_string()]).collect()
}

const PARTS: [Kind; 6] = [Kind::None, Kind::Text, Kind::Skipped, Kind::Closed, Kind::Abandoned, Kind::Tail];

/// The names that a pattern stands for.
fn expand(pattern: &str, sister: bool) -> Vec<String> {
    let Some((before, rest)) = pattern.split_once('<') else {
        return vec![pattern.to_string()];
    };
    let (inside, behind) = rest.split_once('>').unwrap_or((rest, ""));
    let words: Vec<String> = match inside.split_once("..") {
        Some((from, to)) => {
            let number = |word: &str| word.parse::<u32>().unwrap_or(0);
            (number(from)..=number(to)).map(|n| n.to_string()).collect()
        }
        None if inside.contains('|') => inside.split('|').map(str::to_string).collect(),
        None => list(inside, sister),
    };
    let rest = expand(behind, sister);
    let with = |word: &String| rest.iter().map(|rest| format!("{before}{word}{rest}")).collect::<Vec<_>>();
    words.iter().flat_map(with).collect()
}

/// Everything that scripts of all kinds should reach.
pub fn wanted() -> Vec<String> {
    let names = |wanted: &str, sister: bool| -> Vec<String> {
        wanted.lines().filter(|line| !line.is_empty()).flat_map(|line| expand(line, sister)).collect()
    };
    let first = [names(WANTED, false), of_tables(false), of_the_rest(), of_her_writer()].concat();
    let hers = [names(WANTED_OF_HERS, true), of_tables(true)].concat();
    let hers = hers.into_iter().map(|name| format!("{HERS}{name}"));
    first.into_iter().chain(hers).collect()
}

/// What follows from the tables of commands and fields, on records of an edition.
fn of_tables(sister: bool) -> Vec<String> {
    let mut names = vec![];
    let how = |good: bool| if good { "obeyed" } else { "passed over" };
    for command in table(sister) {
        for (place, range) in command.ranges().into_iter().enumerate() {
            for n in tried(range).into_iter().filter(|&n| command.has_number() || n < 10) {
                names.push(format!("{} {}", command.form(place, n), how(range.has(n, MOST_ROWS))));
            }
            for (mode, n) in MODES.into_iter().flat_map(|m| (0..7).map(move |n| (m, n))) {
                let good = range.has(n, rows_to_name(mode).into());
                if range.by_mode() {
                    let name = format!("{} {} in mode {mode}", command.form(place, n), how(good));
                    names.push(format!("judgement of {name}"));
                    names.push(name);
                }
            }
        }
        if command.takes_zeros() {
            let zeros = vec![0; command.ranges().len()];
            names.push(format!("{} obeyed", String::from_utf8_lossy(&command.spell(&zeros, &[]))));
        }
    }
    // A field by itself, right beside the ends of its range.
    for (number, row) in FIELDS.iter().enumerate().filter(|(_, row)| row.places == 1 && by_itself(row)) {
        let wrong = ends_of(sister, number as u16).into_iter().filter(|(_, good)| !good);
        names.extend(wrong.map(|(value, _)| format!("{} {value} refused", row.name)));
    }
    for (name, length) in asked(sister) {
        names.extend((0..*length).map(|left| format!("{name} of {length} stopped with {left} left")));
        names.extend([0, 1].map(|m| format!("{name} of {length} answered with {} left", length + m)));
    }
    names
}

/// Whether the range of a field rests on no other, but that of Time2 in the
/// sister's record on Time1.
fn by_itself(row: &Field) -> bool {
    row.rests_on.is_empty() || row.name == "Time2"
}

/// What follows from tables and has to do with no edition, or with the first.
fn of_the_rest() -> Vec<String> {
    let mut names = vec![];
    for command in table(false) {
        for (place, range) in command.ranges().into_iter().enumerate() {
            for n in tried(range).into_iter().filter(|_| !command.has_rest()) {
                let how = if range.has(n, MOST_ROWS) { "written" } else { "not written" };
                names.push(format!("{} {how}", command.form(place, n)));
            }
            for (mode, n) in [0, 1, 5, 6, LARGE, 255].into_iter().flat_map(|m| (0..7).map(move |n| (m, n))) {
                let good = range.has(n, script::rows_of_verdict(mode).into());
                let how = if good { "obeyed" } else { "passed over" };
                if range.by_mode() {
                    names.push(format!("verdict of {} {how} in {}", command.form(place, n), mode_name(mode)));
                }
            }
        }
    }
    // A field that stands by itself, at the ends of its range and beside them.
    for (number, row) in FIELDS.iter().enumerate().filter(|(_, row)| row.places == 1 && by_itself(row)) {
        let number = number as u16;
        for (value, _) in [ends_of(false, number), ends_of(true, number)].concat() {
            names.push(format!("field {} set to {value}", row.name));
        }
        if values(number).len() == 256 {
            names.push(format!("field {} set to 256 or more", row.name));
        }
    }
    for (one, other) in (0..TEXT_ROWS).flat_map(|other| (0..other).map(move |one| (one, other))) {
        names.push(format!("marks {one} and {other} refused"));
    }
    for (letter, least, more) in LETTERS {
        // Without bytes a letter may be another call's, or no call's at all.
        names.extend((0..least).map(|few| format!("line {letter} with {few} bytes")));
        names.push(format!("line {letter} with {} bytes", least + more + 1));
    }
    names.push(format!("line S with field {}", FIELDS.len()));
    names.push(format!("line W with command {}", command_count()));
    // Every place where a text row is seen, with its mark.
    for (mode, overlay) in MODES.into_iter().flat_map(|mode| OVERLAYS.map(|overlay| (mode, overlay))) {
        let layout = seen::layout(&Record { mode, overlay, ..power_on() });
        for row in (0..7).filter(|&row| layout[row].is_ascii_digit()) {
            let place = format!("row {row} in mode {mode} overlay {overlay}");
            names.push(format!("marked text by {place}"));
            names.push(format!("marked text by a column of {place}"));
        }
    }
    names
}

/// What follows from the kinds of the sister's command writer, which takes no
/// record.
fn of_her_writer() -> Vec<String> {
    let mut names = vec![];
    for kind in (0..=33).chain([63]).chain(64..=97).chain([255]) {
        let Some(command) = writers::of_her_kind(kind) else {
            names.push(format!("her kind {kind} 2"));
            continue;
        };
        let ranges = command.ranges();
        names.extend([0, 3].map(|number| format!("her kind {kind} {number}")));
        names.extend(["just enough", "one short"].map(|room| format!("her kind {kind} with a room {room}")));
        if ranges.len() < 2 {
            names.push(format!("her kind {kind} written beside numbers that it has not"));
        }
        if !ranges.is_empty() {
            names.push(format!("her kind {kind} 2"));
        }
        for (place, range) in ranges.into_iter().enumerate() {
            for n in tried(range) {
                let how = if range.has(n, MOST_ROWS) { "written" } else { "not written" };
                names.push(format!("her {} {how}", command.form(place, n)));
            }
        }
    }
    names.push("her IT0;0 written".to_string());
    names.extend([4, 50].map(|time2| format!("her IT0;{time2} not written")));
    names
}

/// The values at the ends of a field's range and right beside them, and the
/// greatest, in an edition's power-on record; whether each is in range.
fn ends_of(sister: bool, field: u16) -> Vec<(u16, bool)> {
    let mut record = if sister { sister_power_on() } else { power_on() };
    let mut judge = |value: u16| {
        set(&mut record, field, 0, value);
        (value, fits(&record, field))
    };
    let all: Vec<(u16, bool)> = values(field).into_iter().map(&mut judge).collect();
    let end = |at: usize| {
        let beside = |other: Option<&(u16, bool)>| other.is_some_and(|(_, good)| *good != all[at].1);
        beside(all.get(at + 1)) || (at > 0 && beside(all.get(at - 1))) || at + 1 == all.len()
    };
    (0..all.len()).filter(|&at| end(at)).map(|at| all[at]).collect()
}

/// What is offered, as the list has it.
fn offered(bytes: &[u8]) -> &'static str {
    let escapes = bytes.iter().filter(|&&byte| byte == ESC).count();
    let at = match (bytes.len(), escapes) {
        (0, _) => 0,
        (4096, 0) => 1,
        (_, 0) => 2,
        (4096, 4096) => 3,
        (length, escapes) if length == escapes => 4,
        (_, 1) => 5,
        (_, 256..) => 6,
        _ => 7,
    };
    OFFERED.split('|').nth(at).unwrap_or("")
}

/// What is open, as the list has it.
fn frame_name(record: &Record) -> &'static str {
    let state = usize::from(record.frame.state);
    FRAMES.split('|').nth(state).unwrap_or("no state")
}

/// The mode of a verdict, as the list has it.
fn mode_name(mode: u8) -> String {
    if MODES.contains(&mode) {
        format!("mode {mode}")
    } else {
        "a mode that is none".to_string()
    }
}

/// What becomes of a frame, as the list has it.
fn how_name(verdict: Verdict) -> &'static str {
    match verdict {
        Verdict::Bad => "bad",
        Verdict::PassedOver(_) => "passed over",
        Verdict::Obeyed => "obeyed",
        Verdict::Refused => "refused",
    }
}

/// The sister's number of the light's mode, as the list has it.
fn light_name(record: &Record) -> u8 {
    let pwm = u8::from(record.edition.pwm);
    match record.backlight.mode {
        0 => 4,
        1 => 1 + 2 * pwm,
        _ => 2 * pwm,
    }
}

/// The first part of a choice, as the list has it.
fn first_part(pieces: &[Piece]) -> String {
    let Some(first) = pieces.first() else {
        return "no part".to_string();
    };
    match (&first.part, &first.good) {
        (Part::Text(_), _) => "text".to_string(),
        (Part::Skipped(_), _) => "skipped".to_string(),
        (Part::Abandoned(_), _) => "abandoned".to_string(),
        (Part::Tail(_), _) => "tail".to_string(),
        (_, None) => "bad".to_string(),
        (_, Some(good)) => match first.mode() {
            Some(n) => format!("ID{n}"),
            None => good.command.name.to_string(),
        },
    }
}

/// What looks at the labels, as the list has it.
fn look_name(next: Option<&Piece>) -> &'static str {
    let Some(next) = next else {
        return "the end";
    };
    match next.mode() {
        None => "text",
        Some(0 | 1 | 5 | 6 | 10) => "a text mode",
        Some(11..=18) => "an overlay",
        Some(_) => "an IDn passed over",
    }
}

/// The number of the marked row; none where no row or several are marked.
fn marked(record: &Record) -> Option<usize> {
    match rows_marked(record)[..] {
        [row] => Some(row),
        _ => None,
    }
}

fn rows_marked(record: &Record) -> Vec<usize> {
    (0..TEXT_ROWS).filter(|&row| record.marks[row]).collect()
}

fn hook_name(on: bool) -> &'static str {
    if on {
        "on-hook"
    } else {
        "off-hook"
    }
}

/// The question that a frame's bytes spell, and its answer now.
fn question(record: &Record, body: &[u8]) -> Option<(&'static str, Vec<u8>)> {
    let good = stream::good(record.edition.sister, body).filter(|good| good.command.is_question())?;
    Some((good.command.name, commands::answer(record, &good)))
}

/// The bytes of an open frame.
fn open_body(record: &Record) -> Option<&[u8]> {
    let frame = &record.frame;
    (frame.state == 1).then(|| &frame.bytes[..usize::from(frame.length)])
}

/// What the large line's count of codes rests on.
fn counted_by(record: &Record) -> &'static str {
    let mut home = record.clone();
    home.column = 0;
    match seen::codes_in_line(&home).cmp(&usize::from(record.column)) {
        std::cmp::Ordering::Less => "the cursor",
        std::cmp::Ordering::Greater => "the last code",
        std::cmp::Ordering::Equal => "both",
    }
}

impl Cover {
    fn add(&mut self, name: impl std::fmt::Display) {
        *self.counts.entry(format!("{}{name}", self.whose)).or_default() += 1;
    }

    pub fn count(&self, name: &str) -> u64 {
        self.counts.get(name).copied().unwrap_or(0)
    }

    /// Counts one call: the record before it and its answer.
    pub fn see(&mut self, call: &Call, before: &Record, answer: &Answer) {
        let letter = letter(call);
        let sister = before.edition.sister;
        self.whose = if sister && "RFNIKCHBQUMV".contains(letter) { HERS } else { "" };
        let number = match answer {
            Answer::InRange(yes) => Some(u8::from(*yes)),
            Answer::Counts { number, .. } | Answer::Written { number, .. } => Some(*number),
            Answer::Number(n) | Answer::Thin(n, _) | Answer::Row(n, _) => Some(*n),
            Answer::Column(n, _) | Answer::Bound(n, _) => Some(*n),
            Answer::Sms(n, _) | Answer::Volume(n, _, _) => Some(*n),
            Answer::Judgement(verdict) => Some(u8::from(verdict.is_none())),
            _ => None,
        };
        if let Some(number) = number {
            see!(self, "answer {letter} {number}");
        }
        if *answer == Answer::InRange(false) || (letter != 'R' && number == Some(1)) {
            self.see_refused(letter, before);
        }
        let powers = [
            ("power-on", Call::PowerOn, power_on()),
            ("former power-on", Call::FormerPowerOn, former_power_on()),
            ("sister power-on", Call::SisterPowerOn, sister_power_on()),
        ];
        if let Some((name, _, record)) = powers.iter().find(|(_, power, _)| power == call) {
            let from = match faults(before)[..] {
                _ if before == record => "from itself",
                _ if powers.iter().any(|(_, _, other)| before == other) => "from another",
                [] => "in range",
                _ => "out of range",
            };
            see!(self, "{name} {from}");
        }
        match (call, answer) {
            (_, Answer::What) => {
                self.add("a line that can't be taken");
                self.see_misfit(call);
            }
            (_, Answer::Silence) => self.add("an empty line"),
            (Call::Stream { room, bytes }, Answer::Counts { number: 0, used, .. }) => {
                self.see_stream(before, usize::from(*room), bytes, *used);
            }
            (Call::Bound { bytes }, Answer::Bound(number, bound)) => {
                self.see_bound(before, bytes, *number, *bound);
            }
            (Call::Parts { place, bytes }, Answer::Parts(parts)) => {
                self.see_parts(before, usize::from(*place), bytes, parts);
            }
            (Call::Choice { bytes }, Answer::Choice(broken)) => {
                self.see_choice(before, bytes, *broken);
            }
            (Call::Verdict { mode, body }, Answer::Verdict(verdict)) => {
                self.see_verdict(before, *mode, body, *verdict);
            }
            (Call::Judgement { body }, Answer::Judgement(Some(verdict))) => {
                self.see_judgement(before, body, *verdict);
            }
            (Call::Keys { room, ticks, edges }, Answer::Counts { number, used, .. }) => {
                self.see_log(before, ticks, edges, (*number, *used, *room));
            }
            (Call::Row { row, phase }, Answer::Row(0, owner)) => {
                self.see_row(before, *row, *phase, owner);
            }
            (Call::Column { row, column, phase }, Answer::Column(number, there)) => {
                self.see_column(before, (*row, *column, *phase), *number, there);
            }
            (Call::Set { field, place, value }, Answer::Done) => {
                self.see_set(*field, usize::from(*place), *value);
                if FIELDS[usize::from(*field)].name == "sister" && (*value != 0) != sister {
                    let mut after = before.clone();
                    script::perform(&mut after, call);
                    if faults(before).is_empty() && faults(&after).is_empty() {
                        see!(self, "field sister set in range to {}", if sister { "the first" } else { "the sister" });
                    }
                }
            }
            (Call::Sms { phase }, Answer::Sms(0, panel)) => {
                see!(self, "sms {panel}");
                self.see_letter("panel", before, *phase);
            }
            (Call::Volume, Answer::Volume(0, panel, level)) => {
                see!(self, "volume panel {panel}");
                see!(self, "volume level {level}");
            }
            (Call::Second, Answer::Number(0)) | (Call::Thin, Answer::Thin(0, _)) => {
                self.add(match before.backlight.left {
                    0 => "second at left 0",
                    1 => "second at left 1",
                    _ => "second lowers left",
                });
                if before.backlight.left > 0 {
                    see!(self, "second lowers left {} PWM", if before.edition.pwm { "with" } else { "without" });
                }
                if let ('B', [field]) = (letter, &faults(before)[..]) {
                    let name = FIELDS[usize::from(*field)].name;
                    see!(self, "B taken though the record is refused for {name} alone");
                }
            }
            (Call::Hook { on }, Answer::Number(0)) => self.see_hook(before, *on),
            (Call::Command { command: n, numbers, .. }, Answer::Written { number, .. }) => {
                see!(self, "writer {:?} {number}", command(*n));
                if *number != 3 {
                    let how = if *number == 0 { "written" } else { "not written" };
                    let numbers = &numbers[..command(*n).ranges().len()];
                    self.see_numbers("", command(*n), numbers, MOST_ROWS, &[how]);
                }
            }
            (Call::HerCommand { kind, numbers, .. }, Answer::Written { number, .. }) => {
                self.see_her_writer(*kind, *numbers, *number);
            }
            (Call::Label { codes, .. }, Answer::Written { number: 0, .. }) if codes.len() == 7 => {
                self.add("label of 7 codes written");
            }
            (Call::Picture { .. }, Answer::Written { count: 200, .. }) => {
                self.add("picture of 200 bytes written");
            }
            _ => (),
        }
        if let Answer::Written { number, count, buffer } = answer {
            let more = with_room(call, buffer.len() as u16 + 1);
            let again = more.map(|call| script::perform(&mut before.clone(), &call));
            let room = match (*number, again) {
                (0, _) if *count == buffer.len() => "room just enough",
                (3, Some(Answer::Written { number: 0, .. })) => "room one short",
                _ => return,
            };
            self.add(room);
            if let Call::HerCommand { kind, .. } = call {
                see!(self, "her kind {kind} with a {room}");
            }
        }
    }

    /// A call that is refused for one field alone.
    fn see_refused(&mut self, letter: char, before: &Record) {
        let [field] = faults(before)[..] else { return };
        let (row, mode) = (&FIELDS[usize::from(field)], before.mode);
        let name = row.name;
        see!(self, "refused {letter} for {name} alone");
        let value = get(before, field);
        match row.rests_on {
            ["text mode"] => see!(self, "{name} {value} refused in mode {mode}"),
            [.., "frame state"] => see!(self, "{name} wrong in state {}", before.frame.state),
            _ => see!(self, "{name} {value} refused"),
        }
        let (keys, light) = (before.edition.keys, before.backlight.mode);
        let down = u32::from_le_bytes(keys.down);
        match name {
            "PWM" if light == 0 => see!(self, "PWM {value} refused with the light off"),
            "Time2" if before.time1 == 0 => see!(self, "Time2 {value} refused with Time1 0"),
            "left" => see!(self, "left {value} refused in light mode {light}"),
            "sister's key" | "sister's tick" => see!(self, "{name} {value} refused in stage {}", keys.stage),
            "sister's keys down" => {
                see!(self, "{name} refused in stage {}", keys.stage);
                if down == 0 {
                    see!(self, "{name} empty refused in stage {}", keys.stage);
                }
                for key in keys::keys_in(keys.down).filter(|&key| key > 20) {
                    see!(self, "{name} with key {key} refused in stage {}", keys.stage);
                }
            }
            _ => (),
        }
        if name == "inverse mark" {
            match rows_marked(before)[..] {
                [one, other] => see!(self, "marks {one} and {other} refused"),
                _ => self.add("three marks and more refused"),
            }
        }
    }

    /// A field that is set.
    fn see_set(&mut self, field: u16, place: usize, value: u16) {
        let row = &FIELDS[usize::from(field)];
        let name = row.name;
        if place == 0 {
            see!(self, "field {name} set at its first place");
        }
        if place + 1 == row.places {
            see!(self, "field {name} set at its last place");
        }
        match (values(field).len(), value) {
            (2, 2..) => see!(self, "field {name} set to 2 or more"),
            (256, 256..) => see!(self, "field {name} set to 256 or more"),
            _ => see!(self, "field {name} set to {value}"),
        }
        see!(self, "field {name} place {place} set to {value}");
    }

    /// Each number of a command by which it is judged: the others are in
    /// range.
    fn see_numbers(&mut self, what: &str, command: &Command, numbers: &[u16], rows: u16, hows: &[&str]) {
        let ranges = command.ranges();
        let good: Vec<bool> = numbers.iter().zip(&ranges).map(|(&n, range)| range.has(n, rows)).collect();
        for (place, n) in numbers.iter().enumerate() {
            if (0..good.len()).all(|other| other == place || good[other]) {
                let form = command.form(place, *n);
                hows.iter().for_each(|how| see!(self, "{what}{form} {how}"));
            }
        }
    }

    /// A good frame: what became of it, with which numbers, and in what
    /// circumstances.
    fn see_good(&mut self, record: &Record, good: &Spelt) {
        let (mode, overlay) = (record.mode, record.overlay);
        let obeyed = commands::obeyed(record, good);
        let how = match obeyed {
            true => "obeyed",
            false if commands::refused(record, good) => "refused",
            false => "passed over",
        };
        let name = good.command.name;
        see!(self, "frame {name} {how}");
        self.see_hers(record, good, obeyed);
        if good.numbers.contains(&0) {
            see!(self, "frame {name} with the number 0");
        }
        let mut hows = vec![how.to_string(), format!("{how} in mode {mode}")];
        for (with, yes) in [
            ("the display off", !record.display),
            ("a key held", keys::held(record).down),
            ("keys in the state false", record.edition.keys.stage == 3),
            ("an overlay", overlay > 0),
            ("a mark", marked(record).is_some()),
            ("a line that isn't blank", record.line != [0x20; LINE]),
        ] {
            if yes {
                hows.push(format!("{how} with {with}"));
                hows.push(format!("{how} in mode {mode} with {with}"));
            }
        }
        hows.push(format!("{how} under overlay {overlay}"));
        hows.iter().for_each(|how| see!(self, "{name} {how}"));
        let hows: Vec<&str> = hows.iter().map(String::as_str).collect();
        let rows = rows_to_name(mode).into();
        self.see_numbers("", good.command, &good.numbers, rows, &hows);
        match (name, &good.numbers[..]) {
            ("Times", [0, 0]) => see!(self, "IT0;0 {how}"),
            ("Position", [row, column]) if mode == LARGE => {
                if (*row, *column) == (0, 0) {
                    self.add("cursor frame 0;0 in mode 10");
                }
                let how = if *row < 5 && *column < 16 { "obeyed" } else { "passed over" };
                see!(self, "cursor frame in mode 10, else {how}");
            }
            ("Inverse", [number]) if obeyed => self.add(match (number, marked(record)) {
                (0, Some(row)) => format!("IZ0 with mark {row}"),
                (_, None) => format!("IZ{number} with none marked"),
                (_, Some(row)) if usize::from(*number) == row + 1 => {
                    format!("IZ{number} to the same mark")
                }
                _ => format!("IZ{number} to a row with another marked"),
            }),
            ("ClearLine", _) => {
                let (row, column) = (record.row, usize::from(record.column));
                let cleared = match mode {
                    LARGE => &record.line[column..],
                    _ => &record.text[CODES * usize::from(row)..][column..CODES],
                };
                see!(self, "[K at column {column} in mode {mode}");
                see!(self, "[K in row {row} in mode {mode}");
                if cleared.first().is_some_and(|&code| code != 0x20) {
                    see!(self, "[K blanks from column {column} in mode {mode}");
                }
                if !cleared.is_empty() && cleared.iter().all(|&code| code == 0x20) {
                    see!(self, "[K of blanks in mode {mode}");
                }
            }
            ("Picture", [row]) => {
                see!(self, "picture frame of {} columns", good.codes.len());
                if *row == 6 && good.codes.iter().any(|&dots| dots > 31) {
                    self.add("picture frame of row 6 cut to five bits");
                }
            }
            ("LeftLabel" | "RightLabel", _) => {
                see!(self, "label frame of {} codes", good.codes.len());
                if good.codes.starts_with(b"00") {
                    self.add("label of zeros");
                }
            }
            _ => (),
        }
    }

    /// A good frame of the sister: where it stands in the range of what it
    /// steps over, and the light's mode.
    fn see_hers(&mut self, record: &Record, good: &Spelt, obeyed: bool) {
        if !record.edition.sister {
            return;
        }
        let name = good.command.name;
        for (what, value, most) in [
            ("contrast", record.contrast, 20),
            ("brightness", record.edition.brightness, 100),
            ("speaker volume", record.edition.speaker, 7),
        ] {
            let first = what.split(' ').next().unwrap_or("");
            let Some(way) = name.to_lowercase().strip_prefix(first).map(str::to_string) else { continue };
            let (from, to) = match &way[..] {
                "up" => (value == 0, value + 1 == most),
                "down" => (value == most, value == 1),
                _ => continue,
            };
            let where_to = match (from, to) {
                (true, _) => "from its end",
                (_, true) => "to its end",
                _ => "in between",
            };
            if obeyed {
                see!(self, "{what} stepped {way} {where_to}");
            }
        }
        if good.command.spell::<u16>(&[], &[]).starts_with(b"IE") {
            let light = light_name(record);
            see!(self, "{name} in light mode {light}");
            if record.backlight.keypad {
                see!(self, "{name} in light mode {light} with the keypad flag");
            }
            if record.backlight.left < record.backlight.duration {
                see!(self, "{name} in light mode {light} with seconds to start");
            }
        }
        if name == "Restart" {
            let new = sister_power_on();
            for (what, yes) in [
                ("HOOK lifted", !record.hook),
                ("PTT pressed", record.edition.ptt),
                ("another contrast", record.contrast != new.contrast),
                ("another brightness", record.edition.brightness != new.edition.brightness),
                ("another speaker volume", record.edition.speaker != new.edition.speaker),
                ("another time", (record.time1, record.time2) != (12, 12)),
                ("another duration", record.backlight.duration != new.backlight.duration),
            ] {
                if yes {
                    see!(self, "Restart with {what}");
                }
            }
        }
    }

    fn see_verdict(&mut self, before: &Record, mode: u8, body: &[u8], verdict: Verdict) {
        self.see_bystander("verdict", before);
        if mode != before.mode {
            self.add("verdict in a mode that the record has not");
        }
        self.see_judged("verdict", false, mode, body, verdict);
    }

    /// The verdict of a frame of an edition in a mode; `what` says who gave it.
    fn see_judged(&mut self, what: &str, sister: bool, mode: u8, body: &[u8], verdict: Verdict) {
        see!(self, "{what} of {} bytes", body.len());
        let rows = script::rows_of_verdict(mode).into();
        let (mode, how) = (mode_name(mode), how_name(verdict));
        see!(self, "{what} {how} in {mode}");
        let Some(good) = stream::good(sister, body) else {
            return self.see_bad_verdict(what, sister, body);
        };
        let (command, numbers) = (good.command, &good.numbers[..]);
        see!(self, "{what} of {command:?} {how} in {mode}");
        self.see_numbers(&format!("{what} of "), command, numbers, rows, &[&format!("{how} in {mode}")]);
        let Verdict::PassedOver(number) = verdict else { return };
        see!(self, "{what} passed over for the number {number}");
        if number > 255 {
            see!(self, "{what} with a number above 255 of {command:?}");
        }
        let ranges = command.ranges();
        let wrong: Vec<bool> = (0..numbers.len()).map(|at| !ranges[at].has(numbers[at], MOST_ROWS)).collect();
        let which = match wrong[..] {
            [true, false] => "the first",
            [false, true] => "the second",
            [true, true] => "both",
            _ => return,
        };
        see!(self, "{what} of {command:?} for {which} out of range");
    }

    /// The judgement of a frame, and what it rests on in the record.
    fn see_judgement(&mut self, before: &Record, body: &[u8], verdict: Verdict) {
        let (sister, frame, how) = (before.edition.sister, frame_name(before), how_name(verdict));
        self.see_judged("judgement", sister, before.mode, body, verdict);
        see!(self, "judgement {how} with {frame}");
        let Some(good) = stream::good(sister, body) else {
            if stream::good(!sister, body).is_some() {
                self.add("judgement bad of a frame that the other edition has");
            }
            return;
        };
        let name = good.command.name;
        see!(self, "judgement of {name} {how}");
        see!(self, "judgement of {name} {how} with {frame}");
        see!(self, "judgement of {name} {how} in light mode {}", light_name(before));
        let value = match name.strip_suffix("Up").or(name.strip_suffix("Down")) {
            Some("Contrast") => before.contrast,
            Some("Brightness") => before.edition.brightness,
            Some("Speaker") => before.edition.speaker,
            _ if good.command.takes_zeros() && good.numbers == [0, 0] => {
                return see!(self, "judgement of IT0;0 {how}");
            }
            _ => return,
        };
        see!(self, "judgement of {name} {how} at {value}");
    }

    /// A call of the sister's command writer.
    fn see_her_writer(&mut self, kind: u8, numbers: [u16; 2], number: u8) {
        see!(self, "her kind {kind} {number}");
        let (Some(command), 0 | 2) = (writers::of_her_kind(kind), number) else { return };
        let (own, beside) = numbers.split_at(command.ranges().len());
        let how = if number == 0 { "written" } else { "not written" };
        self.see_numbers("her ", command, own, MOST_ROWS, &[how]);
        if !beside.is_empty() && !beside.contains(&0) {
            see!(self, "her kind {kind} {how} beside numbers that it has not");
        }
        if command.takes_zeros() {
            see!(self, "her {} {how}", String::from_utf8_lossy(&command.spell(own, &[])));
        }
    }

    /// A line that can't be taken: how many bytes it has, and what is wrong
    /// with its phase, its field or its place.
    fn see_misfit(&mut self, call: &Call) {
        let Call::Other(line) = call else { return };
        let Some((letter, bytes)) = words(line) else { return };
        see!(self, "line {letter} with {} bytes", bytes.len());
        match (letter, &bytes[..]) {
            ('S', &[field, p, q, _, _]) => match FIELDS.get(usize::from(field)) {
                None => see!(self, "line S with field {field}"),
                Some(row) if row.places == usize::from(u16::from_be_bytes([p, q])) => {
                    see!(self, "line S one place behind {}", row.name);
                }
                _ => (),
            },
            ('W', &[_, _, number, ..]) => see!(self, "line W with command {number}"),
            ('M' | 'Q' | 'U', bytes) => {
                let least = LETTERS.iter().find(|(known, _, _)| *known == letter);
                let fault = match bytes.get(least.map_or(0, |(_, least, _)| least - 1)..) {
                    Some([]) => "no phase",
                    Some([0 | 1, _]) => "a byte behind the phase",
                    Some([2]) => "phase 2",
                    Some([_]) => "another phase that is none",
                    _ => return,
                };
                see!(self, "line {letter} with {fault}");
            }
            _ => (),
        }
    }

    fn see_bound(&mut self, before: &Record, bytes: &[u8], number: u8, bound: usize) {
        let (frame, offered) = (frame_name(before), offered(bytes));
        if number != 0 {
            see!(self, "refused N with {frame} and {offered}");
            return;
        }
        see!(self, "bound with {frame} and {offered}");
        see!(self, "bound {bound}");
        if !bytes.contains(&ESC) {
            for byte in 0..=255 {
                if bytes.contains(&byte) {
                    see!(self, "bound with {frame}, {byte:02X} and no ESC");
                }
            }
        }
        if (before.frame.state, before.frame.length) == (1, 250) {
            self.add("bound with an open frame of 250 bytes");
        }
        let answers = stream::answers(before, bytes);
        let needed: usize = answers.iter().map(|(_, answer)| answer.len()).sum();
        let how = match needed.cmp(&bound) {
            std::cmp::Ordering::Less => "not reached",
            std::cmp::Ordering::Equal => "reached",
            std::cmp::Ordering::Greater => "passed by questions",
        };
        see!(self, "bound {how} with {frame}");
    }

    /// What a record is like to which a question is put that takes none.
    fn see_bystander(&mut self, asked: &str, before: &Record) {
        if !faults(before).is_empty() {
            see!(self, "{asked} with the record out of range");
        }
        if before.frame.state == 1 {
            see!(self, "{asked} with a frame open in the record");
        }
    }

    fn see_parts(&mut self, before: &Record, place: usize, bytes: &[u8], parts: &[Found]) {
        self.see_bystander("parts", before);
        self.see_place(place, bytes);
        see!(self, "parts of {} bytes", bytes.len());
        if parts.len() > 256 {
            self.add("more than 256 parts");
        }
        let first = parts[0].kind.word();
        self.add(match place {
            0 => format!("part {first} at place 0"),
            _ => format!("part {first} asked for at a later place"),
        });
        if place > 300 {
            see!(self, "part {first} behind place 300, asked for there");
        }
        for pair in parts.windows(2) {
            let [word, next] = [pair[0], pair[1]].map(|part| part.kind.word());
            see!(self, "part {word}, then {next}");
        }
        for part in parts {
            let word = part.kind.word();
            let body = bytes.get(part.body..part.body_end).unwrap_or(&[]);
            match part.kind {
                Kind::None => (),
                Kind::Text | Kind::Skipped => {
                    see!(self, "part {word} {:02X}", bytes[part.end - 1]);
                }
                _ => {
                    see!(self, "part {word} of {} bytes", body.len());
                    if stream::good(false, body).is_some() {
                        see!(self, "part {word} with a good frame in it");
                    }
                }
            }
            if part.end >= 256 {
                see!(self, "part {word} that ends at 256 or later");
            }
            if part.kind != Kind::None && part.end == 4096 {
                self.add("a part that ends at 4096");
            }
        }
    }

    /// Where a place lies in a stream that is read from its start.
    fn see_place(&mut self, place: usize, bytes: &[u8]) {
        if place == bytes.len() {
            self.add("parts from the end");
        }
        if place == bytes.len() + 1 {
            self.add("parts from one place past the end");
        }
        if place == 65_535 {
            self.add("parts from place 65535");
        }
        if bytes.is_empty() && place > 0 {
            self.add("parts of no bytes from a later place");
        }
        let mut from = 0;
        for (part, behind) in stream::parting(bytes) {
            let word = match part {
                Part::Closed(_) => "closed",
                Part::Abandoned(_) => "abandoned",
                Part::Tail(_) => "tail",
                _ => "",
            };
            if place > from && place < behind {
                see!(self, "parts from within a frame {word}");
            }
            if word == "closed" && place + 1 == behind {
                self.add("parts from the CR of a frame");
            }
            if word == "closed" && place == behind && bytes.get(place) == Some(&LF) {
                self.add("parts from the LF behind a frame");
            }
            if word == "abandoned" && place == behind {
                self.add("parts from the ESC that abandons a frame");
            }
            from = behind;
        }
    }

    /// A frame outside the grammar, and what it lies close to.
    fn see_bad_verdict(&mut self, what: &str, sister: bool, body: &[u8]) {
        for byte in [ESC, CR, LF] {
            if body.contains(&byte) {
                see!(self, "{what} bad with {byte:02X} in the frame");
            }
        }
        if let Some(form) = damaged(sister).split('|').find(|form| form.as_bytes() == body) {
            see!(self, "{what} bad of {form:?}");
        }
        if let Some(less) = body.split_last().and_then(|(_, less)| spelt(sister, less)) {
            see!(self, "{what} bad of {:?} and a byte more", less.command);
        }
        if let Some(capital) = spelt(sister, &body.to_ascii_uppercase()) {
            see!(self, "{what} bad of {:?} in small letters", capital.command);
        }
        let (plain, zeros, longest) = without_zeros(body);
        if let Some(plain) = spelt(sister, &plain) {
            if longest.len() <= 3 && zeros.len() == plain.numbers.len() {
                see!(self, "{what} bad of {:?}, padded", plain.command);
            }
        }
    }

    fn see_choice(&mut self, before: &Record, bytes: &[u8], broken: Option<Broken>) {
        self.see_bystander("choice", before);
        let length = bytes.len();
        see!(self, "choice of {length} bytes");
        let pieces = choice::pieces(bytes);
        let first = first_part(&pieces);
        see!(self, "choice that begins with {first}");
        let screens: Vec<usize> = (1..pieces.len()).filter(|&at| pieces[at].sets_text_mode()).collect();
        match broken {
            Some(broken) => {
                self.see_broken(bytes, &pieces, broken);
                if screens.first().is_none_or(|&at| pieces[at].place > broken.offset) {
                    let rule = broken.rule;
                    see!(self, "choice broken by rule {rule} in the first screen");
                }
            }
            None => {
                self.add("choice yes");
                see!(self, "choice yes of {length} bytes");
                see!(self, "choice yes that begins with {first}");
                see!(self, "choice yes with {} later screens", screens.len());
                let text = pieces.iter().any(|piece| matches!(piece.part, Part::Text(_)));
                match (pieces.len(), screens.len()) {
                    (1 | 2, 0) if !text => see!(self, "choice yes of {first} alone"),
                    (_, 0) if text && !bytes.windows(2).any(|pair| pair == b"IK") => {
                        see!(self, "choice yes of {first} with text and no labels");
                    }
                    _ => (),
                }
            }
        }
        // Only what comes before the broken place was looked at, and what
        // broke it.
        let last = broken.map_or(length, |broken| broken.offset);
        for at in screens {
            let next = pieces[at + 1..].iter().position(Piece::looks);
            let behind = next.map_or(pieces.len(), |next| at + 1 + next);
            let place = pieces.get(behind).map_or(length, |piece| piece.place);
            if place <= last {
                self.see_choice_screen(&pieces, at, behind, broken.is_none());
            }
        }
    }

    /// A later screen of a choice, of which the labels are looked at: those
    /// that are there now, and what became of them before and behind.
    fn see_choice_screen(&mut self, pieces: &[Piece], at: usize, behind: usize, yes: bool) {
        let stretch = &pieces[at + 1..behind];
        let sides = [("left", "LeftLabel"), ("right", "RightLabel")];
        let with = match sides.map(|(_, side)| choice::sets(stretch, side)) {
            [true, true] => "with",
            _ => "without",
        };
        let mode = pieces[at].mode().unwrap_or(0);
        let look = look_name(pieces.get(behind));
        see!(self, "choice screen {mode} {with} labels at {look}");
        for (name, side) in sides {
            let touched: Vec<&str> = stretch
                .iter()
                .filter(|piece| piece.leaves(side).is_some())
                .filter_map(|piece| piece.good.as_ref().map(|good| good.command.name))
                .collect();
            if yes && touched.iter().filter(|&&name| name == side).count() > 1 {
                see!(self, "choice yes with the {name} label set again");
            }
            if choice::sets(stretch, side) {
                continue;
            }
            let why = match touched.last() {
                Some(&"LabelsEmpty") => "emptied by IK0",
                Some(_) => "set to nothing",
                None if choice::sets(&pieces[behind..], side) => "set too late",
                None if choice::sets(&pieces[..at], side) => "set before the screen alone",
                None => "never set",
            };
            see!(self, "choice broken for the {name} label, {why}");
        }
        for piece in stretch.iter().filter(|_| yes) {
            let what = match &piece.good {
                None => "a skipped byte".to_string(),
                Some(good) if commands::obeyed(&power_on(), good) => format!("{:?}", good.command),
                Some(_) => "a frame passed over".to_string(),
            };
            see!(self, "choice yes with {what} behind its screen");
        }
    }

    /// A choice that breaks a rule, and what else it breaks.
    fn see_broken(&mut self, bytes: &[u8], pieces: &[Piece], broken: Broken) {
        let Broken { rule, offset } = broken;
        let all = choice::all_broken(bytes);
        see!(self, "choice broken by rule {rule}");
        see!(self, "choice broken by rule {rule} at {offset}");
        if all.len() == 1 {
            see!(self, "choice broken by rule {rule} alone");
        }
        if offset >= 256 {
            see!(self, "choice broken by rule {rule} at 256 or later");
        }
        for other in all {
            let later = other.rule;
            if other.offset > offset {
                see!(self, "choice breaks rule {rule} before rule {later}");
            } else if later > rule {
                see!(self, "choice breaks rules {rule} and {later} at place {offset}");
            }
        }
        let there = pieces.iter().find(|piece| piece.place == offset);
        match (rule, there.map(|piece| &piece.part)) {
            (3, Some(Part::Abandoned(_))) => self.add("choice broken by an abandoned frame"),
            (3, Some(Part::Closed(body))) => self.add(match body.len() {
                0 => "choice broken by an empty frame",
                251 => "choice broken by a frame of 251 bytes",
                _ => "choice broken by another bad frame",
            }),
            (4, Some(Part::Tail(body))) => {
                see!(self, "choice broken by a tail of {} bytes", body.len());
            }
            _ => (),
        }
    }

    fn see_stream(&mut self, before: &Record, room: usize, bytes: &[u8], used: usize) {
        let sister = before.edition.sister;
        let (_, bound) = stream::bound(before, bytes);
        let frame = frame_name(before);
        let all = used == bytes.len();
        match (bound.checked_sub(room), all) {
            (Some(0), true) => see!(self, "room of the bound, all used, with {frame}"),
            (Some(0), false) => self.add("room of the bound, stopped by a question"),
            (Some(less @ 1..=2), _) => {
                let how = if all { "all used" } else { "stopped" };
                see!(self, "room of {less} less than the bound, {how}");
                if less == 1 {
                    see!(self, "room of one less than the bound, {how}, with {frame}");
                }
            }
            _ => (),
        }
        see!(self, "column {} in range in mode {}", before.column, before.mode);
        match before.frame.state {
            1 => self.add("frame open before the call"),
            2 => self.add("frame overlong before the call"),
            _ => (),
        }
        let parts = stream::parts_of_call(before, &bytes[..used]);
        self.see_answers(before, room, &parts, &bytes[used..]);
        self.see_again(before, room, bytes);
        if let Some(stop) = bytes.get(used) {
            let overlong = matches!(parts.last(), Some((Part::Tail(body), _)) if body.len() > 250);
            let end = if *stop == CR { "CR" } else { "ESC" };
            see!(self, "stop at {end}{}", if overlong { " of an overlong frame" } else { "" });
            self.add(if room == 0 { "stop with room 0" } else { "stop after some answers" });
        } else if room == 0 && !bytes.is_empty() {
            self.add("room 0 and all used");
        }
        // The record as the parts are taken.
        let mut record = before.clone();
        for (place, (part, _)) in parts.iter().enumerate() {
            match part {
                Part::Text(code) => {
                    self.see_text(&record);
                    commands::text(&mut record, *code);
                }
                Part::Skipped(_) => self.add("byte skipped"),
                Part::Abandoned(body) if body.len() > 250 => self.add("frame abandoned overlong"),
                Part::Abandoned(_) => self.add("frame abandoned"),
                Part::Tail(body) if body.len() > 250 => self.add("tail overlong"),
                Part::Tail(body) => see!(self, "tail of {} bytes", body.len()),
                Part::Closed(body) if body.len() > 250 => self.add("frame closed overlong"),
                Part::Closed(body) => {
                    see!(self, "frame closed with {} bytes", body.len());
                    if body.is_empty() {
                        self.add("frame closed empty");
                    }
                    let Some(good) = spelt(sister, body) else {
                        self.add("frame outside the grammar");
                        if let Some(form) = damaged(sister).split('|').find(|form| form.as_bytes() == body) {
                            see!(self, "bad frame {form:?}");
                        }
                        self.see_bad(&record, body);
                        continue;
                    };
                    self.see_good(&record, &good);
                    if good.is("Restart") {
                        let behind = match parts.get(place + 1).map(|(part, _)| part) {
                            Some(Part::Text(_)) => "text",
                            Some(Part::Closed(_)) => "a frame",
                            Some(Part::Abandoned(_) | Part::Tail(_)) => "an ESC",
                            _ => "nothing",
                        };
                        see!(self, "Restart with {behind} behind it");
                    }
                    commands::take(&mut record, &good);
                }
            }
        }
    }

    /// The answers of a call and the room that each finds; and its stop.
    fn see_answers(&mut self, before: &Record, room: usize, parts: &[stream::Placed], unused: &[u8]) {
        let mut record = before.clone();
        record.frame = NO_FRAME;
        let (mut left, mut long) = (room, 0);
        for (part, _) in parts {
            let asked = match part {
                Part::Closed(body) => question(&record, body),
                _ => None,
            };
            if let Some((command, answer)) = asked {
                let length = answer.len();
                see!(self, "{command} of {length} answered with {left} left");
                if left < room {
                    see!(self, "{command} of {length} answered behind an answer");
                }
                self.see_told(&record, command, &answer);
                long += 1;
                if long == 3 {
                    self.add("three answers of several bytes in one call");
                }
            }
            if let Part::Abandoned(body) = part {
                if let Some((command, _)) = question(&record, body) {
                    see!(self, "{command} abandoned");
                }
            }
            let steps = refusing(&record, part);
            let answer = stream::take(&mut record, part);
            if answer == mark(record.edition.sister) {
                see!(self, "mark written with {left} left");
                if let Some(name) = steps {
                    see!(self, "{name} written with {left} left");
                }
                if long > 0 {
                    self.add("a question mark behind a long answer");
                }
            }
            left -= answer.len();
        }
        if room - left > 255 {
            self.add("more than 255 bytes of answers in one call");
        }
        if room == 300 && !unused.is_empty() {
            self.add("stop with room 300");
        }
        if long > 0 && unused.first() == Some(&ESC) {
            self.add("stop at ESC behind a long answer");
        }
        let Some(Part::Tail(body)) = parts.last().map(|(part, _)| part) else {
            return;
        };
        let Some((command, answer)) = question(&record, body) else {
            if !unused.is_empty() {
                see!(self, "mark stopped with {left} left");
            }
            if let (Some(&CR), Some(name)) = (unused.first(), refusing(&record, &Part::Closed(body.clone()))) {
                see!(self, "{name} stopped with {left} left");
            }
            return;
        };
        let length = answer.len();
        match unused.first() {
            Some(&CR) => {
                see!(self, "{command} of {length} stopped with {left} left");
                self.add(match left == room {
                    true => format!("{command} of {length} stopped at once"),
                    false => format!("{command} of {length} stopped behind an answer"),
                });
            }
            _ => see!(self, "{command} left open"),
        }
    }

    /// What a question is told.
    fn see_told(&mut self, record: &Record, command: &str, answer: &[u8]) {
        match command {
            "AskContrast" => see!(self, "contrast {} told", record.contrast),
            "AskHook" => see!(self, "{} told", hook_name(record.hook)),
            "AskPtt" => see!(self, "{} told", if record.edition.ptt { "PTT" } else { "no PTT" }),
            "AskBrightness" => see!(self, "brightness {} told", record.edition.brightness),
            "AskSpeaker" => see!(self, "speaker volume {} told", record.edition.speaker),
            "AskTimes" => see!(self, "times {};{} told", record.time1, record.time2),
            "AskPosition" => {
                see!(self, "place {};{} told", record.row, record.column);
                see!(self, "place {};{} told in mode {}", record.row, record.column, record.mode);
            }
            // The number stands behind the blank.
            "AskMode" | "AskLight" => {
                let told = String::from_utf8_lossy(answer);
                let numbers: Vec<&str> = told.split([' ', ';', '\r']).collect();
                match command {
                    "AskMode" => see!(self, "screen {} told", numbers[1]),
                    _ => {
                        see!(self, "light {} told", numbers[1]);
                        see!(self, "duration {} told", numbers[2]);
                    }
                }
            }
            _ => (),
        }
    }

    /// A question that stood open before the call: its CR comes first, or
    /// something else.
    fn see_again(&mut self, before: &Record, room: usize, bytes: &[u8]) {
        let open = open_body(before).and_then(|body| question(before, body));
        let (Some((command, answer)), Some(first)) = (open, bytes.first()) else {
            return;
        };
        let length = answer.len();
        if *first != CR {
            see!(self, "{command} open before, spoilt");
            return;
        }
        self.add(match room < length {
            true => format!("{command} of {length} open before, stopped"),
            false => format!("{command} of {length} open before, answered"),
        });
    }

    fn see_hook(&mut self, before: &Record, on: u8) {
        see!(self, "hook call {on}");
        let to = hook_name(on != 0);
        let from = hook_name(before.hook);
        see!(self, "hook call to {to} from {from}");
        match before.frame.state {
            1 => self.add("hook call with a frame open"),
            2 => self.add("hook call with a frame overlong"),
            _ => (),
        }
        if keys::held(before).down {
            self.add("hook call with a key held");
        }
        if let Some((command, _)) = open_body(before).and_then(|body| question(before, body)) {
            see!(self, "hook call to {to} while {command} waits");
        }
    }

    fn see_text(&mut self, record: &Record) {
        let large = record.mode == LARGE;
        let left = capacity(record.mode) - usize::from(record.column);
        self.add(match (left, large) {
            (0, false) => "text dropped",
            (0, true) => "text dropped behind the large line",
            (_, false) => "text stored",
            (_, true) => "text stored in the large line",
        });
        if left == 1 {
            self.add(if large {
                "text stored in the last place of the large line"
            } else {
                "text stored in its last place"
            });
        }
        if large && left > 0 {
            let overlay = record.overlay;
            see!(self, "text to the large line under overlay {overlay}");
        }
    }

    /// A frame outside the grammar: digits too many, zeros before a number.
    fn see_bad(&mut self, record: &Record, body: &[u8]) {
        if body == b"IK00" {
            self.add("IK00");
        }
        if body.starts_with(b"Gr0") && body.get(4) == Some(&b',') {
            self.add("picture row of two digits");
        }
        let (plain, zeros, longest) = without_zeros(body);
        let Some(plain) = spelt(record.edition.sister, &plain) else {
            return;
        };
        if plain.numbers.len() != zeros.len() {
            return;
        }
        if let [first, _, _, _] = longest {
            let what = match first {
                b'0' => "a zero and three digits",
                _ => "four digits",
            };
            see!(self, "{what} in {:?}", plain.command);
        }
        if longest.len() > 3 {
            return;
        }
        let command = plain.command;
        for (place, zeros) in zeros.iter().enumerate() {
            see!(self, "{zeros} zeros before number {place} of {command:?}");
            if *zeros > 0 && plain.numbers[place] == 0 {
                see!(self, "padded zero in {command:?}");
            }
        }
        if zeros.len() > 1 && !zeros.contains(&0) {
            see!(self, "all numbers of {command:?} padded");
        }
        let how = if commands::obeyed(record, &plain) { "obeyed" } else { "passed over" };
        see!(self, "padded {command:?}, else {how}");
    }

    fn see_log(&mut self, before: &Record, ticks: &[u16], edges: &[u8], (number, used, room): (u8, usize, u16)) {
        let sister = before.edition.sister;
        let bad = edges.iter().position(|&byte| keys::edge(sister, byte).is_none());
        if let (4, Some(bad)) = (number, bad) {
            see!(self, "edge {} not listed", edges[bad]);
        }
        if number == 5 && bad.is_some() {
            self.add("unequal lengths and a bad edge");
        }
        if let (4, Some(bad)) = (number, bad) {
            let mut scratch = before.clone();
            let mut buffer = vec![0; usize::from(room)];
            let (_, used, _) = keys::call(&mut scratch, &ticks[..bad], &edges[..bad], &mut buffer);
            if used < bad {
                self.add("log and bad edge past the stop");
            }
        }
        if number != 0 {
            return;
        }
        if edges.is_empty() {
            self.add("empty log");
        }
        if *before == power_on() {
            self.add("key log right after power-on");
        }
        if *before == former_power_on() {
            self.add("key log right after former power-on");
        }
        if *before == sister_power_on() {
            self.add("key log right after power-on");
        }
        match edges.get(used) {
            Some(255) => self.add("log stops at a poll"),
            Some(128..) => self.add("log stops at a release"),
            Some(_) => self.add("log stops at a press"),
            None => (),
        }
        let mut left = usize::from(room);
        let mut record = before.clone();
        for (&now, &byte) in ticks.iter().zip(edges).take(used) {
            let Some(edge) = keys::edge(sister, byte) else {
                return;
            };
            if sister {
                self.see_her_entry(&record, now, edge, &mut left);
            }
            let held = keys::held(&record);
            let light = record.backlight;
            if held.down && now < held.tick {
                self.add("elapsed runs over");
            }
            let near = match distance(&record, now, edge) {
                Some(-1) => Some("one below"),
                Some(0) => Some("at"),
                Some(1) => Some("one above"),
                _ => None,
            };
            let what = match (edge, held.long) {
                (Edge::Poll, false) if record.time1 > 0 => Some("short poll"),
                (Edge::Poll, true) if record.time2 > 0 => Some("long poll"),
                (Edge::Release(key), false) if key == held.key => Some("short release"),
                _ => None,
            };
            if let (Some(near), Some(what)) = (near, what) {
                see!(self, "{what} {near} the threshold");
            }
            match edge {
                _ if sister => (),
                Edge::Poll if !held.down => self.add("poll with none held"),
                Edge::Poll if held.long && record.time2 == 0 => {
                    self.add("poll of a long key with Time2 0");
                }
                Edge::Poll if held.long && KEYS[usize::from(held.key)].3.is_none() => {
                    self.add("poll of a long key without repeat code");
                }
                Edge::Press(_) if held.down => self.add("press while a key is held"),
                Edge::Release(key) if !held.down || key != held.key => {
                    self.add("release of a key not held");
                }
                _ => (),
            }
            let (rule, sent) = keys::take(&mut record, now, edge);
            if edge == Edge::Poll && held.long {
                let after = now.wrapping_sub(held.tick);
                let times = format!("{};{}", record.time1, record.time2);
                let what = if sent.is_empty() { "nothing" } else { "a code" };
                let name = format!("poll at {after} of a long key with times {times}: {what}");
                self.add(name);
            }
            if let Some(rule) = rule {
                see!(self, "rule {rule}");
            }
            if record.backlight != light {
                self.add("press restarts the light");
            }
            if let [code] = sent[..] {
                let (name, short, long, _) = KEYS[usize::from(held.key)];
                let how = match (edge, code) {
                    (Edge::Poll, code) if code == long => "long at poll",
                    (Edge::Poll, _) => "repeat",
                    (_, code) if code == short => "short at release",
                    _ => "long at release",
                };
                see!(self, "key {name} {how}");
            }
        }
        if used < edges.len() {
            see!(self, "log stops with {left} left");
        }
    }

    /// An entry of the sister's key log, and the room that its message finds.
    fn see_her_entry(&mut self, before: &Record, now: u16, edge: Edge, left: &mut usize) {
        let mut record = before.clone();
        let (_, sent) = keys::take(&mut record, now, edge);
        if let [_, _, sign, event, _, _] = sent[..] {
            see!(self, "message {}{}", char::from(sign), char::from(event));
            see!(self, "message sent with {left} left");
            *left -= sent.len();
        }
        let (held, stage) = (keys::held(before), before.edition.keys.stage);
        let down: Vec<u8> = keys::keys_in(before.edition.keys.down).collect();
        if record.edition.keys.stage == 3 {
            see!(self, "state false with {} keys", keys::keys_in(record.edition.keys.down).count());
        }
        // Whether seconds would start: in auto, and fewer of them are left.
        let light = before.backlight;
        let to_start = light.mode == 2 && light.left < light.duration;
        let (way, key) = match edge {
            Edge::Press(key) => ("press", key),
            Edge::Release(key) => ("release", key),
            Edge::Poll => {
                match stage {
                    0 => self.add("poll with none held"),
                    1 if before.time1 == 0 => self.add("poll of a short key with Time1 0"),
                    2 if before.time2 == 0 => self.add("poll of a long key with Time2 0"),
                    3 => self.add("poll in the state false"),
                    _ => (),
                }
                return;
            }
        };
        if key >= keys::HOOK {
            let name = if key == keys::HOOK { "HOOK" } else { "PTT" };
            let how = if sent.is_empty() { "nothing" } else { "it" };
            see!(self, "{way} of {name} that changes {how} in stage {stage}");
            if to_start {
                see!(self, "{way} of {name} with seconds to start");
            }
            return;
        }
        match (way, stage) {
            ("press", 0) => {
                if to_start {
                    see!(self, "press starts the seconds {} PWM", if before.edition.pwm { "with" } else { "without" });
                }
                if !before.hook {
                    self.add("press with HOOK lifted");
                }
                if before.edition.ptt {
                    self.add("press with PTT pressed");
                }
            }
            ("press", 3) if down.contains(&key) => self.add("press of a key that is down in the state false"),
            ("press", 1 | 2) if key == held.key => self.add("press of the held key again"),
            ("press", 1 | 2) if to_start => self.add("press of a second key with seconds to start"),
            ("release", 3) if !down.contains(&key) => self.add("release of a key not down in the state false"),
            ("release", 3) if down.len() == 1 => self.add("release of the last key in the state false"),
            ("release", 0..=2) if !held.down || key != held.key => self.add("release of a key not held"),
            _ => (),
        }
    }

    fn see_letter(&mut self, asked: &str, record: &Record, phase: Phase) {
        let (u, s) = (record.icons[ICON_U], record.icons[ICON_S]);
        see!(self, "{asked} with U {u} S {s} in the phase {phase:?}");
    }

    fn see_row(&mut self, before: &Record, row: u8, phase: Phase, owner: &Owner) {
        see!(self, "row {row} in the phase {phase:?}");
        match owner {
            Owner::IconBar(_) => self.see_letter("icon bar", before, phase),
            Owner::Small { .. } | Owner::Big { .. } => {
                let count = seen::codes_in_line(before);
                see!(self, "line of {count} codes by row {row}");
                let by = counted_by(before);
                see!(self, "codes of the line counted by {by}");
            }
            Owner::PictureWithRocker { w, .. } => {
                see!(self, "rocker {w} beside a picture");
                if before.picture[5 * COLUMNS..][42..54] != [0; 12] {
                    self.add("picture row with the rocker, not blank below it");
                }
            }
            _ => (),
        }
        let (mode, overlay) = (before.mode, before.overlay);
        let place = format!("row {row} in mode {mode} overlay {overlay}");
        if before.display {
            self.add(&place);
        } else {
            self.add("display off asked");
        }
        let mark = marked(before);
        match *owner {
            Owner::Text { row, mark: true, .. } => {
                see!(self, "marked text by {place}");
                see!(self, "mark {row} seen by row");
            }
            Owner::Text { row, .. } if mark.is_some() => {
                see!(self, "text row {row} seen beside another's mark");
            }
            _ => (),
        }
        if !before.display && mark.is_some() {
            self.add("display off with a mark");
        }
        if row == 4 && mark == Some(4) {
            see!(self, "mark 4 not seen in mode {mode}");
        }
        let owner = match owner {
            Owner::Nothing => 0,
            Owner::IconBar { .. } => 1,
            Owner::Text { .. } => 2,
            Owner::Picture { .. } => 3,
            Owner::SoftKeys { .. } => 4,
            Owner::Small { .. } => 5,
            Owner::Big { half: Half::Upper, .. } => 6,
            Owner::Big { .. } => 7,
            Owner::PictureWithRocker { .. } => 8,
        };
        see!(self, "owner {owner}");
        if mark.is_some() {
            see!(self, "owner {owner} with a mark in the record");
        }
    }

    fn see_column(&mut self, before: &Record, (row, column, phase): (u8, u8, Phase), number: u8, there: &Column) {
        let wrong = (row > 6, column > 95);
        match (number, wrong) {
            (4, (true, false)) => self.add("U 4 for the row alone"),
            (4, (false, true)) => self.add("U 4 for the column alone"),
            (4, _) => self.add("U 4 for both"),
            (1, (false, false)) => (),
            (1, _) => self.add("U 1 with a row or column that is none"),
            _ => (),
        }
        if number != 1 {
            see!(self, "U of row {row} and column {column}");
        }
        if number != 0 {
            return;
        }
        if !before.display {
            self.add("column of a display off");
            return;
        }
        let (mode, overlay) = (before.mode, before.overlay);
        see!(self, "column of row {row} in mode {mode} overlay {overlay}");
        if row == 5 {
            see!(self, "column {column} of row 5 under overlay {overlay}");
        }
        let owner = match there {
            Column::Nothing => 0,
            Column::IconBar(_) => 1,
            _ => cell(there).map_or(0, |[owner, _, _, _]| owner),
        };
        see!(self, "column owner {owner}");
        if marked(before).is_some() {
            see!(self, "column owner {owner} with a mark in the record");
        }
        if let Column::Text { row: text, mark: true, .. } = *there {
            let place = format!("row {row} in mode {mode} overlay {overlay}");
            see!(self, "marked text by a column of {place}");
            see!(self, "mark {text} seen by column");
        }
        let empty = |code: u8| if code == 0 { ", empty" } else { "" };
        let (what, width, from) = match *there {
            Column::IconBar(_) => {
                self.see_letter("icon bar by its column", before, phase);
                return;
            }
            Column::Rocker { w } => {
                see!(self, "rocker {w} by its column");
                return;
            }
            Column::Text { .. } => ("text", 6, 0),
            Column::Small { .. } => ("small", 6, 0),
            Column::Big { .. } if row == 2 => ("upper big", 12, 0),
            Column::Big { .. } => ("lower big", 12, 0),
            Column::Left { .. } => ("left label", 6, 0),
            Column::Right { .. } => ("right label", 6, 54),
            Column::Nothing | Column::Picture { .. } => return,
        };
        if let Column::Small { .. } | Column::Big { .. } = there {
            let count = seen::codes_in_line(before);
            see!(self, "line of {count} codes by a column of row {row}");
        }
        let end = match (column - from) % width {
            0 => "first",
            last if last == width - 1 => "last",
            _ => return,
        };
        let which = (column - from) / width;
        let note = match *there {
            Column::Left { code, .. } | Column::Right { code, .. } => empty(code),
            _ => "",
        };
        see!(self, "{end} column of {what} cell {which}{note}");
    }
}

/// A frame without the zeros before its numbers, and with three digits of
/// those that have more; how many zeros stand before each number; and the
/// longest of them.
fn without_zeros(body: &[u8]) -> (Vec<u8>, Vec<usize>, &[u8]) {
    let (mut plain, mut zeros, mut longest) = (vec![], vec![], &body[..0]);
    for run in body.chunk_by(|a, b| a.is_ascii_digit() == b.is_ascii_digit()) {
        if !run[0].is_ascii_digit() {
            plain.extend(run);
            continue;
        }
        let more = run.iter().take_while(|&&digit| digit == b'0').count();
        let more = more.min(run.len() - 1);
        plain.extend(run[more..].iter().take(3));
        zeros.push(more);
        if run.len() > longest.len() {
            longest = run;
        }
    }
    (plain, zeros, longest)
}

/// The frame that a closed part spells, if the record refuses it.
fn refusing(record: &Record, part: &Part) -> Option<&'static str> {
    let Part::Closed(body) = part else { return None };
    let good = stream::good(record.edition.sister, body)?;
    commands::refused(record, &good).then_some(good.command.name)
}

/// The same writer call with another room.
fn with_room(call: &Call, room: u16) -> Option<Call> {
    let mut call = call.clone();
    match &mut call {
        Call::Command { room: old, .. }
        | Call::HerCommand { room: old, .. }
        | Call::Label { room: old, .. }
        | Call::Picture { room: old, .. } => *old = room,
        _ => return None,
    }
    Some(call)
}

/// Counts over the scripts of these seeds.
pub fn over(seeds: std::ops::Range<u64>, calls: usize) -> Cover {
    let mut cover = Cover::default();
    for seed in seeds {
        for (call, before, answer) in generate::calls(seed, calls, generate::KINDS) {
            cover.see(&call, &before, &answer);
        }
    }
    cover
}

/// Whether the key rule for this entry sits right at its threshold.
fn distance(record: &Record, now: u16, edge: Edge) -> Option<i64> {
    let held = keys::held(record);
    if !held.down || matches!(edge, Edge::Press(_)) {
        return None;
    }
    let time = if held.long { record.time2 } else { record.time1 };
    Some(i64::from(keys::elapsed(record, now)) - i64::from(keys::ticks(time)))
}
