//! The streams that are timed, made by a fixed seed: the same operations for the handset and as ANSI.

pub struct Work {
    pub handset: Vec<u8>,
    pub ansi: Vec<u8>,
}

// xorshift, by a fixed seed
struct Dice(u64);

impl Dice {
    fn below(&mut self, n: u64) -> u64 {
        self.0 ^= self.0 << 13;
        self.0 ^= self.0 >> 7;
        self.0 ^= self.0 << 17;
        (self.0 >> 11) % n
    }

    fn codes(&mut self, n: u64) -> Vec<u8> {
        (0..n).map(|_| b' ' + self.below(95) as u8).collect()
    }

    // Letters alone: an ANSI string command would end or part at some signs.
    fn letters(&mut self, n: u64) -> Vec<u8> {
        (0..n).map(|_| b'a' + self.below(26) as u8).collect()
    }
}

fn command(stream: &mut Vec<u8>, body: &[u8]) {
    stream.push(0x1B);
    stream.extend_from_slice(body);
    stream.extend_from_slice(b"\r\n");
}

fn operation(dice: &mut Dice, work: &mut Work) {
    match dice.below(16) {
        0 => {
            command(&mut work.handset, b"&#");
            work.ansi.extend_from_slice(b"\x1b[2J\x1b[H");
        }
        1 => {
            let side = 1 + dice.below(2);
            let length = dice.below(8);
            let text = dice.letters(length);
            command(&mut work.handset, &[format!("IK{side}").as_bytes(), &text[..]].concat());
            work.ansi.extend_from_slice(&[format!("\x1b]{side};").as_bytes(), &text[..], b"\x07"].concat());
        }
        2 => {
            let icon = dice.below(20);
            command(&mut work.handset, format!("IP{icon}").as_bytes());
            work.ansi.extend_from_slice(format!("\x1b]3;{icon}\x07").as_bytes());
        }
        _ => {
            let row = dice.below(4);
            let column = dice.below(4);
            let length = 13 + dice.below(4 - column);
            let text = dice.codes(length);
            command(&mut work.handset, format!("[{row};{column}H").as_bytes());
            work.handset.extend_from_slice(&text);
            work.handset.extend_from_slice(b"\r\n");
            work.ansi.extend_from_slice(format!("\x1b[{};{}H", row + 1, column + 1).as_bytes());
            work.ansi.extend_from_slice(&text);
        }
    }
}

fn fresh() -> (Dice, Work) {
    (Dice(0x2545F4914F6CDD1D), Work { handset: Vec::new(), ansi: Vec::new() })
}

/// So many operations: text at positions, an icon now and then, labels, clears.
pub fn mixed(operations: usize) -> Work {
    let (mut dice, mut work) = fresh();
    for _ in 0..operations {
        operation(&mut dice, &mut work);
    }
    work
}

/// As many operations of the sister's: the same, in her spelling, and now and then a command that only she has.
pub fn sisters(operations: usize) -> Vec<u8> {
    let (mut dice, mut work) = fresh();
    for _ in 0..operations {
        match dice.below(16) {
            0 => command(&mut work.handset, b"&D"),
            1 => {
                let side = 1 + dice.below(2);
                let length = dice.below(8);
                let text = dice.letters(length);
                command(&mut work.handset, &[format!("IK{side}").as_bytes(), &text[..]].concat());
            }
            2 => command(&mut work.handset, format!("IP{}", dice.below(20)).as_bytes()),
            3 => command(&mut work.handset, format!("IN{}", dice.below(101)).as_bytes()),
            _ => {
                let column = dice.below(4);
                let length = 13 + dice.below(4 - column);
                let text = dice.codes(length);
                command(&mut work.handset, format!("&H{};{column}", dice.below(4)).as_bytes());
                work.handset.extend_from_slice(&text);
                work.handset.extend_from_slice(b"\r\n");
            }
        }
    }
    work.handset
}

/// The mixed operations up to this many bytes.
pub fn mixed_of(bytes: usize) -> Vec<u8> {
    let (mut dice, mut work) = fresh();
    while work.handset.len() < bytes {
        work.ansi.clear();
        operation(&mut dice, &mut work);
    }
    work.handset.truncate(bytes);
    work.handset
}

/// So many picture frames of a whole row each, with runs and without.
pub fn pictures(frames: usize) -> Vec<u8> {
    let (mut dice, mut work) = fresh();
    for _ in 0..frames {
        let mut body = format!("Gr{},", dice.below(7)).into_bytes();
        let mut left = 96;
        while 0 < left {
            let run = if dice.below(4) == 0 { (2 + dice.below(25)).min(left) } else { 1 };
            if 1 < run {
                body.push(b'a' + run as u8 - 2);
            }
            body.extend_from_slice(format!("{:02X}", dice.below(256)).as_bytes());
            left -= run;
        }
        body.push(b'z');
        command(&mut work.handset, &body);
    }
    work.handset
}

/// Choice screens, each with its labels behind the mode and then text; the last 30 bytes are the right label's frame and the text.
pub fn screens(count: usize) -> Vec<u8> {
    let mut stream = b"\x1bID0\r\n".to_vec();
    for _ in 0..count {
        stream.extend_from_slice(b"\x1bID5\r\n\x1b[1;0H\r\n\x1bIK1Mine\r\n\x1bIK2Theirs\r\nWhich do we keep?!");
    }
    stream
}

/// Gives each field of a record that a stream can set a value of its own, and leaves a frame open.
pub fn every_field() -> Vec<u8> {
    let mut stream = Vec::new();
    let screen = ["ID5", "ID13", "IDD", "[3;2H", "&C", "IK1Keep", "IK2Neither", "IZ4", "Gr2,01020304z"];
    let icons = ["IS1", "IU255", "IF6", "IR1", "IP19", "IW3", "IJ9", "IM1"];
    let others = ["IT23;34", "IB222", "IE111", "IEA", "IE99", "IEe", "IA17"];
    for frame in screen.iter().chain(&icons).chain(&others) {
        command(&mut stream, frame.as_bytes());
    }
    stream.extend_from_slice(b"Which?\x1bIK2Half");
    stream
}
