//! Debian's vte parser with a small screen behind it that does the handset's work as ANSI: text at positions, clears, and string
//! commands for the labels (1, 2) and icon P (3).

use crate::plain::Handset;
use crate::reader::Reader;
use crate::streams::Work;
use vte::{Params, Parser, Perform};

#[derive(PartialEq, Debug)]
struct Screen {
    row: usize,
    column: usize,
    text: [u8; 80],
    labels: [([u8; 7], usize); 2],
    icon: u8,
}

impl Screen {
    fn new() -> Screen {
        Screen { row: 0, column: 0, text: [0x20; 80], labels: [([0; 7], 0); 2], icon: 0 }
    }

    fn set_label(&mut self, side: usize, text: &[u8]) {
        if text.len() <= 7 {
            self.labels[side].0 = [0; 7];
            self.labels[side].0[..text.len()].copy_from_slice(text);
            self.labels[side].1 = text.len();
        }
    }
}

impl Perform for Screen {
    fn print(&mut self, c: char) {
        if self.column < 16 {
            self.text[self.row * 16 + self.column] = c as u8;
            self.column += 1;
        }
    }

    fn csi_dispatch(&mut self, params: &Params, _intermediates: &[u8], _ignore: bool, action: char) {
        let mut numbers = params.iter().map(|p| p[0]);
        let first = numbers.next().unwrap_or(0);
        let second = numbers.next().unwrap_or(0);
        match action {
            'H' => {
                let row = (first as usize).max(1) - 1;
                let column = (second as usize).max(1) - 1;
                if row < 5 && column < 16 {
                    self.row = row;
                    self.column = column;
                }
            }
            'J' if first == 2 => self.text = [0x20; 80],
            _ => {}
        }
    }

    fn osc_dispatch(&mut self, params: &[&[u8]], _bell_terminated: bool) {
        match params {
            [b"1", text] => self.set_label(0, text),
            [b"2", text] => self.set_label(1, text),
            [b"3", digits] => {
                let n = digits.iter().fold(0u32, |n, d| n * 10 + d.wrapping_sub(b'0') as u32);
                if n <= 19 {
                    self.icon = n as u8;
                }
            }
            _ => {}
        }
    }
}

fn shown(bytes: &[u8]) -> Screen {
    let mut screen = Screen::new();
    let mut parser = Parser::new();
    for &b in bytes {
        parser.advance(&mut screen, b);
    }
    screen
}

#[inline(never)]
pub fn run(bytes: &[u8]) -> u64 {
    let screen = shown(bytes);
    screen.text[17] as u64 + screen.column as u64
}

/// Both streams leave the same text, labels and icon.
pub fn agrees(work: &Work) {
    let mut handset = Handset::power_on();
    handset.feed(&work.handset, &mut [0; 64]);
    let screen = shown(&work.ansi);
    let labels = [&screen.labels[0].0[..screen.labels[0].1], &screen.labels[1].0[..screen.labels[1].1]];
    if handset.seen() != (&screen.text[..], labels, screen.icon) {
        eprintln!("bench: the ANSI stream left another screen than the handset's");
        std::process::exit(1);
    }
}
