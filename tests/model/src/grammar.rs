//! How good frames are spelt, and which of their numbers are in range.
//!
//! A shape is a row of pieces. A piece read at some place of the frame gives
//! all ways to go on from there (a value and the rest); the frame has the
//! shape if some way through all pieces leaves no rest. That no frame can be
//! read in two ways is no part of the reader: `tests property` checks it.
//!
//! The two editions have a table of commands each, and one reader.

use crate::commands::table;
use crate::record::*;
use Piece::{Data, Digit, Is, Number, Text};

/// The range of a number.
pub enum In {
    /// From the first to the second of each pair, both included.
    Spans(&'static [(u16, u16)]),
    /// The same; and 0 where every number of the frame is 0.
    SpansOrZeros(&'static [(u16, u16)]),
    /// A row of the text mode.
    Row,
    /// The rows of the text mode, numbered from 1; 0 names none.
    RowFromOne,
}

pub enum Piece {
    /// These very bytes.
    Is(&'static str),
    /// 0, or 1 to 9 and up to two decimal digits more.
    Number(In),
    /// One decimal digit.
    Digit(In),
    /// 0 to 7 codes, 0x20 to 0xFF.
    Text,
    /// Picture data of 1 to 96 columns.
    Data,
}

pub enum Effect {
    /// What the command does with its numbers, and its codes or columns.
    Do(fn(&mut Record, &[u8], &[u8])),
    /// What the command does where the record lets it be obeyed. Elsewhere it
    /// is answered as a bad frame is, though it is of the grammar.
    If(fn(&Record) -> bool, fn(&mut Record)),
    /// A question changes nothing: it is answered ESC and this.
    Tell(fn(&Record) -> String),
}

pub struct Command {
    pub name: &'static str,
    pub shape: &'static [Piece],
    pub effect: Effect,
}

impl PartialEq for Command {
    fn eq(&self, other: &Command) -> bool {
        std::ptr::eq(self, other)
    }
}

impl std::fmt::Debug for Command {
    fn fmt(&self, to: &mut std::fmt::Formatter) -> std::fmt::Result {
        to.write_str(self.name)
    }
}

/// Rows that the most generous text mode lets a frame name.
pub const MOST_ROWS: u16 = TEXT_ROWS as u16;

impl In {
    fn spans(&self, rows: u16) -> Vec<(u16, u16)> {
        match self {
            In::Spans(spans) | In::SpansOrZeros(spans) => spans.to_vec(),
            In::Row if rows == 0 => vec![],
            In::Row => vec![(0, rows - 1)],
            In::RowFromOne => vec![(0, rows)],
        }
    }

    /// Whether a number is in range where a frame can name so many rows.
    pub fn has(&self, n: u16, rows: u16) -> bool {
        self.spans(rows).iter().any(|&(low, high)| low <= n && n <= high)
    }

    pub fn by_mode(&self) -> bool {
        matches!(self, In::Row | In::RowFromOne)
    }

    /// Numbers in range that should be tried: all of a short span, the ends of
    /// a long one.
    pub fn inside(&self, rows: u16) -> Vec<u16> {
        let some = |&(low, high): &(u16, u16)| match high - low {
            0..=19 => (low..=high).collect(),
            _ => vec![low, low + 1, high - 1, high],
        };
        self.spans(rows).iter().flat_map(some).collect()
    }

    /// Numbers out of range that should be tried: those next to a span, and
    /// some farther off.
    pub fn outside(&self, rows: u16) -> Vec<u16> {
        let spans = self.spans(rows);
        let near = spans.iter().flat_map(|&(low, high)| [low.saturating_sub(1), high + 1, high + 2]);
        let mut all: Vec<u16> = near.chain([10, 99, 100, 255, 256, 999]).collect();
        if matches!(self, In::SpansOrZeros(_)) {
            // Out of range beside another number.
            all.push(0);
        }
        all.retain(|&n| !self.has(n, rows));
        all.sort_unstable();
        all.dedup();
        all
    }
}

impl Command {
    /// The ranges of its numbers, in order.
    pub fn ranges(&self) -> Vec<&'static In> {
        let range = |piece: &'static Piece| match piece {
            Number(range) | Digit(range) => Some(range),
            _ => None,
        };
        self.shape.iter().filter_map(range).collect()
    }

    /// Whether it carries a number, not the one digit of a picture row.
    pub fn has_number(&self) -> bool {
        self.shape.iter().any(|piece| matches!(piece, Number(_)))
    }

    /// Whether it has codes or columns behind its numbers.
    pub fn has_rest(&self) -> bool {
        self.shape.iter().any(|piece| matches!(piece, Text | Data))
    }

    pub fn is_question(&self) -> bool {
        matches!(self.effect, Effect::Tell(_))
    }

    /// Whether it rests on the record that it is obeyed.
    pub fn may_be_refused(&self) -> bool {
        matches!(self.effect, Effect::If(_, _))
    }

    /// Whether its numbers may all be 0, though 0 is out of range for one.
    pub fn takes_zeros(&self) -> bool {
        self.ranges().iter().any(|range| matches!(range, In::SpansOrZeros(_)))
    }

    /// The first number, in the order of the frame, that is out of range where
    /// a frame can name so many rows. None: all are in range.
    pub fn first_out_of_range(&self, numbers: &[u16], rows: u16) -> Option<u16> {
        if self.takes_zeros() && numbers.iter().all(|&n| n == 0) {
            return None;
        }
        let ranges = self.ranges();
        let wrong = numbers.iter().zip(ranges).find(|(&n, range)| !range.has(n, rows));
        wrong.map(|(&n, _)| n)
    }

    /// The bytes between ESC and CR, with the numbers spelt so and these codes
    /// or data.
    pub fn spell<T: ToString>(&self, numbers: &[T], rest: &[u8]) -> Vec<u8> {
        let mut numbers = numbers.iter().map(T::to_string);
        let piece = |piece: &Piece| match piece {
            Is(word) => word.as_bytes().to_vec(),
            Number(_) | Digit(_) => numbers.next().unwrap_or_default().into_bytes(),
            Text | Data => rest.to_vec(),
        };
        self.shape.iter().flat_map(piece).collect()
    }

    /// The form with this number at a place and nothing said of the others.
    pub fn form(&self, place: usize, n: u16) -> String {
        let number = |at: usize| if at == place { n.to_string() } else { "_".to_string() };
        let numbers: Vec<String> = (0..self.ranges().len()).map(number).collect();
        String::from_utf8(self.spell(&numbers, b"_")).unwrap_or_default()
    }
}

/// The command with this name, of the sister or of the first edition.
pub fn named(sister: bool, name: &str) -> &'static Command {
    let command = table(sister).iter().find(|command| command.name == name);
    command.unwrap_or_else(|| panic!("no command is called {name}"))
}

/// A command with its values: the numbers in order, and the codes of a label
/// or the columns of a picture row.
#[derive(Clone, PartialEq, Debug)]
pub struct Spelt {
    pub command: &'static Command,
    pub numbers: Vec<u16>,
    pub codes: Vec<u8>,
}

impl Spelt {
    pub fn is(&self, name: &str) -> bool {
        self.command.name == name
    }
}

/// One way to read on: what was read so far, and the rest.
type Way<'a> = (Vec<u16>, Vec<u8>, &'a [u8]);

/// All readings of a frame's bytes by the sister's table or that of the first
/// edition. None: outside the grammar.
pub fn readings(sister: bool, body: &[u8]) -> Vec<Spelt> {
    let ways = |command: &'static Command| {
        let start: Vec<Way> = vec![(vec![], vec![], body)];
        let ways = command
            .shape
            .iter()
            .fold(start, |ways, piece| ways.into_iter().flat_map(|way| go_on(way, piece)).collect());
        ways.into_iter()
            .filter(|(_, _, rest)| rest.is_empty())
            .map(move |(numbers, codes, _)| Spelt { command, numbers, codes })
            .collect::<Vec<_>>()
    };
    table(sister).iter().flat_map(ways).collect()
}

/// What a frame spells. None: outside the grammar.
pub fn spelt(sister: bool, body: &[u8]) -> Option<Spelt> {
    readings(sister, body).into_iter().next()
}

fn go_on<'a>((numbers, codes, rest): Way<'a>, piece: &Piece) -> Vec<Way<'a>> {
    let cut = |length: usize| Some((rest.get(..length)?, &rest[length..]));
    match piece {
        Is(word) => {
            let rest = rest.strip_prefix(word.as_bytes());
            rest.map(|rest| (numbers, codes, rest)).into_iter().collect()
        }
        Number(_) | Digit(_) => {
            let most = match (piece, rest.first()) {
                // No digit follows a leading zero.
                (Digit(_), _) | (_, Some(b'0')) => 1,
                _ => 3,
            };
            (1..=most)
                .filter_map(cut)
                .filter_map(|(digits, rest)| Some((decimal(digits)?, rest)))
                .map(|(n, rest)| ([&numbers[..], &[n]].concat(), codes.clone(), rest))
                .collect()
        }
        Text => (0..=LABEL)
            .filter_map(cut)
            .filter(|(label, _)| label.iter().all(|&code| code >= 0x20))
            .map(|(label, rest)| (numbers.clone(), label.to_vec(), rest))
            .collect(),
        Data => {
            let ways = data_ways(rest).into_iter();
            ways.map(|(columns, rest)| (numbers.clone(), columns, rest)).collect()
        }
    }
}

/// The number that these decimal digits write; none if one is no digit.
fn decimal(digits: &[u8]) -> Option<u16> {
    digits.iter().try_fold(0, |n, digit| digit.is_ascii_digit().then(|| n * 10 + u16::from(digit - b'0')))
}

fn hex_digit(byte: u8) -> Option<u8> {
    b"0123456789ABCDEF".iter().position(|&h| h == byte).map(|n| n as u8)
}

/// The item at the front: how often, which column, and its length.
fn item(rest: &[u8]) -> Option<(usize, u8, usize)> {
    const LETTERS: &[u8; 25] = b"abcdefghijklmnopqrstuvwxy";
    let (times, letter) = match LETTERS.iter().position(|l| Some(l) == rest.first()) {
        Some(place) => (place + 2, 1),
        None => (1, 0),
    };
    let high = hex_digit(*rest.get(letter)?)?;
    let low = hex_digit(*rest.get(letter + 1)?)?;
    Some((times, high * 16 + low, letter + 2))
}

/// All ways to take one or more items, of 1 to 96 columns, from the front.
fn data_ways(mut rest: &[u8]) -> Vec<(Vec<u8>, &[u8])> {
    let (mut ways, mut columns) = (vec![], vec![]);
    while let Some((times, column, length)) = item(rest) {
        columns.extend(vec![column; times]);
        rest = &rest[length..];
        if columns.len() > COLUMNS {
            break;
        }
        ways.push((columns.clone(), rest));
    }
    ways
}
