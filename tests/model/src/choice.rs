//! The choice screen: four rules for a stream, set out over its parts.
//!
//! Each rule names all places where it is broken. The earliest place decides,
//! and there the first rule. No record is taken: what the rules ask of a frame
//! rests on its bytes alone. They are of the first edition.

use crate::grammar::Spelt;
use crate::record::LARGE;
use crate::stream::{good, parting, Part};

/// A rule, 1 to 4, and where it is broken.
#[derive(Clone, Copy, PartialEq, Eq, Debug)]
pub struct Broken {
    pub rule: u8,
    pub offset: usize,
}

/// A part as the rules see it, and its first byte's place.
pub struct Piece {
    pub part: Part,
    pub good: Option<Spelt>,
    pub place: usize,
}

/// The parts of a stream.
pub fn pieces(stream: &[u8]) -> Vec<Piece> {
    let mut place = 0;
    parting(stream)
        .into_iter()
        .map(|(part, behind)| {
            let good = match &part {
                Part::Closed(body) => good(false, body),
                _ => None,
            };
            Piece { part, good, place: std::mem::replace(&mut place, behind) }
        })
        .collect()
}

impl Piece {
    /// The n of a good IDn frame, in range or not.
    pub fn mode(&self) -> Option<u16> {
        let good = self.good.as_ref()?;
        good.is("Mode").then(|| good.numbers[0])
    }

    /// Whether it sets a text mode.
    pub fn sets_text_mode(&self) -> bool {
        [0, 1, 5, 6, u16::from(LARGE)].map(Some).contains(&self.mode())
    }

    /// Whether the labels must stand when it comes.
    pub fn looks(&self) -> bool {
        self.mode().is_some() || matches!(self.part, Part::Text(_))
    }

    /// Whether it would be given a question mark.
    pub fn marked(&self) -> bool {
        match self.part {
            Part::Abandoned(_) => true,
            Part::Closed(_) => self.good.is_none(),
            _ => false,
        }
    }

    /// What it leaves in a label: codes, none, or (no answer) what was there.
    pub fn leaves(&self, side: &str) -> Option<&[u8]> {
        let good = self.good.as_ref()?;
        match good.command.name {
            "LabelsEmpty" => Some(&[]),
            name if name == side => Some(&good.codes),
            _ => None,
        }
    }
}

/// Whether these pieces set a label, and leave it with codes.
pub fn sets(pieces: &[Piece], side: &str) -> bool {
    let last = pieces.iter().rev().find_map(|piece| piece.leaves(side));
    last.is_some_and(|codes| !codes.is_empty())
}

/// Rule 1: the first part is an obeyed ID0 or ID5.
fn no_first_screen(pieces: &[Piece]) -> Option<usize> {
    let first = pieces.first().and_then(Piece::mode);
    match first {
        Some(0 | 5) => None,
        _ => Some(0),
    }
}

/// Rule 2: after each later IDn that sets a text mode, both labels have been
/// set, with codes in them, when the next text byte, good IDn or the end comes.
fn without_labels(pieces: &[Piece], length: usize) -> Vec<usize> {
    let later = (1..pieces.len()).filter(|&at| pieces[at].sets_text_mode());
    later
        .filter_map(|at| {
            let since = &pieces[at + 1..];
            let next = since.iter().position(Piece::looks);
            let stretch = &since[..next.unwrap_or(since.len())];
            let both = ["LeftLabel", "RightLabel"].map(|side| sets(stretch, side));
            let offset = next.map_or(length, |next| since[next].place);
            (both != [true; 2]).then_some(offset)
        })
        .collect()
}

/// All places where the rules are broken.
pub fn all_broken(stream: &[u8]) -> Vec<Broken> {
    let pieces = pieces(stream);
    let marked = pieces.iter().filter(|piece| piece.marked());
    let open = |piece: &&Piece| matches!(piece.part, Part::Tail(_));
    let places = [
        no_first_screen(&pieces).into_iter().collect(),
        without_labels(&pieces, stream.len()),
        marked.map(|piece| piece.place).collect(),
        pieces.iter().filter(open).map(|piece| piece.place).collect(),
    ];
    (1..).zip(places).flat_map(|(rule, places)| places.into_iter().map(move |offset| Broken { rule, offset })).collect()
}

/// What is wrong with a stream. None: yes, it keeps all rules.
pub fn check(stream: &[u8]) -> Option<Broken> {
    let all = all_broken(stream).into_iter();
    all.min_by_key(|broken| (broken.offset, broken.rule))
}
