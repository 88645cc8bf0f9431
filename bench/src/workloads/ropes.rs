//! Ropes: texts pushed (r1), characters taken off the front (r2), and parts taken (r3, r4).

use super::last_and_length;
use crate::inputs::{FEW_PIECES, Inputs, MANY_PIECES, PART, rope_length};
use crate::measure::Workload;
use crate::port::{Port, Words};
use crate::results::Unit;
use std::collections::VecDeque;
use tendril::StrTendril;

const BY_HAND: &str = "a deque of tendril 0.5.1";

/// Makes texts of 12 to 40 bytes and pushes them onto a rope.
pub fn pushes<'a>(inputs: &'a Inputs, ports: &'a [Port]) -> Workload<'a> {
    let name = "push 1,000,000 texts onto a rope";
    let details = "of 12 to 40 bytes, created for it";
    Workload::new("r1", name, details, Unit::Calls(MANY_PIECES))
        .with(BY_HAND, move || Rope::of(inputs, MANY_PIECES).sum())
        .with_ports(ports, |port| {
            let words = Words::new(&inputs.words);
            move || port.push_rope(&words, MANY_PIECES)
        })
}

/// Makes such a rope and takes its characters off the front.
pub fn characters<'a>(inputs: &'a Inputs, ports: &'a [Port]) -> Workload<'a> {
    let name = "pop all characters of a rope";
    let details = "of 1,000,000 texts, created first; for each character";
    let characters = rope_length(&inputs.words, MANY_PIECES);
    Workload::new("r2", name, details, Unit::Calls(characters))
        .with(BY_HAND, move || pop_all(Rope::of(inputs, MANY_PIECES)))
        .with_ports(ports, |port| {
            let words = Words::new(&inputs.words);
            move || port.pop_rope(&words, MANY_PIECES)
        })
}

fn pop_all(mut rope: Rope) -> u64 {
    let mut sum = 0u64;
    while let Some(character) = rope.pop_front_char() {
        sum = sum.wrapping_mul(31).wrapping_add(u64::from(character));
    }
    sum
}

/// Takes parts of a rope of few pieces.
pub fn parts_of_few<'a>(inputs: &'a Inputs, ports: &'a [Port]) -> Workload<'a> {
    let name = "slice a rope of 8,192 texts";
    parts("r3", name, inputs, FEW_PIECES, &inputs.few_places, ports)
}

/// Takes parts of a rope of many pieces.
pub fn parts_of_many<'a>(inputs: &'a Inputs, ports: &'a [Port]) -> Workload<'a> {
    let name = "slice a rope of 1,000,000 texts";
    parts("r4", name, inputs, MANY_PIECES, &inputs.many_places, ports)
}

fn parts<'a>(
    id: &'static str,
    name: &'static str,
    inputs: &'a Inputs,
    pieces: usize,
    places: &'a [u32],
    ports: &'a [Port],
) -> Workload<'a> {
    let details = "created first, then `sub_rope` of 20 bytes at 1,000,000 random places";
    Workload::new(id, name, details, Unit::Calls(places.len()))
        .with(BY_HAND, move || {
            sum_of_parts(&Rope::of(inputs, pieces), places)
        })
        .with_ports(ports, |port| {
            let words = Words::new(&inputs.words);
            move || port.sub_ropes(&words, pieces, places)
        })
}

/// Takes the parts at these places.
fn sum_of_parts(rope: &Rope, places: &[u32]) -> u64 {
    places.iter().fold(0, |sum: u64, place| {
        let part = rope.sub_rope(u64::from(*place), PART as u64);
        sum.wrapping_mul(31)
            .wrapping_add(part.map_or(0, |it| it.first_and_count()))
    })
}

/// A rope of the Rust crate's texts, as a user would write it by hand.
#[derive(Default)]
struct Rope {
    pieces: VecDeque<StrTendril>,
    /// Where each piece ends, counted so that the first begins at `start`.
    ends: VecDeque<u64>,
    start: u64,
}

impl Rope {
    /// The rope of so many words.
    fn of(inputs: &Inputs, count: usize) -> Rope {
        let mut rope = Rope::default();
        for word in inputs.words.iter().cycle().take(count) {
            rope.push(StrTendril::from_slice(word));
        }
        rope
    }

    fn end(&self) -> u64 {
        self.ends.back().copied().unwrap_or(self.start)
    }

    fn push(&mut self, piece: StrTendril) {
        if !piece.is_empty() {
            self.ends.push_back(self.end() + u64::from(piece.len32()));
            self.pieces.push_back(piece);
        }
    }

    fn pop_front_char(&mut self) -> Option<char> {
        let first = self.pieces.front_mut()?;
        let character = first.pop_front_char()?;
        self.start += character.len_utf8() as u64;
        if first.is_empty() {
            self.pieces.pop_front();
            self.ends.pop_front();
        }
        Some(character)
    }

    /// The part of so many bytes from the offset on, where both are there.
    fn sub_rope(&self, offset: u64, count: u64) -> Option<Rope> {
        let from = self.start + offset;
        if from + count > self.end() {
            return None;
        }
        let first = self.ends.partition_point(|end| *end <= from);
        let begin = first.checked_sub(1).map_or(self.start, |it| self.ends[it]);
        let (mut at, mut left) = ((from - begin) as u32, count as u32);
        let mut part = Rope::default();
        for piece in self.pieces.range(first..) {
            if left == 0 {
                break;
            }
            let length = left.min(piece.len32() - at);
            part.push(piece.try_subtendril(at, length).ok()?);
            left -= length;
            at = 0;
        }
        Some(part)
    }

    /// How many pieces there are, times 2 ^ 32, and how many bytes they have.
    fn sum(&self) -> u64 {
        let bytes: u64 = self.pieces.iter().map(|it| u64::from(it.len32())).sum();
        bytes + ((self.pieces.len() as u64) << 32)
    }

    /// The first piece's last byte and length, and the number of pieces, added up.
    fn first_and_count(&self) -> u64 {
        let first = self.pieces.front().map_or(&[][..], |it| it.as_bytes());
        last_and_length(first) + self.pieces.len() as u64
    }
}
