//! A tokenizer's input: pieces are pushed onto a queue of texts, which is read to its end after each
//! (n6). Over the Rust crate it is a `VecDeque` of texts, as html5ever's `BufferQueue` is.

use super::PIECE;
use super::parse::add;
use crate::inputs::Inputs;
use crate::measure::Workload;
use crate::port::Port;
use crate::results::Unit;
use std::collections::VecDeque;
use tendril::StrTendril;

/// Reads a page in ASCII.
pub fn of_page<'a>(inputs: &'a Inputs, ports: &'a [Port]) -> Workload<'a> {
    let input = inputs.large.as_bytes();
    Workload::new(
        "n6",
        "HTML read from a queue of texts",
        "pieces of 4096 bytes pushed, read by `peek`, `eat`, `next` and `pop_except_from`",
        Unit::Bytes(input.len()),
    )
    .with("a deque of tendril 0.5.1", move || read_in_pieces(input))
    .with_ports(ports, |port| move || port.input(input))
}

/// Whether a pattern was taken off the front.
#[derive(Clone, Copy, PartialEq, Eq)]
enum EatResult {
    Eaten,
    NotThere,
    NotKnown,
}

/// What is taken off the first text.
enum SetResult {
    FromSet(char),
    NotFromSet(StrTendril),
}

/// A set of ASCII below 64, as html5ever's `SmallCharSet`.
#[derive(Clone, Copy)]
struct SmallSet(u64);

impl SmallSet {
    fn new(bytes: &[u8]) -> SmallSet {
        SmallSet(bytes.iter().fold(0, |bits, it| bits | 1 << it))
    }

    fn contains(self, byte: u8) -> bool {
        byte < 64 && self.0 & (1 << byte) != 0
    }

    /// How many bytes come before the first of the set.
    fn others_before(self, text: &str) -> u32 {
        let end = text.bytes().position(|it| self.contains(it));
        end.unwrap_or(text.len()) as u32
    }
}

/// Texts of which none is empty.
#[derive(Default)]
struct Queue {
    texts: VecDeque<StrTendril>,
}

impl Queue {
    fn push_back(&mut self, text: StrTendril) {
        if !text.is_empty() {
            self.texts.push_back(text);
        }
    }

    fn peek(&self) -> Option<char> {
        self.texts.front()?.chars().next()
    }

    fn next(&mut self) -> Option<char> {
        let first = self.texts.front_mut()?;
        let character = first.pop_front_char();
        if first.is_empty() {
            self.texts.pop_front();
        }
        character
    }

    fn pop_except_from(&mut self, set: SmallSet) -> Option<SetResult> {
        let first = self.texts.front_mut()?;
        let count = set.others_before(first);
        let found = if count > 0 {
            // SAFETY: the search ended at a character of ASCII or at the end.
            unsafe {
                let run = first.unsafe_subtendril(0, count);
                first.unsafe_pop_front(count);
                SetResult::NotFromSet(run)
            }
        } else {
            SetResult::FromSet(first.pop_front_char()?)
        };
        if first.is_empty() {
            self.texts.pop_front();
        }
        Some(found)
    }

    fn eat(&mut self, pattern: &str, same: impl Fn(&u8, &u8) -> bool) -> EatResult {
        let mut passed = 0;
        let mut within = 0;
        for byte in pattern.as_bytes() {
            let Some(text) = self.texts.get(passed) else {
                return EatResult::NotKnown;
            };
            if !same(&text.as_bytes()[within], byte) {
                return EatResult::NotThere;
            }
            within += 1;
            if within == text.len() {
                passed += 1;
                within = 0;
            }
        }
        self.texts.drain(..passed);
        if let Some(first) = self.texts.front_mut() {
            first.pop_front(within as u32);
        }
        EatResult::Eaten
    }
}

fn read_in_pieces(input: &[u8]) -> u64 {
    let specials = SmallSet::new(b"<&\0\r");
    let mut queue = Queue::default();
    input.chunks(PIECE).fold(0, |sum, piece| {
        queue.push_back(StrTendril::try_from_byte_slice(piece).expect("ASCII"));
        read(&mut queue, specials, sum)
    })
}

/// Reads a queue until it is empty, or ends within markup that is looked for.
fn read(queue: &mut Queue, specials: SmallSet, mut sum: u64) -> u64 {
    while let Some(value) = read_next(queue, specials) {
        sum = add(sum, value);
    }
    sum
}

fn read_next(queue: &mut Queue, specials: SmallSet) -> Option<u64> {
    if queue.peek()? == '<' {
        return open(queue);
    }
    match queue.pop_except_from(specials)? {
        SetResult::FromSet(character) => Some(u64::from(u32::from(character))),
        SetResult::NotFromSet(run) => Some(run.len() as u64),
    }
}

/// What begins with `<`, or None where what comes in decides.
fn open(queue: &mut Queue) -> Option<u64> {
    match queue.eat("<!--", |a, b| a == b) {
        EatResult::Eaten => return Some(1),
        EatResult::NotKnown => return None,
        EatResult::NotThere => {}
    }
    match queue.eat("</P>", u8::eq_ignore_ascii_case) {
        EatResult::Eaten => return Some(2),
        EatResult::NotKnown => return None,
        EatResult::NotThere => {}
    }
    let character = queue.next()?;
    Some(u64::from(u32::from(character)))
}
