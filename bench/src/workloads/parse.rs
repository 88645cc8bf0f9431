//! A parser's way with a stream: pieces are decoded, each decoded text is cut at the characters
//! that a tokenizer of HTML looks for, and the runs between them are pushed onto a current text
//! (n1 to n3). And the cuts alone (n4).

use super::PIECE;
use crate::inputs::Inputs;
use crate::measure::Workload;
use crate::port::Port;
use crate::results::{Role, Unit};
use std::borrow::Cow;
use tendril::fmt::UTF8;
use tendril::stream::Utf8LossyDecoder;
use tendril::{ByteTendril, NonAtomic, StrTendril, TendrilSink};

/// Cuts HTML in ASCII by a search over the bytes.
pub fn by_search<'a>(inputs: &'a Inputs, ports: &'a [Port]) -> Workload<'a> {
    let name = "tokenizer, cut by a search, ASCII";
    searches("n1", name, inputs.large.as_bytes(), ports)
}

/// Cuts HTML in ASCII into runs of one class.
pub fn by_class<'a>(inputs: &'a Inputs, ports: &'a [Port]) -> Workload<'a> {
    let input = inputs.large.as_bytes();
    Workload::new(
        "n2",
        "tokenizer, cut by runs, ASCII",
        "as n1, cut by `pop_front_char_run`",
        Unit::Bytes(input.len()),
    )
    .with("tendril 0.5.1", move || parse_by_tendril(input, Cut::Class))
    .with("&str, simdutf8, a String", move || parse_borrowed(input))
    .listed_as(Role::Owned)
    .with_ports(ports, |port| move || port.parse_by_class(input))
}

/// Cuts multilingual text by a search over the bytes.
pub fn multilingual<'a>(inputs: &'a Inputs, ports: &'a [Port]) -> Workload<'a> {
    searches(
        "n3",
        "tokenizer, cut by a search, multilingual",
        inputs.large_mixed.as_bytes(),
        ports,
    )
}

/// Cuts texts that are at hand, and pushes nothing.
pub fn parts_alone<'a>(inputs: &'a Inputs, ports: &'a [Port]) -> Workload<'a> {
    let input = inputs.large.as_bytes();
    Workload::new(
        "n4",
        "the cuts of n1 alone",
        "of pieces that are validated; nothing is pushed",
        Unit::Bytes(input.len()),
    )
    .with("pop_front_char_run of tendril 0.5.1", move || {
        parts(input, parts_by_class)
    })
    .with("a search by SSE2 by hand", move || {
        parts(input, parts_by_blocks)
    })
    .listed_as(Role::Divisor)
    .with_ports(ports, |port| move || port.parts(input))
}

fn searches<'a>(
    id: &'static str,
    name: &'static str,
    input: &'a [u8],
    ports: &'a [Port],
) -> Workload<'a> {
    let details = "decode in pieces, cut at `<`, `&`, NUL and CR, push the runs onto a text";
    Workload::new(id, name, details, Unit::Bytes(input.len()))
        .with("tendril 0.5.1", move || {
            parse_by_tendril(input, Cut::Search)
        })
        .with("tendril 0.5.1, calls that trust", move || {
            parse_by_tendril(input, Cut::Trusting)
        })
        .with("&str, simdutf8, a String", move || parse_borrowed(input))
        .listed_as(Role::Owned)
        .with_ports(ports, |port| move || port.parse_by_search(input))
}

/// How a decoded text is cut.
#[derive(Clone, Copy)]
enum Cut {
    /// By a search over the bytes, with the calls that test.
    Search,
    /// The same with the calls that trust, as html5ever's queue of buffers has it.
    Trusting,
    /// Into runs of one class.
    Class,
}

fn is_special(byte: u8) -> bool {
    matches!(byte, b'<' | b'&' | b'\0' | b'\r')
}

fn is_special_character(character: char) -> bool {
    u8::try_from(character).is_ok_and(is_special)
}

/// What a tokenizer has: the text since the last '<', and what is known of those before.
struct Tokens {
    current: StrTendril,
    sum: u64,
    cut: Cut,
}

impl Tokens {
    /// Each '<' ends the current text.
    fn special(&mut self, character: char) {
        self.sum = sum_with(self.sum, character, self.current.len());
        if character == '<' {
            self.current.clear();
        }
    }

    fn cut_by_class(&mut self, mut text: StrTendril) {
        while let Some((run, special)) = text.pop_front_char_run(is_special_character) {
            if special {
                run.chars().for_each(|it| self.special(it));
            } else {
                self.current.push_tendril(&run);
            }
        }
    }

    fn cut_by_search(
        &mut self,
        mut text: StrTendril,
        take: impl Fn(&mut StrTendril, u32) -> StrTendril,
    ) {
        loop {
            let bytes = text.as_bytes();
            let count = bytes
                .iter()
                .position(|it| is_special(*it))
                .unwrap_or(bytes.len());
            if count > 0 {
                self.current.push_tendril(&take(&mut text, count as u32));
            } else if let Some(character) = text.pop_front_char() {
                self.special(character);
            } else {
                return;
            }
        }
    }
}

/// Takes bytes off the front.
fn take(text: &mut StrTendril, count: u32) -> StrTendril {
    let run = text.subtendril(0, count);
    text.pop_front(count);
    run
}

/// The same with no test.
fn take_trusting(text: &mut StrTendril, count: u32) -> StrTendril {
    // SAFETY: the search ended at a character of ASCII or at the end.
    unsafe {
        let run = text.unsafe_subtendril(0, count);
        text.unsafe_pop_front(count);
        run
    }
}

impl TendrilSink<UTF8, NonAtomic> for Tokens {
    type Output = u64;

    fn process(&mut self, text: StrTendril) {
        match self.cut {
            Cut::Search => self.cut_by_search(text, take),
            Cut::Trusting => self.cut_by_search(text, take_trusting),
            Cut::Class => self.cut_by_class(text),
        }
    }

    fn error(&mut self, _: Cow<'static, str>) {}

    fn finish(self) -> u64 {
        self.sum.wrapping_add(self.current.len() as u64)
    }
}

/// The sum behind a character that a tokenizer looks for, where the current text has so many bytes.
fn sum_with(sum: u64, character: char, length: usize) -> u64 {
    let sum = sum
        .wrapping_mul(31)
        .wrapping_add(u64::from(u32::from(character)));
    if character == '<' {
        sum.wrapping_add(length as u64)
    } else {
        sum
    }
}

fn parse_by_tendril(input: &[u8], cut: Cut) -> u64 {
    let tokens = Tokens {
        current: StrTendril::new(),
        sum: 0,
        cut,
    };
    let mut decoder = Utf8LossyDecoder::new(tokens);
    for piece in input.chunks(PIECE) {
        decoder.process(ByteTendril::from_slice(piece));
    }
    decoder.finish()
}

/// The same tokens with borrowed texts, one copy of each piece behind what was kept, and a
/// `String`.
fn parse_borrowed(input: &[u8]) -> u64 {
    let (mut sum, mut current) = (0, String::new());
    let mut buffer = Vec::with_capacity(PIECE + 8);
    for piece in input.chunks(PIECE) {
        buffer.extend_from_slice(piece);
        let text = valid_part(&buffer);
        sum = cut_borrowed(text, sum, &mut current);
        let valid = text.len();
        buffer.drain(..valid);
    }
    sum.wrapping_add(current.len() as u64)
}

fn cut_borrowed(text: &str, mut sum: u64, current: &mut String) -> u64 {
    let mut rest = text;
    while !rest.is_empty() {
        let end = rest.bytes().position(is_special).unwrap_or(rest.len());
        let (run, after) = rest.split_at(end);
        current.push_str(run);
        let mut characters = after.chars();
        if let Some(character) = characters.next() {
            sum = sum_with(sum, character, current.len());
            if character == '<' {
                current.clear();
            }
        }
        rest = characters.as_str();
    }
    sum
}

/// The sum over the parts of each piece.
fn parts(input: &[u8], cut: fn(StrTendril, u64) -> u64) -> u64 {
    input.chunks(PIECE).fold(0, |sum, piece| {
        cut(StrTendril::try_from_byte_slice(piece).expect("ASCII"), sum)
    })
}

fn parts_by_class(mut text: StrTendril, mut sum: u64) -> u64 {
    while let Some((run, special)) = text.pop_front_char_run(is_special_character) {
        if special {
            sum = run.bytes().fold(sum, |sum, it| add(sum, u64::from(it)));
        } else {
            sum = add(sum, run.len() as u64);
        }
    }
    sum
}

fn parts_by_blocks(mut text: StrTendril, mut sum: u64) -> u64 {
    loop {
        let count = first_special(text.as_bytes());
        if count > 0 {
            sum = add(sum, take(&mut text, count as u32).len() as u64);
        } else if let Some(character) = text.pop_front_char() {
            sum = add(sum, u64::from(u32::from(character)));
        } else {
            return sum;
        }
    }
}

/// How many bytes stand before the first that is special.
fn first_special(bytes: &[u8]) -> usize {
    let (blocks, rest) = bytes.as_chunks::<16>();
    for (at, block) in blocks.iter().enumerate() {
        let found = specials(block);
        if found != 0 {
            return at * 16 + found.trailing_zeros() as usize;
        }
    }
    let end = rest.iter().position(|it| is_special(*it));
    bytes.len() - rest.len() + end.unwrap_or(rest.len())
}

/// A bit for each special byte of the 16.
fn specials(block: &[u8; 16]) -> i32 {
    use std::arch::x86_64::{
        _mm_cmpeq_epi8, _mm_loadu_si128, _mm_movemask_epi8, _mm_or_si128, _mm_set1_epi8,
    };
    // SAFETY: each x86-64 has SSE2, and 16 bytes are read of 16.
    unsafe {
        let bytes = _mm_loadu_si128(block.as_ptr().cast());
        let are = |byte: u8| _mm_cmpeq_epi8(bytes, _mm_set1_epi8(byte as i8));
        let markup = _mm_or_si128(are(b'<'), are(b'&'));
        let controls = _mm_or_si128(are(b'\0'), are(b'\r'));
        _mm_movemask_epi8(_mm_or_si128(markup, controls))
    }
}

/// The sum behind one value more.
pub fn add(sum: u64, value: u64) -> u64 {
    sum.wrapping_mul(31).wrapping_add(value)
}

/// The longest valid text at the front.
pub fn valid_part(bytes: &[u8]) -> &str {
    match simdutf8::compat::from_utf8(bytes) {
        Ok(text) => text,
        // SAFETY: the error says that these bytes are valid.
        Err(error) => unsafe { std::str::from_utf8_unchecked(&bytes[..error.valid_up_to()]) },
    }
}
