//! Streams of bytes that should be UTF-8, decoded in pieces to a sink that counts (a).

use super::PIECE;
use crate::inputs::Inputs;
use crate::measure::Workload;
use crate::port::Port;
use crate::results::{Role, Unit};
use std::borrow::Cow;
use std::hint::black_box;
use tendril::fmt::UTF8;
use tendril::stream::Utf8LossyDecoder;
use tendril::{Atomicity, ByteTendril, Tendril, TendrilSink};

/// Decodes HTML in ASCII.
pub fn ascii<'a>(inputs: &'a Inputs, ports: &'a [Port]) -> Workload<'a> {
    decode("a1", "decode ASCII", inputs.html.as_bytes(), ports)
}

/// Decodes text in many scripts, all of it valid.
pub fn multilingual<'a>(inputs: &'a Inputs, ports: &'a [Port]) -> Workload<'a> {
    decode(
        "a2",
        "decode multilingual text",
        inputs.mixed.as_bytes(),
        ports,
    )
}

/// Decodes the same with a fault about each 250 bytes.
pub fn broken<'a>(inputs: &'a Inputs, ports: &'a [Port]) -> Workload<'a> {
    decode(
        "a3",
        "decode text with a fault about each 250 bytes",
        &inputs.broken,
        ports,
    )
}

/// Decodes bytes of which nearly each one is a fault.
pub fn random<'a>(inputs: &'a Inputs, ports: &'a [Port]) -> Workload<'a> {
    decode("a4", "decode random bytes", &inputs.random, ports)
}

fn decode<'a>(
    id: &'static str,
    name: &'static str,
    input: &'a [u8],
    ports: &'a [Port],
) -> Workload<'a> {
    let details = "lossily, in pieces of 4096 bytes, to a sink that counts";
    Workload::new(id, name, details, Unit::Bytes(input.len()))
        .with("tendril 0.5.1", move || decode_by_tendril(input))
        .with("std, borrowed &str by hand", move || decode_borrowed(input))
        .beside("String::from_utf8_lossy, the whole at once", move || {
            String::from_utf8_lossy(input).len() as u64
        })
        .beside("String::from_utf8_lossy, each piece, owned", move || {
            let pieces = input.chunks(PIECE).map(String::from_utf8_lossy);
            pieces.map(|it| it.into_owned().len() as u64).sum()
        })
        .listed_as(Role::Owned)
        .with_ports(ports, |port| move || port.decode(input))
}

/// Counts the bytes of the texts that it is given, and the errors.
#[derive(Default)]
pub struct Counting {
    bytes: u64,
    faults: u64,
}

impl Counting {
    pub fn sum(&self) -> u64 {
        self.bytes + (self.faults << 40)
    }

    pub fn text(&mut self, text: &[u8]) {
        self.bytes += text.len() as u64;
    }

    pub fn malformed(&mut self) {
        self.faults += 1;
        self.text(black_box("\u{FFFD}").as_bytes());
    }
}

impl<A: Atomicity> TendrilSink<UTF8, A> for Counting {
    type Output = u64;

    fn process(&mut self, text: Tendril<UTF8, A>) {
        self.bytes += u64::from(text.len32());
    }

    fn error(&mut self, _: Cow<'static, str>) {
        self.faults += 1;
    }

    fn finish(self) -> u64 {
        self.sum()
    }
}

fn decode_by_tendril(input: &[u8]) -> u64 {
    let mut decoder = Utf8LossyDecoder::new(Counting::default());
    for piece in input.chunks(PIECE) {
        decoder.process(ByteTendril::from_slice(piece));
    }
    decoder.finish()
}

/// The same events with borrowed texts and `std` alone.
fn decode_borrowed(input: &[u8]) -> u64 {
    let mut seen = Counting::default();
    let mut buffer = Vec::with_capacity(PIECE + 8);
    for piece in input.chunks(PIECE) {
        buffer.extend_from_slice(piece);
        let kept = decode_buffer(&buffer, &mut seen);
        buffer.drain(..buffer.len() - kept);
    }
    if !buffer.is_empty() {
        seen.malformed();
    }
    seen.sum()
}

/// Decodes the bytes, and says how many at their end begin a character that isn't complete.
fn decode_buffer(bytes: &[u8], seen: &mut Counting) -> usize {
    let mut rest = bytes;
    while let Err(error) = std::str::from_utf8(rest) {
        let (valid, after) = rest.split_at(error.valid_up_to());
        seen.text(black_box(valid));
        let Some(length) = error.error_len() else {
            return after.len();
        };
        seen.malformed();
        rest = &after[length..];
    }
    seen.text(black_box(rest));
    0
}
