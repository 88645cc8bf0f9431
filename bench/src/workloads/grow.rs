//! Texts that grow by pushes: of new bytes (e), and of slices of one text that stand behind one
//! another (f).

use super::last_and_length;
use crate::inputs::Inputs;
use crate::measure::Workload;
use crate::port::Port;
use crate::results::{Role, Unit};
use bytes::BytesMut;
use tendril::{ByteTendril, StrTendril};

/// Pushes pieces of 1 to 20 bytes, all onto one text.
pub fn one_text<'a>(inputs: &'a Inputs, ports: &'a [Port]) -> Workload<'a> {
    let pieces = Pieces::new(&inputs.html, &inputs.pushes);
    let name = "push 1 to 20 bytes, all onto one text";
    pushes("e1", name, "ASCII", pieces, usize::MAX, ports)
}

/// Pushes pieces of 1 to 20 bytes, 20 onto a text.
pub fn many_texts<'a>(inputs: &'a Inputs, ports: &'a [Port]) -> Workload<'a> {
    let pieces = Pieces::new(&inputs.mixed, &inputs.mixed_pushes);
    let name = "push 1 to 20 bytes, 20 to a text";
    pushes("e2", name, "multilingual", pieces, 20, ports)
}

/// A text, and the lengths of the pieces that it is cut into.
#[derive(Clone, Copy)]
struct Pieces<'a> {
    text: &'a str,
    lengths: &'a [u32],
}

impl<'a> Pieces<'a> {
    fn new(text: &'a str, lengths: &'a [u32]) -> Pieces<'a> {
        Pieces { text, lengths }
    }

    fn iter(self) -> impl Iterator<Item = &'a str> {
        let mut rest = self.text;
        self.lengths.iter().map(move |length| {
            let (piece, after) = rest.split_at(*length as usize);
            rest = after;
            piece
        })
    }

    /// Pushes the pieces, `each` of them onto a text, and adds up what `answer` says of each.
    fn push<T>(
        self,
        each: usize,
        new: impl Fn() -> T,
        push: impl Fn(&mut T, &str),
        answer: impl Fn(&T) -> u64,
    ) -> u64 {
        let mut pieces = self.iter();
        let mut sum = 0;
        for group in self.lengths.chunks(each) {
            let mut out = new();
            for piece in pieces.by_ref().take(group.len()) {
                push(&mut out, piece);
            }
            sum += answer(&out);
        }
        sum
    }
}

fn pushes<'a>(
    id: &'static str,
    name: &'static str,
    details: &'static str,
    pieces: Pieces<'a>,
    each: usize,
    ports: &'a [Port],
) -> Workload<'a> {
    Workload::new(id, name, details, Unit::Calls(pieces.lengths.len()))
        .with("tendril 0.5.1, UTF8", move || {
            let push = |out: &mut StrTendril, it: &str| out.push_slice(it);
            pieces.push(each, StrTendril::new, push, |out| {
                last_and_length(out.as_bytes())
            })
        })
        .with("tendril 0.5.1, Bytes", move || {
            let push = |out: &mut ByteTendril, it: &str| out.push_slice(it.as_bytes());
            pieces.push(each, ByteTendril::new, push, |out| last_and_length(out))
        })
        .with("String", move || {
            let push = |out: &mut String, it: &str| out.push_str(it);
            pieces.push(each, String::new, push, |out| {
                last_and_length(out.as_bytes())
            })
        })
        .listed_as(Role::Owned)
        .with("bytes::BytesMut", move || {
            let push = |out: &mut BytesMut, it: &str| out.extend_from_slice(it.as_bytes());
            pieces.push(each, BytesMut::new, push, |out| last_and_length(out))
        })
        .listed_as(Role::Bytes)
        .with_ports(ports, |port| {
            move || port.push(pieces.text, pieces.lengths, each)
        })
}

/// How many slices are joined to a text.
const GROUP: usize = 32;

/// How often the port joins all: it cuts the slices anew in each run, which is little beside so
/// many joins.
const JOINS: usize = 20;

/// Pushes slices of 12 to 40 bytes, each onto the one before.
pub fn joins<'a>(inputs: &'a Inputs, ports: &'a [Port]) -> Workload<'a> {
    let pieces = Pieces::new(&inputs.html, &inputs.joins);
    let whole = StrTendril::from_slice(pieces.text);
    let mut at = 0;
    let slice = |length: &u32| {
        at += length;
        whole.subtendril(at - length, *length)
    };
    let slices: Vec<StrTendril> = pieces.lengths.iter().map(slice).collect();
    let copied = slices.clone();
    let name = "push the slice that follows in the block";
    let details = "slices of 12 to 40 bytes, each pushed onto the one before, 32 to a text";
    let mut it = Workload::new("f", name, details, Unit::Calls(slices.len()))
        .with("tendril 0.5.1 (grows views)", move || grow_views(&slices))
        .with("tendril 0.5.1, push_slice (copies)", move || {
            copied.chunks(GROUP).map(copy_slices).sum()
        })
        .with("String::push_str (copies)", move || {
            let push = |out: &mut String, it: &str| out.push_str(it);
            pieces.push(GROUP, String::new, push, |out| out.len() as u64)
        })
        .listed_as(Role::Owned);
    for port in ports {
        let join = move || port.join(pieces.text, pieces.lengths, JOINS);
        it = it
            .part(port.name, 1.0 / JOINS as f64, join)
            .listed_as(Role::Port);
    }
    it
}

fn grow_views(slices: &[StrTendril]) -> u64 {
    let mut sum = 0;
    for group in slices.chunks(GROUP) {
        let mut out = group[0].clone();
        group[1..].iter().for_each(|it| out.push_tendril(it));
        sum += out.len() as u64;
    }
    sum
}

fn copy_slices(group: &[StrTendril]) -> u64 {
    let mut out = StrTendril::new();
    group.iter().for_each(|it| out.push_slice(it));
    out.len() as u64
}
