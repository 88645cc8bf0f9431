//! Texts that are made of words: made, cloned and dropped (g), or kept (m).

use super::{ring, total};
use crate::inputs::{Inputs, TAGS};
use crate::measure::Workload;
use crate::port::{Port, Words};
use crate::results::{Role, Unit};
use bytes::Bytes;
use std::rc::Rc;
use tendril::fmt::ASCII;
use tendril::{StrTendril, Tendril};

/// Makes texts of 1 to 7 bytes, which stand inline in a tendril, and clones them.
pub fn short(ports: &[Port]) -> Workload<'_> {
    const CALLS: usize = 2_000_000;
    let name = "create, clone and drop 1 to 7 bytes";
    let tag = |at: usize| TAGS[at % TAGS.len()];
    let ascii = |word: &str| Tendril::<ASCII>::try_from_byte_slice(word.as_bytes());
    Workload::new("g1", name, "names of tags", Unit::Calls(CALLS))
        .with("tendril 0.5.1, UTF8", move || {
            make_pairs(CALLS, |at| StrTendril::from_slice(tag(at)), |it| it.len())
        })
        .with("tendril 0.5.1, ASCII, validated", move || {
            let make = |at| ascii(tag(at)).unwrap_or_default();
            make_pairs(CALLS, make, |it| it.len32() as usize)
        })
        .with("String", move || {
            make_pairs(CALLS, |at| String::from(tag(at)), String::len)
        })
        .listed_as(Role::Owned)
        .with("Rc<str>", move || {
            make_pairs(CALLS, |at| Rc::<str>::from(tag(at)), |it| it.len())
        })
        .listed_as(Role::Counted)
        .with("bytes::Bytes (copied)", move || {
            make_pairs(
                CALLS,
                |at| Bytes::copy_from_slice(tag(at).as_bytes()),
                Bytes::len,
            )
        })
        .listed_as(Role::Bytes)
        .with_ports(ports, |port| {
            let words = Words::new(&TAGS);
            move || port.make(&words, CALLS)
        })
}

/// Makes texts of 12 to 40 bytes, which don't, and clones them.
pub fn long<'a>(inputs: &'a Inputs, ports: &'a [Port]) -> Workload<'a> {
    const CALLS: usize = 1_000_000;
    let name = "create, clone and drop 12 to 40 bytes";
    let word = |at: usize| inputs.words[at % inputs.words.len()].as_str();
    Workload::new("g2", name, "words", Unit::Calls(CALLS))
        .with("tendril 0.5.1, UTF8", move || {
            make_pairs(CALLS, |at| StrTendril::from_slice(word(at)), |it| it.len())
        })
        .with("String", move || {
            make_pairs(CALLS, |at| String::from(word(at)), String::len)
        })
        .listed_as(Role::Owned)
        .with("Rc<str>", move || {
            make_pairs(CALLS, |at| Rc::<str>::from(word(at)), |it| it.len())
        })
        .listed_as(Role::Counted)
        .with_ports(ports, |port| {
            let words = Words::new(&inputs.words);
            move || port.make(&words, CALLS)
        })
}

/// Makes values and a clone of each.
fn make_pairs<T: Clone + Default>(
    calls: usize,
    make: impl Fn(usize) -> T,
    length: impl Fn(&T) -> usize,
) -> u64 {
    let pair = |at| {
        let one = make(at);
        (one.clone(), one)
    };
    ring(calls, pair, |it| length(&it.0) + length(&it.1))
}

/// Makes many texts and keeps them, which also shows the memory that they take.
pub fn kept<'a>(inputs: &'a Inputs, ports: &'a [Port]) -> Workload<'a> {
    const KEPT: usize = 500_000;
    let name = "create and keep 500,000 texts";
    let word = |at: usize| inputs.words[at % inputs.words.len()].as_str();
    let details = "of 12 to 40 bytes, and drop them";
    Workload::new("m", name, details, Unit::Calls(KEPT))
        .with("tendril 0.5.1, UTF8", move || {
            keep(KEPT, |at| StrTendril::from_slice(word(at)), |it| it.len())
        })
        .with("String", move || {
            keep(KEPT, |at| String::from(word(at)), String::len)
        })
        .listed_as(Role::Owned)
        .with("Rc<str>", move || {
            keep(KEPT, |at| Rc::<str>::from(word(at)), |it| it.len())
        })
        .listed_as(Role::Counted)
        .with_ports(ports, |port| {
            let words = Words::new(&inputs.words);
            move || port.keep(&words, KEPT)
        })
}

/// Makes so many values, in a vector that grows.
fn keep<T>(count: usize, make: impl Fn(usize) -> T, length: impl Fn(&T) -> usize) -> u64 {
    let mut kept = Vec::new();
    for at in 0..count {
        kept.push(make(at));
    }
    total(&kept, length)
}
