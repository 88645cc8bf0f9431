//! Validation of large buffers (i).

use crate::inputs::Inputs;
use crate::measure::Workload;
use crate::port::Port;
use crate::results::{Role, Unit};
use std::array;
use std::hint::black_box;
use tendril::{ByteTendril, StrTendril};

const PAGE: usize = 4096;

/// How many buffers a run reads. The speed of a copy depends on the places in their pages at which
/// the bytes and the copy begin.
const PLACES: usize = 16;

/// Validates HTML in ASCII.
pub fn ascii<'a>(inputs: &'a Inputs, ports: &'a [Port]) -> Workload<'a> {
    validate("i1", "validate ASCII", &inputs.html, ports)
}

/// Validates multilingual text.
pub fn multilingual<'a>(inputs: &'a Inputs, ports: &'a [Port]) -> Workload<'a> {
    let name = "validate multilingual text";
    validate("i2", name, &inputs.mixed, ports)
}

fn validate<'a>(
    id: &'static str,
    name: &'static str,
    text: &'a str,
    ports: &'a [Port],
) -> Workload<'a> {
    let buffers = buffers_of(text);
    let mut room = vec![0u8; text.len()];
    let details = "a text created of a large buffer, for 16 places in a page";
    let bytes = buffers.iter().map(|it| it.len()).sum();
    Workload::new(id, name, details, Unit::Bytes(bytes))
        .with("tendril 0.5.1, try_from_byte_slice (UTF8)", move || {
            sum_of(&buffers, |it| {
                StrTendril::try_from_byte_slice(it).map_or(0, |it| it.len())
            })
        })
        .with(
            "tendril 0.5.1, try_from_byte_slice (Bytes: a copy alone)",
            move || {
                sum_of(&buffers, |it| {
                    ByteTendril::try_from_byte_slice(it).map_or(0, |it| it.len())
                })
            },
        )
        .with("String::from_utf8 of a copy", move || {
            sum_of(&buffers, |it| {
                String::from_utf8(it.to_vec()).map_or(0, |it| it.len())
            })
        })
        .listed_as(Role::Owned)
        .with("std::str::from_utf8 (no copy)", move || {
            sum_of(&buffers, |it| {
                std::str::from_utf8(it).map_or(0, |it| it.len())
            })
        })
        .with("simdutf8, basic (no copy)", move || {
            sum_of(&buffers, |it| {
                simdutf8::basic::from_utf8(it).map_or(0, |it| it.len())
            })
        })
        .listed_as(Role::Alone)
        .with("simdutf8, compat (no copy)", move || {
            sum_of(&buffers, |it| {
                simdutf8::compat::from_utf8(it).map_or(0, |it| it.len())
            })
        })
        .with("copy into a warm buffer (memcpy)", move || {
            sum_of(&buffers, |it| {
                room[..it.len()].copy_from_slice(it);
                black_box(&mut room);
                it.len()
            })
        })
        .with_ports(ports, |port| {
            move || sum_of(&buffers, |it| port.validate(it) as usize)
        })
}

/// Parts of the text, a page shorter than it, each of which begins at another place in a page.
fn buffers_of(text: &str) -> [&[u8]; PLACES] {
    let len = text.len().saturating_sub(PAGE);
    array::from_fn(|place| {
        let start = text.ceil_char_boundary(place * PAGE / PLACES);
        let end = text.floor_char_boundary(start + len);
        &text.as_bytes()[start..end]
    })
}

fn sum_of(buffers: &[&[u8]], mut one: impl FnMut(&[u8]) -> usize) -> u64 {
    buffers.iter().map(|it| one(it) as u64).sum()
}
