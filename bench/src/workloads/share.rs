//! Clones and slices of one text of 10 KB (d).

use super::{RcView, ring};
use crate::inputs::Inputs;
use crate::measure::Workload;
use crate::port::Port;
use crate::results::{Role, Unit};
use bytes::Bytes;
use std::rc::Rc;
use std::sync::Arc;
use tendril::fmt::UTF8;
use tendril::{Atomic, ByteTendril, StrTendril, Tendril};

const CALLS: usize = 2_000_000;

/// Clones the text and drops the clone.
pub fn clones<'a>(inputs: &'a Inputs, ports: &'a [Port]) -> Workload<'a> {
    let text = inputs.ten_kilobytes.as_str();
    let shared = StrTendril::from_slice(text);
    let atomic: Tendril<UTF8, Atomic> = Tendril::from_slice(text);
    let rc: Rc<str> = Rc::from(text);
    let arc: Arc<str> = Arc::from(text);
    let bytes = Bytes::copy_from_slice(text.as_bytes());
    let string = String::from(text);
    let details = "a text of 10 KB";
    Workload::new("d1", "clone and drop", details, Unit::Calls(CALLS))
        .with("tendril 0.5.1", move || {
            ring(CALLS, |_| shared.clone(), |it| it.len())
        })
        .with("tendril 0.5.1, Atomic", move || {
            ring(CALLS, |_| atomic.clone(), |it| it.len())
        })
        .with("Rc<str>", move || {
            ring(CALLS, |_| rc.clone(), |it| it.len())
        })
        .listed_as(Role::Counted)
        .with("Arc<str>", move || {
            ring(CALLS, |_| arc.clone(), |it| it.len())
        })
        .with("bytes::Bytes", move || {
            ring(CALLS, |_| bytes.clone(), Bytes::len)
        })
        .listed_as(Role::Bytes)
        .part("String", 20.0, move || {
            ring(CALLS / 20, |_| string.clone(), String::len)
        })
        .listed_as(Role::Owned)
        .with_ports(ports, |port| move || port.clone_and_drop(text, CALLS))
}

/// Does the same over `Atomic`, compared with the Rust crate's `Atomic`.
pub fn atomic_clones<'a>(inputs: &'a Inputs, ports: &'a [Port]) -> Workload<'a> {
    let text = inputs.ten_kilobytes.as_str();
    let atomic: Tendril<UTF8, Atomic> = Tendril::from_slice(text);
    let arc: Arc<str> = Arc::from(text);
    let bytes = Bytes::copy_from_slice(text.as_bytes());
    Workload::new(
        "d1a",
        "clone and drop, Atomic",
        "a text of 10 KB",
        Unit::Calls(CALLS),
    )
    .with("tendril 0.5.1, Atomic", move || {
        ring(CALLS, |_| atomic.clone(), |it| it.len())
    })
    .with("Arc<str>", move || {
        ring(CALLS, |_| arc.clone(), |it| it.len())
    })
    .listed_as(Role::Counted)
    .with("bytes::Bytes", move || {
        ring(CALLS, |_| bytes.clone(), Bytes::len)
    })
    .listed_as(Role::Bytes)
    .with_ports(ports, |port| {
        move || port.clone_and_drop_atomic(text, CALLS)
    })
}

/// Takes a slice of 16 to 79 bytes and drops it.
pub fn slices<'a>(inputs: &'a Inputs, ports: &'a [Port]) -> Workload<'a> {
    let text = inputs.ten_kilobytes.as_str();
    let shared = StrTendril::from_slice(text);
    let raw = ByteTendril::from_slice(text.as_bytes());
    let atomic: Tendril<UTF8, Atomic> = Tendril::from_slice(text);
    let rc: Rc<str> = Rc::from(text);
    let bytes = Bytes::copy_from_slice(text.as_bytes());
    let details = "16 to 79 bytes of a text of 10 KB";
    Workload::new("d2", "slice and drop", details, Unit::Calls(CALLS))
        .with("tendril 0.5.1, UTF8", move || {
            slice_and_drop(
                text,
                |at, n| shared.subtendril(at as u32, n as u32),
                |it| it.len(),
            )
        })
        .with("tendril 0.5.1, Bytes", move || {
            slice_and_drop(
                text,
                |at, n| raw.subtendril(at as u32, n as u32),
                |it| it.len(),
            )
        })
        .with("tendril 0.5.1, UTF8, Atomic", move || {
            slice_and_drop(
                text,
                |at, n| atomic.subtendril(at as u32, n as u32),
                |it| it.len(),
            )
        })
        .with("Rc<str> and a range", move || {
            slice_and_drop(text, |at, n| RcView::cut(&rc, at, at + n), RcView::len)
        })
        .listed_as(Role::Counted)
        .with("bytes::Bytes", move || {
            slice_and_drop(text, |at, n| bytes.slice(at..at + n), Bytes::len)
        })
        .listed_as(Role::Bytes)
        .with("String", move || {
            slice_and_drop(text, |at, n| String::from(&text[at..at + n]), String::len)
        })
        .listed_as(Role::Owned)
        .with_ports(ports, |port| move || port.slice_and_drop(text, CALLS))
}

/// Makes slices by `slice`, which is given where they start and how long they are.
fn slice_and_drop<T: Default>(
    text: &str,
    slice: impl Fn(usize, usize) -> T,
    length: impl Fn(&T) -> usize,
) -> u64 {
    let starts = text.len() - 100;
    ring(CALLS, |at| slice((at * 37) % starts, 16 + at % 64), length)
}
