//! A text as a queue (k).

use crate::inputs::Inputs;
use crate::measure::Workload;
use crate::port::Port;
use crate::results::{Role, Unit};
use bytes::BytesMut;
use std::collections::VecDeque;
use tendril::ByteTendril;

const TURNS: usize = 1_000_000;
const QUEUED: usize = 128;

/// Pops 8 bytes and pushes 8 in each turn, on a text of 128 bytes.
pub fn queue<'a>(inputs: &'a Inputs, ports: &'a [Port]) -> Workload<'a> {
    let source = inputs.ten_kilobytes.as_bytes();
    let name = "pop 8 bytes and push 8, as a queue";
    Workload::new("k", name, "a text of 128 bytes", Unit::Calls(TURNS))
        .with("tendril 0.5.1, Bytes", move || {
            let turn = |text: &mut ByteTendril, piece: &[u8]| {
                text.pop_front(8);
                text.push_slice(piece);
            };
            turns(source, ByteTendril::from_slice, |it| it[0], turn)
        })
        .with("Vec<u8>, drain", move || {
            let turn = |text: &mut Vec<u8>, piece: &[u8]| {
                text.drain(..8);
                text.extend_from_slice(piece);
            };
            turns(source, |it| it.to_vec(), |it| it[0], turn)
        })
        .listed_as(Role::Owned)
        .with("VecDeque<u8>", move || {
            let turn = |text: &mut VecDeque<u8>, piece: &[u8]| {
                text.drain(..8);
                text.extend(piece);
            };
            turns(source, |it| it.iter().copied().collect(), |it| it[0], turn)
        })
        .with("bytes::BytesMut", move || {
            let turn = |text: &mut BytesMut, piece: &[u8]| {
                drop(text.split_to(8));
                text.extend_from_slice(piece);
            };
            turns(source, |it| BytesMut::from(it), |it| it[0], turn)
        })
        .listed_as(Role::Bytes)
        .with_ports(ports, |port| move || port.queue(source, TURNS))
}

/// Takes turns, each of which is given 8 bytes to push, and folds the first bytes before them.
fn turns<T>(
    source: &[u8],
    new: impl Fn(&[u8]) -> T,
    first: impl Fn(&T) -> u8,
    turn: impl Fn(&mut T, &[u8]),
) -> u64 {
    let mut text = new(&source[..QUEUED]);
    let (mut sum, mut at) = (0u64, 0);
    for _ in 0..TURNS {
        sum = sum.wrapping_mul(31).wrapping_add(u64::from(first(&text)));
        turn(&mut text, &source[at..at + 8]);
        at = (at + 8) % 1024;
    }
    sum.wrapping_add(QUEUED as u64)
}
