//! Texts that go to another thread and come back: the conversions alone in one thread (s1, s2), and
//! with a thread (s3, s4).

use super::total;
use crate::inputs::Inputs;
use crate::measure::Workload;
use crate::port::Port;
use crate::results::{Role, Unit};
use std::hint::black_box;
use std::time::Instant;
use tendril::fmt::UTF8;
use tendril::{SendTendril, StrTendril};

const EIGHT_BYTES: &str = "abcdefgh";
const TEXTS: usize = 1000;
const TIMES: usize = 20;

/// Sends texts of 8 bytes and takes them back, in one thread.
pub fn short_conversions(ports: &[Port]) -> Workload<'_> {
    let name = "send and take back 8 bytes";
    conversions("s1", name, EIGHT_BYTES, ports)
}

/// Sends texts of 100 bytes and takes them back, in one thread.
pub fn long_conversions<'a>(inputs: &'a Inputs, ports: &'a [Port]) -> Workload<'a> {
    let name = "send and take back 100 bytes";
    conversions("s2", name, &inputs.ten_kilobytes[..100], ports)
}

fn conversions<'a>(
    id: &'static str,
    name: &'static str,
    text: &'a str,
    ports: &'a [Port],
) -> Workload<'a> {
    let details = "1000 texts, in one thread";
    Workload::new(id, name, details, Unit::Calls(TEXTS * TIMES * 2))
        .with("tendril 0.5.1", move || {
            let mut texts: Vec<_> = (0..TEXTS).map(|_| StrTendril::from_slice(text)).collect();
            for _ in 0..TIMES * 2 {
                texts = all_back(all_sent(texts));
            }
            total(&texts, |it| it.len())
        })
        .with("Box<str>, moved", move || {
            let mut texts: Vec<Box<str>> = (0..TEXTS).map(|_| Box::from(text)).collect();
            for _ in 0..TIMES * 4 {
                texts = moved(texts, black_box);
            }
            total(&texts, |it| it.len())
        })
        .listed_as(Role::Owned)
        .with_ports(ports, |port| move || port.send(text, TEXTS, TIMES))
}

/// Sends texts of 8 bytes to a thread that sends them back.
pub fn short_texts(ports: &[Port]) -> Workload<'_> {
    sendings("s3", "8 bytes to a thread and back", EIGHT_BYTES, ports)
}

/// Sends texts of 10 KB to a thread that sends them back.
pub fn long_texts<'a>(inputs: &'a Inputs, ports: &'a [Port]) -> Workload<'a> {
    let name = "10 KB to a thread and back";
    sendings("s4", name, &inputs.ten_kilobytes, ports)
}

fn sendings<'a>(
    id: &'static str,
    name: &'static str,
    text: &'a str,
    ports: &'a [Port],
) -> Workload<'a> {
    let details = "1000 texts, for each text; elapsed time";
    Workload::on_the_wall(id, name, details, Unit::Calls(TEXTS))
        .with("tendril 0.5.1", move || there_and_back(text))
        .with_ports(ports, |port| {
            move || port.in_threads("send", TEXTS, text.len())
        })
}

/// The nanoseconds of a thread that gets texts and gives them back. The making of the texts is not
/// in them.
fn there_and_back(text: &str) -> u64 {
    let texts: Vec<StrTendril> = (0..TEXTS).map(|_| StrTendril::from_slice(text)).collect();
    let start = Instant::now();
    let sent = all_sent(texts);
    let back = std::thread::spawn(move || all_sent(all_back(sent))).join();
    let texts = all_back(back.expect("the thread ends"));
    let took = start.elapsed().as_nanos() as u64;
    assert_eq!(texts.len(), TEXTS);
    took
}

fn all_sent(texts: Vec<StrTendril>) -> Vec<SendTendril<UTF8>> {
    moved(texts, StrTendril::into_send)
}

fn all_back(texts: Vec<SendTendril<UTF8>>) -> Vec<StrTendril> {
    moved(texts, StrTendril::from)
}

/// Puts what becomes of each value into a vector of its own. `collect` would write over the old
/// one.
fn moved<T, U>(values: Vec<T>, change: impl Fn(T) -> U) -> Vec<U> {
    let mut all = Vec::with_capacity(values.len());
    for value in values {
        all.push(change(value));
    }
    all
}
