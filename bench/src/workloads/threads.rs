//! Clones over `Atomic` in two threads at once (h).

use super::ring;
use crate::inputs::Inputs;
use crate::measure::{Workload, wall_nanoseconds};
use crate::port::Port;
use crate::results::{Role, Unit};
use bytes::Bytes;
use std::sync::{Arc, Barrier};
use tendril::fmt::UTF8;
use tendril::{Atomic, Tendril};

const CALLS: usize = 2_000_000;
const DETAILS: &str = "`Atomic` texts of 10 KB, for each call of one thread; elapsed time";

type AtomicText = Tendril<UTF8, Atomic>;

/// Lets two threads clone and drop one text.
pub fn shared<'a>(inputs: &'a Inputs, ports: &'a [Port]) -> Workload<'a> {
    let text = inputs.ten_kilobytes.as_str();
    let name = "clone and drop in two threads, one block";
    Workload::on_the_wall("h1", name, DETAILS, Unit::Calls(CALLS))
        .with("tendril 0.5.1, Atomic", move || {
            let one = AtomicText::from_slice(text);
            wall_nanoseconds(|| in_two([one.clone(), one], clone_tendril))
        })
        .with("Arc<str>", move || {
            let one = Arc::from(text);
            wall_nanoseconds(|| in_two([Arc::clone(&one), one], clone_arc))
        })
        .listed_as(Role::Counted)
        .with("bytes::Bytes", move || {
            let one = Bytes::copy_from_slice(text.as_bytes());
            wall_nanoseconds(|| in_two([one.clone(), one], clone_bytes))
        })
        .listed_as(Role::Bytes)
        .with_ports(ports, |port| {
            move || port.in_threads("shared", CALLS, text.len())
        })
}

/// Lets two threads clone and drop a text each.
pub fn apart<'a>(inputs: &'a Inputs, ports: &'a [Port]) -> Workload<'a> {
    let text = inputs.ten_kilobytes.as_str();
    let name = "clone and drop in two threads, a block each";
    Workload::on_the_wall("h2", name, DETAILS, Unit::Calls(CALLS))
        .with("tendril 0.5.1, Atomic", move || {
            let both = [(); 2].map(|()| AtomicText::from_slice(text));
            wall_nanoseconds(|| in_two(both, clone_tendril))
        })
        .with("Arc<str>", move || {
            let both = [(); 2].map(|()| Arc::from(text));
            wall_nanoseconds(|| in_two(both, clone_arc))
        })
        .listed_as(Role::Counted)
        .with("bytes::Bytes", move || {
            let both = [(); 2].map(|()| Bytes::copy_from_slice(text.as_bytes()));
            wall_nanoseconds(|| in_two(both, clone_bytes))
        })
        .listed_as(Role::Bytes)
        .with_ports(ports, |port| {
            move || port.in_threads("apart", CALLS, text.len())
        })
}

fn clone_tendril(text: AtomicText) -> u64 {
    ring(CALLS, |_| text.clone(), |it| it.len())
}

fn clone_arc(text: Arc<str>) -> u64 {
    ring(CALLS, |_| text.clone(), |it| it.len())
}

fn clone_bytes(text: Bytes) -> u64 {
    ring(CALLS, |_| text.clone(), Bytes::len)
}

/// Runs `work` in two threads at once, each on its own value.
fn in_two<T: Send>(values: [T; 2], work: impl Fn(T) -> u64 + Sync) -> u64 {
    let barrier = Barrier::new(values.len());
    let run = |value| {
        barrier.wait();
        work(value)
    };
    std::thread::scope(|scope| {
        let threads = values.map(|value| scope.spawn(|| run(value)));
        threads
            .into_iter()
            .map(|it| it.join().expect("the thread ends"))
            .sum()
    })
}
