//! Runs of characters taken off the front of a text (b), and a tokenizer's way with them (j).

use super::{RcView, last_and_length, total};
use crate::inputs::Inputs;
use crate::measure::Workload;
use crate::port::Port;
use crate::results::{Role, Unit};
use bytes::{Bytes, BytesMut};
use std::rc::Rc;
use tendril::fmt::UTF8;
use tendril::{Atomic, Atomicity, NonAtomic, Tendril};

/// Takes runs of white space and of other characters off HTML in ASCII.
pub fn ascii<'a>(inputs: &'a Inputs, ports: &'a [Port]) -> Workload<'a> {
    runs("b1", "runs of white space, ASCII", &inputs.html, ports)
}

/// Takes them off multilingual text.
pub fn multilingual<'a>(inputs: &'a Inputs, ports: &'a [Port]) -> Workload<'a> {
    runs(
        "b2",
        "runs of white space, multilingual",
        &inputs.mixed,
        ports,
    )
}

fn runs<'a>(
    id: &'static str,
    name: &'static str,
    text: &'a str,
    ports: &'a [Port],
) -> Workload<'a> {
    let details = "`pop_front_char_run` to the end, the runs kept";
    Workload::new(id, name, details, Unit::Bytes(text.len()))
        .with("tendril 0.5.1", move || runs_by_tendril::<NonAtomic>(text))
        .with("tendril 0.5.1, Atomic", move || {
            runs_by_tendril::<Atomic>(text)
        })
        .with("&str slices (no ownership)", move || {
            let runs: Vec<&str> = cut(text, char::is_whitespace).map(|it| it.0).collect();
            sum_of_runs(&runs, |it| it.len())
        })
        .with("String for each run", move || {
            let runs: Vec<String> = cut(text, char::is_whitespace)
                .map(|it| it.0.into())
                .collect();
            sum_of_runs(&runs, String::len)
        })
        .listed_as(Role::Owned)
        .with("Rc<str> and a range", move || {
            let whole: Rc<str> = Rc::from(text);
            let mut start = 0;
            let runs = cut(&whole, char::is_whitespace).map(|it| {
                start += it.0.len();
                RcView::new(&whole, start - it.0.len(), start)
            });
            sum_of_runs(&runs.collect::<Vec<_>>(), RcView::len)
        })
        .listed_as(Role::Counted)
        .with("bytes::Bytes slices", move || {
            let mut rest = Bytes::copy_from_slice(text.as_bytes());
            let runs = cut(text, char::is_whitespace).map(|it| rest.split_to(it.0.len()));
            sum_of_runs(&runs.collect::<Vec<_>>(), Bytes::len)
        })
        .listed_as(Role::Bytes)
        .with_ports(ports, |port| move || port.runs(text))
}

fn runs_by_tendril<A: Atomicity>(text: &str) -> u64 {
    let mut rest: Tendril<UTF8, A> = Tendril::from_slice(text);
    let mut runs = Vec::new();
    while let Some((run, _)) = rest.pop_front_char_run(char::is_whitespace) {
        runs.push(run);
    }
    sum_of_runs(&runs, |it| it.len())
}

/// The runs of one class, and the class of each.
fn cut<C: Copy + PartialEq>(
    text: &str,
    class_of: impl Fn(char) -> C,
) -> impl Iterator<Item = (&str, C)> {
    let mut rest = text;
    std::iter::from_fn(move || {
        let mut characters = rest.char_indices();
        let class = class_of(characters.next()?.1);
        let end = characters
            .find(|it| class_of(it.1) != class)
            .map_or(rest.len(), |it| it.0);
        let (run, after) = rest.split_at(end);
        rest = after;
        Some((run, class))
    })
}

/// How many runs there are, times 2 ^ 32, and how many bytes.
fn sum_of_runs<T>(runs: &[T], length: impl Fn(&T) -> usize) -> u64 {
    total(runs, length) + ((runs.len() as u64) << 32)
}

/// Takes runs of one class as html5ever's tokenizer does: each is kept and pushed onto a text.
pub fn tokens<'a>(inputs: &'a Inputs, ports: &'a [Port]) -> Workload<'a> {
    let text = inputs.megabyte.as_str();
    let name = "runs of 4 classes, kept and pushed";
    let details = "`pop_front_char_run` to the end of 1 MB, each run pushed onto a text";
    Workload::new("j", name, details, Unit::Bytes(text.len()))
        .with("tendril 0.5.1", move || {
            tokens_by_tendril::<NonAtomic>(text)
        })
        .with("tendril 0.5.1, Atomic", move || {
            tokens_by_tendril::<Atomic>(text)
        })
        .with("&str slices and a String", move || {
            tokens_by_std(text, |run| run, |run| run.len())
        })
        .with("String for each run, and a String", move || {
            tokens_by_std(text, String::from, String::len)
        })
        .listed_as(Role::Owned)
        .with("Rc<str> and a range, and a String", move || {
            let whole: Rc<str> = Rc::from(text);
            let mut start = 0;
            let keep = |run: &str| {
                start += run.len();
                RcView::new(&whole, start - run.len(), start)
            };
            tokens_by_std(text, keep, RcView::len)
        })
        .listed_as(Role::Counted)
        .with("bytes::Bytes slices and a BytesMut", move || {
            tokens_by_bytes(text)
        })
        .listed_as(Role::Bytes)
        .with_ports(ports, |port| move || port.tokens(text))
}

/// The class of a character, as a tokenizer of HTML asks for it.
fn class_of(character: char) -> u8 {
    match character {
        '<' => 0,
        '&' => 1,
        '\n' => 2,
        _ => 3,
    }
}

fn tokens_by_tendril<A: Atomicity>(text: &str) -> u64 {
    let mut rest: Tendril<UTF8, A> = Tendril::from_slice(text);
    let mut current: Tendril<UTF8, A> = Tendril::new();
    let (mut runs, mut sum) = (Vec::new(), 0);
    while let Some((run, class)) = rest.pop_front_char_run(class_of) {
        if class == 0 {
            sum += last_and_length(current.as_bytes());
            current.clear();
        }
        current.push_tendril(&run);
        runs.push(run);
    }
    sum + last_and_length(current.as_bytes()) + sum_of_runs(&runs, |it| it.len())
}

/// The same with a `String` as the current text, and with what `keep` makes of a run.
fn tokens_by_std<'a, T>(
    text: &'a str,
    mut keep: impl FnMut(&'a str) -> T,
    length: impl Fn(&T) -> usize,
) -> u64 {
    let mut current = String::new();
    let (mut runs, mut sum) = (Vec::new(), 0);
    for (run, class) in cut(text, class_of) {
        if class == 0 {
            sum += last_and_length(current.as_bytes());
            current.clear();
        }
        current.push_str(run);
        runs.push(keep(run));
    }
    sum + last_and_length(current.as_bytes()) + sum_of_runs(&runs, length)
}

fn tokens_by_bytes(text: &str) -> u64 {
    let mut rest = Bytes::copy_from_slice(text.as_bytes());
    let mut current = BytesMut::new();
    let (mut runs, mut sum) = (Vec::new(), 0);
    for (run, class) in cut(text, class_of) {
        if class == 0 {
            sum += last_and_length(&current);
            current.clear();
        }
        current.extend_from_slice(run.as_bytes());
        runs.push(rest.split_to(run.len()));
    }
    sum + last_and_length(&current) + sum_of_runs(&runs, Bytes::len)
}
