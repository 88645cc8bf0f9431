//! Characters taken off the front of a text, to its end (c).

use super::RcView;
use crate::inputs::Inputs;
use crate::measure::Workload;
use crate::port::Port;
use crate::results::{Role, Unit};
use std::rc::Rc;
use tendril::fmt::UTF8;
use tendril::{Atomic, Atomicity, NonAtomic, Tendril};

/// Takes the characters off HTML in ASCII.
pub fn ascii<'a>(inputs: &'a Inputs, ports: &'a [Port]) -> Workload<'a> {
    characters("c1", "pop all characters, ASCII", &inputs.html, ports)
}

/// Takes the characters off multilingual text.
pub fn multilingual<'a>(inputs: &'a Inputs, ports: &'a [Port]) -> Workload<'a> {
    characters(
        "c2",
        "pop all characters, multilingual",
        &inputs.mixed,
        ports,
    )
}

fn characters<'a>(
    id: &'static str,
    name: &'static str,
    text: &'a str,
    ports: &'a [Port],
) -> Workload<'a> {
    let details = "`pop_front_char` to the end, for each character";
    Workload::new(id, name, details, Unit::Calls(text.chars().count()))
        .with("tendril 0.5.1", move || pop_all::<NonAtomic>(text))
        .with("tendril 0.5.1, Atomic", move || pop_all::<Atomic>(text))
        .with("str::chars", move || text.chars().fold(0, fold))
        .with("Rc<str> and a range", move || {
            let mut view = RcView::new(&Rc::from(text), 0, text.len());
            let mut sum = 0;
            while let Some(character) = view.as_str().chars().next() {
                view.start += character.len_utf8() as u32;
                sum = fold(sum, character);
            }
            sum
        })
        .listed_as(Role::Counted)
        .with_ports(ports, |port| move || port.pop_characters(text))
}

fn pop_all<A: Atomicity>(text: &str) -> u64 {
    let mut rest: Tendril<UTF8, A> = Tendril::from_slice(text);
    let mut sum = 0;
    while let Some(character) = rest.pop_front_char() {
        sum = fold(sum, character);
    }
    sum
}

/// So that no contender can leave a character out.
fn fold(sum: u64, character: char) -> u64 {
    sum.wrapping_mul(31)
        .wrapping_add(u64::from(u32::from(character)))
}
