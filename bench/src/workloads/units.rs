//! UTF-16 units of a text, and texts of units (u).

use crate::inputs::Inputs;
use crate::measure::Workload;
use crate::port::Port;
use crate::results::Unit;
use crate::workloads::last_and_length;
use std::hint::black_box;

/// How often the port makes its call in a run, since it copies the bytes into a text first; and the others with it.
const TIMES: usize = 8;

/// Takes the units of HTML in ASCII.
pub fn taken_of_ascii<'a>(inputs: &'a Inputs, ports: &'a [Port]) -> Workload<'a> {
    taken("u1", "units of ASCII", &inputs.html, ports)
}

/// Takes the units of multilingual text.
pub fn taken_of_multilingual<'a>(inputs: &'a Inputs, ports: &'a [Port]) -> Workload<'a> {
    taken("u2", "units of multilingual text", &inputs.mixed, ports)
}

/// Takes the units of Chinese and Japanese.
pub fn taken_of_ideographs<'a>(inputs: &'a Inputs, ports: &'a [Port]) -> Workload<'a> {
    taken(
        "u3",
        "units of Chinese and Japanese",
        &inputs.ideographs,
        ports,
    )
}

/// Takes the units of characters that have two each.
pub fn taken_of_pairs<'a>(inputs: &'a Inputs, ports: &'a [Port]) -> Workload<'a> {
    taken("u4", "units of surrogate pairs", &inputs.pairs, ports)
}

/// Makes a text of the units of HTML in ASCII.
pub fn made_of_ascii<'a>(inputs: &'a Inputs, ports: &'a [Port]) -> Workload<'a> {
    made("u5", "text of units, ASCII", &inputs.html, ports)
}

/// Makes a text of the units of multilingual text.
pub fn made_of_multilingual<'a>(inputs: &'a Inputs, ports: &'a [Port]) -> Workload<'a> {
    made("u6", "text of units, multilingual", &inputs.mixed, ports)
}

/// Makes a text of the units of Chinese and Japanese.
pub fn made_of_ideographs<'a>(inputs: &'a Inputs, ports: &'a [Port]) -> Workload<'a> {
    made(
        "u7",
        "text of units, Chinese and Japanese",
        &inputs.ideographs,
        ports,
    )
}

/// Makes a text of the units of characters that have two each.
pub fn made_of_pairs<'a>(inputs: &'a Inputs, ports: &'a [Port]) -> Workload<'a> {
    made("u8", "text of units, surrogate pairs", &inputs.pairs, ports)
}

fn taken<'a>(
    id: &'static str,
    name: &'static str,
    text: &'a str,
    ports: &'a [Port],
) -> Workload<'a> {
    let details = "the UTF-16 units of a text, collected";
    Workload::new(id, name, details, Unit::Bytes(TIMES * text.len()))
        .with("std's encode_utf16", move || {
            repeated(|| {
                let units: Vec<u16> = black_box(text).encode_utf16().collect();
                black_box(&units);
                units
                    .last()
                    .map_or(0, |it| u64::from(*it) + units.len() as u64)
            })
        })
        .with_ports(ports, |port| move || port.to_units(text, TIMES))
}

fn made<'a>(
    id: &'static str,
    name: &'static str,
    text: &'a str,
    ports: &'a [Port],
) -> Workload<'a> {
    let units: std::rc::Rc<[u16]> = text.encode_utf16().collect();
    let given = units.clone();
    let details = "a text in WTF-8 of UTF-16 units";
    Workload::new(id, name, details, Unit::Bytes(TIMES * text.len()))
        .with("std's from_utf16_lossy", move || {
            repeated(|| {
                let made = String::from_utf16_lossy(black_box(&given));
                last_and_length(black_box(&made).as_bytes())
            })
        })
        .with_ports(ports, |port| {
            let units = units.clone();
            move || port.from_units(&units, TIMES)
        })
}

fn repeated(mut work: impl FnMut() -> u64) -> u64 {
    (0..TIMES).map(|_| work()).sum()
}
