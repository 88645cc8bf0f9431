//! The workloads: each compares the Rust crate with what its users would take in its place, and
//! with the port.

mod characters;
mod decode;
mod encodings;
mod grow;
mod input;
mod make;
mod parse;
mod queue;
mod ropes;
mod runs;
mod send;
mod share;
mod threads;
mod tokens;
mod units;
mod validate;

use crate::inputs::Inputs;
use crate::measure::Workload;
use crate::port::Port;
use std::rc::Rc;

/// How many bytes a stream gives at a time.
const PIECE: usize = 4096;

/// All workloads, in the order of their ids but for those in threads, which stand last.
pub fn all<'a>(inputs: &'a Inputs, ports: &'a [Port]) -> Vec<Workload<'a>> {
    let mut all = vec![
        decode::ascii(inputs, ports),
        decode::multilingual(inputs, ports),
        decode::broken(inputs, ports),
        decode::random(inputs, ports),
        runs::ascii(inputs, ports),
        runs::multilingual(inputs, ports),
        characters::ascii(inputs, ports),
        characters::multilingual(inputs, ports),
        share::clones(inputs, ports),
        share::atomic_clones(inputs, ports),
        share::slices(inputs, ports),
        grow::one_text(inputs, ports),
        grow::many_texts(inputs, ports),
        grow::joins(inputs, ports),
        make::short(ports),
        make::long(inputs, ports),
        validate::ascii(inputs, ports),
        validate::multilingual(inputs, ports),
        runs::tokens(inputs, ports),
        queue::queue(inputs, ports),
        make::kept(inputs, ports),
        parse::by_search(inputs, ports),
        parse::by_class(inputs, ports),
        parse::multilingual(inputs, ports),
        parse::parts_alone(inputs, ports),
        tokens::of_page(inputs, ports),
        input::of_page(inputs, ports),
        ropes::pushes(inputs, ports),
        ropes::characters(inputs, ports),
        ropes::parts_of_few(inputs, ports),
        ropes::parts_of_many(inputs, ports),
        send::short_conversions(ports),
        send::long_conversions(inputs, ports),
        send::short_texts(ports),
        send::long_texts(inputs, ports),
        units::taken_of_ascii(inputs, ports),
        units::taken_of_multilingual(inputs, ports),
        units::taken_of_ideographs(inputs, ports),
        units::taken_of_pairs(inputs, ports),
        units::made_of_ascii(inputs, ports),
        units::made_of_multilingual(inputs, ports),
        units::made_of_ideographs(inputs, ports),
        units::made_of_pairs(inputs, ports),
        threads::shared(inputs, ports),
        threads::apart(inputs, ports),
    ];
    all.extend(encodings::all(inputs, ports));
    all
}

/// Keeps the last 16 values, so that each call makes one and drops an older one, and no compiler
/// can leave the pair out.
fn ring<T: Default>(
    calls: usize,
    mut make: impl FnMut(usize) -> T,
    length: impl Fn(&T) -> usize,
) -> u64 {
    const RING: usize = 16;
    let mut kept: Vec<T> = (0..RING).map(|_| T::default()).collect();
    for at in 0..calls {
        kept[at % RING] = make(at);
    }
    total(&kept, length)
}

fn total<T>(values: &[T], length: impl Fn(&T) -> usize) -> u64 {
    values.iter().map(|it| length(it) as u64).sum()
}

/// The last byte and the length, added up.
fn last_and_length(bytes: &[u8]) -> u64 {
    bytes
        .last()
        .map_or(0, |it| u64::from(*it) + bytes.len() as u64)
}

/// A part of a counted `str`, as a user would write it by hand.
#[derive(Clone, Default)]
struct RcView {
    text: Rc<str>,
    start: u32,
    end: u32,
}

impl RcView {
    fn new(text: &Rc<str>, start: usize, end: usize) -> RcView {
        RcView {
            text: text.clone(),
            start: start as u32,
            end: end as u32,
        }
    }

    /// The same, where the ends are tested to be characters' borders.
    fn cut(text: &Rc<str>, start: usize, end: usize) -> RcView {
        assert!(text.is_char_boundary(start) && text.is_char_boundary(end));
        RcView::new(text, start, end)
    }

    fn as_str(&self) -> &str {
        &self.text[self.start as usize..self.end as usize]
    }

    fn len(&self) -> usize {
        self.as_str().len()
    }
}
