//! HTML in pieces, decoded and parted into tokens, which are kept: text, tags with their names,
//! comments (n5). The port's is the tokenizer of the crate `use_tokens`.

use super::PIECE;
use super::parse::{add, valid_part};
use crate::inputs::Inputs;
use crate::measure::Workload;
use crate::port::Port;
use crate::results::{Role, Unit};
use std::borrow::Cow;
use tendril::fmt::UTF8;
use tendril::stream::Utf8LossyDecoder;
use tendril::{ByteTendril, NonAtomic, StrTendril, TendrilSink};

/// Parts a page in ASCII.
pub fn of_page<'a>(inputs: &'a Inputs, ports: &'a [Port]) -> Workload<'a> {
    let input = inputs.large.as_bytes();
    Workload::new(
        "n5",
        "HTML into tokens that are kept",
        "decoded in pieces; the port's tokenizer is that of the crate use_tokens",
        Unit::Bytes(input.len()),
    )
    .with("tendril 0.5.1", move || tokenize_by_tendril(input))
    .with("&str, simdutf8, Strings", move || tokenize_borrowed(input))
    .listed_as(Role::Owned)
    .with_ports(ports, |port| move || port.tokenize(input))
}

/// What a token is.
enum Kind<S> {
    Text,
    StartTag { name: S, self_closing: bool },
    EndTag { name: S },
    Comment,
    Other,
    Cut,
}

struct Token<S> {
    kind: Kind<S>,
    source: S,
}

/// What the parts of a text are kept as.
trait Part: Default + From<&'static str> {
    fn bytes(&self) -> &[u8];
    fn push(&mut self, more: Self);
    fn slice(&self, from: usize, to: usize) -> Self;

    fn length(&self) -> u64 {
        self.bytes().len() as u64
    }
}

impl Part for StrTendril {
    fn bytes(&self) -> &[u8] {
        self.as_bytes()
    }

    fn push(&mut self, more: StrTendril) {
        self.push_tendril(&more);
    }

    fn slice(&self, from: usize, to: usize) -> StrTendril {
        self.subtendril(from as u32, (to - from) as u32)
    }
}

impl Part for String {
    fn bytes(&self) -> &[u8] {
        self.as_bytes()
    }

    fn push(&mut self, more: String) {
        self.push_str(&more);
    }

    fn slice(&self, from: usize, to: usize) -> String {
        self[from..to].into()
    }
}

/// A text that is parted.
trait Source<S: Part> {
    fn rest(&self) -> &[u8];
    fn split_to(&mut self, count: usize) -> S;
}

impl Source<StrTendril> for StrTendril {
    fn rest(&self) -> &[u8] {
        self.as_bytes()
    }

    fn split_to(&mut self, count: usize) -> StrTendril {
        let front = self.subtendril(0, count as u32);
        self.pop_front(count as u32);
        front
    }
}

impl Source<String> for &str {
    fn rest(&self) -> &[u8] {
        self.as_bytes()
    }

    fn split_to(&mut self, count: usize) -> String {
        let (front, rest) = self.split_at(count);
        *self = rest;
        front.into()
    }
}

/// The states between '<' and '>', by what the next byte does.
#[derive(Clone, Copy, PartialEq)]
enum Markup {
    EndTagOpen,
    TagName,
    BeforeAttributeName,
    AttributeName,
    BeforeAttributeValue,
    DoubleQuotedValue,
    SingleQuotedValue,
    UnquotedValue,
    SelfClosingTag,
    DeclarationOpen,
    DeclarationDash,
    CommentStart,
    CommentStartDash,
    Comment,
    CommentEndDash,
    CommentEnd,
    CommentEndBang,
    BogusComment,
}

use Markup::*;

impl Markup {
    fn opened_by(byte: u8) -> Option<Markup> {
        match byte {
            b'a'..=b'z' | b'A'..=b'Z' => Some(TagName),
            b'/' => Some(EndTagOpen),
            b'!' => Some(DeclarationOpen),
            b'?' => Some(BogusComment),
            _ => None,
        }
    }

    /// The state after a byte, or none where that ends the markup.
    fn step(self, byte: u8) -> Option<Markup> {
        Some(match (self, byte) {
            (DoubleQuotedValue, b'"') | (SingleQuotedValue, b'\'') => BeforeAttributeName,
            (DoubleQuotedValue | SingleQuotedValue, _) => self,
            (Comment, b'-') => CommentEndDash,
            (CommentEndDash, b'-') => CommentEnd,
            (Comment | CommentEndDash, _) => Comment,
            (_, b'>') => return None,
            (EndTagOpen, b'a'..=b'z' | b'A'..=b'Z') => TagName,
            (EndTagOpen, _) => BogusComment,
            (BeforeAttributeValue, b'"') => DoubleQuotedValue,
            (BeforeAttributeValue, b'\'') => SingleQuotedValue,
            (BeforeAttributeValue, b'\t' | b'\n' | 0x0C | b'\r' | b' ') => self,
            (BeforeAttributeValue, _) => UnquotedValue,
            (UnquotedValue, b'\t' | b'\n' | 0x0C | b'\r' | b' ') => BeforeAttributeName,
            (UnquotedValue, _) => self,
            (AttributeName, b'\t' | b'\n' | 0x0C | b'\r' | b' ') => self,
            (AttributeName, b'=') => BeforeAttributeValue,
            (TagName | BeforeAttributeName | AttributeName | SelfClosingTag, b'/') => {
                SelfClosingTag
            }
            (
                TagName | BeforeAttributeName | SelfClosingTag,
                b'\t' | b'\n' | 0x0C | b'\r' | b' ',
            ) => BeforeAttributeName,
            (TagName, _) => TagName,
            (BeforeAttributeName | AttributeName | SelfClosingTag, _) => AttributeName,
            (DeclarationOpen, b'-') => DeclarationDash,
            (DeclarationDash, b'-') => CommentStart,
            (DeclarationOpen | DeclarationDash | BogusComment, _) => BogusComment,
            (CommentStart, b'-') => CommentStartDash,
            (CommentStartDash, b'-') => CommentEnd,
            (CommentEnd, b'!') => CommentEndBang,
            (CommentEnd, b'-') => CommentEnd,
            (CommentEndBang, b'-') => CommentEndDash,
            (CommentStart | CommentStartDash | CommentEnd | CommentEndBang, _) => Comment,
        })
    }

    /// The last state before the end of the markup, and where it ends, or the state behind all bytes.
    fn scan(self, bytes: &[u8], start: usize) -> (Markup, Option<usize>) {
        let mut markup = self;
        for (at, byte) in bytes.iter().enumerate().skip(start) {
            match markup.step(*byte) {
                Some(next) => markup = next,
                None => return (markup, Some(at + 1)),
            }
        }
        (markup, None)
    }
}

/// What is pending of the pieces before.
enum State<S> {
    Outside,
    TagOpen,
    Inside(Markup, S),
}

struct Tokenizer<S> {
    tokens: Vec<Token<S>>,
    state: State<S>,
}

impl<S: Part> Tokenizer<S> {
    fn new() -> Tokenizer<S> {
        Tokenizer {
            tokens: Vec::new(),
            state: State::Outside,
        }
    }

    fn take(&mut self, rest: &mut impl Source<S>) {
        while !rest.rest().is_empty() {
            match std::mem::replace(&mut self.state, State::Outside) {
                State::Outside => self.take_text(rest),
                State::TagOpen => self.take_behind_open(rest),
                State::Inside(markup, begun) => self.take_markup(begun, markup, rest, 0),
            }
        }
    }

    fn take_text(&mut self, rest: &mut impl Source<S>) {
        let bytes = rest.rest();
        let open = bytes.iter().position(|it| *it == b'<');
        match (open, bytes.get(1).copied()) {
            (Some(0), None) => {
                rest.split_to(1);
                self.state = State::TagOpen;
            }
            (Some(0), Some(next)) => match Markup::opened_by(next) {
                Some(markup) => self.take_markup(S::default(), markup, rest, 2),
                None => self.send(Kind::Text, rest.split_to(1)),
            },
            (Some(count), _) => self.send(Kind::Text, rest.split_to(count)),
            (None, _) => self.send(Kind::Text, rest.split_to(bytes.len())),
        }
    }

    fn take_behind_open(&mut self, rest: &mut impl Source<S>) {
        match Markup::opened_by(rest.rest()[0]) {
            Some(markup) => self.take_markup("<".into(), markup, rest, 1),
            None => self.send(Kind::Text, "<".into()),
        }
    }

    fn take_markup(
        &mut self,
        mut begun: S,
        markup: Markup,
        rest: &mut impl Source<S>,
        start: usize,
    ) {
        let bytes = rest.rest();
        let (last, end) = markup.scan(bytes, start);
        let part = rest.split_to(end.unwrap_or(bytes.len()));
        if begun.length() == 0 {
            begun = part;
        } else {
            begun.push(part);
        }
        if end.is_some() {
            self.send(kind_of(last, &begun), begun);
        } else {
            self.state = State::Inside(last, begun);
        }
    }

    fn send(&mut self, kind: Kind<S>, source: S) {
        self.tokens.push(Token { kind, source });
    }

    /// The sum over all tokens.
    fn total(mut self) -> u64 {
        match std::mem::replace(&mut self.state, State::Outside) {
            State::Outside => {}
            State::TagOpen => self.send(Kind::Cut, "<".into()),
            State::Inside(_, begun) => self.send(Kind::Cut, begun),
        }
        self.tokens.iter().fold(0, with_token)
    }
}

fn kind_of<S: Part>(last: Markup, source: &S) -> Kind<S> {
    match last {
        EndTagOpen | DeclarationOpen | DeclarationDash | BogusComment => Kind::Other,
        CommentStart | CommentStartDash | Comment | CommentEndDash | CommentEnd
        | CommentEndBang => Kind::Comment,
        _ if source.bytes()[1] == b'/' => Kind::EndTag {
            name: name(source, 2),
        },
        _ => Kind::StartTag {
            name: name(source, 1),
            self_closing: last == SelfClosingTag,
        },
    }
}

fn name<S: Part>(source: &S, from: usize) -> S {
    let ends = |it: &u8| matches!(it, b'\t' | b'\n' | 0x0C | b'\r' | b' ' | b'/' | b'>');
    let length = source.bytes()[from..].iter().position(ends);
    source.slice(from, from + length.expect("a tag has an end"))
}

/// The sum over the tokens before, and this one.
fn with_token<S: Part>(sum: u64, token: &Token<S>) -> u64 {
    let (kind, name) = match &token.kind {
        Kind::Text => (0, 0),
        Kind::StartTag { name, self_closing } => (1 + u64::from(*self_closing), name.length()),
        Kind::EndTag { name } => (3, name.length()),
        Kind::Comment => (4, 0),
        Kind::Other => (5, 0),
        Kind::Cut => (6, 0),
    };
    [kind, name, token.source.length()]
        .into_iter()
        .fold(sum, add)
}

impl TendrilSink<UTF8, NonAtomic> for Tokenizer<StrTendril> {
    type Output = u64;

    fn process(&mut self, mut text: StrTendril) {
        self.take(&mut text);
    }

    fn error(&mut self, _: Cow<'static, str>) {}

    fn finish(self) -> u64 {
        self.total()
    }
}

fn tokenize_by_tendril(input: &[u8]) -> u64 {
    let mut decoder = Utf8LossyDecoder::new(Tokenizer::new());
    for piece in input.chunks(PIECE) {
        decoder.process(ByteTendril::from_slice(piece));
    }
    decoder.finish()
}

/// The same tokens of borrowed texts, each kept as a `String`.
fn tokenize_borrowed(input: &[u8]) -> u64 {
    let mut tokenizer = Tokenizer::<String>::new();
    let mut buffer = Vec::with_capacity(PIECE + 8);
    for piece in input.chunks(PIECE) {
        buffer.extend_from_slice(piece);
        let text = valid_part(&buffer);
        let valid = text.len();
        tokenizer.take(&mut &*text);
        buffer.drain(..valid);
    }
    tokenizer.total()
}
