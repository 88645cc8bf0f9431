//! Streams in the web's encodings, decoded in pieces to a sink that counts (v).

use super::PIECE;
use super::decode::Counting;
use crate::inputs::{
    FRENCH, Inputs, JAPANESE, KOREAN, RUSSIAN, SIMPLIFIED, TRADITIONAL, prose, row,
};
use crate::measure::Workload;
use crate::port::Port;
use crate::results::{Role, Unit};
use encoding_rs::{DecoderResult, Encoding};
use std::hint::black_box;
use tendril::stream::LossyDecoder;
use tendril::{ByteTendril, TendrilSink};

/// What is decoded: its id, the label of its encoding, what it is, and its bytes.
struct Stream {
    id: &'static str,
    name: &'static str,
    label: &'static str,
    bytes: Vec<u8>,
}

/// All of them.
pub fn all<'a>(inputs: &'a Inputs, ports: &'a [Port]) -> impl Iterator<Item = Workload<'a>> {
    streams(inputs).into_iter().map(|it| decode(it, ports))
}

#[rustfmt::skip]
fn streams(inputs: &Inputs) -> Vec<Stream> {
    let size = inputs.html.len();
    let ascii = &inputs.html;
    let french = &prose(size, 43, FRENCH);
    let russian = &prose(size, 47, RUSSIAN);
    let japanese = &row(size, 53, JAPANESE);
    let simplified = &row(size, 59, SIMPLIFIED);
    let traditional = &row(size, 61, TRADITIONAL);
    let korean = &prose(size, 67, KOREAN);
    let high = inputs.random.iter().map(|it| it | 0x80).collect();
    vec![
        of_text("v1", "decode windows-1252, ASCII", "windows-1252", ascii),
        of_text("v2", "decode windows-1252, French", "windows-1252", french),
        of_text("v3", "decode KOI8-R, Russian", "koi8-r", russian),
        of_text("v4", "decode windows-1251, Russian", "windows-1251", russian),
        of_bytes("v5", "decode windows-1252, all bytes above 7F", "windows-1252", high),
        of_bytes("v6", "decode UTF-16LE, ASCII", "utf-16le", units(ascii)),
        of_bytes("v7", "decode UTF-16LE, French", "utf-16le", units(french)),
        of_bytes("v8", "decode UTF-16LE, Chinese", "utf-16le", units(simplified)),
        of_bytes("v9", "decode UTF-16LE, surrogate pairs", "utf-16le", units(&inputs.pairs)),
        of_bytes("v10", "decode windows-1257, random bytes", "windows-1257", inputs.random.clone()),
        of_text("v11", "decode Shift_JIS, Japanese", "shift_jis", japanese),
        of_text("v12", "decode EUC-JP, Japanese", "euc-jp", japanese),
        of_text("v13", "decode ISO-2022-JP, Japanese", "iso-2022-jp", japanese),
        of_text("v14", "decode GBK, Chinese", "gbk", simplified),
        of_text("v15", "decode Big5, Chinese", "big5", traditional),
        of_text("v16", "decode EUC-KR, Korean", "euc-kr", korean),
        of_bytes("v17", "decode gb18030, random bytes", "gb18030", inputs.random.clone()),
        of_bytes("v18", "decode Shift_JIS, random bytes", "shift_jis", inputs.random.clone()),
    ]
}

/// The text in the encoding, all characters of which it has.
fn of_text(id: &'static str, name: &'static str, label: &'static str, text: &str) -> Stream {
    let (bytes, _, replaced) = of_label(label).encode(text);
    assert!(!replaced, "{id}: a character is not in {label}");
    of_bytes(id, name, label, bytes.into_owned())
}

fn of_bytes(id: &'static str, name: &'static str, label: &'static str, bytes: Vec<u8>) -> Stream {
    Stream {
        id,
        name,
        label,
        bytes,
    }
}

fn units(text: &str) -> Vec<u8> {
    text.encode_utf16().flat_map(u16::to_le_bytes).collect()
}

fn of_label(label: &str) -> &'static Encoding {
    Encoding::for_label(label.as_bytes()).expect("encoding_rs has the label")
}

fn decode<'a>(stream: Stream, ports: &'a [Port]) -> Workload<'a> {
    let Stream {
        id,
        name,
        label,
        bytes,
    } = stream;
    let input: &'a [u8] = bytes.leak();
    let details = "in pieces of 4096 bytes, to a sink that counts";
    Workload::new(id, name, details, Unit::Bytes(input.len()))
        .with("tendril 0.5.1 with encoding_rs", move || {
            decode_by_tendril(label, input)
        })
        .with("encoding_rs 0.8.31, to a buffer", move || {
            decode_by_encoding_rs(label, input)
        })
        .listed_as(Role::Alone)
        .with_ports(ports, |port| move || port.decode_label(input, label))
}

/// Decodes to one buffer, whose texts are counted.
fn decode_by_encoding_rs(label: &str, input: &[u8]) -> u64 {
    let mut decoder = of_label(label).new_decoder_without_bom_handling();
    let mut buffer = [0; 3 * PIECE];
    let mut seen = Counting::default();
    for piece in input.chunks(PIECE) {
        feed(&mut decoder, piece, false, &mut buffer, &mut seen);
    }
    feed(&mut decoder, &[], true, &mut buffer, &mut seen);
    seen.sum()
}

fn feed(
    decoder: &mut encoding_rs::Decoder,
    piece: &[u8],
    last: bool,
    buffer: &mut [u8],
    seen: &mut Counting,
) {
    let mut rest = piece;
    loop {
        let (result, read, written) =
            decoder.decode_to_utf8_without_replacement(rest, buffer, last);
        rest = &rest[read..];
        seen.text(black_box(&buffer[..written]));
        match result {
            DecoderResult::InputEmpty => return,
            DecoderResult::OutputFull => {}
            DecoderResult::Malformed(_, _) => seen.malformed(),
        }
    }
}

fn decode_by_tendril(label: &str, input: &[u8]) -> u64 {
    let decoder = of_label(label).new_decoder_without_bom_handling();
    let sink = Counting::default();
    let mut decoder = LossyDecoder::new_from_encoding_rs_decoder(decoder, sink);
    for piece in input.chunks(PIECE) {
        decoder.process(ByteTendril::from_slice(piece));
    }
    decoder.finish()
}
