#!/usr/bin/env python3
"""Writes the sums that short streams are compared with: make_sums.py REFERENCE

REFERENCE is a file in Python whose function decode(name, bytes) returns the outputs of a stream in the encoding of that
name: a code point for a character, "E" for a malformed sequence. Written is sequences/sums.rt.txt, beside this
script.
"""
import importlib.util
import sys
from itertools import product
from pathlib import Path

HERE = Path(__file__).resolve().parent
BASIS = 0xCBF29CE484222325
PRIME = 0x100000001B3


def read_reference(path):
    spec = importlib.util.spec_from_file_location("reference", path)
    module = importlib.util.module_from_spec(spec)
    spec.loader.exec_module(module)
    return module.decode


def sum_of(decode, name, streams):
    """FNV-1a of the UTF-8 of what streams decode to, with 0xFF for each malformed sequence."""
    total = BASIS
    for stream in streams:
        for output in decode(name, stream):
            for byte in b"\xFF" if output == "E" else chr(output).encode():
                total = (total ^ byte) * PRIME % 2**64
    return total


def single_bytes():
    """Each byte."""
    return (bytes([byte]) for byte in range(0x100))


def pairs():
    """Each two bytes of which the first isn't ASCII."""
    return (bytes([first, second]) for first in range(0x80, 0x100) for second in range(0x100))


def triples():
    """Each three bytes that begin with 0x8F."""
    return (bytes([0x8F, second, third]) for second in range(0x100) for third in range(0x100))


def runs():
    """The pairs of each first byte, 32 in a stream, after 32 letters."""
    for first in range(0x80, 0x100):
        for group in range(8):
            yield b"a" * 32 + b"".join(bytes([first, 32 * group + number]) for number in range(32))


def fours():
    """The four bytes of the pointers of gb18030 up to the basic plane's last, around each border, and of others."""
    pointers = [*range(40_000), *range(188_990, 189_010), *range(1_237_566, 1_237_586)]
    for pointer in [*pointers, *(189_000 + 139 * number for number in range(10_000))]:
        first, rest = divmod(pointer, 12_600)
        second, rest = divmod(rest, 1_260)
        third, fourth = divmod(rest, 10)
        yield bytes([0x81 + first, 0x30 + second, 0x81 + third, 0x30 + fourth])


def jis_pairs():
    """Each two bytes of which the first is from 0x20 to 0x7F, in the set of two bytes."""
    return (b"\x1B$B" + bytes([first, second]) + b"!!" for first in range(0x20, 0x80) for second in range(0x100))


def jis_sets():
    """Each byte in each set of single bytes."""
    return (b"\x1B(" + bytes([third, byte]) + b"~" for third in b"BJI" for byte in range(0x100))


def in_fours(words):
    """Each four of these words."""
    return lambda: map(b"".join, product(words, repeat=4))


# Pieces of sequences of gb18030, whole and not.
GB18030_WORDS = [
    b"\x81\x30\x81", b"\x30\x81\x30", b"\x30\x41\x81", b"\xFE\x39\xFE", b"\xFE\xFE\x30",
    b"\x80\xFF\x81", b"\x41\x7F\x30", b"\x81\x7F\x81", b"\x39\x84\x31", b"\xA4\x37\xA4",
]

# Pieces of escape sequences, whole and not, and bytes between them.
JIS_WORDS = [
    b"\x1B$B", b"\x1B$@", b"\x1B(B", b"\x1B(J", b"\x1B(I", b"\x1B(X", b"\x1B\x1B(", b"\x1B$\x1B",
    b"A\x1B$", b"!\x1B(", b"F|\x1B", b"0!~", b"\\\x0E\x80", b"(B!",
]

# The variants of SingleByte, and the name of each encoding.
SINGLE_BYTES = {
    "Ibm866": "IBM866",
    "Iso8859_2": "ISO-8859-2",
    "Iso8859_3": "ISO-8859-3",
    "Iso8859_4": "ISO-8859-4",
    "Iso8859_5": "ISO-8859-5",
    "Iso8859_6": "ISO-8859-6",
    "Iso8859_7": "ISO-8859-7",
    "Iso8859_8": "ISO-8859-8",
    "Iso8859_8I": "ISO-8859-8-I",
    "Iso8859_10": "ISO-8859-10",
    "Iso8859_13": "ISO-8859-13",
    "Iso8859_14": "ISO-8859-14",
    "Iso8859_15": "ISO-8859-15",
    "Iso8859_16": "ISO-8859-16",
    "Koi8R": "KOI8-R",
    "Koi8U": "KOI8-U",
    "Macintosh": "macintosh",
    "Windows874": "windows-874",
    "Windows1250": "windows-1250",
    "Windows1251": "windows-1251",
    "Windows1252": "windows-1252",
    "Windows1253": "windows-1253",
    "Windows1254": "windows-1254",
    "Windows1255": "windows-1255",
    "Windows1256": "windows-1256",
    "Windows1257": "windows-1257",
    "Windows1258": "windows-1258",
    "XMacCyrillic": "x-mac-cyrillic",
    "XUserDefined": "x-user-defined",
}

# The name of each other sum, its encoding and its streams.
SUMS = {
    "EUC_KR_PAIRS": ("EUC-KR", pairs),
    "EUC_KR_RUNS": ("EUC-KR", runs),
    "BIG5_PAIRS": ("Big5", pairs),
    "BIG5_RUNS": ("Big5", runs),
    "SHIFT_JIS_PAIRS": ("Shift_JIS", pairs),
    "SHIFT_JIS_RUNS": ("Shift_JIS", runs),
    "EUC_JP_PAIRS": ("EUC-JP", pairs),
    "EUC_JP_TRIPLES": ("EUC-JP", triples),
    "EUC_JP_RUNS": ("EUC-JP", runs),
    "GB18030_PAIRS": ("gb18030", pairs),
    "GB18030_RUNS": ("gb18030", runs),
    "GB18030_FOURS": ("gb18030", fours),
    "GB18030_WORDS": ("gb18030", in_fours(GB18030_WORDS)),
    "ISO_2022_JP_PAIRS": ("ISO-2022-JP", jis_pairs),
    "ISO_2022_JP_SETS": ("ISO-2022-JP", jis_sets),
    "ISO_2022_JP_WORDS": ("ISO-2022-JP", in_fours(JIS_WORDS)),
}


def main():
    decode = read_reference(sys.argv[1])
    lines = [
        "//! FNV-1a of what streams decode to: the UTF-8 of each character, and 0xFF for each malformed sequence.",
        "//! Written by make_sums.py.",
        "",
        "use tendril_decode::SingleByte;",
        "",
        "#[rattlefmt::skip]",
        f"pub(crate) const SINGLE_BYTES: [(SingleByte, u64); {len(SINGLE_BYTES)}] = [",
    ]
    for variant, name in SINGLE_BYTES.items():
        lines.append(f"    (SingleByte::{variant}, 0x{sum_of(decode, name, single_bytes()):016X}),")
    lines.append("];")
    for const, (name, streams) in SUMS.items():
        lines += ["", f"pub(crate) const {const}: u64 = 0x{sum_of(decode, name, streams()):016X};"]
    (HERE / "sequences/sums.rt.txt").write_text("\n".join(lines) + "\n")


main()
