#!/usr/bin/env python3
"""Writes the tables of the encodings: make_tables.py FOLDER

FOLDER has the indexes of the Encoding Standard as NAME.tsv, a line for each pointer: the pointer, a tab and the code
point in hexadecimal. Written are src/tables.rt, src/tables/*.rt and proofs/PackedTables.antt, beside this script.
"""
import sys
from hashlib import sha256
from pathlib import Path

HERE = Path(__file__).resolve().parent

# The index of each encoding of one byte, and its sum. x-user-defined has none: its table follows from its definition.
INDEXES = {
    "ibm866": "bd0932b1d1adc2da27151b8c8850aec287e8fb201e5815c4078c626652605d27",
    "iso-8859-2": "fddb27a79dee7a3852d9916e076f2d95d37216e2a2134351348d20f0421fd009",
    "iso-8859-3": "e034f899c952b4a1034456e6664f21bbfd45de4aa3bbb5ce553898edcf9bea9c",
    "iso-8859-4": "6776d1ab21e5e92f748e42ca0289365e5d2076177a1638ba1dd1ec41677aa282",
    "iso-8859-5": "0de5e6220c1e3b44bd097d81d03c71f1f2ef1eff1b7bf191ae9b6c4f26cbfdc8",
    "iso-8859-6": "b30af60a2abf2bbc933b2430e1cf6dbd6aa43938088a47926191460e45b9cf56",
    "iso-8859-7": "8f5760a1b15a6463471c85098778e23740220750f378b7f8d63b55f0f21e1cab",
    "iso-8859-8": "981afb41898dee95c353c7aa277a70bc628fd16a085efe0a1e2142d490be828b",
    "iso-8859-10": "ed974ef687ad534b23f3110bc32a267bc7a1286180f6267712ed5a0d54e890df",
    "iso-8859-13": "94896f9b769b8bfd7838e9f4951668805ce90b52f0b3d6a9d8aafc7c53486fa3",
    "iso-8859-14": "eab3325ab48b5ba39e0a1a690d0d828585b71dc45d16a8b53cd38670b7d582fa",
    "iso-8859-15": "a1bf039b7eb4f7d496ae7e526244f0feaf6add9de600711b96f7fe5a803d4d96",
    "iso-8859-16": "00a0d66dc780834c424686e963506c4f039e16ec4357def1b90d70ccdeba0202",
    "koi8-r": "720f51422eb6835e4bb0471520973ee680bc2f64f75f91a9cc014395cd6d98da",
    "koi8-u": "4b562ef46221951aa8deb7b3407fda0de0ebe46bb25b5e3f07e74c764731ca64",
    "macintosh": "321c23ea44dd6decb6e10fc4e0f71663eee39caab30caf155a51bc17e1fbb796",
    "windows-874": "d4499955f584f5f599c94c19fe954f5487e0fff29ad8b0b4c2d756afb70856d6",
    "windows-1250": "c7f99e2598267047840088283f3b937c7f59efdbf926fe0d006fe8ee992a1723",
    "windows-1251": "612c837aca51da51f9c42575adc1ca54442a2326f5a4e6155f4212f13b3505dc",
    "windows-1252": "a9919ed65e751f9dded7b98d6f239dc263c7d00e288f6c77ae822927c2f32e75",
    "windows-1253": "1a1bd9f0fcfcb36affc8a1e935eb2891bbd0e46951f43d118323589607742091",
    "windows-1254": "8549fcf8fa385655277866999e09f9a611a2ab0d94fdf65bef284684b8097ae2",
    "windows-1255": "2391967596096a9d4b698b247dcbdc685ec11188d27602824520907ef32fb969",
    "windows-1256": "c40e4e00a70f98d58c108f1a46151ce3284d0620115218f58c16382148126b97",
    "windows-1257": "31057063876d1a4b7f6b4b74c645c117f5763b109e4235e97f0c6d201732f3b6",
    "windows-1258": "0a182c0f07635080bdec6450345d5a146d0fd82ba351553a71e6b885d54b9999",
    "x-mac-cyrillic": "6f4e1a7193ce9e755db27f44c3652e0f4479d569bb5854df48b1a5f9a9388735",
}
USER_DEFINED = "x-user-defined"

# The indexes of the encodings of several bytes: the sum, how many pointers there are, and the bits of an entry.
LARGE = {
    "big5": ("b05cdda3078c3abfb5c588b3ca26bdb2a94e2e73fe7fb6d81444fd33afd528b4", 126 * 157, 32),
    "euc-kr": ("a75f965759415c15799ded82490222aea7d574e763f4ecbb1df7075f361c5814", 126 * 190, 16),
    "gb18030": ("6bd539538b42591131bc8d03a2b4dc536423496a6edfbd6e0c70b65b637827ec", 126 * 190, 16),
    "jis0208": ("f235ba66d12d68acae9c5905a58c9f69fd23b5dd497cbe6436991a360ca512c9", 60 * 188, 16),
    "jis0212": ("4ba92c0440e8d59849d2874f8aaad65f05e91bdf9840398cccf5e82ba211cf4d", 94 * 94, 16),
}
RANGES = "gb18030-ranges"
RANGES_SUM = "60e4762daebd1c40b74d5696aaff25645e797fe184b5574f68110e5894011e6f"


def read_pairs(folder, name, total):
    """The pointers of an index, and the code point of each."""
    data = (folder / f"{name}.tsv").read_bytes()
    if sha256(data).hexdigest() != total:
        sys.exit(f"{name}.tsv: not the index that the tables were made from")
    lines = (line.split("\t") for line in data.decode().splitlines())
    return [(int(pointer), int(code, 16)) for pointer, code in lines]


def read_index(folder, name, total, count):
    """The code point of each pointer, 0 where there is none."""
    codes = [0] * count
    for pointer, code in read_pairs(folder, name, total):
        codes[pointer] = code
    return codes


def read_single(folder, name):
    """The code points of the bytes from 0x80 on, 0 where there is none."""
    if name == USER_DEFINED:
        return [0xF780 + pointer for pointer in range(128)]
    return read_index(folder, name, INDEXES[name], 128)


def packed(code):
    """The UTF-8 of a code point, least significant byte first, with its length in the top byte."""
    utf8 = chr(code).encode()
    return int.from_bytes(utf8, "little") | len(utf8) << 24


def rows(numbers, width, count=8):
    """The lines of an array, some numbers each."""
    texts = [f"0x{number:0{width}X}" for number in numbers]
    return lines_of(texts, count)


def lines_of(texts, count):
    return [f"    {', '.join(texts[at:at + count])}," for at in range(0, len(texts), count)]


def module_of(name):
    return name.replace("-", "_")


def table_file(name, codes):
    const = module_of(name).upper()
    entries = [packed(byte) for byte in range(128)] + [packed(code) if code else 0 for code in codes]
    return [
        f"//! {name}. Written by make_tables.py.",
        "",
        "/// The characters of the bytes from 0x80 on, 0 where a byte has none.",
        "#[rattlefmt::skip]",
        f"pub const {const}: [u16; 128] = [",
        *rows(codes, 4),
        "];",
        "",
        "/// Each byte's character in UTF-8, first byte lowest, and its length in the top byte; 0 where there is none.",
        "#[rattlefmt::skip]",
        f"pub static PACKED_{const}: [u32; 256] = [",
        *rows(entries, 8),
        "];",
    ]


def large_file(name, codes, bits):
    width, count = (4, 14) if bits == 16 else (5, 12)
    return [
        f"//! The index {name}. Written by make_tables.py.",
        "",
        "/// The character of each pointer, 0 where there is none.",
        "#[rattlefmt::skip]",
        f"pub static {module_of(name).upper()}: [u{bits}; {len(codes)}] = [",
        *rows(codes, width, count),
        "];",
    ]


def ranges_file(pairs):
    texts = [f"({pointer}, 0x{code:X})" for pointer, code in pairs]
    return [
        "//! The index gb18030 ranges. Written by make_tables.py.",
        "",
        "/// The first pointer of each range of four-byte sequences, and its character.",
        "#[rattlefmt::skip]",
        f"pub static {module_of(RANGES).upper()}: [(u32, u32); {len(pairs)}] = [",
        *lines_of(texts, 6),
        "];",
    ]


def modules_file(names):
    modules = {module_of(name): [f"pub mod {module_of(name)};"] for name in names}
    lines = ["//! The tables of the encodings. Written by make_tables.py.", ""]
    return lines + [line for module in sorted(modules) for line in modules[module]]


def proofs_file(tables):
    lines = [
        "-- Each entry of a packed table is that of the table that the specification names. Written by make_tables.py.",
        "use Rattle.std.proofs.Common.{◌≡◌, true, refl}",
        "use Rattle.std.specs.Char.{encode_utf8}",
        "use Rattle.tendril_decode.specs.Packed.{ArePacked}",
        "use Rattle.tendril_decode.proofs.PackedSteps.{all_packed, entries_ok}",
    ]
    for name in sorted(tables, key=module_of):
        const = module_of(name).upper()
        place = f"Rattle.tendril_decode.specs.declared.tables.{module_of(name)}.TheConstants"
        lines.append(f"use {place}.{{{const}, PACKED_{const}}}")
    for name in sorted(tables, key=module_of):
        module = module_of(name)
        const = module.upper()
        lines += [
            "",
            f"ok-{module} : entries_ok {const} 0 PACKED_{const} ≡ true",
            "unfolding entries_ok encode_utf8",
            f"ok-{module} = refl",
            "",
            f"pub packed-{module} : ArePacked {const} PACKED_{const}",
            f"packed-{module} = all_packed {const} PACKED_{const} ok-{module} refl",
        ]
    lines += ["", "pub ruleset packed_tables = ("]
    lines += [f"  packed-{module_of(name)}," for name in sorted(tables, key=module_of)]
    return lines + [")"]


def write(path, lines):
    (HERE / path).write_text("\n".join(lines) + "\n")


def main():
    folder = Path(sys.argv[1])
    tables = {name: read_single(folder, name) for name in (*INDEXES, USER_DEFINED)}
    for name, codes in tables.items():
        write(f"src/tables/{module_of(name)}.rt", table_file(name, codes))
    for name, (total, count, bits) in LARGE.items():
        write(f"src/tables/{module_of(name)}.rt", large_file(name, read_index(folder, name, total, count), bits))
    write(f"src/tables/{module_of(RANGES)}.rt", ranges_file(read_pairs(folder, RANGES, RANGES_SUM)))
    write("src/tables.rt", modules_file([*tables, *LARGE, RANGES]))
    write("proofs/PackedTables.antt", proofs_file(tables))


main()
