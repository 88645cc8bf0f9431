#!/usr/bin/env python3
"""Writes src/table.rt and specs/Table.antt from a list of the Encoding Standard's labels.

    make_labels.py LABELS

A line of LABELS is a label, a tab and the name of its encoding.
"""
import hashlib
import pathlib
import re
import sys

SUM = "96c8f7b37e2cede61f0bee3604875a584c1144ceac92bce3b0b5a8da9abb6095"
HERE = pathlib.Path(__file__).resolve().parent
SUBJECT = "The labels of the Encoding Standard, by the names of their encodings. Written by `make_labels.py`."


def variant(name):
    """The variant of an encoding: `Iso2022Jp` for ISO-2022-JP, `Iso8859_2` for ISO-8859-2."""
    words = re.findall(r"[0-9]+|[A-Za-z]+", name)
    joined = "".join(word.capitalize() for word in words)
    return re.sub(r"^Iso8859", "Iso8859_", joined)


text = pathlib.Path(sys.argv[1]).read_bytes()
if hashlib.sha256(text).hexdigest() != SUM:
    sys.exit("make_labels: these are other labels")
rows = [line.split("\t") for line in text.decode().splitlines()]
if rows != sorted(rows, key=lambda row: (row[1].lower(), row[0])):
    sys.exit("make_labels: the rows aren't in order")
rows = [(label, variant(name)) for label, name in rows]
variants = dict.fromkeys(name for _, name in rows)

(HERE / "src/table.rt").write_text(
    f"//! {SUBJECT}\n\nuse crate::encoding::Encoding;\nuse crate::label::Label;\n\n"
    + f"#[rattlefmt::skip]\npub static LABELS: [Label; {len(rows)}] = [\n"
    + "".join(f'    Label {{ label: "{label}", encoding: Encoding::{name} }},\n' for label, name in rows)
    + "];\n"
)
(HERE / "specs/Table.antt").write_text(
    f"-- {SUBJECT}\n"
    + "use Rattle.std.specs.Prelude.{ℕ, List, [], ◌∷◌, codes}\n"
    + "use Rattle.tendril_labels.specs.declared.encoding.Encoding.{Encoding}\n"
    + "use Rattle.tendril_labels.specs.declared.encoding.Encoding.TheVariants.{\n"
    + "".join(f"  {name},\n" for name in variants)
    + "}\n\nunfoldable pub labels : List (List ℕ × Encoding)\nlabels =\n"
    + "".join(f'    (codes "{label}", {name}) ∷\n' for label, name in rows)
    + "    []\n"
)
