#!/usr/bin/env bash
# Proves the port's exports, and builds the program that measures them beside the Rust crate.
# usage: bench/build.sh [OTHER]
#   OTHER            a checkout whose port is measured too, in rows named 'port, other'
#   TENDRIL_SOURCES  a folder with the sources of the Rust crates, each as NAME-VERSION; left out, cargo fetches them
#   BENCH_COPIES     where copies of the repository are proved, and kept for the next time; left out, a folder of /tmp
set -euo pipefail

bench=$(cd "$(dirname "$0")" && pwd)
copies=${BENCH_COPIES:-${TMPDIR:-/tmp}/tendril_bench_$(id -u)}
libraries=$bench/target/port
sources=$bench/target/sources.toml

fail() {
    echo "build.sh: $1" >&2
    exit 1
}

# The newest folder of a crate's sources whose name begins so, if there is one.
folder_of() {
    { compgen -G "$TENDRIL_SOURCES/$1*/Cargo.toml" || true; } | sort -V | tail -n 1 | xargs -r dirname
}

# Writes where cargo finds the Rust crates.
write_sources() {
    TENDRIL_SOURCES=$(cd "$TENDRIL_SOURCES" && pwd) || fail "TENDRIL_SOURCES is no folder"
    local missing='' crate folder
    echo '[patch.crates-io]' > "$sources"
    for crate in tendril-0.5.1 new_debug_unreachable-1. bytes-1. simdutf8-0.1. encoding_rs-0.8.31 cfg-if-1.; do
        folder=$(folder_of "$crate")
        [ -n "$folder" ] || missing="$missing $crate*"
        echo "${crate%-*} = { path = \"$folder\" }" >> "$sources"
    done
    [ -z "$missing" ] || fail "these crates' sources are missing in $TENDRIL_SOURCES:$missing"
}

# copy_repository FROM TO: without what checks kept there, which rt finds itself. What was copied the last time and has gone
# since goes here too.
copy_repository() {
    [ -f "$1/crates.txt" ] || fail "$1 is no checkout of the port"
    mkdir -p "$2/crates"
    find "$2/crates" -name out -prune -o -type f -exec rm {} +
    tar -C "$1" --exclude=out -cf - crates crates.txt HANDLES | tar -C "$2" -xf -
}

# add_exports COPY PREFIX: the crates that are measured. They stand in no crate of the repository, whose gate would prove
# them each time.
add_exports() {
    local crate file
    for crate in port_exports port_threads; do
        mkdir -p "$1/crates/$crate/src" "$1/crates/$crate/specs"
        touch "$1/crates/$crate/specs/Lib.antt"
        for file in "$bench/exports/$crate"/*.rt.txt; do
            sed "s/extern \"C\" fn port_/extern \"C\" fn $2_/" "$file" > "$1/crates/$crate/src/$(basename "$file" .txt)"
        done
    done
    # The tokenizer that is measured, with its definitions and proofs.
    tar -C "$1/crates/use_tokens" --exclude=proofs/tokenize -cf - src/{joined,markup,state,token,tokenizer}.rt specs proofs \
        | tar -C "$1/crates/port_exports" -xf -
    grep -rl use_tokens "$1/crates/port_exports" | xargs sed -i 's/Rattle\.use_tokens\./Rattle.port_exports./'
    local used='tendril tendril_queue tendril_stream tendril_text tendril_block tendril_fmt tendril_lossy'
    printf 'port_exports staticlib: rope_text memchr tendril_encoding tendril_decode tendril_labels %s\nport_threads: %s\n' "$used" "$used" >> "$1/crates.txt"
}

# build_port FROM NAME: proves and links a checkout's port.
build_port() {
    local copy=$copies/$2
    copy_repository "$1" "$copy"
    add_exports "$copy" "$2"
    (cd "$copy/crates/port_exports" && rt check && rt lib)
    # `rt run` builds the program, and runs it once.
    (cd "$copy/crates/port_threads" && rt check && rt run -- send 10 8 > /dev/null)
    cp "$copy/crates/port_exports/out/libport_exports.a" "$libraries/lib$2.a"
    cp "$copy/crates/port_threads/out/port_threads" "$libraries/threads-$2"
}

for tool in rt cargo; do
    command -v "$tool" > /dev/null || fail "the command $tool is missing"
done
mkdir -p "$libraries"
from=()
if [ -n "${TENDRIL_SOURCES:-}" ]; then
    write_sources
    from=(--offline --config "$sources")
fi
features=port
build_port "$bench/.." port
if [ -n "${1:-}" ]; then
    features=other
    build_port "$1" other
fi
cd "$bench"
# As the port is compiled.
export RUSTFLAGS="-C target-cpu=x86-64-v2 ${RUSTFLAGS:-}"
# The program with its code at four places, for a page; the one at the first is left for all else.
mkdir -p target/places
for place in 48 32 16 00; do
    PLACE=$place cargo build --release --features "$features" "${from[@]}"
    cp target/release/tendril_driver "target/places/$place"
done
echo "run: $bench/target/release/tendril_driver"
