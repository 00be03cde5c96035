#!/bin/sh
# Measures single crates: crates.sh [ROUNDS [rows]]. It proves and builds the programs in programs/ with rt, in a folder outside the repository, since the
# gate takes only the programs that crates.txt lists. What is built there stays for the next time.

say() {
    printf 'crates.sh: %s\n' "$1" >&2
}

give_up() {
    say "$1"
    exit 70
}

bench=$(cd -- "$(dirname -- "$0")" && pwd) || exit
root=$(dirname -- "$bench")
folder=${GENESIS_BENCH:-${XDG_CACHE_HOME:-$HOME/.cache}/genesis-bench}
for command in python3 rt rustc; do
    command -v "$command" >/dev/null || give_up "$command is not installed"
done

# The crates as they are now, over what was built of them before.
copy() {
    mkdir -p "$folder/crates" && cp "$root/crates.txt" "$folder/" || return
    for crate in "$root"/crates/*/; do
        to=$folder/crates/$(basename "$crate")
        rm -rf "$to/src" "$to/specs" "$to/proofs" && mkdir -p "$to" || return
        for part in src specs proofs; do
            [ ! -d "$crate$part" ] || cp -R "$crate$part" "$to/" || return
        done
    done
}

# A program, with the crates that it stands on.
program() {
    name=bench_$1
    to=$folder/crates/$name
    echo "$name: $2" >>"$folder/crates.txt"
    rm -rf "$to/src" && mkdir -p "$to/src" && cp "$bench/programs/$1.rattle" "$to/src/main.rt" || exit
}

build() {
    say "proving and building $1"
    (cd "$folder/crates/bench_$1" && rt run </dev/null >"$folder/bench_$1.log" 2>&1) || give_up "bench_$1 was not built: see $folder/bench_$1.log"
}

copy || give_up "the crates can't be copied to $folder"
program schema gx_schema
program lines 'gx_schema gx_script gx_values'
program slots gx_slots
program frames gx_frames
program lru lru
program walks 'gx_slots gx_bnode'
for name in schema lines slots frames lru walks; do
    build "$name"
done
rustc --edition 2021 -O "$bench/programs/slots.rs" -o "$folder/slots_plain" || exit
python3 -B "$bench/crates.py" "$folder" "${1:-5}" ${2:+"$2"}
