#!/bin/sh
# Measures the program beside sqlite3: try.sh [ROUNDS]. It takes the proved program, and has it
# built where it is missing or old.

bench=$(cd -- "$(dirname -- "$0")" && pwd) || exit
root=$(dirname -- "$bench")
command -v python3 >/dev/null || { echo 'try.sh: python3 is not installed' >&2; exit 70; }
folder=$(mktemp -d) || exit
trap 'rm -rf "$folder"' EXIT
trap 'exit 130' HUP INT TERM

python3 -B "$bench/scripts.py" "$folder" || exit
"$root/genesis" --prove || exit
python3 -B "$bench/try.py" "$root/crates/genesis/out/genesis" "$folder" "${1:-5}"
