#!/usr/bin/env bash
# hold.sh PROGRAM: times a built crq_hold beside the plain peer, and prints a table.
# Ends with 1 where PROGRAM failed, took too long or printed other lines than the peer, and with 2 where nothing could be measured.
set -euo pipefail
here=$(cd "$(dirname "$(readlink -f "$0")")" && pwd)
if [ $# -ne 1 ] || [ ! -f "$1" ] || [ ! -x "$1" ]; then
  echo "usage: $0 PROGRAM, where PROGRAM is a built crq_hold" >&2
  exit 2
fi
program=$(readlink -f "$1")
made=$(mktemp -d)
trap 'rm -rf "$made"' EXIT
# With --locked cargo writes into the temporary folder alone.
cargo build --quiet --release --locked --offline --manifest-path "$here/peer/Cargo.toml" --target-dir "$made" || exit 2
python3 "$here/hold.py" "$program" "$made/release/hold_peer"
