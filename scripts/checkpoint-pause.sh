#!/bin/sh
# Measures how long a checkpoint is begun, what memory that takes, and what a commit costs while one is under way. Not a
# part of the gate. It proves and builds a small program in a copy of the crates, and takes some minutes the first time:
#     scripts/checkpoint-pause.sh [SEGMENTS]
# A segment has 40 bytes; without an argument there are 64 MB of them.
set -e
top=$(cd "$(dirname "$0")/.." && pwd)
room=${ROOM:-$(mktemp -d)}
[ -n "$ROOM" ] || trap 'rm -rf "$room"' EXIT
mkdir -p "$room/crates"
(cd "$top" && tar -c --exclude=out --exclude=must-fail HANDLES crates) | tar -x -C "$room"
uses="msdb_checkpoint checkpoint_format msdb_store balancing fp_defs fp_exits fp_model"
(cat "$top/crates.txt" && echo "checkpoint_pause: $uses") >"$room/crates.txt"
mkdir -p "$room/crates/checkpoint_pause/src" "$room/crates/checkpoint_pause/specs" "$room/crates/checkpoint_pause/proofs"
: >"$room/crates/checkpoint_pause/specs/Lib.antt"
: >"$room/crates/checkpoint_pause/proofs/Lib.antt"
cp "$top/scripts/bench_of/checkpoint_pause.txt" "$room/crates/checkpoint_pause/src/main.rt"
cd "$room/crates/checkpoint_pause"
rt run -- "${1:-1677721}"
