#!/bin/sh
# Makes the small sample's databases in a folder of its own, runs its messages with a stop in the middle, sends the same
# messages again, and prints the replies of both runs, the databases, the log, and how many of its entries are legal.
# Then it runs the examples of the guide. It fails where they print, or it printed itself, anything else than stands in
# the guide and in README.md.
# The first time it proves the program and builds it. sample/try.sh runs the same
# messages in a minute or two, with no proof.
set -e
say() { echo "sample: $*" >&2; }
if ! command -v rt >/dev/null; then
    say "there is no command rt. It is in the folder bin of the Rattle kit: put that folder into PATH."
    exit 1
fi
cd "$(dirname "$0")/../crates/ims_fp"
room=$(mktemp -d)
trap 'rm -rf "$room"' EXIT
trap 'exit 130' INT TERM

# What was proved and built since the last change is only run.
if [ ! -x out/ims_fp ] || [ -n "$(find ../*/src ../*/specs ../*/proofs ../../crates.txt -newer out/ims_fp)" ]; then
    say "proving and building the program. The first time this takes some 18 minutes on four processors; what the gate proved on this machine is taken as it is."
    ../../scripts/prove ims_fp
fi
cp data/defs.toml data/scripts.txt data/schedule.txt data/messages.txt "$room"
say "making the databases"
out/ims_fp define "$room"

# Shows what a command prints, and keeps it, whatever the command's status.
printed() {
    status=0
    "$@" >"$room/part" || status=$?
    tee -a "$room/printed" <"$room/part"
    return "$status"
}

# The system kills a program that writes a file past its limit, here 2 blocks of 512 bytes: so in the middle of a group.
stopped_run() (ulimit -c 0 && ulimit -f 2 && exec out/ims_fp run "$room")

say "running the messages, with a stop within the write of a group"
if printed stopped_run; then
    say "it should have been stopped"
    exit 1
fi
say "sending the same messages again: what was answered is answered as it was, and counts once"
printed out/ims_fp run "$room"
say "the databases"
printed out/ims_fp show "$room"
say "the log"
printed out/ims_fp log "$room"
say "an audit, which runs each transaction of the log again"
printed out/ims_fp audit "$room"
if ! awk '/^[$] sample.run.sh$/ { on = 1; next } /^```$/ { on = 0 } on' ../../README.md | cmp -s - "$room/printed"; then
    say "README.md shows other lines than these"
    exit 1
fi
if command -v python3 >/dev/null; then
    say "the examples of docs/GUIDE.md: each is run, and must print what stands there"
    python3 ../../scripts/examples out/ims_fp docs/GUIDE.md >&2
else
    say "there is no python3, which would run the examples of docs/GUIDE.md"
fi
