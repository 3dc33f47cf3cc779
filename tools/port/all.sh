#!/bin/sh
# sh tools/port/all.sh TOP: right after `port.py` at TOP, each script once, in this order; then every crate is laid out.
set -e
top=$(cd "$1" && pwd)
cd "$(dirname "$0")"
for s in 00_hand 10_words 20_answers 30_edits 40_respell 60_names 70_style edits_state; do
    echo "== $s"
    python3 $s.py "$top"
done
for c in "$top"/crates/*/; do
    (cd "$c" && rt fmt)
done
