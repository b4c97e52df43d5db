#!/bin/sh
# Times the proved event sources beside plain Rust loops over the same packed events, five runs in turn.
# usage: bench/sources.sh [EVENTS [ROUNDS]]   (needs rustc and the kit)
set -e
cd "$(dirname "$0")/.."
events=${1:-crates/gathnomir/data/screening.events}
rounds=${2:-20000}
mkdir -p target/bench
(cd crates/source_speed && rt run >/dev/null 2>../../target/bench/build.log) || { cat target/bench/build.log; exit 1; }
rustc -C opt-level=3 -o target/bench/plain bench/plain.rs
for run in 1 2 3 4 5; do
    crates/source_speed/out/source_speed "$events" "$rounds"
    target/bench/plain "$events" "$rounds"
done | awk -v rounds="$rounds" '
    { if (best[$1 "p"] == "" || $3 < best[$1 "p"]) best[$1 "p"] = $3
      if (best[$1 "r"] == "" || $5 < best[$1 "r"]) best[$1 "r"] = $5
      sums[$7] = sums[$8] = 1; if ($1 == "plain") events = $10 }
    END { n = 0; for (s in sums) n++
      if (n != 1) print "the sums differ"
      each = rounds * events
      printf "packed: %.2f ns an event, plain Rust %.2f, ratio %.2f\n", best["provedp"] / each, best["plainp"] / each, best["provedp"] / best["plainp"]
      printf "row:    %.2f ns an event, plain Rust %.2f, ratio %.2f\n", best["provedr"] / each, best["plainr"] / each, best["provedr"] / best["plainr"] }'
