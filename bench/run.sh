#!/usr/bin/env bash
# Builds the proved library as a static library and the timing program with it, compares what both sides print on random
# sessions, and then prints the times.
#
#   bench/run.sh [SESSIONS]
set -euo pipefail
here=$(cd "$(dirname "$0")" && pwd)
root=$(dirname "$here")
sessions=${1:-500}

mkdir -p "$root/target"
log=$root/target/measure.log
if ! (cd "$root/crates/measure" && rt lib) > "$log" 2>&1; then
    echo "run.sh: the library could not be built; $log says why" >&2
    exit 1
fi
export MEASURE_LIB=$root/crates/measure/out/libmeasure.a
RATTLE_C=$(dirname "$(rt doc)")/c
export RATTLE_C
(cd "$here/times" && cargo build --release --offline --quiet)

scratch=$(mktemp -d)
trap 'rm -r "$scratch"' EXIT
"$here/random_sessions.py" "$scratch" --count "$sessions" > /dev/null
"$here/times/target/release/times" compare "$scratch"
"$here/times/target/release/times" measure
