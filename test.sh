#!/usr/bin/env bash
# The test run: rt ci proves every crate, tries the must-fail edits and runs the program (what it passed before on this machine it does
# not prove again); then the independent solver's own tests, the comparison of the C interface and of the program airtable with it, the
# examples, first use, the example in C, and the desk: its own tests, with the simulator in a browser where there is one, and its script.
# The benchmarks (bench/run) are built and not run: nothing here is timed.
# Its last line is rt ci's 'N passed, 0 failed', printed only when everything else passed too.
set -euo pipefail
cd "$(dirname "$0")"
log=$(mktemp)
trap 'rm -f "$log"' EXIT
rt ci | tee "$log" | { grep --line-buffered -v ' passed, ' || true; }
# rt ci passes with bad edits, which show nothing
if ! grep -q '^rt: ok' "$log" || grep -Eq '^rt: ok.*, 0*[1-9][0-9]* bad' "$log"; then
    echo "rt ci is not ok, or must-fail edits are bad" >&2
    exit 1
fi

(cd crates/capi && rt lib)
./airtable examples/closed-cue.rule > /dev/null # builds target/bin/airtable
export CARGO_TARGET_DIR="$PWD/target/cargo" CAPI_LIB_DIR="$PWD/crates/capi/out"
(cd tests && cargo test --offline --quiet --tests)
(cd tests && cargo run --release --offline --quiet --features capi --bin compare)
(cd tests && cargo run --release --offline --quiet --bin drive -- ../target/bin/airtable ../examples/*.rule)

for rule in examples/*.rule; do
    ./airtable "$rule" | diff "${rule%.rule}.listing" -
done
echo "examples/*.rule: as expected"
tests/first_use.sh
deep=$(printf '%127s' '' | tr ' ' '(')a$(printf '%127s' '' | tr ' ' ')')
(ulimit -s 256 && printf '1 0\nfair\n1\n%s\n' "$deep" | env -i target/bin/airtable) | diff <(printf '1 0\nfair\n1\na\n' | ./airtable) -
echo "the deepest text: as expected, with a stack of 256 KB"

(cd bench && cargo build --release --offline --quiet)
echo "bench: built"

cc -std=c99 -pedantic -Wall -Wextra -Werror -Iinclude examples/follow.c crates/capi/out/libcapi.a -o target/follow
target/follow < examples/follow.input | diff examples/follow.expected -
echo "examples/follow.c: as expected"
tests/c/check crates/capi/out/libcapi.a

command -v dot > /dev/null || echo "the drawings by Graphviz are left out: no dot"
(cd desk && cargo build --release --offline --quiet && cargo test --release --offline --quiet --tests)
tests/first_desk.sh
tests/desk_examples.sh

tail -n 1 "$log"
