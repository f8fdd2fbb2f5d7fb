#!/usr/bin/env bash
# Compares the engine with the second implementation, and looks a position up from C and C++.
#
#     tools/compare.sh                       builds what it needs, and compares
#     tools/compare.sh --seed N --times N    the same with other inputs, and with more of them
#     tools/compare.sh --part NAME --seed N --case N    one case alone, as a difference that is told names it
#     tools/compare.sh --built               takes the programs that the gate has just built (it must be the first word)
set -euo pipefail
cd "$(dirname "$0")/.."
library=crates/bootloader/out/libbootloader.a
# what is run below is what was built here, wherever else cargo might be told to build
export CARGO_TARGET_DIR=$PWD/target
log=$(mktemp)
trap 'rm -f "$log"' EXIT

# Runs a command whose output is shown only if it fails.
quietly() {
    "$@" < /dev/null > "$log" 2>&1 && return
    cat "$log"
    echo "failed: $*"
    exit 1
}

if [ "${1:-}" = --built ]; then
    shift
else
    for program in lookup key checkbook trials drills; do
        # building a program runs it, here on no input
        (cd "crates/$program" && quietly rt run)
    done
fi
# the gate proves the library that C links, and leaves building it to whoever wants it
(cd crates/bootloader && quietly rt lib)
echo "compare: the engine's library and programs stand after $SECONDS s"

quietly cargo test --release --offline --locked -p second
quietly cargo build --release --offline --locked -p second -p compare
# lookup.c is written so that it is C and C++
flags="-Wall -Wextra -Werror -pedantic -O2 -I include"
quietly cc -std=c11 $flags compare/lookup.c "$library" -o target/lookup-from-c
target/lookup-from-c
if command -v g++ > /dev/null; then
    quietly g++ -std=c++11 $flags -x c++ compare/lookup.c -x none "$library" -o target/lookup-from-cpp
    quietly target/lookup-from-cpp
    echo "and from C++ too"
fi

target/release/compare "$@"
echo "compare: done in $SECONDS s"
