#!/usr/bin/env bash
# Times quayrun, the reference program and the plain baseline on one script of 100,000 lines: the middle of three runs of each.
# usage: run.sh QUAYRUN [BUILD_FOLDER]
set -eu
here=$(cd "$(dirname "${BASH_SOURCE[0]}")" && pwd)
quayrun=${1:?usage: run.sh QUAYRUN [BUILD_FOLDER]}
build=${2:-$(mktemp -d)}
mkdir -p "$build"
rustc -O --edition 2021 "$here/../tests/beside/generate.rs" -o "$build/generate"
rustc -O --edition 2021 "$here/../tests/beside/reference.rs" -o "$build/reference"
rustc -O --edition 2021 "$here/plain.rs" -o "$build/plain"
script=$build/bench-script
"$build/generate" bench 1 100000 >"$script"

milliseconds() { # PROGRAM [ARGUMENT]
    local start end
    start=$(date +%s%N)
    "$@" <"$script" >/dev/null
    end=$(date +%s%N)
    echo $(((end - start) / 1000000))
}

middle() { # PROGRAM [ARGUMENT]
    for _ in 1 2 3; do milliseconds "$@"; done | sort -n | sed -n 2p
}

echo "100,000 lines, middle of three runs: quayrun $(middle "$quayrun") ms, reference $(middle "$build/reference" store) ms, plain $(middle "$build/plain") ms"

# A full store collected unit by unit, each unit a line that is answered before the next is sent.
rustc -O --edition 2021 "$here/longest.rs" -o "$build/longest"
{
    "$build/generate" full 1 3000 | head -c -1
    echo
    echo B
    for _ in $(seq 1 4000); do printf 'G\t1\n'; done
} >"$build/units-script"
"$build/longest" "$quayrun" "$build/units-script"
