#!/usr/bin/env bash
# Times the proved sources beside the same in plain Rust: a table of 2,048 transitions made and asked, and the same joined
# to a queue. Not part of the gate. Needs `rt run` in crates/pace first, and rustc.
#     bench/sources/run.sh [ROUNDS]
set -euo pipefail
cd "$(dirname "$0")/../.."
rounds=${1:-2000}
mkdir -p target/bench
rustc -O -o target/bench/plain bench/sources/plain.rs
for kind in table joined; do
    for turn in 1 2 3; do
        for program in crates/pace/out/pace target/bench/plain; do
            start=$(date +%s%N)
            sum=$(echo "$rounds $kind" | "$program")
            end=$(date +%s%N)
            echo "$kind $program $(((end - start) / rounds)) ns a round, sum $sum"
        done
    done
done
