#!/usr/bin/env bash
# What the proof of a crate spends its time on.
#
#   bench/proofs.sh CRATE [PART [--test]]
#
# Checks the part of the crate (a function, or a module; all without one) by one job, and lists what was checked anew, the
# longest first, in seconds. `Lts` is what the toolchain makes of a function's borrows and of what it drops, `Tie` its calls
# of generic functions, `Proof` the goals that are found by search, and `Answers` those that are written down. What an
# earlier check kept, in any checkout on this machine, isn't checked again: change a line of it first.
set -eu
cd "$(dirname "${BASH_SOURCE[0]}")/../crates/$1"
part=${2:-}
began=$(mktemp)
trap 'rm -f "$began"' EXIT
rt check ${3:+"$3"} ${part:+--only "$part"} --jobs 1 --allow-holes | tail -n 1
# A module's file is written when it is done, so it took the time since the one before.
find out/incremental -name '*.oantt' -newer "$began" -printf '%T@ %f\n' | sort -n | awk '
    NR > 1 { printf "%6.1f %s\n", $1 - last, $2 }
    { last = $1 }' | sed 's/\(\.decls\)\?\.oantt$//' | sort -rn | head -n 20
