#!/usr/bin/env bash
# Times the layers of a match on one file, by the program in bench/stages.
#
#   bench/stages.sh build                          builds the program in the scratch folder, proving nothing
#   bench/stages.sh build checks                   the same with the checks at run time that a proof makes needless
#   bench/stages.sh prove PART                     proves and builds a part of it: roster, which ends there, or workers,
#                                                  which goes on to `finish` and the layers of `crew`
#   bench/stages.sh FILE [LAST [BUDGET [RUNS]]]    runs what was built last on a file: RUNS times (3), to the layer
#                                                  LAST (text), with BUDGET rounds for the couples (1000000)
#
# A run prints for each layer: its name, the least processor time of the runs in milliseconds, the memory of the
# process after it and the most so far, both in MiB, and a count of what it made. LAST `hash` stops after two passes
# that hash each field once (bench/README.md), and LAST `table` after one that puts each field into a table of ids. LAST
# `hall` goes on from `finish` with a hall for one worker, and LAST `crew` with one, two, four and eight workers, by the
# clock of the wall, as `ranks`, `couples` and `verify` are, which several threads share. The scratch folder is
# $BENCH_SCRATCH, or nrmatch-bench in the folder for temporary files.
#
# `build` proves nothing. `rt try` compiles without optimising, so its LLVM module is compiled a second time here, at
# the level of a proved build. `rt try` puts checks in that a proved build has none of, and leaves out the hints on
# inlining that the sources give. With the checks the couples' stage takes half as long again, and more. Without the
# hints it takes up to twice its time. So the hints are written in (bench/hints.py), and the checks are taken out. The
# compiler then takes what they look for as given, as it does in a proved build. Where a check would have stopped the
# program, it may now do anything at all. So what isn't tried with the checks isn't measured without them. `build
# checks` leaves them in. `prove` takes some minutes where the layers are proved in this checkout, and a quarter of an
# hour from nothing.
set -euo pipefail
top=$(cd "$(dirname "${BASH_SOURCE[0]}")/.." && pwd)
scratch=${BENCH_SCRATCH:-${TMPDIR:-/tmp}/nrmatch-bench}
program=$scratch/stages

# A folder as that of the toolchain, whose clang keeps the module of a program and compiles nothing else.
make_kit() {
    local from=$1 to=$scratch/kit name
    mkdir -p "$to/bin" "$to/toolchain/bin"
    for name in "$from"/*; do
        case ${name##*/} in bin | toolchain) ;; *) ln -sfn "$name" "$to/${name##*/}" ;; esac
    done
    for name in "$from"/bin/*; do ln -sf "$name" "$to/bin/${name##*/}"; done
    # The commands look for the other files beside themselves, so these two are no links.
    rm -f "$to/bin/rt" "$to/bin/rtlib.py"
    cp "$from/bin/rt" "$from/bin/rtlib.py" "$to/bin/"
    ln -sfn "$from/toolchain/lib" "$to/toolchain/lib"
    for name in "$from"/toolchain/bin/*; do ln -sf "$name" "$to/toolchain/bin/${name##*/}"; done
    rm "$to/toolchain/bin/clang"
    cat > "$to/toolchain/bin/clang" <<END
#!/bin/bash
# The first module is a trial of a few bytes.
if [ "\$(/usr/bin/stat -c %s module.bc)" -gt 100000 ]; then
    /bin/cp module.bc "$scratch/module.bc"
    exit 1
fi
exec "$from/toolchain/bin/clang" "\$@"
END
    chmod +x "$to/toolchain/bin/clang"
}

# The repository's crates without the files that are left out, and the program as one more, which begins in the file
# MAIN and stands on LIBRARIES. Its files have no name of code in the repository, since the gate takes none that it
# doesn't prove.
copy_crates() {
    local repo=$scratch/repo main=$1 libraries=$2 code=$scratch/repo/crates/mt_stages/src name
    shift 2
    rm -rf "$repo"
    mkdir -p "$code"
    (cd "$top/crates" && tar cf - "$@" .) | tar xf - -C "$repo/crates"
    cp "$top/HANDLES" "$repo/"
    cp "$top/bench/stages/$main.rt.txt" "$code/main.rt"
    for name in crew first hall layers meter; do
        if grep -q "^mod $name;" "$code/main.rt"; then cp "$top/bench/stages/$name.rt.txt" "$code/$name.rt"; fi
    done
    cp "$top/crates.txt" "$repo/"
    echo "mt_stages: $libraries" >> "$repo/crates.txt"
}

# The module with the sources' hints on inlining, as it is, or without the checks: the calls that they end in, each before
# an `unreachable`, are left out, and what a function has for a sanitizer, for a debugger and for probes of its stack.
module() {
    "$1/bin/clang" -x ir "$scratch/module.bc" -S -emit-llvm -Xclang -disable-llvm-passes -O3 -o - |
        python3 "$top/bench/hints.py" "$top/crates" |
        if [ "$2" = checks ]; then
            cat
        else
            sed -e '/call void @"rattle-llvm-checks::Unreachable"/d' -e '/call void @llvm.trap()/d' \
                -e '/^attributes/s/sanitize_address //' -e '/^attributes/s/"frame-pointer"="all"/"frame-pointer"="none"/' \
                -e '/^attributes/s/"probe-stack"="[^"]*" //' -e '/^attributes/s/"stack-probe-size"="[^"]*" //' \
                -e '/^attributes/s/"target-cpu"="x86-64"/"target-cpu"="x86-64-v2"/'
        fi
}

build() {
    local from log=$scratch/build.log tools libraries
    from=$(dirname "$(dirname "$(readlink -f "$(command -v rt)")")")
    tools=$from/toolchain
    mkdir -p "$scratch"
    rm -f "$scratch/module.bc"
    make_kit "$from"
    libraries='anyhow indexmap mt_lists mt_roster mt_ranks mt_core mt_tally mt_hall mt_crew'
    copy_crates main "$libraries mt_couples mt_verify mt_report mt_terms" --exclude out
    # It ends in a failure, since the module isn't compiled by it.
    (cd "$scratch/repo/crates/mt_stages" && "$scratch/kit/bin/rt" try < /dev/null > "$log" 2>&1) || true
    if [ ! -s "$scratch/module.bc" ]; then
        cat "$log" >&2
        exit 1
    fi
    module "$tools" "${1:-}" > "$scratch/module.ll"
    "$tools/bin/clang" --target=x86_64-unknown-linux-gnu --sysroot="$tools" --no-default-config -march=x86-64-v2 \
        -ffunction-sections -fdata-sections -fPIE -O3 -c -x ir "$scratch/module.ll" -o "$scratch/stages.o"
    "$from/bin/rattle-link" --target x86_64-unknown-linux-gnu --toolchain "$tools" -o "$program" "$scratch/stages.o" \
        "$from/c/libos_c.a" "$from/c/liblibc_c.a" 2>> "$log"
    echo "built $program"
}

prove() {
    local log=$scratch/build.log
    mkdir -p "$scratch"
    case ${1:-} in
        roster) copy_crates roster 'anyhow indexmap mt_lists mt_roster mt_terms' ;;
        workers)
            copy_crates workers 'anyhow indexmap mt_lists mt_roster mt_market mt_ranks mt_core mt_crew mt_terms'
            ;;
        *) echo "prove: roster or workers" >&2; exit 1 ;;
    esac
    # Without a file's name it only says how it is used.
    (cd "$scratch/repo/crates/mt_stages" && rt run < /dev/null > "$log" 2>&1) || true
    if [ ! -x "$scratch/repo/crates/mt_stages/out/mt_stages" ]; then
        cat "$log" >&2
        exit 1
    fi
    cp "$scratch/repo/crates/mt_stages/out/mt_stages" "$program"
    echo "proved and built $program"
}

# Of the lines of several runs, one for each layer in their order, with the least time.
least() {
    awk '!($1 in time) { order[++n] = $1; time[$1] = $2 }
        { if ($2 < time[$1]) time[$1] = $2; rest[$1] = $3 " " $4 " " $5 }
        END {
            for (i = 1; i <= n; i++) {
                split(rest[order[i]], others)
                printf "%-10s %10s %8s %8s %10s\n", order[i], time[order[i]], others[1], others[2], others[3]
            }
        }'
}

measure() {
    local file=$1 last=${2:-text} budget=${3:-1000000} runs=${4:-3} run
    if [ ! -f "$file" ] || [ ! -r "$file" ]; then
        echo "bench/stages.sh: there is no file $file that can be read" >&2
        exit 2
    fi
    [ -x "$program" ] || build >&2
    # So that what a floor and a hall take is a rise of the process's memory: large vectors go back when they are freed,
    # and aren't used again.
    if [ "$last" = hall ]; then export MALLOC_MMAP_THRESHOLD_=65536; fi
    for ((run = 0; run < runs; run++)); do "$program" "$file" "$last" "$budget"; done | least
}

case ${1:-} in
    '' | -h | --help) sed -n '2,/^set/{/^#/s/^# \{0,1\}//p}' "${BASH_SOURCE[0]}" ;;
    build) build "${2:-}" ;;
    prove) prove "${2:-}" ;;
    *) measure "$@" ;;
esac
