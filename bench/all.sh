#!/usr/bin/env bash
# Makes the files of the table and times the layers on each.
#
#   bench/all.sh [NAME..]      the files with these names, or all
#
# The files are kept in the scratch folder of bench/stages.sh, up to 60 MB each, and made once.
set -euo pipefail
here=$(cd "$(dirname "${BASH_SOURCE[0]}")" && pwd)
scratch=${BENCH_SCRATCH:-${TMPDIR:-/tmp}/nrmatch-bench}
mkdir -p "$scratch/files"

# A name, the rounds that the couples may take, and the arguments of bench/market.py.
files() {
    cat <<'END'
four 1000000 --singles 100000 --programs 20000 --couples 0 --list 20 --kept 1 --version 1
eight 1000000 --singles 100000 --programs 20000 --couples 0 --list 40 --kept 1
nrmp 1000000 --singles 42600 --programs 6400 --couples 1200 --list 12 --pairs 80 --quota 8
nrmp_tight 200000 --singles 42600 --programs 6400 --couples 1200 --list 12 --pairs 80 --quota 7
nrmp_ids 1000000 --singles 42600 --programs 6400 --couples 1200 --list 12 --pairs 80 --quota 8 --digits 8
steep1 1 --shape steep --singles 100000 --list 5 --quota 1 --version 1
steep2 1 --shape steep --singles 100000 --list 10 --quota 1 --version 1
steep4 1 --shape steep --singles 100000 --list 20 --quota 1 --version 1
steep_rows 1 --shape steep --singles 100000 --list 40 --quota 2500
one_program 1 --shape steep --singles 100000 --list 1 --quota 9999
one_single 1 --singles 1 --programs 20000 --couples 0 --list 20000 --kept 1
long_lists 1 --singles 200 --programs 20000 --couples 0 --list 20000 --kept 1 --quota 1
no_posts 1 --singles 100000 --programs 20000 --couples 0 --list 20 --kept 1 --quota 0
withdrawn 1 --singles 100000 --programs 20000 --couples 0 --list 20 --kept 1 --withdraw
few_seats 200000 --singles 1000 --programs 20 --couples 10000 --pairs 300 --list 5 --quota 50
couples 200000 --singles 1000 --programs 20000 --couples 10000 --pairs 160 --list 5 --quota 1
cycle1 1000 --shape cycle --singles 25000 --list 18 --version 1
cycle4 200 --shape cycle --singles 95000 --list 18 --version 1
collide1 1 --singles 5000 --programs 100 --couples 0 --list 10 --kept 1 --version 1
collide2 1 --singles 10000 --programs 100 --couples 0 --list 10 --kept 1 --version 1
collide4 1 --singles 20000 --programs 100 --couples 0 --list 10 --kept 1 --version 1
END
}

# The ids of a file with colliding ones: as many as it has singles.
ids() {
    local count=$1
    [ -x "$scratch/collide" ] || cc -O2 -o "$scratch/collide" "$here/../tests/collide.c"
    [ -s "$scratch/files/ids$count" ] || "$scratch/collide" "$count" > "$scratch/files/ids$count"
    echo "$scratch/files/ids$count"
}

make() {
    local name=$1 file=$2
    shift 2
    case $name in collide*) set -- "$@" --names "$(ids "$2")" ;; esac
    python3 "$here/market.py" "$@" > "$file.part"
    mv "$file.part" "$file"
}

for wanted in "$@"; do
    if ! files | cut -d ' ' -f 1 | grep -xF -e "$wanted" > /dev/null; then
        echo "bench/all.sh: there is no file $wanted, but $(files | cut -d ' ' -f 1 | paste -sd ' ')" >&2
        exit 2
    fi
done
files | while read -r name budget words; do
    case " $* " in "  " | *" $name "*) ;; *) continue ;; esac
    file=$scratch/files/$name.csv
    # The words are separate arguments.
    # shellcheck disable=SC2086
    [ -s "$file" ] || make "$name" "$file" $words
    echo "== $name"
    "$here/stages.sh" "$file" hash 1 | tail -n 2
    "$here/stages.sh" "$file" text "$budget"
done
