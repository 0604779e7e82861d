# Where the proved program is, for ./run and ./test. To be sourced.
# shellcheck shell=bash

# find_program TOP: the proved program of the sources that are here, into `program`: the one that `make` built, or that
# ./build made. Else it fails, and `stale` says why.
find_program() {
    local top=$1 made proved
    # shellcheck source=tools/crates.bash
    source "$top/tools/crates.bash" 2>/dev/null || return 1
    # shellcheck source=tools/assembly.bash
    source "$top/tools/assembly.bash" 2>/dev/null || return 1
    program=$top/out/ww_run
    ! is_made || return 0
    made=$stale
    program=$top/crates/ww_run/out/ww_run
    ! is_fresh || return 0
    proved=$stale
    stale="$made, and $proved"
    return 1
}

is_program() { [ -f "$program" ] && [ -s "$program" ] && [ -x "$program" ]; }

# The checksum of the sources that the program of `make` was proved of, which stands beside it, is that of those here.
is_made() {
    local of
    stale="make has built no program"
    is_program || return 1
    stale="that of make is of other sources"
    of=$(cat "$program.sources" 2>/dev/null) && [ -n "$of" ] && [ "$of" = "$(cd "$top" && sum_of_sources ww_run 2>/dev/null)" ]
}

# No source of the crates that the program of ./build depends on is newer than it. A folder is newer once a file in it came
# or went. Where `find` can't look at all of them, nobody knows.
is_fresh() {
    local changed names name sources=("$top/crates.txt" "$top/HANDLES")
    stale="./build has made none"
    is_program || return 1
    stale="it isn't known whether a source is newer than that of ./build"
    names=$(crates_of ww_run "$top/crates.txt" 2>/dev/null) || return 1
    for name in $names; do
        sources+=("$top/crates/$name/src")
        [ ! -d "$top/crates/$name/specs" ] || sources+=("$top/crates/$name/specs")
        [ ! -d "$top/crates/$name/proofs" ] || sources+=("$top/crates/$name/proofs")
    done
    changed=$(find "${sources[@]}" -newer "$program" -print -quit 2>/dev/null) || return 1
    stale="${changed#"$top/"} is newer than that of ./build"
    [ -z "$changed" ]
}
