# Which crates a crate depends on. To be sourced.
# shellcheck shell=bash

# Prints this crate and all that it depends on, one a line, each behind those that it depends on: the order in which
# rt proves them. The second word is the crates.txt to read; the libraries of the kit aren't in it. It fails where that
# can't be read, or doesn't name the crate.
crates_of() {
    local -A uses=() is_told=()
    local line
    while IFS= read -r line || [ -n "$line" ]; do
        line=${line%%#*}
        # A crate's name may have words of its own behind it, before the colon.
        [[ $line =~ ^[[:space:]]*([^[:space:]:]+)[^:]*:?(.*)$ ]] || continue
        uses[${BASH_REMATCH[1]}]=${BASH_REMATCH[2]//,/ }
    done <"$2" || return 1
    [ -n "${uses[$1]+named}" ] || return 1
    tell_crate "$1"
}

# The part of `crates_of` for one crate: those that it depends on, and then it, but for those that were told before.
tell_crate() {
    local used
    [ -n "${uses[$1]+named}" ] && [ -z "${is_told[$1]-}" ] || return 0
    is_told[$1]=yes
    # The names stand with spaces between them.
    # shellcheck disable=SC2086
    for used in ${uses[$1]}; do
        tell_crate "$used"
    done
    echo "$1"
}
