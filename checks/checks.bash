# What the checks share. To be sourced, at the top of the repository.
# shellcheck shell=bash disable=SC2034,SC2154

name=$(basename "$0")

say() {
    echo "$name: $*"
}

fail() {
    echo "$name: $*" >&2
    exit 1
}

# A check's folder `work` is removed when the check ends. A check that passed something over ends with 77, or with 1 if CI=true.
passed_over=
end_check() {
    [ -z "${work-}" ] || rm -rf "$work"
    { [ "$1" = 0 ] && [ -n "$passed_over" ]; } || exit "$1"
    [ "${CI-}" != true ] || exit 1
    exit 77
}
trap 'end_check $?' EXIT

# pass_over WHAT WHY: prints what a check can't do here, and why; the check does the rest. (Not for a subshell, which forgets it.)
pass_over() {
    local line="passed over: $1, since $2"
    [[ $passed_over == *"$line"* ]] || say "$line"
    passed_over+=$line
}

# Runs a command, whose output is printed only if it fails.
quietly() { "$@" >"$work/log" 2>&1 || fail "$* failed: $(tail -n 40 "$work/log")"; }

# has COMMAND WHAT: whether this command is here; without it this is passed over.
has() { command -v "$1" >/dev/null || { pass_over "$2" "$1 isn't here" && return 1; }; }

# The compilers of C and of C++ that are here, into the arrays `in_c` and `in_cxx`.
find_compilers() {
    in_c=(cc) in_cxx=(c++)
    if has clang "what clang says" && has clang++ "what clang says"; then in_c+=(clang) in_cxx+=(clang++); fi
}

# copy_of FOLDER PATH..: the sources at these paths, as they stand, into this folder. What is built meanwhile isn't looked at.
copy_of() {
    local to=$1 file
    shift
    mkdir -p "$to"
    git ls-files -z -co --exclude-standard -- "$@" | while IFS= read -r -d '' file; do
        [ ! -e "$file" ] || printf '%s\0' "$file"
    done | tar --null -T - -cf - | tar -C "$to" -xf -
}

# The program that a check is given, as its only word, into `program`. The check was called in the folder before this.
find_program() {
    [ $# = 1 ] || fail "usage: checks/$name PROGRAM"
    program=$(cd "$OLDPWD" && readlink -m -- "$1")
    { [ -f "$program" ] && [ -x "$program" ]; } || fail "$1 is no program"
}

# Short inputs that are refused, one a row; and those that are accepted, one a block.
rows=program/cases/refused.rows
blocks=program/cases/accepted.blocks

# The inputs of program/, into the array `inputs`, those in the blocks as files of this new folder. Each has a file beside
# it with what it prints, so a file that belongs to no input, or an input to which none belongs, is a slip that would
# leave something untried.
find_inputs() {
    local file
    mkdir "$1"
    awk -v folder="$1" '
        /^(#|$)/ { next }
        /^== / { close(file); file = folder "/" $2; next }
        /^--$/ { close(file); file = file ".stdout"; next }
        { print >file }' "$blocks"
    [ "$(find "$1" -name '*.stdout' | wc -l)" = "$(grep -c '^== ' "$blocks")" ] || fail "$blocks: a name is there twice"
    inputs=()
    for file in "$1"/* program/cases/* program/examples/*; do
        case $file in
        "$rows" | "$blocks") ;;
        *.stdout | *.status)
            [ -f "${file%.*}" ] || fail "$file belongs to no input"
            ;;
        *)
            [ -f "$file.stdout" ] || fail "$file has no $file.stdout"
            inputs+=("$file")
            ;;
        esac
    done
    [ "${#inputs[@]}" -ge 50 ] || fail "only ${#inputs[@]} inputs were found"
}

# An input that is refused, from standard input into this file, with the line that it prints and its status beside it as in
# program/cases; and into the array `inputs`.
add_refused() {
    cat >"$1"
    echo "$2" >"$1.stdout"
    echo 1 >"$1.status"
    inputs+=("$1")
}

# The inputs in the rows, each into a file of this folder that is named by its line; and two that are too large for a row.
spread_rows() {
    local folder=$1 row frame='' line text number=0 count=0
    while IFS= read -r row || [ -n "$row" ]; do
        number=$((number + 1))
        case $row in
        '#'*) ;;
        '') frame='' ;;
        'in  '*@*) frame=${row#in  } ;;
        'refused '*'  '*)
            [ -n "$frame" ] || fail "$rows: line $number stands in no group"
            line=${row%%  *}
            text=${row#"$line"}
            text=${text#"${text%%[! ]*}"}
            add_refused "$folder/refused_rows_line_$number" "$line" < <(printf '%s%s%s' "${frame%%@*}" "$text" "${frame#*@}")
            count=$((count + 1))
            ;;
        *) fail "$rows: line $number is no row" ;;
        esac
    done <"$rows"
    [ "$count" -ge 150 ] || fail "$rows: only $count rows were found"
    add_refused "$folder/one_byte_too_long" 'refused 17 input too long' < <(printf '%1048577s' '')
    add_refused "$folder/schedule_of_too_many_events" 'refused 12 number out of range' < <(
        printf '{"version":1,"kind":"wound-wait","locks":1,"seats":1,"events":['
        printf '["begin",0],%.0s' {1..10000}
        printf '["begin",0]]}'
    )
}

# Of what `spread_rows` made in this folder, the first and the last input with each line that is printed, into the array
# `samples`: what is refused for the same reason early and late. (Not the large schedule, which takes memory 100,000 times.)
find_samples() {
    local input line
    local -A first=() last=()
    while IFS= read -r input; do
        line=$(cat "$input.stdout")
        [ -n "${first[$line]-}" ] || first[$line]=$input
        last[$line]=$input
    done < <(printf '%s\n' "$1"/{one_byte_too_long,refused_rows_line_*}.status | sed 's/\.status$//' | sort -V)
    mapfile -t samples < <(printf '%s\n' "${first[@]}" "${last[@]}" | sort -u)
    [ "${#samples[@]}" -ge 10 ] || fail "only ${#samples[@]} samples of refused inputs were found"
}

# The exit status that a run on this input must have.
status_for() {
    if [ -e "$1.status" ]; then
        cat "$1.status"
    else
        echo 0
    fi
}

# Runs a command under a time limit, which a busy machine doesn't reach, and leaves its exit status in `status`: 124 if it took
# too long.
limit=$((900 * ${WW_TEST_PATIENCE:-1}))
observe() {
    status=0
    timeout "$limit" "$@" || status=$?
}

# The same, with its output into the file `output` of the folder `work`, and its errors into `errors`.
observe_apart() {
    observe "$@" >"$work/output" 2>"$work/errors"
}

# Runs a program on an input, and leaves in `differs` how it ended otherwise than is stored, or nothing: its status, what it
# printed, and that standard error is empty.
try_input() {
    local input=$1
    shift
    differs=''
    observe_apart "$@" <"$input"
    if [ "$status" != "$(status_for "$input")" ]; then
        differs="the status is $status and not $(status_for "$input")"
    elif ! cmp -s "$work/output" "$input.stdout"; then
        differs="standard output is another: $(diff "$input.stdout" "$work/output" | head -n 4 || true)"
    elif [ -s "$work/errors" ]; then
        differs="standard error isn't empty: $(head -c 300 "$work/errors")"
    fi
}

# What must have come of it: the status, the standard output, and words that stand on standard error, or nothing.
checks=0
must_end() {
    local wanted=$1 text=$2 words=$3
    checks=$((checks + 1))
    [ "$status" = "$wanted" ] || fail "the status is $status and not $wanted: $(cat "$work/errors")"
    cmp "$work/output" "$text" >&2 || fail "standard output is another"
    if [ -n "$words" ]; then
        grep -q -F -e "$words" "$work/errors" || fail "'$words' isn't told: $(cat "$work/errors")"
    else
        cmp "$work/errors" /dev/null >&2 || fail "standard error isn't empty: $(cat "$work/errors")"
    fi
}

# ends STATUS TEXT WORDS COMMAND..: runs a command, of which this must have come.
ends() {
    observe_apart "${@:4}"
    must_end "${@:1:3}"
}

# Starts a command in the background, once fewer run than `most`, or than there are processors. How it ended it has to
# leave in a file.
running=0
start() {
    if [ "$running" -ge "${most-$(nproc)}" ]; then
        wait -n || true
        running=$((running - 1))
    fi
    "$@" &
    running=$((running + 1))
}

# Compiles what is to be preloaded before a program into a file.
make_preloaded() { cc -shared -fPIC -O1 -o "$1" checks/preloaded.c || fail "checks/preloaded.c can't be compiled"; }
