# How the library for C and the program are proved and made over the libraries of the crates below them, which stand in
# crates/NAME/out/rlib, and how their assembly is kept, of which anybody makes them with a C compiler alone. To be sourced
# at the top of the repository, behind tools/crates.bash.
# shellcheck shell=bash disable=SC2034

# The processors for which these are made. The library's assembly is kept for both, and the program's for x86_64: that for aarch64
# would be a seventh of the repository.
processors=(x86_64 aarch64)
kept_for() { [ "$1" = ww_c ] && echo "${processors[@]}" || echo x86_64; }

# Where the assembly of such a crate is kept, and where that of another processor is made; and the command that writes it.
kept_in() { [ "$1" = ww_c ] && echo c/core || echo program/core; }
made_in() { [[ " $(kept_for "$1") " = *" $2 "* ]] && kept_in "$1" || echo out/program; }
written_by() { [ "$1" = ww_c ] && echo './build c --assembly' || echo './build --assembly'; }

# make_assembly CRATE PROCESSOR MADE TEXT [WORD..]: proves the crate, and writes what the compiler makes of it, which is an
# archive of ww_c and an object of ww_run, and its assembly. The words are for rattle besides; what it says is printed.
make_assembly() {
    local it=$1 processor=$2 result=$3 text=$4 top=$PWD status=0 kit made crate library words used below
    shift 4
    kit=$(dirname "$(rt doc)")
    made=$(mktemp -d)
    make_toolchain "$kit/toolchain" "$made/toolchain" "$made/text"
    words=(--extern "std=$kit/rlibs/std.rlib" -L "dependency=$kit/rlibs")
    read -ra used <<<"$(sed -nE "s/#.*//; s/^$it( [^:]*)?://p" crates.txt)"
    for crate in "${used[@]}"; do
        library=$kit/rlibs/$crate.rlib
        [ ! -d "crates/$crate" ] || library=$top/crates/$crate/out/rlib/$crate.rlib
        words+=(--extern "$crate=$library")
    done
    mapfile -t below < <(crates_of "$it" crates.txt | grep -vx "$it")
    for crate in "${below[@]}"; do
        words+=(-L "dependency=$top/crates/$crate/out/rlib")
    done
    # As `rt lib` and `rt run` say it, but for all processors of the kind.
    words+=(--antt-project "$kit/rattle/logic/antt-project.json" --logic-built "$kit/logic_built" --links "$it=")
    words+=(--jobs 2 --toolchain "$made/toolchain" --backend llvm --target "$processor-unknown-linux-gnu")
    [ "$processor" != x86_64 ] || words+=(--cpu x86-64)
    if [ "$it" = ww_c ]; then words+=(--crate-type staticlib src/lib.rt); else words+=(src/main.rt); fi
    mkdir -p "$(dirname "$result")" "$(dirname "$text")"
    rm -f "$result" "$text"
    (cd "crates/$it" && "$kit/bin/rattle" build --crate-name "$it" "${words[@]}" "$@" -o "$made/result") 2>&1 |
        tee "$made/log" || status=$?
    if [ "$status" = 0 ]; then
        assembly_of "$it" "$processor" "$made/log" <"$made/text" >"$text" && mv "$made/result" "$result" || status=$?
    fi
    rm -rf "$made"
    return "$status"
}

# A toolchain like this one, whose clang writes a module that it makes an object of as assembly too.
make_toolchain() {
    local of=$1 made=$2 text=$3 tool
    mkdir -p "$made/bin"
    ln -s "$of/lib" "$made/lib"
    for tool in "$of"/bin/*; do
        [ "${tool##*/}" = clang ] || ln -s "$tool" "$made/bin"
    done
    printf '#!/usr/bin/env bash\nset -euo pipefail\nclang=%q text=%q\n' "$of/bin/clang" "$text" >"$made/bin/clang"
    cat >>"$made/bin/clang" <<'CLANG'
words=() compiles='' before=''
for word; do
    [ "$word" != -c ] || compiles=yes
    [ "$before" != -o ] || word=$text
    [ "$word" = -c ] || words+=("$word")
    before=$word
done
[ -z "$compiles" ] || "$clang" "${words[@]}" -S -fno-addrsig -fno-verbose-asm
exec "$clang" "$@"
CLANG
    chmod +x "$made/bin/clang"
}

# The assembly as it is kept, with a head that says of which sources it is, and by which proof. Of rattle's words on what
# it took from earlier runs there is none in it, since these depend on the machine: the gate proves all from nothing.
assembly_of() {
    local it=$1 processor=$2 log=$3 what='library for C' proof
    [ "$it" = ww_c ] || what=program
    proof=$(sed -n 's/^\(logic=proved .* sum=[0-9a-f]*\) .*/\1/p' "$log" | tail -n 1)
    [ -n "$proof" ] || return 1
    cat <<HEAD
/*
 * The proved $what on $processor, as the kit's compiler (LLVM) makes it.  Written by $(written_by "$it").
 *
 * sources: $(sum_of_sources "$it")
 * kit:     $(rt version)
 * proof:   $proof
 */
HEAD
    sed -E '/^\t\.(file|ident)\t/d' | plain_names
}

# A name in quotes, as "std_alloc::vec::Vec::drop::<#12>", becomes one of letters, digits, dots and underscores, since
# older assemblers take such quotes for less (binutils 2.35 no #). Two names that became one it would refuse.
plain_names() {
    LC_ALL=C sed -E 's/"([^"]*::[^"]*)"/\x01\1\x02/g; :next; s/\x01([A-Za-z0-9_.]*)[^A-Za-z0-9_.\x02]/\x01\1_/; t next; s/[\x01\x02]//g'
}

# A checksum of all that is proved for the crate: the sources of it and of those below it, with their specs and proofs.
sum_of_sources() {
    local crate folder folders=()
    for crate in $(crates_of "$1" crates.txt); do
        for folder in "crates/$crate"/{src,specs,proofs}; do
            [ ! -d "$folder" ] || folders+=("$folder")
        done
    done
    find "${folders[@]}" -type f | LC_ALL=C sort | xargs sha256sum | sha256sum | cut -d' ' -f1
}

# The checksum in the head of this assembly.
sources_of() { sed -n '1,/\*\//s/^ \* sources: //p' "$1"; }
