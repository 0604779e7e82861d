# Counts instructions of one thread by callgrind, for contexts of locks. To be sourced in c/, where `work` is a folder.
# shellcheck shell=bash disable=SC2154

# Compiles what is counted, contexts.cpp, over the library in these files.
make_counted() {
    c++ -std=c++17 -O2 -Iinclude ../bench/contexts.cpp "$@" -pthread -o "$work/contexts"
}

# So many instructions a program takes with these words.
count_of() {
    valgrind --tool=callgrind --callgrind-out-file=/dev/null "$@" 2>&1 | sed -n 's/.*Collected : //p'
}

# Of a class of so many mutexes: a line with the name and the instructions of each way and call of classes.cpp, which is
# compiled over the library in this file.
by_class() {
    local times told=$work/classes.told
    [ -e "$work/classes" ] || c++ -std=c++17 -O2 -Iinclude ../bench/classes.cpp "$2" -pthread -o "$work/classes"
    for times in 20 60; do
        valgrind --tool=callgrind --callgrind-out-file="$told" "$work/classes" "$1" $times >"$work/said" 2>&1
        callgrind_annotate --inclusive=yes --threshold=100 --auto=no "$told" | tr -d , |
            sed -nE 's/\(anonymous namespace\):://g; s/^ *([0-9]+) \([^)]*\) .*:(void )?(context<.*|call_[a-z_]*)\(\).*$/\1 \3/p' |
            sed -E 's/ (in_loop|by_hand)</ \1_</; s/context<(.*)>$/\1/; s/ /;/; s/ /+/g; s/;/ /' | sort -k 2 >"$work/classes.$times"
    done
    join -1 2 -2 2 "$work/classes.20" "$work/classes.60" | awk '{ print $1, int(($3 - $2) / 40) }'
}

# Those of one context of so many locks, in this way.
few=1000
many=3000
of_context() {
    local words=("$work/contexts" "$1" "$2")
    echo $((($(count_of "${words[@]}" $many) - $(count_of "${words[@]}" $few)) / (many - few)))
}

# The same by function, the caller's first: a line with the name and the count of each.
by_function() {
    local times told
    for times in $few $many; do
        told=$work/$times.told
        valgrind --tool=callgrind --callgrind-out-file="$told" "$work/contexts" "$1" "$2" "$times" 2>"$work/said"
        callgrind_annotate --threshold=100 --auto=no "$told" |
            sed -nE 's/^ *([0-9,]+) *(\([^)]*\))?  [^:]*:(.*) \[.*$/\1 \3/p' | tr -d , >"$work/$times.functions"
    done
    awk -v contexts=$((many - few)) '
        {
            name = $2
            if (name ~ /^\(anonymous/ || name ~ /^std::/ || name ~ /^void$/) name = "the caller"
            sign = FILENAME ~ /'$many'.functions$/ ? 1 : -1
            if (!(name in count)) names[++last] = name
            count[name] += sign * $1
        }
        END {
            for (pass = 0; pass < 2; pass++)
                for (at = 1; at <= last; at++) {
                    each = int(count[names[at]] / contexts + 0.5)
                    if (each > 0 && (names[at] == "the caller") == (pass == 0)) print names[at], each
                }
        }' "$work/$many.functions" "$work/$few.functions"
}
