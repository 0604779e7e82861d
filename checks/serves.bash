# The programs by which checks see that a library serves those who installed or unpacked it. To be sourced after checks.bash, at
# the top of the tree, with the folder `work`.
# shellcheck shell=bash disable=SC2154

# Nothing of the kit, and nothing that the environment says.
bare=(env -i PATH=/usr/bin:/bin "HOME=$work" PYTHONDONTWRITEBYTECODE=1)

cat >"$work/one.c" <<'END'
#include <ww_number.h>

static DEFINE_WW_CLASS(boxes);

int main(void)
{
	struct ww_mutex box;
	struct ww_acquire_ctx ctx;
	uint32_t number;
	int r = ww_number_take(&number, &boxes);

	ww_mutex_init(&box, &boxes);
	ww_acquire_init(&ctx, &boxes);
	r = r || ww_mutex_lock(&box, &ctx) || ww_number_lock(number, &ctx) || ww_number_unlock(number, &ctx);
	ww_mutex_unlock(&box);
	ww_acquire_fini(&ctx);
	return r || ww_number_put(number, &boxes) || ww_mutex_destroy(&box) || ww_class_free(&boxes);
}
END
cat >"$work/one.cpp" <<'END'
#include <ww_mutex.hpp>

int main()
{
	ww::mutex_class boxes(ww::mutex_class::wait_die);
	ww::mutex one(boxes), other(boxes);
	ww::context context(boxes);
	ww::mutex *list[] = { &other, &one };
	unsigned held = 0;
	const auto r = context.with_all(list, [&] { held = context.held(); });
	return !r || held != 2;
}
END
cat >"$work/wrong.c" <<'END'
#include <ww_mutex.h>

static DEFINE_WW_CLASS(boxes);

int main(void)
{
	struct ww_mutex box;

	ww_mutex_init(&box, &boxes);
	ww_mutex_destroy(&box);
	ww_mutex_destroy(&box);
	return ww_debug_faults() != 1;
}
END
cat >"$work/one.py" <<'END'
import ww

boxes = ww.Class()
with ww.Mutex(boxes) as one, boxes.context() as context:
    context.lock(ww.Mutex(boxes), timeout=1)
    assert one.locked()
END
mkdir "$work/cmake"
cat >"$work/cmake/CMakeLists.txt" <<'END'
cmake_minimum_required(VERSION 3.13)
project(user C CXX)
set(CMAKE_CXX_STANDARD 17)
find_package(ww REQUIRED)
foreach(kind ww ww_static)
  add_executable(c_${kind} ../one.c)
  target_link_libraries(c_${kind} PRIVATE ww::${kind})
  add_executable(cpp_${kind} ../one.cpp)
  target_link_libraries(cpp_${kind} PRIVATE ww::${kind})
endforeach()
foreach(kind ww_debug ww_debug_static)
  add_executable(${kind} ../wrong.c)
  target_link_libraries(${kind} PRIVATE ww::${kind})
endforeach()
find_package(ww 99 QUIET)
if(ww_FOUND)
  message(FATAL_ERROR "it takes this version for 99")
endif()
END

# serves PREFIX LIB PYTHON [WORD..]: programs of each kind use what is there, with these words of the environment.
serves() {
    local prefix=$1 lib=$2 python=$3 file
    shift 3
    local with=("${bare[@]}" "PKG_CONFIG_PATH=$lib/pkgconfig" "CMAKE_PREFIX_PATH=$prefix" "$@")
    local runs=("${bare[@]}" "LD_LIBRARY_PATH=$lib")
    quietly "${bare[@]}" cc -std=c11 "-I$prefix/include" "$work/one.c" "$lib/libww.a" -pthread -o "$work/by_hand"
    quietly "$work/by_hand"
    # A correct program under the thread sanitizer, with what is installed alone.
    if echo 'int main(void) { return 0; }' | cc -fsanitize=thread -x c - -o "$work/empty" && "$work/empty" 2>/dev/null; then
        quietly "${bare[@]}" cc -std=c11 -fsanitize=thread "-I$prefix/include" c/examples/transfers.c "$prefix"/share/ww/*/*.c \
            "$lib/libww.a" -pthread -o "$work/threads"
        quietly env "TSAN_OPTIONS=suppressions='$prefix/share/ww/library.supp'" "$work/threads"
    else
        pass_over "what the thread sanitizer sees of an installed library" "it doesn't run here"
    fi
    # The words are quoted for a shell where a path has blanks.
    if has pkg-config "what pkg-config tells"; then
        quietly "${with[@]}" sh -c "eval cc -std=c11 '$work/one.c' \$(pkg-config --cflags --libs ww) -o '$work/in_c'"
        quietly "${with[@]}" sh -c "eval cc -std=c11 -static '$work/one.c' \$(pkg-config --static --cflags --libs ww) -o '$work/static'"
        quietly "${with[@]}" sh -c "eval c++ -std=c++17 '$work/one.cpp' \$(pkg-config --cflags --libs ww) -o '$work/in_cpp'"
        quietly "${with[@]}" sh -c "eval cc -g '$work/wrong.c' \$(pkg-config --cflags --libs ww_debug) -o '$work/wrong'"
        quietly "$work/static"
        quietly "${runs[@]}" "$work/in_c"
        quietly "${runs[@]}" "$work/in_cpp"
        quietly "${runs[@]}" WW_LOCK_STAT=1 "$work/wrong"
        grep -q 'wrong.c:11: ww_mutex_destroy: ' "$work/log" || fail "the debug library doesn't tell the line: $(cat "$work/log")"
        grep -qxF "$(grep ' waits .* at the line, ' c/MISUSE.md)" "$work/log" || fail "WW_LOCK_STAT writes no table: $(cat "$work/log")"
    fi
    if has cmake "what CMake builds"; then
        rm -rf "$work/built"
        quietly "${with[@]}" cmake -S "$work/cmake" -B "$work/built"
        quietly "${with[@]}" cmake --build "$work/built"
        for file in c_ww c_ww_static cpp_ww cpp_ww_static ww_debug ww_debug_static; do
            quietly "${bare[@]}" "$work/built/$file"
        done
    fi
    quietly "${runs[@]}" "PYTHONPATH=$python" python3 "$work/one.py"
}
