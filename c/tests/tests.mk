# How the library for C is tested: ../Makefile includes this, so each path is from there. `tests` says what each test is
# about, and `one T=loop` runs the test loop, as T=loop_sanitized does under the sanitizers. `soon` is for each change;
# `check` runs all, under the sanitizers of addresses and undefined behaviour too, `check-thread` under that of threads,
# and `check-plain` what needs neither them nor Python.
#
# Each run of a test is a target, OUT/NAME.ran, which is made anew whenever it is asked for: so `make -j` runs as many at once
# as it may, and with -k a test that fails hides no other. (Scripts of our own would have to do that again; Meson would be a second
# way to build.) What a run says is kept in OUT/NAME.ran.log, and printed if it fails.

# A test stands in the folder of the layer that it guards; those of tests/debug are linked with the debug library.
GUARDS = base admit lock doors whole
vpath %.c $(GUARDS:%=tests/%)
vpath %.cpp $(GUARDS:%=tests/%)
named = $(notdir $(basename $(wildcard $(1))))
# These have a heap of their own or ask what is resident, end in a way of their own, or have the library twice: no sanitizer.
ALONE = refuse refuse_class resident exit memory heap blocks copies beside
TESTS = $(filter-out $(ALONE) closed race,$(call named,$(GUARDS:%=tests/%/*.c)))
DEBUG_TESTS = $(filter-out ignored,$(call named,tests/debug/*.c))
EXAMPLES = $(basename $(wildcard examples/*.c))
IN_CXX = $(call named,$(GUARDS:%=tests/%/*.cpp)) $(patsubst %.cpp,%_cpp,$(wildcard examples/*.cpp))
PLAIN = $(TESTS) $(ALONE) $(DEBUG_TESTS) poll_calls_unoptimized poll_calls_not_inlined $(EXAMPLES) $(IN_CXX)

# What of the library a test wraps (ld --wrap).
WRAPS_drivers = ww_unlock_ pthread_mutex_lock
WRAPS_edges = ww_unlock_
WRAPS_forks = ww_go_on_
WRAPS_leaks = clock_gettime
WRAPS_memory = mmap munmap madvise
WRAPS_naps = ww_go_on_
WRAPS_permits = clock_gettime pthread_mutex_lock syscall
WRAPS_poll_calls = clock_gettime
WRAPS_print = process_vm_readv
WRAPS_processors = sched_getaffinity
WRAPS_queue = pthread_mutex_lock
WRAPS_refuse_class = aligned_alloc calloc free mmap munmap pthread_key_create pthread_key_delete pthread_atfork
WRAPS_steps = ww_go_on_ ww_next_wake_ ww_look_ ww_cancel_ pthread_mutex_lock syscall
WRAPS_table_calls = calloc free malloc mmap munmap
WRAPS_turns = pthread_mutex_lock pthread_mutex_unlock
WRAPS_poll_wakers = syscall pthread_mutex_unlock
WRAPS_warnings = ww_go_on_ clock_gettime

# What runs programs for another processor: for a test that runs itself.
export WW_RUN = $(RUN)

# What programs are called with: how many calls, transactions, loops, threads, or seconds.
WORDS_abuse_sanitized = 500000
WORDS_number_storm_sanitized = 4000
WORDS_number_storm_threads = 1000
WORDS_numbers_threads = 1000
WORDS_storm_sanitized = 3000
WORDS_storm_threads = 1000
WORDS_shared_storm_sanitized = 3000
WORDS_shared_storm_threads = 1000
WORDS_shared_storm_shaken = 1000
WORDS_many_sanitized = 1000 5
WORDS_many_threads = 200 5
WORDS_many_unseen = 200 5
WORDS_many_shaken = 100 5
WORDS_torture_shaken = 400
WORDS_moves_threads = 21
WORDS_moves_shaken = 100
WORDS_drawn_calls_debug = 3
WORDS_drawn_calls_threads = 3
WORDS_table_model_threads = 40
WORDS_table_any_sanitized = 4000
WORDS_table_any_threads = 1000
WORDS_crowd_threads = 1000
WORDS_copies = $(abspath $(OUT)/closable.so $(OUT)/libww.so)
WORDS_closed = $(abspath $(OUT))/closable.so 1500

# What a run has to show besides that it ends with 0. The debug library tells a program that isn't compiled for it so once, and says
# nothing of where it acquired a mutex. It reports each line that is wrong, and no other, and how to name calls only if none has a
# name. The thread sanitizer finds race.c wrong.
ASKS_examples/demo = && grep -qE '^pthread_mutex: deadlocked after [0-9]+ transfers$$' $(LOG) && \
	grep -qE '^ww_mutex: 400000 transfers, [1-9][0-9]* deadlocks avoided$$' $(LOG)
# A program that doesn't call it has nothing of print.c.
ASKS_examples/first = && ! $(NM) $(OUT)/examples/first | grep ww_class_print
ASKS_closed = && $(LIMITED) $(OUT)/closed $(abspath $(OUT))/libww.so 1500
ASKS_many_unseen = >/dev/null && test "$$(grep -v '\[0x\|\[link' $(LOG) | grep -c .)" = 1 && grep -q 'compiled with -DWW_DEBUG' $(LOG)
ASKS_line = && ! grep -q '^\[link' $(LOG) && sed -n 's/^.*line.cpp:\([0-9]*\): .*/\1/p' $(LOG) | uniq >$@.told && \
	grep -n 'wrong$$' tests/debug/line.cpp | sed 's/:.*//' | cmp - $@.told
ASKS_race_threads = ; test $$? -eq 66 && grep -q 'data race .* in work' $(LOG)

# The only limit of time of a test, which a busy machine doesn't reach. WW_TEST_PATIENCE multiplies it. It ends what a test began, too.
LIMITED = timeout -k 9 $$((900 * $${WW_TEST_PATIENCE:-1}))
LOG = $(OUT)/$(@:$(OUT)/%=%).log
# Runs a command, and keeps what it says in LOG. If the command fails, that is printed, without a search's lines on programs that pass.
NAME = $(@:$(OUT)/%.ran=%)
told = @mkdir -p $(dir $(LOG)); { $(1); } >$(LOG) 2>&1 || { echo "FAILED ($$?): $(NAME)"; grep -vE ' ok. (bound|whole)' $(LOG) | tail -n 60; exit 1; } >&2; \
	grep '^passed over' $(LOG); echo $(NAME)
runs = $(1:%=$(OUT)/%.ran)
# What can't be done here is passed over with a word, and fails for CI; and so is what this command is needed for, if it isn't here.
pass_over = echo "passed over: $(1), since $(2)"; test "$$CI" != true
without = $(if $(shell command -v $(1)),,@$(call pass_over,$(2),$(1) isn't here))

# By these flags, of what is needed but headers.
NEEDED = $(filter-out %.h %.hpp,$^) $(LDFLAGS) $(WRAPS_$(*F):%=-Wl,--wrap=%) -pthread -o $@
define compiled
	@mkdir -p $(@D)
	$(CC) $(AS_C) $(1) $(NEEDED)
endef
define compiled_cxx
	@mkdir -p $(@D)
	$(CXX) $(AS_CXX) $(1) $(NEEDED)
endef
TESTED = $(wildcard tests/*.h) $(WITHIN)
# Optimized less, and with the names of functions and the lines alone, a test shows these sanitizers no less, and is compiled in half of
# the time. (By -O0 the headers compile no call into its caller.)
FLAGS_sanitized = -O1 -g1 -fsanitize=address,undefined -fno-sanitize-recover=all
FLAGS_debug_sanitized = $(FLAGS_sanitized) -DWW_DEBUG
FLAGS_threads = -O1 -g1 -fsanitize=thread
FLAGS_shaken = -include tests/shake.h
define objects
$(OUT)/%_$(1).o: %.c tests/shake.h $(WITHIN)
	@mkdir -p $$(@D)
	$$(CC) $$(AS_C) $(FLAGS_$(1)) -c $$< -o $$@
endef
$(foreach it,sanitized debug_sanitized threads shaken,$(eval $(call objects,$(it))))
made_for = $(SOURCES:%.c=$(OUT)/%_$(1).o) $(OUT)/ww_proved.o

$(OUT)/%: tests/debug/%.c $(TESTED) $(OUT)/libww_debug.a
	$(call compiled,$(DEBUG_FLAGS))
$(OUT)/%: %.c $(TESTED) $(OUT)/libww.a
	$(call compiled)
$(OUT)/%_debug: %.c $(TESTED) $(OUT)/libww_debug.a
	$(call compiled,$(DEBUG_FLAGS))
$(OUT)/%_sanitized: tests/debug/%.c $(TESTED) $(DEBUGGED:%.c=$(OUT)/%_debug_sanitized.o) $(OUT)/ww_proved.o
	$(call compiled,$(FLAGS_debug_sanitized))
$(OUT)/%_sanitized: %.c $(TESTED) $(call made_for,sanitized)
	$(call compiled,$(FLAGS_sanitized))
$(OUT)/%_threads: %.c $(TESTED) $(call made_for,threads)
	$(call compiled,$(FLAGS_threads))
$(OUT)/%_shaken: %.c $(TESTED) tests/shake.c $(call made_for,shaken)
	$(call compiled,$(FLAGS_shaken))
$(OUT)/%: tests/debug/%.cpp $(IN_CXX_HEADERS) $(TESTED) $(OUT)/libww_debug.a
	$(call compiled_cxx,-DWW_DEBUG)
$(OUT)/%: %.cpp $(IN_CXX_HEADERS) $(TESTED) $(OUT)/libww.a
	$(call compiled_cxx)
$(OUT)/%_cpp: %.cpp $(IN_CXX_HEADERS) $(TESTED) $(OUT)/libww.a
	$(call compiled_cxx)
$(OUT)/%_sanitized: %.cpp $(IN_CXX_HEADERS) $(TESTED) $(call made_for,sanitized)
	$(call compiled_cxx,$(FLAGS_sanitized))
$(OUT)/%_threads: %.cpp $(IN_CXX_HEADERS) $(TESTED) $(call made_for,threads)
	$(call compiled_cxx,$(FLAGS_threads))

# As code of the kernel.
$(OUT)/examples/port $(OUT)/examples/port_threads: AS_C += -Iinclude/ww_kernel
# Over heaps of their own: of the proved library alone, and of all.
$(OUT)/refuse: $(OUT)/%: tests/base/%.c $(TESTED) $(PROVED)
	$(call compiled)
$(OUT)/refuse_class: $(OUT)/%: tests/admit/%.c $(TESTED) $(OBJECTS) $(PROVED)
	$(call compiled)
$(OUT)/heap.so: tests/base/heap.c
	$(call compiled,-fno-builtin -fPIC -shared -DHEAP)
# Where no call is compiled into its callers.
$(OUT)/poll_calls_unoptimized: BY_CALLS = -O0
$(OUT)/poll_calls_not_inlined: BY_CALLS = -DWW_NO_INLINE
$(OUT)/poll_calls_unoptimized $(OUT)/poll_calls_not_inlined: tests/doors/poll_calls.c $(TESTED) $(OUT)/libww.a
	$(call compiled,$(BY_CALLS) $(WRAPS_poll_calls:%=-Wl,--wrap=%))
# The calls of this program have names in a backtrace.
$(OUT)/line: LDFLAGS += -rdynamic
# Over the debug library, but not compiled for it.
$(OUT)/many_unseen: tests/whole/many.c $(TESTED) $(OUT)/libww_debug.a
	$(call compiled)
# A library that a program closes, as it is and as part of one that isn't kept then.
$(OUT)/closable.so: tests/admit/closed.c $(TESTED) $(OUT)/ww_proved.o $(SOURCES:%.c=$(OUT)/seen/%.o)
	$(CC) $(AS_C) -DCLOSABLE -fPIC -shared $< $(LDFLAGS) $(filter %.o,$^) -pthread -o $@
# A library that needs libww.so, and a program that uses that library, with an own copy.
$(OUT)/beside.so: tests/admit/beside.c $(TESTED) $(OUT)/libww.so
	$(CC) $(AS_C) -DLIBRARY -fPIC -shared $< $(LDFLAGS) -L$(OUT) -lww -Wl,-rpath,$(abspath $(OUT)) -pthread -o $@
$(OUT)/beside: tests/admit/beside.c $(TESTED) $(OUT)/beside.so $(OUT)/libww.a
	$(call compiled) -Wl,-rpath,$(abspath $(OUT))
$(OUT)/closed $(OUT)/copies: $(OUT)/%: tests/admit/%.c $(TESTED) | $(OUT)/closable.so $(OUT)/libww.so
	$(call compiled) -ldl

# What each test is about, by the first line of its head.
tests:
	@for folder in $(GUARDS) debug search kernel; do \
		echo "$$folder" && for it in tests/$$folder/*.*; do case $$it in *.c | *.cpp | *.py) \
			printf '  %-20s %s\n' "$${it##*/}" \
				"$$(sed -n -E '/^(\/\*|\/\/|"""| \*)? *[A-Za-z]/ { s/^(\/\*|\/\/|"""| \*) *([a-z]+\.c - )?//; s/ *\*\/$$|"""$$//; p; q }' $$it)" ;; \
		esac; done; \
	done

# The thread sanitizer doesn't know what orders the accesses of abuse.c and wide.c, which call the proved library by themselves; and
# the plain mutexes of the example demo deadlock on purpose.
export TSAN_OPTIONS = suppressions=tests/library.supp
one: $(OUT)/$(T)
	$(RUN) $(OUT)/$(T) $(WORDS_$(T))

# All that needs no sanitizer and no Python: without those in C++ where its compiler isn't here. Of another processor's programs only those
# in C, each compiled in one way: C++, and other ways to compile a test, make the same calls of what differs there.
HERE = $(filter-out $(if $(shell command -v $(CXX)),,$(IN_CXX)) $(if $(CROSS),$(IN_CXX) poll_calls_%),$(PLAIN))
SANITIZED = $(patsubst %,%_sanitized,$(TESTS) $(DEBUG_TESTS) examples/paths examples/mesh)
THREADED = $(patsubst %,%_threads,$(filter-out abuse wide $(ONE_THREAD),$(TESTS)) hpp tables $(filter-out $(patsubst %,examples/%,port asleep demo),$(EXAMPLES)) examples/mesh race)
# Where one thread does all no two can race.
ONE_THREAD := $(notdir $(basename $(shell grep -LE 'pthread_create|in_threads|begin_thread|\<fork\>' /dev/null $(wildcard $(GUARDS:%=tests/%/*.c)))))
# Storms whose atomic accesses come behind drawn pauses (tests/shake.h); and what the debug library tells of each wrong argument, of
# mutexes by their numbers, of tasks and of readers, and of drawn calls.
SHAKEN = $(patsubst %,%_shaken,any seats torture pool many moves shared_storm)
TOLD = $(patsubst %,%_debug,number_calls poll_calls shared_calls wrong_arguments drawn_calls) many_unseen line
# A model of who waits for a context, which reaches no state in which one is forgotten; and Python's objects and tasks.
IN_PYTHON = $(patsubst %,%.py,tests/admit/seats_model $(patsubst %,tests/whole/%,mutexes interrupts keys locks nulls tasks wrong_cpp typed) examples/objects examples/trips examples/retries)
# In half a minute: the tests of calls and of the tables at the heads of sources, and the search without a preemption.
SOON = limiter permits calls ends ages loop steps number_calls poll_calls shared_calls shared_slots drivers wrong_arguments misuse

# By an emulator, which is as slow, as often as under the thread sanitizer.
words_of = $(or $(if $(CROSS),$(WORDS_$(1)_threads)),$(WORDS_$(1)))
RUNS = $(call runs,$(PLAIN) $(SANITIZED) $(THREADED) $(SHAKEN) $(TOLD) closed)
$(RUNS): $(OUT)/%.ran: $(OUT)/%
	$(call told,$(LIMITED) $(RUN) $< $(call words_of,$*) $(ASKS_$*))
$(call runs,$(IN_PYTHON)): $(OUT)/%.ran: % $(OUT)/libww.so $(OUT)/libww_debug.so
	$(call told,$(LIMITED) python3 $< $(OUT)/libww.so)
# Over a heap of its own.
ifeq ($(CROSS),)
$(OUT)/heap.ran: $(OUT)/heap.so
$(OUT)/heap.ran: override RUN = env LD_PRELOAD=$(abspath $(OUT))/heap.so
endif

check: check-interleave check-interleave-debug check-python check-tables check-picture check-objects
check: $(call runs,$(SANITIZED) $(SHAKEN) $(TOLD) closed)
check check-plain: $(if $(CROSS),,all) $(call runs,$(HERE))
	$(call without,$(CXX),the tests in C++)
soon: BOUND = -b 0
soon: check-tables check-interleave $(call runs,$(SOON))
RUNS_THREADED = $(shell mkdir -p $(OUT) && echo 'int main(void) { return 0; }' | $(CC) -fsanitize=thread -x c - -o $(OUT)/empty 2>/dev/null && $(OUT)/empty && echo yes)
check-thread: $(if $(filter check-thread,$(MAKECMDGOALS)),$(if $(RUNS_THREADED),$(call runs,$(THREADED))))
	@$(if $^,true,$(call pass_over,the tests by threads,the thread sanitizer doesn't run))
list-plain:
	@printf '%s\n' $(HERE)
check-python: $(if $(shell command -v python3),$(call runs,$(IN_PYTHON)))
	$(call without,python3,what is written in Python)

# The memory orders of the sources, and what threads share, are those of tables, and enough for what they order; each
# mutant can still be made; each source needs only what comes before it; and the steps are told as they are proved. (The gate makes these
# two by themselves.)
check-tables:
	$(or $(call without,python3,the tables),$(call told,for it in tests/memory_order.py 'tests/search/kills -a $(BASE:%=--changed %)' \
		$(if $(WW_GATE),,$(wildcard ../checks/check_layers ../checks/check_prototypes)); do $(LIMITED) python3 $$it || exit 1; done))

# What the debug library tells of who waits, as a picture: with its threads numbered as they come, and without the numbers of lines.
NUMBERED = awk '{ gsub(/[.]c:[0-9]+/, ".c"); gsub(/waits [0-9.]+ s/, "waits"); said = ""; \
	while (match($$0, /thread [0-9]+/)) { it = substr($$0, RSTART, RLENGTH); if (!(it in of)) of[it] = "thread " ++n; \
		said = said substr($$0, 1, RSTART - 1) of[it]; $$0 = substr($$0, RSTART + RLENGTH) } print said $$0 }'
check-picture: $(OUT)/misuse
	$(if $(wildcard ../tools/picture),$(call told,$(LIMITED) $(OUT)/misuse waits 2>/dev/null | $(NUMBERED) | ../tools/picture | cmp - tests/debug/waits.text && \
		../tools/picture <tests/debug/deadlock.said | cmp - tests/debug/deadlock.text))

# The compiler has left in what only fetches ahead. The libraries wait by futexes, and by no call at which a thread ends that
# pthread_cancel told to. And where SystemTap's header is here, the probes are there.
ENDS_THREADS = nanosleep|clock_nanosleep|usleep|sleep|pause|poll|ppoll|select|pselect|sem_wait|sem_timedwait|pthread_cond_wait|pthread_cond_timedwait
PROBES = contention_begin contention_end back_off wake context_wait context_wait_end permit_wait permit_wait_end
check-objects: $(OBJECTS) $(DEBUG_OBJECTS) $(OUT)/libww.so
	$(OBJCOPY:%objcopy=%objdump) -d $(OUT)/lock/list.o | grep -qE 'prefetch|prfm'
	! nm -u $(filter %.o,$^) | grep -E '^ *[Uw] ($(ENDS_THREADS))$$'
	@if echo '#include <sys/sdt.h>' | $(CC) $(AS_C) -E -x c - >/dev/null 2>&1; then \
		for it in $(PROBES); do readelf -n $(OUT)/libww.so | grep -q "Name: $$it$$" || { echo "no probe: $$it"; exit 1; }; done; \
	else $(call pass_over,the library's probes,sys/sdt.h isn't here); fi

# ---- every schedule of small programs: tests/search ----

# The search takes gcc's calls of the thread sanitizer, and switches threads as x86_64 does.
SEARCHES := $(if $(CROSS),,$(if $(filter x86_64,$(PROCESSOR)),$(shell $(CC) -dM -E -x c /dev/null | grep -q __clang__ || echo yes)))
SEARCH = $(OUT)/interleave
SEARCH_FLAGS = -std=c11 -O1 -g $(WARNINGS) $(CPPFLAGS) -DWW_PATIENCE=0 -DWW_LARGE=1 -DWW_FEW=2 -DWW_AWAKE=0 -DWW_LOOKS=il_looks -DWW_MARK_LOOKS=il_looks -DWW_BITS=il_bits -DWW_BUCKETS=1 \
	-Iinclude -I. -Itests/search -D_GNU_SOURCE= -include interleave.h
SEARCH_OBJECTS = $(SOURCES:%.c=$(SEARCH)/%.o) $(SEARCH)/programs.o
SEARCH_DEBUG_OBJECTS = $(DEBUGGED:%.c=$(SEARCH)/debug/%.o) $(SEARCH)/debug/programs.o
# The programs of shared mutexes, those of tables, and those of the library's other calls.
SEARCH_SHARED_OBJECTS = $(SEARCH_OBJECTS:%/programs.o=%/shared.o)
SEARCH_TABLE_OBJECTS = $(SEARCH_OBJECTS:%/programs.o=%/table.o)
SEARCH_HEADERS = tests/search/interleave.h tests/search/made.h $(WITHIN)
STEPS = lock_ lock_slow_ try_ unlock_ go_on_ look_ is_wounded_ cancel_ heed_ begin_ end_ is_free_ has_ next_wake_ open_seat_ close_
SEARCH_WRAPS = malloc calloc aligned_alloc free abort syscall sched_yield clock_gettime pthread_mutex_lock \
	pthread_mutex_trylock pthread_mutex_unlock pthread_key_create pthread_key_delete pthread_setspecific pthread_atfork \
	backtrace backtrace_symbols_fd getrusage ww_await_guard $(STEPS:%=ww_%)

# By the preprocessor as in any other build; and each run begins with their data as it is at first.
define SEARCHED
	@mkdir -p $(@D)
	$(CC) $(SEARCH_FLAGS) -E $< -o $(@:.o=.i)
	$(if $(EACH),sed -i -E '$(EACH)' $(@:.o=.i))
	$(CC) $(SEARCH_FLAGS) -fsanitize=thread -c $(@:.o=.i) -o $@
	$(OBJCOPY) --rename-section .data=il_data --rename-section .bss=il_data,alloc,load,contents,data $@
endef
$(SEARCH)/%.o: tests/search/%.c $(SEARCH_HEADERS)
	$(SEARCHED)
$(SEARCH)/debug/%.o: tests/search/%.c $(SEARCH_HEADERS)
	$(SEARCHED)
$(SEARCH)/%.o: %.c $(SEARCH_HEADERS)
	$(SEARCHED)
$(SEARCH)/debug/%.o: %.c $(SEARCH_HEADERS)
	$(SEARCHED)
$(SEARCH)/base/sleep.o $(SEARCH)/debug/base/sleep.o: EACH = s/__builtin_ia32_pause\(\)/il_pause()/
$(foreach it,doors/shared admit/class base/process,$(SEARCH)/$(it).o $(SEARCH)/debug/$(it).o): EACH = s/\<(mmap|munmap) ?\(/il_\1(/
$(SEARCH_DEBUG_OBJECTS): SEARCH_FLAGS += -DWW_DEBUG
# Each atomic access there stands between two empty pieces of inline assembly.
$(SEARCH)/core.o: core/$(PROCESSOR).s
	@mkdir -p $(@D)
	awk '/\#APP/ && ++n % 2 { print "leaq -128(%rsp), %rsp\n call il_inside_\n leaq 128(%rsp), %rsp" } { print }' $< | \
		$(CC) -x assembler -c - -o $@
SEARCH_OWN = $(patsubst %,$(SEARCH)/%.o,interleave hooks whole moves seats readers)
$(SEARCH_OWN): $(SEARCH)/%.o: tests/search/%.c tests/search/inside.h $(SEARCH_HEADERS)
	@mkdir -p $(@D)
	$(CC) $(SEARCH_FLAGS) -O2 -mpopcnt -c $< -o $@
# What the library calls of the runtime comes by a stub for each (entry.S), under the name by which the library knows it.
ENTERED = __tsan_(atomic|read|write)\w+|__wrap_\w+|il_(new|gone|await|set|yield|pause|late|position|reads|reads_no_more|writes|hall|mmap|munmap)
$(SEARCH)/stubs.o: $(SEARCH)/runtime.o tests/search/entry.S
	@mkdir -p $(@D)
	{ cat tests/search/entry.S && echo .text && $(NM) $< | sed -nE 's/.* T by_stub_//p' | sort -u | \
		awk '{ print ".globl " $$0 "\n" $$0 ": leaq by_stub_" $$0 "(%rip), %r11\n jmp il_enter" (/__tsan_[rw]/ ? "_plain" : "") }'; } | $(CC) -x assembler -c - -o $@
$(SEARCH)/runtime.o: $(SEARCH_OWN)
	$(CC) -r -nostdlib $^ -o $@.all
	$(NM) $@.all | sed -nE 's/.* T ($(ENTERED))$$/\1 by_stub_\1/p' | sort -u > $@.stubs
	$(OBJCOPY) --redefine-syms=$@.stubs $@.all $@
$(SEARCH)/interleave: $(SEARCH_OBJECTS)
$(SEARCH)/interleave_debug: $(SEARCH_DEBUG_OBJECTS)
$(SEARCH)/interleave_shared: $(SEARCH_SHARED_OBJECTS)
$(SEARCH)/interleave_table: $(SEARCH_TABLE_OBJECTS)
$(SEARCH)/interleave $(SEARCH)/interleave_shared $(SEARCH)/interleave_table $(SEARCH)/interleave_debug: $(SEARCH)/runtime.o $(SEARCH)/stubs.o core/heap.c $(SEARCH)/core.o
	$(CC) $(SEARCH_FLAGS) -no-pie $^ $(SEARCH_WRAPS:%=-Wl,--wrap=%) -pthread -o $@

# Whether they find what is wrong: edits of the sources, each of which has to be found. It takes some minutes.
check-mutants:
	python3 tests/search/kills

# Each search goes in parts, which make may run side by side. Of its time that of the processor is counted. What the debug library
# tells of right calls is of no interest here; its programs are searched at a bound below their own, and at bound 1 with WHOLE.
PARTS = 1 2 3 4
searches = $(foreach it,$(1),$(PARTS:%=$(SEARCH)/$(it).%.ran))
ALL_SEARCHES = $(call searches,interleave interleave_shared interleave_table interleave_debug)
.SECONDEXPANSION:
$(ALL_SEARCHES): $$(basename $$(basename $$@))
	$(call told,ulimit -t 900 && $< $(BOUND) -p $(patsubst .%,%,$(suffix $(basename $@)))/$(words $(PARTS)) $(STRAY))
	@tail -n 1 $(LOG)
check-interleave: $(if $(SEARCHES),$(call searches,interleave interleave_shared interleave_table))
	@$(if $(SEARCHES)$(CROSS),true,$(call pass_over,the search of schedules,it takes gcc on x86_64))
check-interleave-debug: BOUND = $(if $(WHOLE),-b 1,-u)
check-interleave-debug: STRAY = 2>/dev/null
check-interleave-debug: $(if $(SEARCHES),$(call searches,interleave_debug))
# Whether some program of the search runs each function that is public or has an atomic access.
check: check-reached
check-reached: $(if $(SEARCHES),$(SEARCH)/interleave $(SEARCH)/interleave_shared $(SEARCH)/interleave_table)
	$(if $(SEARCHES),$(or $(call without,gdb,which functions the search reaches),$(call told,$(LIMITED) python3 tests/search/reached $^)))
# As a failure says: make -C c replay-interleave_shared IT='-f FLAGS -s SCHEDULE PROGRAM'
replay-%: $(SEARCH)/%
	$< $(IT)

.PHONY: check check-interleave check-interleave-debug check-mutants check-objects check-picture check-plain check-python check-reached \
	check-tables check-thread list-plain one soon tests $(RUNS) $(call runs,$(IN_PYTHON)) $(ALL_SEARCHES)
