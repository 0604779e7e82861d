# make: the program ww_run and the library for C, of the proved assembly in program/core and c/core, in seconds, with
# a C compiler alone (gcc or clang). The program stands at out/ww_run, where ./run finds it, and the library in c/out.
#
# make demo: two threads that lock two mutexes in opposite orders, with plain mutexes and with this library.
#
# make check: what was made gives what is stored for each input of program/, with its exit status, and passes
# each test and example in C and C++ that needs no sanitizer, or with FEW=--few some of them.  make install: the
# program, the library, the pages, below PREFIX (and DESTDIR).  make clean: what was made goes.
#
# ./build proves these again, and writes the assembly anew; it needs the Rattle toolchain. CC, CXX, CPPFLAGS, CFLAGS, CXXFLAGS and
# LDFLAGS are those of whoever builds. For another processor than this one: CROSS=aarch64-linux-gnu-, and what runs its
# programs here, RUN='qemu-aarch64 -L /usr/aarch64-linux-gnu'.
CFLAGS ?= -O2
CROSS =
RUN =
ifneq ($(CROSS),)
CC := $(CROSS)gcc
endif
PROCESSOR := $(firstword $(subst -, ,$(shell $(CC) -dumpmachine)))
OUT = out$(if $(CROSS),/$(PROCESSOR))
PROGRAM = $(OUT)/ww_run
ASSEMBLY = program/core/$(PROCESSOR).s
AS_C = -std=c11 -Wall -Wextra -Wpedantic -Ic/include $(CPPFLAGS) $(CFLAGS)
PREFIX = /usr/local
$(if $(word 2,$(PREFIX))$(word 2,$(DESTDIR)),$(error a PREFIX or DESTDIR with a space is refused: make would take it for two))
MANDIR = $(PREFIX)/share/man
DOCDIR = $(PREFIX)/share/doc/ww
TOOLS = explain json picture slow top trace
TOOLSDIR = $(PREFIX)/share/ww/tools
MAKES_C = $(MAKE) --no-print-directory -C c CROSS='$(CROSS)' RUN='$(RUN)' PREFIX='$(abspath $(PREFIX))'

# The program's assembly is kept for x86_64. ./build --assembly aarch64 makes that for AArch64: ASSEMBLY=out/program/aarch64.s.
MADE = $(if $(wildcard $(ASSEMBLY)),$(PROGRAM),no-program) library
all: $(MADE)
	@echo 'made: c/$(OUT)/libww.a and libww.so, libww_debug.a and libww_debug.so$(if $(wildcard $(ASSEMBLY)),; $(PROGRAM)). Next: make demo'

no-program:
	@echo 'There is no $(ASSEMBLY), so the library is made, and not ww_run.'

library:
	+@$(MAKES_C) all

# The checksum of the sources of which this program is stands beside it, for ./run and ./test.
$(PROGRAM): $(ASSEMBLY) program/program.c c/include/ww_steps.h
	@mkdir -p $(OUT)
	@rm -f $@ $@.sources
	$(CC) -c $(ASSEMBLY) -o $@.o
	$(CC) $(AS_C) $@.o program/program.c $(LDFLAGS) -pthread -o $@
	@sed -n 's/^ \* sources: //p' $(ASSEMBLY) >$@.sources
	@tools/is_of_sources $@ || true

demo: library
	@mkdir -p $(OUT)
	$(CC) $(CPPFLAGS) $(CFLAGS) -I c/include c/examples/demo.c c/$(OUT)/libww.a $(LDFLAGS) -pthread -o $(OUT)/demo
	@$(RUN) $(OUT)/demo

check: $(MADE)
	+@checks/check_made $(FEW) $(if $(wildcard $(ASSEMBLY)),$(PROGRAM),--library) '$(CROSS)' $(RUN)

# As programs of another processor are run.
check-program: $(PROGRAM)
	+@checks/check_made --program $(PROGRAM) '$(CROSS)' $(RUN)

install: $(MADE) install-tools
	install -d $(DESTDIR)$(PREFIX)/bin $(DESTDIR)$(MANDIR)/man1 $(DESTDIR)$(DOCDIR)
	[ ! -e $(ASSEMBLY) ] || install -m 755 $(PROGRAM) $(DESTDIR)$(PREFIX)/bin
	[ ! -e $(ASSEMBLY) ] || install -m 644 program/ww_run.1 $(DESTDIR)$(MANDIR)/man1
	tools/install_pages $(DESTDIR)$(DOCDIR)
	+$(MAKES_C) install
	@[ -n '$(DESTDIR)' ] || echo 'Programs find libww.so after ldconfig, or with -Wl,-rpath,$(abspath $(PREFIX))/lib; pkg-config --static ww takes libww.a.'

# The tools for users. tools/top reads gdb's script.
install-tools:
	install -d $(DESTDIR)$(TOOLSDIR)
	install -m 755 $(TOOLS:%=tools/%) $(DESTDIR)$(TOOLSDIR)
	install -m 644 $(addprefix tools/,command.py core.py inputs.py printed.py waits.py) c/install/libww-gdb.py $(DESTDIR)$(TOOLSDIR)

uninstall:
	rm -f $(DESTDIR)$(PREFIX)/bin/ww_run $(DESTDIR)$(MANDIR)/man1/ww_run.1
	rm -rf $(DESTDIR)$(DOCDIR) $(DESTDIR)$(TOOLSDIR)
	+$(MAKES_C) uninstall

clean:
	rm -f $(PROGRAM) $(PROGRAM).o $(PROGRAM).sources $(OUT)/demo
	+$(MAKES_C) clean

.PHONY: all no-program library demo check check-program install install-tools uninstall clean
