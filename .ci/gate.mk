# The gate's checks, each a target, as .ci/run makes them: make -f .ci/gate.mk -s -k -jN all. A target's prerequisites are
# what the check waits for; all others begin at once, and sub-makes share the processors by make's own job server. .ci/check
# runs a check: the first number is the most minutes that the check may take.
#
# target        | what it makes
# quick         | what takes seconds, and everything else waits for
# sources       | what is asked of the crates' sources without a proof, each only if something that it reads differs from BASE
# proofs        | each proof and edit, and what is asked of what was proved; only with PROOFS=yes
# library       | the library for C, made of the assembly that is kept, which `proofs` compares with what was proved
# program       | the program, made of the assembly that is kept
# all           | all of these
#
# environment   | what it says
# PROOFS        | yes: there is no base whose proofs are those of this tree, so everything is proved (checks/same_proofs)
# BASE          | a commit of which the whole gate was green, or nothing
# WHOLE         | --whole: nothing is left out, and nothing counts that was proved earlier on this machine
SHELL := /bin/bash
PROOFS ?= yes
BASE ?=
WHOLE ?=
OF_MAKE := c/out/gate
ARCHIVE := $(OF_MAKE)/archive/libww_c.a
PROGRAM := out/ww_run
# `check` runs a check; `made` runs a make that shares the processors with this one. Without MAKEFLAGS no make in a check warns of
# a job server that it doesn't reach.
check = @env -u MAKEFLAGS -u MFLAGS .ci/check $@ $(1)
made = +@.ci/check $@ $(1)
# What a check of the sources reads besides what a proof reads.
asked = $(if $(filter yes,$(PROOFS)),$(1),$(foreach it,$(1),$(if $(filter yes,$(shell checks/same_proofs '$(BASE)' $(READS_$(it)) >/dev/null || echo yes)),$(it))))

QUICK := budget c_names documents edits gate layers limits names packages prototypes unused
SOURCES := format refuse_abuses scene try_using
PROVED := prove generated_ww_c generated_ww_run by_rattle aarch64_program growths_of_tests
WP := $(shell checks/check_wp --units) eva
OF_C := kills c_tests c_threads rust $(WP:%=wp_%) wp_text wp_faults dist aarch64 c_compilers c_pages gdb simulated kernel instructions make
OF_PROGRAM := soak refuse_growths tools run program_fails
.PHONY: all quick sources proofs library program list made_library made_program $(QUICK) $(SOURCES) $(PROVED) $(OF_C) $(OF_PROGRAM)

# The longest come first. All wait for what some need, since make would begin the others before these, and the longest last.
all: quick proofs library sources program
quick: $(QUICK)
library: $(OF_C)
program: $(OF_PROGRAM)
$(OF_C) $(OF_PROGRAM): | quick made_library made_program
proofs: $(if $(filter yes,$(PROOFS)),$(PROVED))
READS_format := checks/check_format
READS_refuse_abuses := checks/refuse_abuses checks/abuses.blocks
READS_scene := checks/check_scene checks/scenes.py checks/endless.py checks/loops.py
READS_try_using := checks/try_using docs/RATTLE.md docs/bank_tests.txt tools/crates.bash
sources: $(call asked,$(SOURCES))
list:
	@printf '%s\n' $(QUICK) $(call asked,$(SOURCES)) $(if $(filter yes,$(PROOFS)),$(PROVED)) made_library made_program $(OF_C) $(OF_PROGRAM)

edits:                          ; $(call check,20) checks/check_edits $(BASE)
$(filter-out edits,$(QUICK)):   ; $(call check,20) checks/check_$@

format scene: | quick           ; $(call check,60) checks/check_$@
refuse_abuses: | quick          ; $(call check,60) checks/$@
try_using: | quick              ; $(call check,60) checks/$@

prove: | quick                  ; $(call check,170) checks/prove $(WHOLE)
generated_ww_c: | prove         ; $(call check,60) bash -c 'checks/link_proved ww_c out/gate/proving && checks/check_generated ww_c crates/ww_c/out/generated'
generated_ww_run: | prove       ; $(call check,60) bash -c 'checks/link_proved ww_run out/gate/proving && checks/check_generated ww_run crates/ww_run/out/generated'
by_rattle: | prove              ; $(call check,30) bash -c 'for it in crates/ww_run/out/ww_run{,.by-rattle}; do [ ! -e $$it ] || checks/check_program $$it || exit 1; done'
aarch64_program: | generated_ww_run; $(call check,60) checks/check_aarch64 --program crates/ww_run/out/generated/aarch64.s
growths_of_tests: | prove       ; $(call check,60) checks/refuse_library_growths

made_library:                   ; $(call made,30) bash -c '$(MAKE) -s -C c OUT=out/gate all && mkdir -p $(dir $(ARCHIVE)) && ar rcsD $(ARCHIVE) $(OF_MAKE)/core.o'
c_tests:                        ; $(call made,120) $(MAKE) -s -k -C c OUT=out/gate check
c_threads:                      ; $(call made,120) $(MAKE) -s -k -C c OUT=out/gate check-thread
c_pages:                        ; $(call check,60) checks/check_$@
gdb c_compilers:                ; $(call check,60) checks/check_$@ $(OF_MAKE)
# By itself, in three copies: what they are built of is built once.
kills:                          ; $(call check,90) c/tests/search/kills -j 3 $(if $(WHOLE),,--most 30 $(BASE:%=--changed %))
simulated:                      ; $(call check,60) checks/check_simulated
kernel:                         ; $(call check,60) checks/check_kernel $(ARCHIVE)
instructions:                   ; $(call check,60) checks/check_instructions $(OF_MAKE)
rust:                           ; $(call check,60) env WW_LIB_DIR=$(CURDIR)/$(OF_MAKE) rust/check
aarch64:                        ; $(call check,60) checks/check_aarch64 $(WHOLE:%=--both)
dist:                           ; $(call check,60) checks/check_dist $(WHOLE:%=--twice)
make:                           ; $(call check,60) checks/check_make
wp_text:                        ; $(call check,20) checks/check_wp --text
wp_faults:                      ; $(call check,60) checks/check_wp --self-test
$(WP:%=wp_%): wp_%:             ; $(call check,60) $(if $(WHOLE),env CHECK_WP_CACHE=) checks/check_wp -j 1 $*

made_program:                   ; $(call made,30) $(MAKE) -s $(PROGRAM)
soak tools run:                 ; $(call check,60) checks/check_$@ $(PROGRAM)
refuse_growths:                 ; $(call check,60) checks/$@ $(PROGRAM)
program_fails:                  ; $(call check,30) checks/check_program $(PROGRAM)
