.PHONY: help try demo test check edits program install uninstall dist compare compare-real hostile \
        fuzz memory long-run bench growth tools-test check-docs

PREFIX ?= /usr/local
# Paths of built programs. A target that gets all programs that it runs needs no rt.
ifneq ($(ADDR2LINE_LIVE),)
override ADDR2LINE_LIVE := $(abspath $(ADDR2LINE_LIVE))
export ADDR2LINE_LIVE
endif
ifneq ($(MEASURE),)
override MEASURE := $(abspath $(MEASURE))
export MEASURE
endif
ifneq ($(TESTS),)
override TESTS := $(abspath $(TESTS))
export TESTS
endif
RT = $(if $(ADDR2LINE_LIVE),,rt)
PROGRAM = $(or $(ADDR2LINE_LIVE),crates/addr2line_live/out/addr2line_live)
MEASURE_PROGRAM = $(or $(MEASURE),crates/measure/out/measure)
TEST_PROGRAM = $(or $(TESTS),crates/command_loop_tests/out/command_loop_tests_tests)
INSTALLED = $(DESTDIR)$(PREFIX)
LIBEXEC = $(INSTALLED)/libexec/addr2line_live
DOCUMENTS = $(INSTALLED)/share/doc/addr2line_live
COMPLETIONS = $(INSTALLED)/share/bash-completion/completions
DIST = out/addr2line_live-$(shell cat VERSION)
INSTALLED_TOOLS = addr2line load_of_kernel loads_of_process mark_dropped symbolize_markup \
    symbolize_perf symbolize_text
INSTALLED_MODULES = asked_addresses core_files debug_files demangle dropped_bytes dropped_code \
    dropped_entries dropped_lines dropped_tables elf_symbols kernel_base live loaded_objects markup \
    symbolizer
COMPILERS = gcc g++ objcopy
READERS = readelf objdump nm addr2line llvm-symbolizer llvm-dwarfdump

help:
	@echo 'make try          compiles the program without proving it, and runs it on an example'
	@echo 'make demo         builds the program and runs it on an example'
	@echo 'make test         runs CI: every proof, must-fail edit, test and program (30 to 50 minutes)'
	@echo 'make program      builds the program, $(PROGRAM)'
	@echo 'make install      installs it, its manual page, completion for bash, docs/PROTOCOL.md and tools'
	@echo '                  in PREFIX ($(PREFIX))'
	@echo 'make uninstall    removes what make install installs in PREFIX'
	@echo 'make dist         packs the program, its page, docs/PROTOCOL.md, tools and licenses into'
	@echo '                  $(DIST).tar.gz'
	@echo 'make check CRATE=dwarf_lines   checks one crate, with the cached results of earlier checks'
	@echo 'make edits [CRATE=dwarf_lines]   tries the must-fail edits that are not in CI'
	@echo '                  (hours; minutes for one crate)'
	@echo 'make tools-test   tests tools/ and the clients in docs/PROTOCOL.md on real processes, and'
	@echo '                  mark_dropped on sqlite3 and zlib if REAL_SOURCES=FOLDER has their sources'
	@echo '                  (GIMLI_ADDR2LINE=PATH compares them with the addr2line of gimli)'
	@echo 'make check-docs   compares the manual page and documents with the sources: options, refusals,'
	@echo '                  causes, targets, the version; finds phrases that the documents avoid'
	@echo 'make compare      compares the data read from objects with the output of other readers'
	@echo 'make compare-real   does so for objects of the distribution: the debug files of the C library'
	@echo '                  and of Python, and kernels, if their packages are installed, and a Rust'
	@echo '                  program, or REAL_OBJECTS="PATH PATH"; prints the time and memory of loads'
	@echo 'make hostile      measures time and memory of readers and whole loads for adversarial objects'
	@echo '                  (some five minutes)'
	@echo 'make fuzz         fuzzes objects and commands against a reference implementation in Python'
	@echo '                  (SEED=1 COUNT=20000)'
	@echo 'make memory       makes each allocation, read and write fail in turn (DURATION=60, in seconds)'
	@echo 'make long-run     sends a million commands to one process, then tests full outputs and'
	@echo '                  unusual files (COMMANDS=1000000)'
	@echo 'make bench        compares the speed with plain C and other symbolizers, and writes'
	@echo '                  docs/MEASURED.md (twenty minutes; GIMLI_ADDR2LINE=PATH includes the'
	@echo '                  addr2line of gimli, and GIMLI_VERSION=TEXT names its version)'
	@echo 'make growth       measures how the costs grow with the size of an object and the number of'
	@echo '                  modules, and draws docs/growth.svg (two minutes, 1 GB in out/growth)'
	@echo 'With ADDR2LINE_LIVE=PATH, a target that runs the program uses the built one at PATH, and does'
	@echo 'not prove or build it. MEASURE=PATH (compare, compare-real, hostile, bench, growth) and'
	@echo 'TESTS=PATH (memory) do the same for measure and for the tests of command_loop.'

# Runs the program on a stored object. The program is compiled without optimization or proof.
try:
	@tools/needs.sh try rt
	@echo 'Compiles addr2line_live without proving it (about two minutes), and asks it addresses.'
	@tools/demo.sh --try

# Runs the program on an object that the compiler builds for the demo.
demo:
	@tools/needs.sh demo $(RT) awk
	@[ -n '$(ADDR2LINE_LIVE)' ] || { \
	    echo 'Proves and builds addr2line_live and the crates below it: some twenty minutes from'; \
	    echo 'nothing, then seconds.'; }
	@echo 'Looks up addresses of two loaded objects, and moves and unloads one of them.'
	@tools/build.sh addr2line_live
	@tools/demo.sh

# Runs CI from scratch: every proof, must-fail edit, test and program. With RT_JOBS, rt runs one check
# on each processor; without it, a check may use several, and each reads all libraries again.
test:
	@tools/needs.sh test rt python3
	@tools/check_edits.py
	RT_JOBS=$${RT_JOBS:-$$(nproc)} rt ci

# Checks one crate, with the cached results of earlier checks: make check CRATE=dwarf_lines
check:
	@tools/needs.sh check rt
	@test -d 'crates/$(CRATE)/src' || { echo 'say which crate: make check CRATE=dwarf_lines'; exit 2; }
	cd crates/$(CRATE) && rt check

# Tries the must-fail edits that are not in CI.
edits:
	@tools/needs.sh edits rt python3
	@tools/check_edits.py
	tools/try_edits.sh $(CRATE)

program:
	@tools/needs.sh program $(RT)
	@tools/build.sh addr2line_live

install: program
	install -D -m 755 $(PROGRAM) $(INSTALLED)/bin/addr2line_live
	install -D -m 644 addr2line_live.1 $(INSTALLED)/share/man/man1/addr2line_live.1
	install -D -m 644 completions/addr2line_live.bash $(COMPLETIONS)/addr2line_live
	install -D -m 644 docs/PROTOCOL.md $(DOCUMENTS)/PROTOCOL.md
	for tool in $(INSTALLED_TOOLS); do \
	    install -D -m 755 tools/$$tool $(LIBEXEC)/$$tool || exit; done
	for module in $(INSTALLED_MODULES); do \
	    install -D -m 644 tools/$$module.py $(LIBEXEC)/$$module.py || exit; done

# Removes the files that `make install` installs, the bytecode that python caches of the tools, and
# the folders of this program if they are empty then.
uninstall:
	rm -f $(INSTALLED)/bin/addr2line_live $(INSTALLED)/share/man/man1/addr2line_live.1 \
	    $(COMPLETIONS)/addr2line_live $(DOCUMENTS)/PROTOCOL.md $(INSTALLED_TOOLS:%=$(LIBEXEC)/%) \
	    $(INSTALLED_MODULES:%=$(LIBEXEC)/%.py) $(INSTALLED_MODULES:%=$(LIBEXEC)/__pycache__/%.*.pyc)
	for folder in $(LIBEXEC)/__pycache__ $(LIBEXEC) $(DOCUMENTS); do \
	    [ ! -d $$folder ] || rmdir --ignore-fail-on-non-empty $$folder || exit; done

# Packs what `make install` installs, and the licenses. The archive can be unpacked anywhere.
dist: program
	rm -rf $(DIST) && mkdir -p $(DIST)
	$(MAKE) --no-print-directory -o program install DESTDIR= PREFIX=$(abspath $(DIST))
	install -m 644 LICENSE-APACHE LICENSE-MIT VERSION $(DIST)/share/doc/addr2line_live
	tar --sort=name --owner=0 --group=0 --numeric-owner -C $(dir $(DIST)) -czf $(DIST).tar.gz \
	    $(notdir $(DIST))
	rm -rf $(DIST)

# Tests real processes, the output of perf, a library that is loaded and unloaded, and the clients
# in docs/PROTOCOL.md.
tools-test:
	@tools/needs.sh tools-test $(RT) python3 gcc nm objdump
	@tools/build.sh addr2line_live
	python3 -m unittest discover -s tools/tests

check-docs:
	@tools/needs.sh check-docs python3 groff
	@tools/check_docs.py
	@tools/check_words.py --list --quiet --most 0 *.md addr2line_live.1 docs/*.md
	@tools/check_words.py --quiet tools bench crates/*

# Compares the data read from objects with the output of other readers.
compare:
	@tools/needs.sh compare $(or $(RT),$(if $(MEASURE),,rt)) python3 $(COMPILERS) $(READERS)
	tools/compare_objects.sh

# Does so for objects of the distribution, or for REAL_OBJECTS.
compare-real:
	@tools/needs.sh compare-real $(or $(RT),$(if $(MEASURE),,rt)) python3 objcopy $(READERS)
	@tools/build.sh measure measure.log
	@tools/build.sh addr2line_live
	tools/compare_real.py $(PROGRAM) $(MEASURE_PROGRAM) out/real $(REAL_OBJECTS)

# Measures time and memory of readers and whole loads for adversarial objects.
hostile:
	@tools/needs.sh hostile $(if $(MEASURE),,rt) python3
	tools/hostile.sh

# Fuzzes objects and commands against a reference implementation in Python.
fuzz:
	@tools/needs.sh fuzz $(RT) python3
	@tools/build.sh addr2line_live
	tools/fuzz.py $(PROGRAM) tables
	tools/fuzz.py $(PROGRAM) $(or $(SEED),1) $(or $(COUNT),20000)
	tools/fuzz_words.py $(PROGRAM) $(or $(SEED),1) 2000

# Makes each allocation, each read and each write fail in turn, for DURATION seconds.
memory:
	@tools/needs.sh memory $(or $(RT),$(if $(TESTS),,rt)) python3 cc
	@tools/build.sh addr2line_live
	@tools/build.sh command_loop_tests tests.log
	tools/memory.py $(PROGRAM) $(TEST_PROGRAM) $(or $(DURATION),60)

# Sends many commands to one process. Then tests full and closed outputs, and unusual files.
long-run:
	@tools/needs.sh long-run $(RT) python3
	@tools/build.sh addr2line_live
	tools/long_run.py $(PROGRAM) $(or $(COMMANDS),1000000)

# Measures this program, plain C and the other installed symbolizers.
bench:
	@tools/needs.sh bench $(or $(RT),$(if $(MEASURE),,rt)) awk python3 $(COMPILERS) addr2line
	@mkdir -p out
	bash -c 'set -o pipefail; { bench/run.sh && bench/answers.sh; } | tee out/bench.txt'
	bench/table.py out/bench.txt > out/MEASURED.md && mv out/MEASURED.md docs/MEASURED.md

# Measures objects of 1 to 500 MB, and 1 to 4,096 modules.
growth:
	@tools/needs.sh growth $(or $(RT),$(if $(MEASURE),,rt)) python3 gcc g++ objcopy readelf
	@tools/build.sh measure measure.log
	@tools/build.sh addr2line_live
	bench/growth.py
