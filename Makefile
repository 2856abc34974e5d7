# The library for C, its examples, tests and benchmarks. All output goes under target/.
#
#     make            target/libwindowfloor.a and the examples, target/planner and target/tables
#     make install    header, library, file for pkg-config and hand-over program, under PREFIX
#                     (/usr/local); with DESTDIR, for packagers, in the folder DESTDIR/PREFIX
#     make uninstall  removes these, with the same PREFIX and DESTDIR
#     make test       the header as C and C++, the library against a C reference, the examples, an
#                     installation under target/
#     make program    the hand-over program against the independent implementation
#     make releases   the library and the program against the answers of earlier releases
#     make outside    these three and the tests of the independent implementation: all but `rt ci`
#     make bench      the library against plain and tuned C
#     make clean      removes target/, and what rt keeps in crates/*/out/
#
# With -j2 the proofs, the archives and the tests go on two at a time. rt keeps what it has proved in
# crates/NAME/out/, and proves a crate once for all that stand on it.

CC = gcc
CXX = g++
WARNINGS = -Wall -Wextra -Wpedantic -Werror
CFLAGS = -std=c99 -O2 -g $(WARNINGS) -Iinclude
CXXFLAGS = -std=c++98 -O2 -g $(WARNINGS) -Iinclude
SANITIZED = -fsanitize=address,undefined -fno-sanitize-recover=all
PREFIX = /usr/local
LIBRARY = target/libwindowfloor.a
# The crates with functions for C. Over each stands a static library, NAME_c, that exports them: what it reaches in
# the crates below is in its archive.
EXPORTING = functions tables shortest floors cuts sweeps exact
ARCHIVES = $(EXPORTING:%=target/archives/lib%_c.a)
# Machine code for any x86-64.
CPU = x86-64
EXAMPLES = planner tables
READING = examples/reading.c examples/reading.h
COMPARE = tests/c/compare.c tests/c/inputs.c tests/c/reference.c
SOURCES = $(wildcard examples/*.c tests/c/*.c tests/releases/*.c bench/*.c)
INSTALLED = include/windowfloor.h lib/libwindowfloor.a lib/pkgconfig/windowfloor.pc bin/windowfloor
VERSION = $(shell sed -n 's/.*define WINDOWFLOOR_VERSION "\(.*\)"/\1/p' include/windowfloor.h)
COMPILERS := gcc $(shell command -v clang >/dev/null && echo clang)
# The files of a crate and of those that its line of crates.txt names.
named = $(shell sed -n 's/^$1\( staticlib\)*: *//p' crates.txt)
sources = crates.txt $(shell find $(wildcard $(patsubst %,crates/%,$1 $(call named,$1))) -name out -prune -o \
	\( -name '*.rt' -o -name '*.antt' \) -print)

.SECONDEXPANSION:
.DELETE_ON_ERROR:

all: $(LIBRARY) $(EXAMPLES:%=target/%)

target/archives/lib%.a: $$(call sources,$$*)
	@mkdir -p $(@D)
	cd crates/$* && rt lib --cpu $(CPU) >../../target/$*.log 2>&1 || { cat ../../target/$*.log; exit 1; }
	cp crates/$*/out/lib$*.a $@

# rt builds the program when it runs it: here on its own stored input.
target/bin/windowfloor: $$(call sources,windowfloor) $$(call sources,report) \
		crates/windowfloor/stdin crates/windowfloor/stdout
	@mkdir -p $(@D)
	cd crates/windowfloor && rt run --cpu $(CPU) <stdin >../../target/windowfloor.txt 2>../../target/windowfloor.log \
		|| { cat ../../target/windowfloor.log; exit 1; }
	cmp target/windowfloor.txt crates/windowfloor/stdout
	cp crates/windowfloor/out/windowfloor $@

# Functions start at a cache line, so that their speed does not depend on what is linked before them. Those of BEHIND start so
# many bytes behind one. In the table check the loop, of 49 bytes, then lies on one line, and so it does in a floor, where what judges
# the list stands in `windowfloor_floor` itself; in a cut it stands in `chains::judge::judge_list` and lies so with nothing before it
# (`objdump -d target/members/tables_c.o`, `floors_c.o` and `cuts_c.o`, `make bench`).
BEHIND = tables_c/windowfloor_table_check=32 floors_c/windowfloor_floor=32
$(LIBRARY): $(ARCHIVES) Makefile
	rm -rf $@ target/members
	mkdir target/members
	for archive in $(ARCHIVES); do (cd target/members && ar x ../../$$archive) || exit 1; done
	for place in $(BEHIND); do \
		member=$${place%%/*} name=$${place#*/} && name=$${name%=*} && \
		echo "SECTIONS { \".text.$$name\" : { . += $${place##*=}; *(\".text.$$name\") } }" >target/place.ld && \
		ld -r -T target/place.ld target/members/$$member.o -o target/placed.o && \
		mv target/placed.o target/members/$$member.o || exit 1; done
	for member in target/members/*.o; do objcopy --set-section-alignment '.text.*=64' $$member || exit 1; done
	ar rcs $@ target/members/*.o

$(EXAMPLES:%=target/%): target/%: examples/%.c $(READING) include/windowfloor.h $(LIBRARY)
	$(CC) $(CFLAGS) $(filter %.c,$^) $(LIBRARY) $(LDLIBS) -o $@

$(EXAMPLES:%=target/%-sanitized): target/%-sanitized: examples/%.c $(READING) include/windowfloor.h $(LIBRARY)
	$(CC) $(CFLAGS) $(SANITIZED) $(filter %.c,$^) $(LIBRARY) $(LDLIBS) -o $@

target/compare: $(COMPARE) $(wildcard tests/c/*.h) include/windowfloor.h $(LIBRARY)
	$(CC) $(CFLAGS) $(COMPARE) $(LIBRARY) $(LDLIBS) -o $@

target/compare-sanitized: $(COMPARE) $(wildcard tests/c/*.h) include/windowfloor.h $(LIBRARY)
	$(CC) $(CFLAGS) $(SANITIZED) $(COMPARE) $(LIBRARY) $(LDLIBS) -o $@

target/refusals: tests/c/refusals.c include/windowfloor.h
	$(CC) $(CFLAGS) $< -o $@

target/refusals-cxx: tests/c/refusals.c include/windowfloor.h
	$(CXX) $(CXXFLAGS) -x c++ $< -o $@

# Every C source by each compiler; the header as C and as C++, included, since a compiler may call the
# functions of the file itself unused.
header:
	for compiler in $(COMPILERS); do $$compiler $(CFLAGS) -fsyntax-only $(SOURCES) || exit 1; done
	echo '#include "windowfloor.h"' | $(CC) $(CFLAGS) -fsyntax-only -x c -
	echo '#include "windowfloor.h"' | $(CXX) $(CXXFLAGS) -fsyntax-only -x c++ -

test: header target/compare target/compare-sanitized $(EXAMPLES:%=target/%) $(EXAMPLES:%=target/%-sanitized) \
		target/refusals target/refusals-cxx target/bin/windowfloor
	target/refusals >target/refusals.txt || { cat target/refusals.txt; exit 1; }
	target/refusals-cxx | diff target/refusals.txt -
	python3 -B tests/c/header.py target/refusals.txt
	target/compare
	target/compare-sanitized 2 5000
	tests/c/planner.sh target/planner
	tests/c/planner.sh target/planner-sanitized
	tests/c/tables.sh target/tables
	tests/c/tables.sh target/tables-sanitized
	CC='$(CC)' tests/c/install.sh

target/releases-answers: tests/releases/answers.c tests/c/assignment.h include/windowfloor.h $(LIBRARY)
	$(CC) $(CFLAGS) $< $(LIBRARY) $(LDLIBS) -o $@

# The same driver over the C reference.
target/releases-reference: tests/releases/answers.c tests/c/reference.c $(wildcard tests/c/*.h) include/windowfloor.h
	$(CC) $(CFLAGS) $(foreach name,image table_check shortest floor cut sweep exact,-Dwindowfloor_$(name)=reference_$(name)) \
		tests/releases/answers.c tests/c/reference.c -o $@

releases: target/releases-answers target/releases-reference target/bin/windowfloor
	python3 -B tests/releases/test_compare.py
	python3 -B tests/releases/compare.py

program: target/bin/windowfloor
	python3 -B tests/reference/program_cases.py

reference:
	python3 -B -m unittest discover -s tests/reference
	python3 -B tests/reference/image_cases.py --check
	python3 -B tests/reference/table_cases.py --check
	python3 -B tests/reference/job_cases.py --check
	python3 -B tests/reference/sweep_cases.py --check
	python3 -B tests/reference/exact_cases.py --check
	python3 -B tests/reference/shortest_cases.py --check
	python3 -B tests/reference/planner_cases.py

outside: target/bin/windowfloor test program releases reference

# One program for each compiler: it prints a table of its own.
bench: $(COMPILERS:%=target/bench-%)
	@for program in $^; do $$program || exit 1; done

target/bench-%: $(wildcard bench/*.c bench/*.h) include/windowfloor.h $(LIBRARY)
	$* -std=c99 -O3 $(WARNINGS) -Iinclude bench/*.c $(LIBRARY) $(LDLIBS) -o $@

# PREFIX stands in the file for pkg-config, so it is absolute; DESTDIR does not.
install: $(LIBRARY) target/bin/windowfloor
	@case '$(PREFIX)' in /*) ;; *) echo 'PREFIX is to be an absolute path' >&2; exit 1;; esac
	sed -e 's|@PREFIX@|$(PREFIX)|' -e 's|@VERSION@|$(VERSION)|' include/windowfloor.pc.in >target/windowfloor.pc
	install -d $(foreach folder,include lib lib/pkgconfig bin,'$(DESTDIR)$(PREFIX)/$(folder)')
	install -m 644 include/windowfloor.h '$(DESTDIR)$(PREFIX)/include'
	install -m 644 $(LIBRARY) '$(DESTDIR)$(PREFIX)/lib'
	install -m 644 target/windowfloor.pc '$(DESTDIR)$(PREFIX)/lib/pkgconfig'
	install -m 755 target/bin/windowfloor '$(DESTDIR)$(PREFIX)/bin'

uninstall:
	rm -f $(foreach file,$(INSTALLED),'$(DESTDIR)$(PREFIX)/$(file)')

clean:
	rm -rf target crates/*/out

.PHONY: all install uninstall header test program releases reference outside bench clean
