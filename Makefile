# make           proves rtsh and the crates that it stands on, and builds bin/rtsh
# make demo      compiles rtsh without proving it, runs the scripts and dumps of examples/, and compares what it prints
# make try       compiles rtsh without proving it, and runs a script of yours: make try SCRIPT=file.sql
# make picture   compiles rtsh without proving it, and draws examples/town.svg, which README shows
# make test      runs all tests, worked cases and recipes without proving anything, and compares the documents with the cases
# make check     proves what changed in all crates
# make gate      proves everything, tries the edits that must fail, and runs the proved tests and programs; injects faults into the
#                built program, gives it hard devices, and compares its trees with plain ones; tests the calls from other languages;
#                and compares what refused each edit with faults/refusals.txt. All that rt says is in bin/gate.log
# make bindings  proves the calls for other languages, builds lib/libjuicedelta.a and lib/libjuicedelta.so, and tests them
# make install   copies what make and make bindings built, with headers, packages, documents and completions, below a folder:
#                make install PREFIX=FOLDER
# make dist      packs the same in dist/, for machines without the toolchain, and a wheel of the Python package
# make deb       packs the same as a Debian package in dist/
# make fuzz      tries random calls of the libraries beside plain lists, and scripts in parts beside scripts in one piece:
#                make fuzz SECONDS=N. It needs what make bindings built
# make bench     prints the times of the R*-tree's choices; if make built it, of scripts through bin/rtsh; if make bindings built
#                the libraries, of whole trees and of calls from C and Python; all beside other libraries that are installed

SHELL := /bin/bash

.PHONY: build demo try picture test bindings install dist deb check gate fuzz bench tools

build: tools
	@scripts/build

demo: tools
	@scripts/demo

try: tools
	@scripts/try "$(SCRIPT)"

picture: tools
	@scripts/picture

test: tools
	@scripts/test.py

bindings: tools
	@scripts/build_bindings
	@scripts/test_bindings

install:
	@PREFIX="$(PREFIX)" DESTDIR="$(DESTDIR)" PYTHONDIR="$(PYTHONDIR)" scripts/install

dist:
	@scripts/dist

deb:
	@scripts/deb

check: tools
	@scripts/prove

gate: tools
	@mkdir -p bin
	set -o pipefail; rt ci 2>&1 | tee bin/gate.log
	@scripts/faults
	@scripts/build_bindings .
	@scripts/test_bindings
	@scripts/check_refusals.py bin/gate.log

fuzz:
	@scripts/fuzz_bindings "$(SECONDS)"

bench: tools
	@scripts/bench
	@if [ -x bin/rtsh ]; then scripts/bench_scripts.py; else echo "scripts aren't timed: make builds bin/rtsh"; fi
	@if [ -f lib/libjuicedelta.a ]; then scripts/bench_bindings.py && scripts/bench_python.py && scripts/bench_map.py; else echo "calls aren't timed: make bindings builds the libraries"; fi

tools:
	@command -v rt > /dev/null || { echo "juicedelta: the command rt (the Rattle toolchain) is missing" >&2; exit 1; }
