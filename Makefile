# make try      answers the hotels' query lines by the whole program, UNPROVED, in two to five minutes, and leaves nothing
# make topk     proves and builds the program, at ./topk: an hour or two the first time, and nothing where nothing changed
# make test     all proofs and tests, the program run as users run it, and the library where `make lib` has built it
# make run      `make topk`, and the answers to the hotels' query lines
# make lib      the proved library, at c/out; it needs a C compiler
# make wheel    a wheel of the Python package, at c/out; with the library where it is built
# make install  the program, its manual page and completions, and the library where it is built; `make uninstall` takes them away
# For contributors: make wrong-bodies, make fail-alloc, make bench, make threads.

HOTELS = crates/topk/data

# What the program is proved and built from: all crates but those of tests.
SOURCES := crates.txt HANDLES $(shell find crates -name out -prune -o -path 'crates/test_*' -prune -o \( -name '*.rt' -o -name '*.antt' \) -type f -print)

# Where `make install` puts things; a package is made below DESTDIR. The library is the one beside the program.
PREFIX = /usr/local
PROGRAM = ./topk
LIBRARY = $(dir $(PROGRAM))c/out
BIN = $(DESTDIR)$(PREFIX)/bin
LIB = $(DESTDIR)$(PREFIX)/lib
INCLUDE = $(DESTDIR)$(PREFIX)/include
SHARE = $(DESTDIR)$(PREFIX)/share

.PHONY: try run lib wheel test wrong-bodies fail-alloc bench threads install uninstall

# The answers to the hotels' query lines from the whole program, unproved. Some of the lines are refused, so the program's status is 1.
HOTEL_FILES = --data catalog.csv=data/catalog.csv $(foreach list,price rating centre quiet,--data hotels/$(list).csv=data/hotels/$(list).csv)
try:
	@echo "unproved: compiling the whole program without its proofs, which takes two to five minutes" >&2
	@said=$$(mktemp) && trap 'rm -f "$$said"' EXIT && cd crates/topk && { rt try $(HOTEL_FILES) -- run catalog.csv < stdin > "$$said" 2>&1; \
		cat "$$said"; tail -n 1 "$$said" | grep -q '^run=ended status=1 '; }
	@echo "unproved: the answers above are of the program without its proofs; make topk proves and builds it"

# The proved program. `rt run` proves it, builds it and runs it once. The file gets the time at which that began, so that what is edited meanwhile
# counts as changed. A change of the kit isn't seen: remove the file then.
topk: $(SOURCES)
	mkdir -p crates/topk/out && touch crates/topk/out/begun
	cd crates/topk && rt run -- one < ../examples/data/two_lists.bundle > /dev/null
	cp crates/topk/out/topk $@
	touch -r crates/topk/out/begun $@

# Some lines of the catalog's queries are refused, so the status is 1.
run: topk
	cd $(HOTELS) && ../../../topk run catalog.csv < ../stdin; test $$? -eq 1
	./topk one < crates/examples/data/two_lists.bundle

# The proved library for other programs: c/out/libtopk.a and c/out/libtopk.so. It needs a C compiler. The library goes into the Python package too,
# and where this Python has pip with setuptools and wheel, c/out gets a wheel of both, which `pip install c/out/topk-*.whl` installs.
lib:
	cd crates/topk_c && rt lib
	mkdir -p c/out
	$(CC) -std=c11 -O2 -Wall -Wextra -fPIC -c c/heap.c -o c/out/heap.o
	cp crates/topk_c/out/libtopk_c.a c/out/libtopk.a
	$(AR) r c/out/libtopk.a c/out/heap.o
	$(CC) -shared -o c/out/libtopk.so -Wl,--whole-archive c/out/libtopk.a -Wl,--no-whole-archive
	cp c/out/libtopk.so python/topk/libtopk.so
	@if $(CAN_MAKE_WHEELS); then $(MAKE) --no-print-directory wheel; else echo "$(NO_WHEEL)"; fi

# A wheel of the Python package for this machine, with the library where `make lib` has built it: c/out/topk-VERSION-py3-none-linux_x86_64.whl.
CAN_MAKE_WHEELS = python3 -c 'import pip, setuptools, wheel' 2> /dev/null
NO_WHEEL = no wheel is made: this python3 has no pip with setuptools and wheel
wheel:
	@$(CAN_MAKE_WHEELS) || { echo "$(NO_WHEEL)" >&2; exit 1; }
	mkdir -p c/out
	rm -rf python/build python/topk.egg-info
	python3 -m pip wheel --no-index --no-deps --no-build-isolation --quiet --wheel-dir c/out ./python
	rm -rf python/build python/topk.egg-info

# What `.ci/run` does: the gate, and the program as a process with words, streams, files, hosts and peers. The library is tested where `make lib` has
# built it: to build it proves the crates below it again.
test:
	RT_JOBS="$${RT_JOBS:-$$(nproc)}" rt ci
	python3 tests/run.py

# The wrong bodies that the gate doesn't try: the prover has to refuse each, on a copy of the tree. More than an hour; of one crate some minutes, as
# in `make wrong-bodies CRATES=query_run`. What was refused on this text isn't tried again, but with `CRATES=--anew`.
wrong-bodies:
	python3 tests/wrong_bodies.py $(CRATES)

# Each allocation of an answer, a run, a certificate's reading and a counter table refused in turn, which `make test` does too.
fail-alloc: topk
	python3 tests/run.py --program ./topk starved_one starved_run starved_run_from_there_on starved_judge starved_counter_table

# Queries over made tables, each algorithm and size, over bundles and over list files, and how long a page over HTTP takes to be read: some minutes,
# and no other work beside it.
bench: topk
	bench/bench.py
	bench/files.py
	cd crates/bench_http && rt run < stdin
	bench/responses.py
	bench/nodes.py
	bench/delayed.py
	bench/bridges.py
	bench/serve.py

# `bulk` with one worker and with more writes the same bytes, over and over, and how long it takes: some minutes.
threads: topk
	bench/threads.py

# It builds nothing, so that it may run with more rights than a build should have: `make topk`, and `make lib` for the library, go before it.
install:
	@test -x "$(PROGRAM)" || { echo "there is no program at $(PROGRAM): make topk builds it" >&2; exit 1; }
	install -D -m 755 "$(PROGRAM)" "$(BIN)/topk"
	install -D -m 644 docs/topk.1 "$(SHARE)/man/man1/topk.1"
	install -D -m 644 docs/completions/topk.bash "$(SHARE)/bash-completion/completions/topk"
	install -D -m 644 docs/completions/_topk "$(SHARE)/zsh/site-functions/_topk"
	install -D -m 644 docs/completions/topk.fish "$(SHARE)/fish/vendor_completions.d/topk.fish"
	@if test -e "$(LIBRARY)/libtopk.so"; then $(MAKE) --no-print-directory install-library; else echo "no library is built: make lib builds it"; fi

.PHONY: install-library
install-library:
	install -D -m 644 "$(LIBRARY)/libtopk.a" "$(LIB)/libtopk.a"
	install -D -m 755 "$(LIBRARY)/libtopk.so" "$(LIB)/libtopk.so"
	install -D -m 644 c/topk.h "$(INCLUDE)/topk.h"
	install -d "$(LIB)/pkgconfig"
	sed -e "s|@PREFIX@|$(PREFIX)|" -e "s|@VERSION@|$$(cat VERSION)|" c/topk.pc.in > "$(LIB)/pkgconfig/topk.pc"
	chmod 644 "$(LIB)/pkgconfig/topk.pc"

# Takes away the same files, and no folder.
uninstall:
	rm -f "$(BIN)/topk" "$(SHARE)/man/man1/topk.1" "$(SHARE)/bash-completion/completions/topk" \
		"$(SHARE)/zsh/site-functions/_topk" "$(SHARE)/fish/vendor_completions.d/topk.fish" \
		"$(LIB)/libtopk.a" "$(LIB)/libtopk.so" "$(INCLUDE)/topk.h" "$(LIB)/pkgconfig/topk.pc"
