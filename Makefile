# The game index: build, run, test. `make` alone lists the targets.
# All that is built goes below target/ and, by rt, to out/ in each crate, which git ignores.

CC = gcc
WARNINGS = -std=c11 -Wall -Wextra -Werror
OPTIMISE = -O2
LIBRARY = target/staticlib/libgameindex.a
HEADER = include/gameindex.h
SOURCES = crates.txt $(shell find crates -regex 'crates/[^/]*/out' -prune -o \( -name '*.rt' -o -name '*.antt' \) -print)
HOST_FILES = $(wildcard host/*.c)
HOST_HEADERS = $(wildcard host/*.h)
BENCH_FILES = bench/bench.c bench/bench.h
BENCH_CC = $(CC) $(WARNINGS) -O3 -Iinclude -Ibench
TEST_FILES = tests/c/test_gameindex.c tests/c/format_judge.c tests/c/step.c tests/c/forecast.c tests/c/lookup.c tests/c/page.c tests/c/scores.c tests/c/cases.c tests/c/arrival.c
FAULTS_FILES = tests/c/fault_commands.c tests/c/faults.c tests/c/cuts.c tests/c/medium.c tests/c/calls.c tests/c/lock_rules.c tests/c/indexes.c
FAULTS_CALLS = main open close read write pread pwrite fdatasync fsync fstat lstat stat access realpath rename renameat2 unlink fcntl getpid clock_gettime nanosleep malloc calloc realloc strdup strndup
BESIDE_FILES = $(wildcard tests/c/beside*.c)
PREFIX = /usr/local
VERSION = $(shell sed -n 's/^.define GI_VERSION_M[A-Z]* //p; s/^.define GI_VERSION_PATCH //p' $(HEADER) | paste -sd.)
FILL_IN = sed -e 's,@VERSION@,$(VERSION),' -e 's,@PREFIX@,$(PREFIX),'
PEERS_FILES = $(wildcard peers/*.c)
PEERS_HEADERS = $(wildcard peers/*.h)
PEERS_DIR = target/peers
FUZZ_TARGETS = card batch question text host
FUZZ_CC = clang $(WARNINGS) -O1 -g -fsanitize=fuzzer,address,undefined -fno-sanitize-recover=all -Iinclude -Ibench -Ihost
FUZZ_SECONDS = 60
FUZZ_SEED = $(shell date +%s)
C_FILES = $(wildcard include/*.h host/*.[ch] tests/c/*.[ch] tests/format/*.[ch] bench/*.[ch] fuzz/*.[ch] peers/*.[ch])

.DELETE_ON_ERROR:
.PHONY: help run test install pins bench fuzz fuzz-corpus fuzz-tools peers fmt clean

help:
	@echo 'make run     build the library and the program; a round'"'"'s day with a card, with a cut in the middle of a batch'
	@echo 'make test    run the merge gate, .ci/run'
	@echo 'make install put the program, the library, its header and the manual below PREFIX, /usr/local if not given'
	@echo 'make pins    write tests/pins anew, which the gate holds the source to; read its diff'
	@echo 'make bench   time the judge, steps, forecasts, lookups, pages and scores against plain C, and most against the judge'
	@echo 'make fuzz    fuzz the library and the host program against plain C for FUZZ_SECONDS, 60 if not given'
	@echo 'make peers   keep the same index in SQLite and in LMDB too, and show in one table what each takes; PEERS_DIR=FOLDER says where'
	@echo 'make fmt     format Rattle, Rust and C files'
	@echo 'make clean   remove all that was built'

# a round's day, with a cut in the middle of a batch
run: target/gamecard
	examples/day.sh target/gamecard target/day

test:
	.ci/run

# the program, the library of C functions, its header, a page of the manual and a file for pkg-config
install: target/gamecard
	mkdir -p $(DESTDIR)$(PREFIX)/bin $(DESTDIR)$(PREFIX)/include $(DESTDIR)$(PREFIX)/lib/pkgconfig $(DESTDIR)$(PREFIX)/share/man/man1
	cp target/gamecard $(DESTDIR)$(PREFIX)/bin/
	cp $(HEADER) $(DESTDIR)$(PREFIX)/include/
	cp $(LIBRARY) $(DESTDIR)$(PREFIX)/lib/
	$(FILL_IN) install/gameindex.pc.in >$(DESTDIR)$(PREFIX)/lib/pkgconfig/gameindex.pc
	$(FILL_IN) install/gamecard.1.in >$(DESTDIR)$(PREFIX)/share/man/man1/gamecard.1

pins:
	.ci/pins write

bench: target/bench_judge target/bench_step target/bench_batches target/bench_lookup target/bench_page target/bench_scores
	target/bench_judge
	@echo
	target/bench_step
	@echo
	target/bench_batches
	@echo
	target/bench_lookup
	@echo
	target/bench_page
	@echo
	target/bench_scores
	@echo
	cd tests && GAMEINDEX_LIB_DIR=$(CURDIR)/target/staticlib cargo run -q --release --offline --example step_speed

# outside the gate; PEERS_DIR is a folder on the medium that is to be measured
peers: target/peers_run target/gamecard
	@mkdir -p $(PEERS_DIR)
	@target/peers_run $(PEERS_DIR) "$$(stat -f -c %T $(PEERS_DIR))" target/gamecard

# Outside the gate: each target has its share of the seconds. What is found is kept below target/fuzz.
fuzz: $(FUZZ_TARGETS:%=target/fuzz/%)
	@fuzz/run.sh $(FUZZ_SECONDS) $(FUZZ_SEED) $(FUZZ_TARGETS)

# makes the kept corpus anew of itself and of what was found since
fuzz-corpus: $(FUZZ_TARGETS:%=target/fuzz/%)
	@fuzz/renew.sh $(FUZZ_TARGETS)

fuzz-tools:
	@mkdir -p target/fuzz
	@echo 'int LLVMFuzzerTestOneInput(void); int LLVMFuzzerTestOneInput(void) { return 0; }' | \
	clang -fsanitize=fuzzer,address,undefined -x c -o target/fuzz/tools - 2>/dev/null || \
	{ echo 'make fuzz needs clang and its runtime: apt-get install clang libclang-rt-dev (or libclang-rt-14-dev)'; false; }

fmt:
	for crate in crates/*/; do (cd $$crate && rt fmt) || exit 1; done
	cd tests && cargo fmt
	cd tests/reach && cargo fmt
	clang-format -i $(C_FILES)

clean:
	rm -rf target tests/target tests/reach/target crates/*/out

# The library of C functions, proved before it is written, by rt lib.
$(LIBRARY): $(SOURCES)
	.ci/library

# The scorekeepers' program, proved before it is linked, and run once.
target/bin/scorekeeper: $(SOURCES)
	cd crates/scorekeeper && rt run <stdin
	install -D crates/scorekeeper/out/scorekeeper $@

target/gamecard: $(HOST_FILES) $(HOST_HEADERS) $(HEADER) $(LIBRARY)
	$(CC) $(WARNINGS) $(OPTIMISE) -Iinclude -o $@ $(HOST_FILES) $(LIBRARY)

# the host program as it is, but for a medium apart from its files, which power cuts, failing writes and failing syncs are tried on
target/gamecard_cut: $(HOST_FILES) $(HOST_HEADERS) tests/c/power_cut.c $(HEADER) $(LIBRARY)
	$(CC) $(WARNINGS) $(OPTIMISE) -Iinclude -Wl,--wrap=main,--wrap=pwrite,--wrap=write,--wrap=fdatasync,--wrap=fsync,--wrap=rename,--wrap=renameat2,--wrap=unlink -o $@ $(HOST_FILES) tests/c/power_cut.c $(LIBRARY)

# the same with every system call in the tests' hands, and text in parts of six lines
target/host_faults: $(HOST_FILES) $(HOST_HEADERS) $(FAULTS_FILES) tests/c/faults.h tests/c/medium.h $(HEADER) $(LIBRARY)
	$(CC) $(WARNINGS) $(OPTIMISE) -Iinclude -DPART_LINES=6 $(FAULTS_CALLS:%=-Wl,--wrap=%) -o $@ $(HOST_FILES) $(FAULTS_FILES) $(LIBRARY)

target/test_gameindex: $(TEST_FILES) tests/c/small_cards.h $(HEADER) $(LIBRARY)
	$(CC) $(WARNINGS) $(OPTIMISE) -Iinclude -o $@ $(TEST_FILES) $(LIBRARY)

# runs the host program beside itself on one card
target/host_beside: $(BESIDE_FILES) tests/c/beside.h $(HEADER) $(LIBRARY)
	$(CC) $(WARNINGS) $(OPTIMISE) -Iinclude -o $@ $(BESIDE_FILES) $(LIBRARY)

# makes the cards that the reader of the format and the program are held against each other on
target/make_cards: tests/format/make_cards.c tests/format/draw.h $(HEADER) $(LIBRARY)
	$(CC) $(WARNINGS) $(OPTIMISE) -Iinclude -o $@ $< $(LIBRARY)

target/bench_judge: bench/judge.c bench/judge_c.c bench/judge_c.h $(BENCH_FILES) $(HEADER) $(LIBRARY)
	$(BENCH_CC) -o $@ bench/judge.c bench/judge_c.c bench/bench.c $(LIBRARY)

target/bench_step: bench/step.c bench/step_c.c bench/step_c.h bench/walk_c.h bench/judge_c.c bench/judge_c.h $(BENCH_FILES) $(HEADER) $(LIBRARY)
	$(BENCH_CC) -o $@ bench/step.c bench/step_c.c bench/judge_c.c bench/bench.c $(LIBRARY)

target/bench_batches: bench/batches.c bench/forecast_c.c bench/forecast_c.h bench/step_c.c bench/step_c.h bench/walk_c.h bench/judge_c.c bench/judge_c.h $(BENCH_FILES) $(HEADER) $(LIBRARY)
	$(BENCH_CC) -o $@ bench/batches.c bench/forecast_c.c bench/step_c.c bench/judge_c.c bench/bench.c $(LIBRARY)

target/bench_lookup: bench/lookup.c bench/lookup_c.c bench/lookup_c.h $(BENCH_FILES) $(HEADER) $(LIBRARY)
	$(BENCH_CC) -o $@ bench/lookup.c bench/lookup_c.c bench/bench.c $(LIBRARY)

target/bench_page: bench/page.c $(BENCH_FILES) $(HEADER) $(LIBRARY)
	$(BENCH_CC) -o $@ bench/page.c bench/bench.c $(LIBRARY)

target/bench_scores: bench/scores.c bench/scores_c.c bench/scores_c.h $(BENCH_FILES) $(HEADER) $(LIBRARY)
	$(BENCH_CC) -o $@ bench/scores.c bench/scores_c.c bench/bench.c $(LIBRARY)

target/peers_run: $(PEERS_FILES) $(PEERS_HEADERS) $(HEADER) $(LIBRARY)
	@$(CC) -E -include sqlite3.h -include lmdb.h -x c /dev/null >/dev/null 2>&1 || { echo 'make peers needs these Debian packages: libsqlite3-dev liblmdb-dev'; exit 1; }
	$(CC) $(WARNINGS) $(OPTIMISE) -Iinclude -o $@ $(PEERS_FILES) $(LIBRARY) -lsqlite3 -llmdb -lm

# a fuzz target is the library beside the plain C of the benchmarks, or the host program in parts of six lines
target/fuzz/card target/fuzz/batch target/fuzz/question: FUZZ_PEERS = fuzz/answers.c bench/judge_c.c bench/step_c.c bench/forecast_c.c bench/lookup_c.c
target/fuzz/text: FUZZ_PEERS = -DPART_LINES=6 -Dmain=host_main bench/scores_c.c $(HOST_FILES)
target/fuzz/host: FUZZ_PEERS = -DPART_LINES=6 -Dmain=host_main -Wl,--wrap=fsync,--wrap=fdatasync $(HOST_FILES)
target/fuzz/%: fuzz/%.c fuzz/fuzz.c fuzz/answers.c fuzz/fuzz.h $(wildcard bench/*_c.[ch]) $(HOST_FILES) $(HOST_HEADERS) $(HEADER) $(LIBRARY) | fuzz-tools
	$(FUZZ_CC) -o $@ $< fuzz/fuzz.c $(FUZZ_PEERS) $(LIBRARY)
