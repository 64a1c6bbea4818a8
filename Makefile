# `make` proves the crates, builds the archive and the program `rays`, runs the C examples and the program, and shows
# the marked cases; `make install PREFIX=..` puts archive, header and a pkg-config file in place; `make test` is what
# .ci/run calls; `make bench` measures a conversion and a score.
.PHONY: all install test clean tools verdict prove archive program example listing reference replay stack modes \
    instructions conformance messages valgrind outside marked bench
# One step after the other, in the order in which a target names them.
.NOTPARALLEL:

PREFIX = /usr/local
DESTDIR =
VERSION = 0.1.0

CC = cc
CFLAGS = -std=c11 -Wall -Wextra -Werror -pedantic -O2
CARGO = CARGO_TARGET_DIR="$(CURDIR)/build/reference" WELCHODRYS_LIBRARY_DIR="$(CURDIR)/build" cargo
CARGO_FLAGS = --quiet --offline --locked --release --manifest-path reference/Cargo.toml
TOOLS = awk $(firstword $(CC))
TURN = examples/turn.c examples/answers.c examples/frame.c examples/pgm.c examples/scene.c

all: tools prove example listing marked

# `rt ci` proves everything, tries the must-fail edits and runs the programs; the steps behind it use what it proved.
# Its last line, 'N passed, 0 failed', is printed last: where a step in between fails, it is not printed.
test: TOOLS += cargo nm objdump pkg-config size valgrind
test: tools marked verdict reference replay stack modes instructions conformance example messages valgrind outside \
    listing
	@tail -n 1 build/verdict.log

tools:
	@command -v rt >/dev/null || { echo "make: the Rattle toolchain (its command rt) is not on the PATH"; exit 1; }
	@for tool in $(TOOLS); do command -v $$tool >/dev/null || { echo "make: $$tool is not on the PATH"; exit 1; }; done

# It fails, too, where a must-fail edit says nothing, since its text does not stand or does not compile: `rt ci` calls
# such an edit bad, and passes.
verdict:
	@mkdir -p build
	@echo "Proving every crate, and trying the must-fail edits .."
	@touch build/verdict.start
	@{ rt ci 2>&1; echo $$? >build/verdict.status; } | tee build/verdict.log
	@test "$$(cat build/verdict.status)" = 0
	@grep -q '^rt: ok' build/verdict.log || { echo "make: rt ci did not print its line 'rt: ok'"; exit 1; }
	@if grep '^rt: ok.*, [0-9]* bad' build/verdict.log; then echo "make: a must-fail edit is bad"; exit 1; fi
	@echo

prove:
	@mkdir -p build
	@echo "Proving the crates (a minute or two each, where nothing is kept) .."
	@rt all check >build/check.log 2>&1 || { cat build/check.log; exit 1; }
	@tail -n 1 build/check.log
	@echo

marked:
	@echo "The paper's thirteen marked cases, proved of the definitions as one theorem (crates/cubemap/proofs/Marked.antt):"
	@tools/marked-cases
	@echo

archive:
	@mkdir -p build
	@echo "Building build/libwelchodrys.a (its crates are proved first) .."
	@tools/build archive build/libwelchodrys.a >build/archive.log 2>&1 || { cat build/archive.log; exit 1; }
	@echo

program:
	@mkdir -p build
	@echo "Building build/rays (its crates are proved first) .."
	@tools/build program build/rays >build/rays.log 2>&1 || { cat build/rays.log; exit 1; }
	@echo

listing: program
	@echo "The program rays on the paper's four records (crates/rays/stdin):"
	@build/rays <crates/rays/stdin
	@echo

# The main job: a frame turned in eight ways, and back.
example: archive
	@mkdir -p build/pictures
	@echo "A C program that is linked with the archive (examples/turn.c):"
	@$(CC) $(CFLAGS) -Iinclude $(TURN) build/libwelchodrys.a -o build/turn
	@build/turn build/pictures
	@echo
	@echo "The whole numbers of a wanted turn (examples/wanted_turn.c):"
	@$(CC) $(CFLAGS) examples/wanted_turn.c -lm -o build/wanted_turn
	@build/wanted_turn 90 0 0
	@build/wanted_turn 30 -20 5
	@echo

install: archive
	@mkdir -p "$(DESTDIR)$(PREFIX)/lib/pkgconfig" "$(DESTDIR)$(PREFIX)/include"
	@cp build/libwelchodrys.a "$(DESTDIR)$(PREFIX)/lib/"
	@cp include/welchodrys.h "$(DESTDIR)$(PREFIX)/include/"
	@sed -e 's|@PREFIX@|$(PREFIX)|' -e 's|@VERSION@|$(VERSION)|' welchodrys.pc.in >"$(DESTDIR)$(PREFIX)/lib/pkgconfig/welchodrys.pc"
	@echo "Installed lib/libwelchodrys.a, include/welchodrys.h and lib/pkgconfig/welchodrys.pc in $(DESTDIR)$(PREFIX)"

# An outside program against what `make install` puts in place.
outside: archive
	@rm -rf build/installed
	@$(MAKE) --no-print-directory install PREFIX="$(CURDIR)/build/installed"
	@CC="$(CC)" tests/outside "$(CURDIR)/build/installed"
	@echo

messages: example
	@tests/messages build/turn
	@echo

# The example once more: no byte is read before it is written, none outside what was lent, and none is left behind.
valgrind: example
	@mkdir -p build/checked
	@valgrind --quiet --error-exitcode=1 --leak-check=full --show-leak-kinds=all --errors-for-leak-kinds=all build/turn build/checked >build/checked/report
	@tail -n 9 build/checked/report | while read -r file; do cmp "build/checked/$$file" "build/pictures/$$file" || exit 1; done
	@echo "The example under valgrind: no error, no leak, the same nine pictures"
	@echo

# The reference is written from the paper alone; the archive and the program are compared with it.
reference: archive program
	@echo "The reference's own tests, and the archive compared with the reference, call by call:"
	@$(CARGO) test $(CARGO_FLAGS)
	@$(CARGO) run $(CARGO_FLAGS) --bin differential 1 build/calls
	@echo
	@echo "The program rays compared with its stored runs (crates/rays/runs) and with the reference, byte by byte:"
	@$(CARGO) run $(CARGO_FLAGS) --bin listing build/rays crates/rays/runs
	@echo

# A part of those calls once more, made from C through the header.
replay: archive
	@echo "The archive compared with the reference from C, call by call (tests/replay.c):"
	@$(CC) $(CFLAGS) -Iinclude tests/replay.c tests/calls.c tests/lent.c build/libwelchodrys.a -o build/replay
	@build/replay build/calls
	@echo

stack: archive
	@echo "The stack that a call uses (tests/stack.c):"
	@$(CC) $(CFLAGS) -Iinclude tests/stack.c tests/calls.c tests/lent.c build/libwelchodrys.a -o build/stack
	@build/stack
	@echo

modes: archive
	@echo "The archive's answers under floating-point modes (tests/modes.c):"
	@$(CC) $(CFLAGS) -Iinclude tests/modes.c tests/calls.c tests/lent.c build/libwelchodrys.a -lm -o build/modes
	@build/modes
	@echo

instructions: archive
	@echo "The archive's instructions (tests/instructions):"
	@tests/instructions build/libwelchodrys.a
	@echo

# What the program conformance must print is in its crate, and `rt ci` holds the program to it; here the reference is held to it.
conformance:
	@mkdir -p build
	@echo "What the reference gives for the cases of the program conformance (crates/conformance/stdout), line by line:"
	@$(CARGO) run $(CARGO_FLAGS) --bin conformance >build/conformance
	@cmp build/conformance crates/conformance/stdout
	@echo "$$(wc -l <build/conformance) lines, 0 differences"
	@echo

# All conversions and scores in one program; those in double precision are compiled for speed, without a switch that changes their
# arithmetic.
bench: archive
	@echo "The archive's conversion and its score, each measured side by side with two in double precision (bench):"
	@$(CC) $(CFLAGS) -O3 -Iinclude bench/*.c build/libwelchodrys.a -lm -o build/bench
	@build/bench

clean:
	rm -rf build crates/*/out
