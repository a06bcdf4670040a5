# make demo: the comparer on its first example, from nothing.
# make marked: the cases of document 01's section "Shelf and card", as document 02 amends it, a line each; it fails where one comes otherwise.
# make test: everything that must hold, from nothing. Its last line is 'N passed, M failed'.
# make check: the proofs and programs again, only where something changed.
# make library: what the Rust programs link to, target/staticlib/libreplay.a; what the prover says goes to target/library.log.
# make install: the program, its man page and completion, the library and its C header, to PREFIX (/usr/local) below DESTDIR.
# make uninstall: takes these files away again.
# make soak: the proved library beside the independent comparer and a solver on ever more made-up input, for SOAK_MINUTES minutes and until the pair in hand is done.
# make bench: how long they take for the same work, side by side.
# Both install the solver, the Debian package cadical, where it is missing; bench also valgrind.

.PHONY: demo marked test check library install uninstall soak bench

PREFIX ?= /usr/local
DESTDIR ?=
SOAK_MINUTES ?= 10
export PREFIX DESTDIR SOAK_MINUTES

demo:
	@tools/demo

marked: library
	@cargo run --quiet --release --locked --offline --manifest-path rust/Cargo.toml --package corfynnog -- marked

test:
	@tools/test

check:
	@rt all check

library:
	@tools/library

install:
	@tools/install

uninstall:
	@tools/install --undo

# A disagreement ends it and is shown with its seed; 'make soak SOAK_SEED=seed' starts with that one again.
soak: library
	@tools/packages cadical
	@echo "Comparing all sides on made-up input for $(SOAK_MINUTES) minutes (SOAK_MINUTES=N for another time) ..."
	@SOAK_SEED=$(SOAK_SEED) cargo test --quiet --release --locked --offline --manifest-path rust/Cargo.toml \
		--package agreement --test soak -- --ignored --nocapture

# 'make bench TABLE=solver' prints the table beside the solver alone.
bench: library
	@tools/packages cadical valgrind
	@cargo run --quiet --release --locked --offline --manifest-path rust/Cargo.toml --package benchmarks -- $(TABLE)
