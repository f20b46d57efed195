# dwmac: see README.md. `make demo` shows the main job; `make test` proves and tests everything.
PREFIX ?= /usr/local
PROGRAM := crates/dwmac/out/dwmac
SHELL := /bin/bash

.PHONY: build demo test install uninstall bench peers

# Proves and builds the program.
build:
	@set -o pipefail; (cd crates/dwmac && rt run -- raw data/unit) 2>&1 >/dev/null | scripts/progress

# Shows the commands on a small program: by the proved program where it is built, else by the same code without its proofs.
demo:
	@scripts/demo

# The gate: proofs, wrong bodies, tests and programs; then the program itself at the edges, and README's transcripts, which print nothing where all is well.
test:
	@echo "Proving and testing $$(grep -vcE '^ *(#|$$)' crates.txt) crates: more than an hour from nothing on four processors; a later run does only what changed."
	@set -o pipefail; rt ci 2>&1 | scripts/progress --all && scripts/edges && scripts/transcripts

install: build
	install -D -m 755 $(PROGRAM) $(DESTDIR)$(PREFIX)/bin/dwmac

uninstall:
	rm -f $(DESTDIR)$(PREFIX)/bin/dwmac

# Time and memory on large input.
bench: build
	@cd crates/lex_bench && rt run -- data/small.c >/dev/null
	@bench/run

# Compares with tools of this machine, where they are there.
peers: build
	@scripts/peers && scripts/events && scripts/records
