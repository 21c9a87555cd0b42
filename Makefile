# protols: the language server and checker for proto3, proved function by function.

PREFIX ?= /usr/local
PROGRAM := crates/protols/out/protols
# The crates whose wrong bodies `make wrong-bodies` tries, and whose proofs `make times` times; none means all.
CRATE ?=

.PHONY: all build run test quick wrong-bodies times docs dist editors install clean need-rt

all: build

# The kit with its command rt has to be there: nothing else builds or proves Rattle.
need-rt:
	@command -v rt > /dev/null || { \
	  echo "protols is written in Rattle: put the Rattle kit's command rt on the PATH (CONTRIBUTING.md)" >&2; exit 1; }

# Proves the program and all that it stands on, and builds it.
build: need-rt
	@python3 tools/build.py

# Runs the stored stream of an editor, and checks the example tree. What is written has to be what is stored.
run: build
	$(PROGRAM) serve < crates/protols/stdin > out.frames; status=$$?; \
	  cat out.frames; echo; cmp out.frames crates/protols/stdout; same=$$?; rm -f out.frames; \
	  test $$status -eq 0 -a $$same -eq 0 && echo "the replies are the stored ones, and the status is 0"
	$(PROGRAM) check --root examples/protos > out.lines; status=$$?; \
	  cat out.lines; cmp out.lines examples/check.stdout; same=$$?; rm -f out.lines; \
	  test $$status -eq 1 -a $$same -eq 0 && echo "the lines are the stored ones, and the status is 1: shop/faulty.proto is wrong on purpose"

# The gate: every proof, must-fail edit and test from nothing, each wrong body whose verdict isn't current, and the tests in tests/.
test: need-rt
	@python3 tests/gate.py

# Before each commit: the same over what earlier runs kept, for what changed. The gate alone is the verdict.
quick: need-rt
	@python3 tools/quick.py

# The wrong bodies whose verdict isn't current: the prover has to refuse each.
wrong-bodies: need-rt
	@python3 tools/wrong_bodies.py $(CRATE)

# How long each crate takes from nothing, what waits for what, the budget, and the slowest functions.
times: need-rt
	@python3 tools/times.py $(CRATE)

# The documents that are written from the sources: the list of definitions, and the table of wrong bodies, which isn't committed.
docs:
	@python3 tools/definitions.py
	@python3 tools/wrong_bodies_table.py

# The archive and the Debian package of the program, in dist/.
dist: build
	@python3 tools/dist.py
	@if command -v lintian > /dev/null; then lintian --fail-on error dist/*.deb; fi

# The editors that are installed, without a screen, with the set-ups in editors/. It is no part of the gate.
editors: build
	@python3 editors/try.py

install: build
	install -D -m 755 $(PROGRAM) $(DESTDIR)$(PREFIX)/bin/protols

clean:
	rm -rf out dist crates/*/out
