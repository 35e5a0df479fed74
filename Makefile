# `cargo` builds and tests with nothing proved; the kit's command `rt` proves, builds and runs: `rt doc` prints its first page.
SHELL = /bin/bash
PREFIX ?= /usr/local
PROGRAM = crates/pl0dap/out/pl0dap
FROM_ZERO = crates/pl0dap_from_zero/out/pl0dap_from_zero
PL0 = crates/pl0/out/pl0
STACK = crates/stack_adapter/out/stack_adapter
SPEED = crates/speed/out/speed
# Where cargo's programs are, of which nothing is proved, and what tells that the libraries of the others are.
STOCK = target/release
PROVED = out/proved
BUILT = find crates \( -name out -o -name '*_tests' -o -name '*_runs' \) -prune -o -type f
SOURCES = crates.txt $(shell $(BUILT) \( -name '*.rt' -o -name '*.antt' \) -print)
# How many random sessions `make sessions` plays, which checks `make release` runs if not all, how many crates `make plants` tries
# side by side, and for how many seconds `make soak` plays.
SESSIONS ?= 500
CHECK ?=
JOBS ?= 1
SOAK ?= 0

# Some shells leave `~/` in `PREFIX=~/x` as it is. A path that begins at this folder is refused.
FROM_ROOT = $(patsubst ~/%,$(HOME)/%,$(PREFIX))
INSTALLED = $(DESTDIR)$(if $(filter /%,$(firstword $(FROM_ROOT))),$(FROM_ROOT),$(error PREFIX=$(PREFIX) doesn't begin with / or ~/))
MANUAL = $(INSTALLED)/share/man/man1
INSTALLED_PROGRAMS = pl0dap pl0dap_from_zero pl0dap-listen pl0
INSTALLED_PAGES = pl0dap.1 pl0dap_from_zero.1 pl0.1
# Whether Rust and Python are there, and new enough.
NEEDS_RUST = command -v cargo > /dev/null || \
  { echo "cargo isn't on the path: install Rust $$(sed -n 's/^rust-version = "\(.*\)"/\1/p' Cargo.toml) or later"; exit 1; }
NEEDS_PYTHON = python3 -c 'import sys; sys.exit(sys.version_info < (3, 10))' || { echo "Python 3.10 or later is needed"; exit 1; }
# Whether the kit is there; a word where it is another one than README.md names.
NEEDS_KIT = command -v rt > /dev/null || { echo "rt, the command of the Rattle kit, isn't on the path: README.md, Try it"; exit 1; }; \
  grep -qF "$$(rt version)" README.md || echo "This kit is $$(rt version), and README.md names another one"

.PHONY: try test programs build demo rows hostile soak streams sessions in-memory beside stock editors clients vsix refusals \
  last-position compile-fail check plants gate-times pages threads install uninstall clean bench scripts-of-bench \
  instructions release

# Two debug sessions in short form, by the program that cargo builds.
try: programs
	@python3 demo/session.py --short demo/factorial.session $(STOCK)/pl0dap
	@python3 demo/session.py --short demo/back.session $(STOCK)/pl0dap
	@echo "Nothing was proved: 'make test' tests, 'make build' proves. Until then an editor can start $(CURDIR)/$(STOCK)/pl0dap"

# Whether libraries and programs do what the tests and the model in Python say.
test: programs
	@python3 tools/tests.py

programs:
	@$(NEEDS_RUST)
	@$(NEEDS_PYTHON)
	@cargo build --release

build: $(PROGRAM) $(FROM_ZERO) $(PL0)

# Crates of which none is below another are proved side by side, and the programs built so.
$(PROVED): $(SOURCES)
	@$(NEEDS_KIT)
	@python3 tools/prove.py pl0dap pl0dap_from_zero pl0
	@mkdir -p $(@D) && touch $@

$(PROGRAM) $(FROM_ZERO) $(PL0): $(PROVED)
	@touch $@

# The example of an adapter for another language.
$(STACK): $(SOURCES)
	cd crates/stack_adapter && rt run < /dev/null
	@touch $@

# Runs a program by the bare machine, in slices or by the runner, and does nothing else.
$(SPEED): $(PROVED)
	cd crates/speed && rt run -- work data/count.pl0
	@touch $@

# Two debug sessions on examples/factorial.pl0, message by message: a breakpoint with a condition, a stop, questions, a step,
# the end; and a log point, a stop, steps back, and on again.
demo: say-what-is-built $(PROGRAM)
	python3 demo/session.py demo/factorial.session $(PROGRAM)
	python3 demo/session.py demo/back.session $(PROGRAM)

.PHONY: say-what-is-built
say-what-is-built:
	@$(MAKE) --silent --question $(PROGRAM) > /dev/null 2>&1 || \
	  echo "First the program is proved and built, as by 'make build': README.md says how long that takes"

# Worked inputs, whole, a byte at a time and cut at many places, with what must come out; a session that is large in
# everything; the demo's sessions, one of which stands in docs/PROTOCOL.md; that the examples are those whose listings the gate
# compares; and pauses of a program of the stack language that runs for ever, and a named pipe in a program's place.
rows: $(PROGRAM) $(FROM_ZERO) $(PL0) $(STACK)
	python3 checks/rows.py $(PROGRAM) $(FROM_ZERO)
	python3 checks/largest.py $(PROGRAM)
	python3 checks/largest.py $(FROM_ZERO)
	diff -r -x fault.pl0 -x mistake.pl0 -x procedures.pl0 examples crates/check_runs/data
	python3 checks/pl0_pages.py $(PL0)
	python3 checks/stack_pause.py $(STACK)
	python3 checks/stack_sizes.py $(STACK)

# Hostile headers, contents, types, numbers, sizes, situations, cuts and ends, with what docs/PROTOCOL.md says of each, also behind
# editors/listen.py; those of frames to the example stack_adapter; and strangers, lengths and floods that come to listen.py.
hostile: $(PROGRAM) $(FROM_ZERO) $(STACK)
	python3 checks/hostile.py $(PROGRAM) $(FROM_ZERO)
	python3 checks/hostile.py --listen $(PROGRAM) $(FROM_ZERO)
	python3 checks/hostile.py --own $(STACK)
	python3 checks/nonblocking.py $(PROGRAM) $(FROM_ZERO)
	python3 checks/listening.py $(PROGRAM)

# 500 sessions with a loop without end, and what is left over of them, again and again for SOAK seconds, and once at least; fewer
# with the other program; and clients that read, write and leave as they like.
soak: $(PROGRAM) $(FROM_ZERO)
	python3 checks/soak.py --seconds $(SOAK) $(PROGRAM) 480 20
	python3 checks/soak.py $(FROM_ZERO) 80 20
	python3 checks/slow_clients.py $(PROGRAM)
	python3 checks/slow_clients.py $(FROM_ZERO)

# Random streams, cut at each byte; clients that leave at random moments; both also behind editors/listen.py; sessions and clients
# while the threads are hindered where they wait for each other; and all but listen.py with the example stack_adapter.
streams: $(PROGRAM) $(STACK)
	python3 checks/cuts.py $(PROGRAM) 60
	python3 checks/cuts.py --stack $(STACK) 20
	python3 checks/cuts.py --listen $(PROGRAM) 2
	python3 checks/leave.py $(PROGRAM) 500
	python3 checks/leave.py --stack $(STACK) 200
	python3 checks/leave.py --listen $(PROGRAM) 100
	python3 checks/hindered.py $(PROGRAM) 5
	python3 checks/hindered.py --stack $(STACK)

# Random sessions, each message compared with what a plain model of the adapter says; and the same of the example stack_adapter.
sessions: $(PROGRAM) $(STACK)
	python3 checks/sessions.py $(PROGRAM) $(SESSIONS)
	python3 checks/stack_sessions.py $(STACK) $(SESSIONS)

# Random sessions whose bytes and status are compared with what the session puts over memory, in one thread, and how it ends.
in-memory: $(PROGRAM) $(SPEED)
	python3 checks/in_memory.py $(PROGRAM) $(SPEED) 200

# Random sessions, hostile input, pages, contents and command lines, played to each proved program and to the one that cargo
# builds: both do the same.
COMPARED = $(PROGRAM) $(FROM_ZERO) $(PL0) $(STACK)
beside: $(COMPARED) programs
	python3 checks/both_builds.py 200 $(foreach program,$(COMPARED),$(program) $(STOCK)/$(notdir $(program)))
	python3 checks/both_readers.py 10000 $(foreach program,$(PROGRAM) $(PL0),$(program) $(STOCK)/$(notdir $(program)))

# Whether all that rustc compiles is the sources', line by line, and whether that and the tests find planted faults of what
# makes it so.
stock:
	python3 checks/stock.py
	python3 checks/stock.py --planted

# What Visual Studio Code and Kate mark in programs; the sessions of editors, played to the program; then Emacs, Kate and
# CodeLite, where they are installed, debug a program with it, Emacs also one with stack_adapter, and pictures are taken, all
# into out/; with RECORD=1 into docs/. Nothing is installed: status 2 where one is missing.
editors: $(PROGRAM) $(FROM_ZERO) $(PL0) $(STACK)
	python3 editors/highlighting.py $(PROGRAM) examples/*.pl0 demo/*.pl0 checks/*.pl0
	python3 editors/drive/drive.py $(PROGRAM) $(FROM_ZERO) $(PL0) $(STACK)

# Outside clients and types: a session by Microsoft's debugpy, and one to the example stack_adapter; each message decoded by go-dap and
# type-checked against @vscode/debugprotocol. Nothing is installed: status 2 where one is missing.
clients: $(PROGRAM) $(FROM_ZERO) $(STACK)
	python3 checks/outside_clients.py $(PROGRAM) $(FROM_ZERO) $(STACK)

# The extension for Visual Studio Code, packed and read back.
vsix:
	python3 editors/vsix.py out/pl0.vsix

# What an adapter of one's own stands on, in the folder TO; or a later version of it, where an earlier one is there.
TO ?= out/adapter-kit
.PHONY: adapter-kit
adapter-kit:
	@python3 tools/adapter_kit.py "$(patsubst ~/%,$(HOME)/%,$(TO))"

# The merge gate: proves everything from nothing, and runs everything.
check:
	@$(NEEDS_KIT)
	rt ci

# Planted bugs that the gate leaves out to save time: those of CRATE, or of each crate that tools/plants.txt doesn't have as it
# is; JOBS crates side by side.
plants:
	@$(NEEDS_KIT)
	python3 tools/plants.py --jobs $(JOBS) $(CRATE)

# What each crate costs the gate from nothing, in processor seconds, and whether that is within its budget: BESIDE=1 says that the
# other cores are busy too. With CRATE only what the gate of this crate proves, which is what this computer hasn't proved yet.
gate-times:
	@$(NEEDS_KIT)
	python3 tools/gate_watch.py $(if $(BESIDE),--beside) $(if $(CRATE),rt ci $(CRATE))

# The model of the four threads, explored in every interleaving, with Debian's spin and gcc: status 2 where one is missing.
threads:
	@tools/threads/explore.sh

# Whether the files, headings and functions that the pages name are there, and what the model of the threads names, whether
# functions and lines are short, whether README.md has the right sizes and pages have few words, whether each lemma is used
# and nothing stands in specs/ that serves proofs alone, whether each edit can be applied, and whether
# README's session and the lessons' commands go as the pages have them.
pages: programs
	python3 checks/played_pages.py $(STOCK)/pl0dap $(STOCK)/pl0
	python3 tools/pages.py
	python3 tools/sizes.py
	python3 tools/reading.py
	python3 tools/cited.py --page
	python3 tools/edits.py
	python3 tools/dead_lemmas.py

# Programs that the compiler must refuse, which the gate can't judge.
compile-fail:
	@$(NEEDS_KIT)
	python3 compile-fail/check.py

# Each allocation, thread, read and write of the programs refused in turn, once and from there on; short, interrupted and
# would-block reads and writes; and each allocation of the runs that step a text.
refusals: $(PROGRAM) $(FROM_ZERO) $(SPEED) $(PL0) $(STACK)
	python3 checks/refusals.py --speed $(SPEED) --pl0 $(PL0) --own $(STACK) $(PROGRAM) $(FROM_ZERO)

# A program without end, up to the last position, which is 1,001 in a copy of the crates; the copy is not proved.
last-position:
	@$(NEEDS_KIT)
	python3 checks/last_position.py

# Copies what `make build` has made, and proves and builds nothing.
install:
	@for program in $(PROGRAM) $(FROM_ZERO) $(PL0); do test -x $$program || { echo "$$program isn't there: make build"; exit 1; }; done
	install -D $(PROGRAM) "$(INSTALLED)/bin/pl0dap"
	install -D $(FROM_ZERO) "$(INSTALLED)/bin/pl0dap_from_zero"
	install -D $(PL0) "$(INSTALLED)/bin/pl0"
	install -D editors/listen.py "$(INSTALLED)/bin/pl0dap-listen"
	for page in $(INSTALLED_PAGES); do install -D -m 644 docs/$$page "$(MANUAL)/$$page"; done

# An archive for those who only want to debug: what `make install` copies, with programs that need no C library, and the editors'
# files. Links, and proves nothing; tools/dist.py wants gcc, and as another user than root `unshare`.
.PHONY: dist
dist:
	@$(MAKE) --silent --question build > /dev/null 2>&1 || \
	  { echo "The programs aren't there, or are older than their sources: make build"; exit 1; }
	@python3 tools/dist.py

uninstall:
	for program in $(INSTALLED_PROGRAMS); do rm -f "$(INSTALLED)/bin/$$program"; done
	for page in $(INSTALLED_PAGES); do rm -f "$(MANUAL)/$$page"; done

# Removes all that was built and proved in this checkout; what `rt` keeps elsewhere stays.
clean:
	rm -rf out target crates/*/out

# Times and instructions. With RECORD=1 the figures of docs/PERFORMANCE.md are written anew.
bench: $(PROGRAM) $(SPEED) $(PL0)
	@mkdir -p out
	@set -o pipefail; $(MAKE) --no-print-directory scripts-of-bench | tee out/bench.log
	$(if $(RECORD),python3 bench/page.py out/bench.log)

scripts-of-bench:
	python3 bench/throughput.py $(PROGRAM)
	python3 bench/session.py $(PROGRAM) $(SPEED)
	python3 bench/machine.py $(PROGRAM) $(SPEED)
	python3 bench/debugged.py $(PROGRAM)
	python3 bench/shell.py $(PROGRAM) $(PL0)
	python3 bench/slices.py $(SPEED)
	python3 bench/back.py $(PROGRAM)
	python3 bench/checking.py $(PROGRAM)
	python3 bench/instructions.py $(SPEED)
	python3 checks/soak.py $(PROGRAM) 9000 200

# Instructions a step and an answer, beside those that bench/instructions.txt has.
instructions: $(SPEED)
	python3 bench/instructions.py $(SPEED)

# Everything that the gate leaves out, or CHECK of it, with one line each at the end and in out/release.md. It takes hours: what
# tools/release.txt has as passed with the same files isn't run again.
release:
	@$(NEEDS_KIT)
	python3 checks/release.py $(CHECK)
