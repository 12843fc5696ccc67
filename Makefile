# The two commands of a new machine: `make first-run` and `make test`. Both need `rt` on the PATH.

.DEFAULT_GOAL := first-run

# The hub: `make demo`, `make hub-test`, `make hub-packages`. ACTS of the environment is its program.
include hub/targets.mk

ACTS := crates/acts/out/acts

.PHONY: first-run test prove names build install example serve-example bench bench-all gate sweep hostile compared crashes-over-a-file wrong-bodies tested-bodies definitions
.PHONY: engine

# Plays the example by a trial, and prints each line of the script with its answer.
first-run:
	@tests/first_run

# Proves and builds `acts` and the crates below it, with the name of the commit for `acts --version`, in a copy of the sources: the tree stays as it is.
build:
	bench/build

# Installs below PREFIX, with DESTDIR before all paths: the program of `make build`, a manual page made from its help texts, the board, the hub and the runner, and the
# units for systemd. `make install PREFIX=$HOME/.local` installs elsewhere, `make install ACTS=PATH` another program, and UNITS=FOLDER the units in another folder. It
# says so if systemd does not look there.
PREFIX ?= /usr/local
UNITS ?= $(PREFIX)/lib/systemd/system
SYSTEMD_UNITS := /etc/systemd/system /usr/local/lib/systemd/system /usr/lib/systemd/system /lib/systemd/system

install:
	@test -x $(ACTS) || { echo 'install: make build first: there is no $(ACTS)' >&2; exit 1; }
	install -D -m 755 $(ACTS) $(DESTDIR)$(PREFIX)/bin/acts
	install -d $(DESTDIR)$(PREFIX)/share/man/man1 $(DESTDIR)$(PREFIX)/share/acts
	docs/man_page $(DESTDIR)$(PREFIX)/bin/acts > $(DESTDIR)$(PREFIX)/share/man/man1/acts.1
	install -D -t $(DESTDIR)$(PREFIX)/share/acts/board -m 644 $(wildcard examples/board/*)
	@$(MAKE) --silent --no-print-directory -f hub/targets.mk hub-install PREFIX='$(PREFIX)' UNITS='$(UNITS)' DESTDIR='$(DESTDIR)'
	@$(if $(filter $(UNITS),$(SYSTEMD_UNITS)),,echo 'systemd does not look in $(UNITS): `systemctl link $(UNITS)/acts.service` lets it find this unit')

# Plays the fan-out and fan-in to its end and compares the answers.
example: build
	$(ACTS) play < examples/fan_out_fan_in.script | diff - examples/fan_out_fan_in.answers

# All of examples/ with a trial of the program: the quick start, on free ports; what an operator does; and four stores on two machines. Needs
# bash, curl, jq, git, Python 3.9 and util-linux, and says what is missing. What was tried of runners, events, the watchdog, units, metrics and the board is in hub/tests.
# `examples/try_examples $(ACTS)` does the same with the proved program.
serve-example:
	examples/try_examples

# Checks the names and the links on the pages of docs/ and in the README, that docs/FORMATS.md explains the refusals as the program does, and that
# docs/PERFORMANCE.md has the figures of bench/measured.csv.
# Left out without Python 3.
names:
	@if command -v python3 > /dev/null; then docs/check_names; else echo 'names: python3 is not here, so the names in docs/ were not checked'; fi

# All that can be tested without proving, in minutes, over trials of the programs: the names on the pages, the tests, the rows, the stored runs, the quick start, the program
# from outside and the view port. PARTS="NAME .." plays some of these.
test:
	tests/run $(PARTS)

# The gate of proofs: every proof, except what an earlier run on this machine has passed; every edit of the gate, which has to be refused; and the proved program over its
# stored runs, the quick start and the checks from outside. It says at its start about how long it takes, at its end what took longest. LANES=N checks so many crates at a
# time, one processor each. CRATES="NAME .." proves only these crates and those below them, and tries their edits.
prove:
	LANES='$(LANES)' bench/prove $(CRATES)

# Commands per second over growing tables. The figures go into bench/measured.csv, from which the tables of docs/PERFORMANCE.md are made.
bench: build
	bench/keep --whole bench/play $(ACTS)
	docs/performance --write

# Every benchmark, with the proved program, as `hostile` plays every sweep: hours. `bench/all PROGRAM` does the same with a program that is built already.
bench-all: build
	bench/all $(ACTS)

# The stored run and some rows, with each growth of memory refused in turn. Needs a C compiler.
sweep: build
	sweeps/refused_memory/run $(ACTS)

# Every sweep that needs no proving, with the proved program: crashes, failing calls, little memory, hostile clients, damaged files and a second
# machine. It says at the end how long each took. Needs a C compiler. `sweeps/all PROGRAM` does the same with a program that is built already.
hostile: build
	sweeps/all $(ACTS)

# Failovers of two machines over CephFS, RBD and GlusterFS, with the scripts of examples/two_machines. It installs packages of Debian, and says which
# and how much, so it is part of nothing else. Needs root, 8 GB of disk and 3 GB of memory.
# `sweeps/engine/run PROGRAM` does the same with a program that is built already.
engine: build
	sweeps/engine/packages
	sweeps/engine/run $(ACTS)

# Scripts, workflows and sessions by the proved program and by the plain model, compared byte by byte.
compared: build
	sweeps/all $(ACTS) compared

# Crashes of a store in a file, by programs that are proved first: each write and sync failing in turn, and `kill -9`. Needs a C compiler.
crashes-over-a-file:
	sweeps/crashes/file.sh
	sweeps/crashes/killed.sh

# The wrong bodies, those of the gate and the others: of all crates, of CRATE, or a single one with CRATE=NAME/EDIT.
wrong-bodies:
	sweeps/edits/run wrong_bodies $(CRATE)

# The wrong bodies that no contract can refuse, so a test has to: of all test crates, of CRATE, or a single one with CRATE=NAME/EDIT.
tested-bodies:
	sweeps/edits/run tested_bodies $(CRATE)

# The changed definitions, which a law or a row has to refuse: of all crates, of CRATE, or a single one with CRATE=NAME/EDIT.
definitions:
	sweeps/edits/run definitions $(CRATE)

# Processor minutes of the gate, by crate, in a fresh clone; with CRATES, of these and those below only.
gate:
	bench/gate
