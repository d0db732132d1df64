# The toolchain is a Rattle kit, whose command `rt` proves, builds and tests.

# Each program stands at build/NAME.
PROGRAMS := vfs ns mirror audit frames
PROGRAM := build/vfs
TREE := examples/trees/small.toml
SCRIPT := examples/scripts/reading.script

.PHONY: help try build run test check bench starve soak map clean

help:
	@echo "make try    play a script over a small tree before anything is proved, in some minutes (SCRIPT=FILE TREE=FILE: another)"
	@echo "make build  prove the programs and build them, each as build/NAME: $(PROGRAMS)"
	@echo "make run    build them, serve example trees and a file (frames with what comes back), play a script, check example trees,"
	@echo "            rewrite a script by a table, mirror a watched directory, audit a recording, and serve a script's frames"
	@echo "make test   all proofs, the edits that must be refused, the tests and the programs, the examples and the documents"
	@echo "make check  build them, run them on the examples, and play worked sessions and trees"
	@echo "make bench  processor time, instructions a frame where valgrind is there, and memory"
	@echo "make starve each allocation of sessions of every command refused in turn (wants a C compiler)"
	@echo "make soak   minutes: ten million frames in both modes, with the memory and the time a frame at each tenth"
	@echo "make map    where each definition stands: every crate, lowest first, with what each file of its specs/ defines"
	@echo "make clean  remove what was built and what checks kept"
	@echo
	@echo "A build proves all crates below the programs, those that don't stand on each other side by side."

# Nothing is proved here: an index out of bounds, a sum that doesn't fit or a case that can't be stops the program.
try:
	@echo "compiling without proofs, some minutes; the last two lines are the toolchain's"
	@tree=$$(realpath "$(TREE)") && script=$$(realpath "$(SCRIPT)") && cd crates/vfs && \
	    rt try --data "tree=$$tree" --data "script=$$script" -- run tree script

build:
	@tools/build.sh $(PROGRAMS)

# Sessions over a tree: one that reads, one that changes it, one over its names, and one that watches them; one over two
# servers in mode given; one over a file; a script with its transcript; and the check of trees.
run: build
	@examples/exchange.sh $(PROGRAM) examples/session.hex serve examples/trees/small.toml auto
	@echo
	@examples/exchange.sh $(PROGRAM) examples/changes.hex serve examples/trees/small.toml auto
	@echo
	@examples/exchange.sh $(PROGRAM) examples/names.hex serve examples/trees/small.toml auto
	@echo
	@examples/exchange.sh $(PROGRAM) examples/watching.hex serve examples/trees/small.toml auto
	@echo
	@examples/exchange.sh $(PROGRAM) examples/turns.hex serve examples/trees/mounted_pair.toml given
	@echo
	@examples/exchange.sh $(PROGRAM) examples/exchange.hex file examples/hello
	@echo
	@echo "vfs run examples/trees/small.toml examples/scripts/reading.script"
	@echo
	@cat examples/scripts/reading.script
	@echo
	@$(PROGRAM) run examples/trees/small.toml examples/scripts/reading.script
	@echo
	@examples/trees.sh $(PROGRAM)
	@echo
	@echo "ns examples/namespace/table examples/namespace/script"
	@echo
	@cat examples/namespace/table
	@echo
	@build/ns examples/namespace/table examples/namespace/script
	@echo
	@echo "vfs serve examples/trees/small.toml auto < FRAMES | mirror 3, where FRAMES are those of examples/watching.hex"
	@echo
	@tools/to-bytes.sh examples/watching.hex | $(PROGRAM) serve examples/trees/small.toml auto | build/mirror 3
	@echo
	@echo "audit crates/audit/data/tree crates/audit/data/recording"
	@echo
	@build/audit crates/audit/data/tree crates/audit/data/recording
	@echo
	@echo "frames $(SCRIPT) | vfs serve $(TREE) auto | vfs show"
	@echo
	@build/frames $(SCRIPT) | $(PROGRAM) serve $(TREE) auto | $(PROGRAM) show

test:
	@.ci/run

check: build
	@examples/check.sh $(PROGRAM)
	@examples/play.sh $(PROGRAM)
	@examples/ns.sh build/ns $(PROGRAM)
	@examples/mirror.sh build/mirror $(PROGRAM)
	@examples/audit.sh build/audit $(PROGRAM)
	@examples/frames.sh build/frames $(PROGRAM)
	@examples/conform.sh $(PROGRAM) build/frames

bench: build
	@tools/bench.sh $(PROGRAM)
	@tools/bench-ns.sh build/ns
	@tools/bench-mirror.sh build/mirror

# Beside the program the player of rows, which goes on calling a world that found no memory.
starve: build
	@tools/build.sh io_conformance
	@tools/starve.sh $(PROGRAM) build/io_conformance

soak: build
	@tools/soak.sh $(PROGRAM)

map:
	@tools/map.sh

clean:
	rm -rf build crates/*/out
