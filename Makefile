.PHONY: archive install baud replay shrink demo test compare bench refute

PREFIX ?= /usr/local

# Proves the crates and writes target/staticlib/libwarpmagpie.a, unless it is there and newer than every source.
archive:
	@bash scripts/archive.sh

# Puts header, archive and a pkg-config file below PREFIX: make install PREFIX=$HOME/.local. Packagers set DESTDIR too.
install:
	@bash scripts/install.sh "$(PREFIX)" "$(DESTDIR)"

# Proves and builds the program that prints the baud setting for a clock and a rate.
baud:
	@bash scripts/program.sh baud
	@echo "target/bin/baud CLOCK RATE, in Hz and baud, as in: target/bin/baud 16000000 115200"

# Proves and builds the program that replays a bench trace.
replay:
	@bash scripts/program.sh replay
	@echo "target/bin/replay FILE, as in: target/bin/replay target/demo.trace"

# Proves and builds the program that prints the shortest trace with the same clocks and calls.
shrink:
	@bash scripts/program.sh shrink
	@echo "target/bin/shrink FILE, as in: target/bin/shrink long.trace >short.trace"

# Builds the archive and the rig in examples/, plays both transfers, writes the waveform and the chime's trace, which is
# shrunk, and replays the trace.
demo:
	@bash examples/build.sh
	@bash scripts/program.sh replay
	@target/rig --trace target/demo.trace target/demo.vcd
	@echo "waveform: target/demo.vcd"
	@echo "trace: target/demo.trace"
	@said=$$(target/bin/replay target/demo.trace); echo "replay of the trace: $$said"; [ "$$said" = ok ]

# rt ci, which proves every crate, tries the must-fail edits and runs the programs; then the host tests.
test:
	@bash tests/run

# The archive against the independent model: make compare SEED=7 SCALE=5 does five times what the test does, with
# another seed.
compare:
	@bash tests/host/compare.sh $(if $(SEED),--seed $(SEED)) $(if $(SCALE),--scale $(SCALE))

# Time of a clock against the independent model's, then the instructions of a call, where there is valgrind.
bench:
	@bash bench/run.sh
	@bash bench/instructions.sh

# The negation of a statement, proved of each wrong program that refutations/ has: make refute NAME=wrong_senders for
# one.
refute:
	@bash scripts/refute.sh $(NAME)
