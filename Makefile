# Threshlantern: what can be done from here. `make help` prints the lines below that have two hashes.
.DEFAULT_GOAL := help
.PHONY: help listen test refused lib demo faces neighbours compare compare-long plants vectors bench fmt clean

# How long `make compare-long` runs.
SECONDS ?= 600

help: ## what there is
	@echo 'Threshlantern: a proved signal path. The commands:'
	@sed -n 's/^\([a-z-]*\):.*## \(.*\)/  make \1\t\2/p' $(MAKEFILE_LIST) | expand -t 21

listen: demo ## hear it: demodulate the capture that is shipped, into build/alarm.wav
	@tests/need.sh python3
	@tests/listen.sh

test: ## prove everything, try the edits that must be refused, run the programs; the last line is 'N passed, 0 failed'
	@tests/gate.sh

refused: ## try the edits that must be refused alone, over what is proved (ARGS='fir nco' for some crates)
	@tests/need.sh rt
	@rt must-fail $(ARGS)

lib: ## build/libthreshlantern.a and build/threshlantern.h, the library for C and Rust
	@tests/lib.sh

demo: ## build/demo: pairs of bytes on standard input, f32 of sound on standard output
	@tests/program.sh demo

faces: lib demo ## run what C and Rust see: header, symbols, examples, the crate's tests, the demo on cut pipes
	@tests/faces.sh

neighbours: lib ## measure what a decimator lets through of stations beside its channel: the guide's table, in dB
	@tests/neighbours.sh

compare: lib ## hold the library against Rust's own and the Rust original for a minute (ARGS='--seed 7' repeats its first round)
	@oracle/run.sh $(ARGS)

compare-long: lib ## the same for as long as asked: make compare-long SECONDS=600
	@oracle/run.sh --seconds $(SECONDS) $(ARGS)

plants: lib ## see that the comparison finds every kind of wrong answer that is planted in it
	@oracle/plants.sh $(ARGS)

vectors: lib ## store a sample of the Rust original's answers in crates/vectors/data, for the replay that the gate runs
	@oracle/vectors.sh

bench: lib ## the library's speed beside the Rust original, in one run (ARGS='--rounds 200 FM')
	@bench/run.sh $(ARGS)

fmt: ## lay the Rattle sources and proofs out as the gate wants them
	@tests/need.sh rt
	@for crate in crates/*/; do (cd $$crate && rt fmt) || exit 1; done

clean: ## remove what was made: target/, build/ and what rt keeps of each crate
	@rm -rf target build crates/*/out
