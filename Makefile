# rt proves and builds what has changed; rt ci proves from nothing all that it has not passed on this machine, and gives the verdict.
.PHONY: help run picture why show replay test bench lib firmware cases clean

# The targets, by the lines `## ..` below: what each does, what it needs beside make, and how long it took on 2 processors with an older kit.
help:
	@awk -F '## |, needs |; ' '/^[a-z]+:.*## / { name = $$1; sub(/:.*/, "", name); \
	    if (!heads++) printf "%-9s %-62s %-22s %s\n", "make ..", "", "needs", "took (older kit)"; \
	    printf "%-9s %-62s %-22s %s\n", name, $$2, $$3, $$4 }' Makefile

# The example drill, R6.7: its twelve moves on set T.
run: ## the example drill: twelve moves on set T, needs rt; 4 min first, then no time
	@sh tools/need run rt
	@sh tools/prove drill
	@cd examples/set-t && ../../target/bin/drill < moves

# The same as a picture: target/drill.svg (needs python3).
picture: ## the same as a picture, target/drill.svg, needs rt, python3; as run
	@sh tools/need picture rt python3
	@mkdir -p target
	@$(MAKE) -s run > target/drill.lines || { cat target/drill.lines; exit 1; }
	@python3 tools/picture.py --moves examples/set-t/moves < target/drill.lines > target/drill.svg
	@echo target/drill.svg

# The example drill up to the sleep ask that is refused, and why the panel is awake.
why: ## six of these moves, and why the panel is still awake, needs rt; as run
	@sh tools/need why rt
	@sh tools/prove why
	@cd examples/set-t && head -n 6 moves | ../../target/bin/why

# The example set T, R1.14, in words.
show: ## set T in words, needs rt; 2 min first, then no time
	@sh tools/need show rt
	@sh tools/prove show
	@cd examples/set-t && ../../target/bin/show

# The example recording: the example drill with the sleep message lost.
replay: ## a recorded bus: the example recording, needs rt; as run
	@sh tools/need replay rt
	@sh tools/prove replay
	@cd examples/recording && ../../target/bin/replay < moves

# Layout, proofs, must-fail edits and programs, then the C tests and the comparisons on what was built: a line for each, and the verdict in
# the last. target/ci.log and target/tests keep all that was said. The gate's own test first.
test: ## everything, the verdict in the last line, needs rt, gcc, g++, python3; 30 min
	@sh tools/need test rt gcc g++ python3
	@. tests/gate/try.sh && try gate sh tests/gate/check.sh
	@sh tests/gate/run.sh rt tests/c/run.sh

# The calls and the drill against straightforward C on the same inputs; then the calls on emulated controllers, where the emulator is there.
bench: ## the C calls and the drill against straightforward C, needs rt, gcc, python3; 3 min after the proofs
	@sh tools/need bench rt gcc python3
	sh tests/c/bench.sh
	sh tests/firmware/measure.sh

# The C calls for x86-64: target/lib/libcxpi.a.
lib: ## the C calls for x86-64, target/lib/libcxpi.a, needs rt; 2 min after run
	@sh tools/need lib rt
	@sh firmware/module.sh

# The C calls for controllers: an archive for each and both variants, in target/firmware.
firmware: ## the C calls for controllers, target/firmware, needs rt, python3; as lib, and 1 min
	@sh tools/need firmware rt python3
	@sh firmware/module.sh
	@sh firmware/archives.sh

# Makes the test sets, the machines' cases, the lists of events, the requests to a node, the lists of moves, the recorded moves, the drill's
# scripts, the cases of why and what must be printed of them, and the drill's picture anew (needs python3).
cases: ## the stored cases and what must be printed of them anew, needs python3; 1 s
	@sh tools/need cases python3
	python3 tests/sets/make.py
	python3 tests/machines/make.py
	python3 tests/batches/make.py
	python3 tests/configuration/make.py
	python3 tests/moves/make.py
	python3 tests/replay/make.py
	python3 tests/drills/make.py
	python3 tests/why/make.py
	python3 tools/picture.py --moves examples/set-t/moves < crates/drill/stdout > tests/picture/drill.svg

# All that was made.
clean: ## removes target/ and what rt made, needs nothing; no time
	rm -rf target crates/*/out
