# make tour: plays the sample museum. make test: the gate. make help lists all targets.
SHELL = /bin/bash
.SHELLFLAGS = -o pipefail -c
.DEFAULT_GOAL = help
.PHONY: help tour tours tourrun libplayer player compare test fmt wrong bench expected map everything dist

# Lists the targets, each with what stands above it here.
help:
	@awk -f .ci/help.awk Makefile

# Proves tourread, tourcheck, tourrun and tourlist and builds them (minutes the first time), then reads, checks and
# plays the sample museum.
tour: tourrun
	tours/play tours/museum.l6

# Plays every sample tour and the examples of docs/TOURS.md and compares what they print, tries a text for each kind of
# fault, and reads back what tours/print prints of each table.
tours: tourrun
	tours/try

# Proves tourread, tourcheck, tourrun and tourlist and builds them into target/bin.
tourrun:
	.ci/build tourread tourcheck tourrun tourlist

# Proves the library for players and writes target/staticlib/libplayer.a (minutes the first time).
libplayer:
	.ci/build player

# Builds the example hosts in C and in Rust, plays the sample museum with both, in one go and in two processes, and
# compares what they print. Then builds the producer's tools and tries tours/rehearse, tours/trace and tours/draw. The
# hosts stay in target/bin.
player: libplayer tourrun
	host/run
	host/rehearsed

# Holds libplayer.a against the reference engine on generated and damaged tours, by step and by run: make compare SEED=7
# STEPS=50000.
SEED = 1966
STEPS = 1000000
compare: libplayer
	gcc -O2 -Wall -Wextra -Werror -Iinclude -c -o target/header.o reference/header.c
	rustc -O --edition 2021 -L target/staticlib -C link-arg=target/header.o -o target/compare reference/compare.rs
	target/compare $(SEED) $(STEPS)

# The gate: proves every crate, tries the must-fail edits, runs the programs; its last line is 'N passed, 0 failed', and no
# must-fail edit is bad. What passed once on a machine is proved again only where it or a crate below it has changed.
test:
	bash .ci/run

# Lays every .rt, .antt and .rs file out.
fmt:
	for crate in crates/*/; do (cd $$crate && rt fmt) || exit 1; done
	rustfmt --config-path rustfmt.toml $$(git ls-files '*.rs')

# Tries the wrong answers that stand apart from the gate, crates/NAME/wrong: the prover must refuse each (a check for each
# of some 400, over what is proved of its crate).
wrong:
	bash .ci/wrong

# Times the proved engine and one written for speed in plain Rust on the same programs, and what libplayer.a adds to a
# call (some minutes).
bench:
	bench/run

# Writes again what the programs must print, computed independently, the cases that comparison reads and the tables that
# tourrun and laps read.
expected: tourrun
	mkdir -p target
	rustc -O --edition 2021 -o target/leaves-reference reference/leaves.rs
	for name in leaves allocations triples openings corrections cards; do target/leaves-reference $$name > crates/$$name/stdout; done
	rustc -O --edition 2021 -o target/reference reference/main.rs
	for file in stdin stdout; do target/reference comparison 7094 480 $$file > crates/comparison/$$file; done
	for file in stdin stdout; do target/reference scripts 23 600 $$file > crates/scripts/$$file; done
	for file in stdin stdout; do target/reference drafts 14 600 $$file > crates/drafts/$$file; done
	tours/play --files tours/example.l6 crates/tourrun/data
	rm crates/tourrun/data/stops.in
	tours/play --files tours/refusal-14.l6 crates/tourcheck/data
	rm crates/tourcheck/data/stops.in
	tours/play --files tours/left.l6 crates/tourlist/data
	rm crates/tourlist/data/stops.in
	cd crates/tourlist/data && ../../../target/reference tourlist > ../stdout
	tours/play --files bench/lists.l6 crates/laps/data
	rm crates/laps/data/stops.in
	rustc -O --edition 2021 -o target/rival bench/main.rs
	cd crates/laps/data && ../../../target/rival $$(cat ../args) > ../stdout

# Writes docs/PROOFS.md again: a line for each file of laws, from its header.
map:
	docs/proofs

# All that can be tried, one after the other: the gate, the tours, both hosts, a million steps against the other engine,
# expected output and the list of proofs written anew with no change left, and the wrong answers apart from the gate
# (hours).
everything: test tours player compare expected map
	git diff --exit-code
	$(MAKE) wrong

# The library for vendors in one file, with its version: header, archive, Rust module, example hosts, docs/EMBEDDING.md.
dist: libplayer
	version=l6-$$(sed -n 's/^#define L6_VERSION //p' include/l6.h) && rm -rf target/$$version && mkdir -p target/$$version \
	&& cp include/l6.h host/l6.rs host/player.c host/player.rs docs/EMBEDDING.md CHANGELOG.md target/$$version \
	&& cp target/staticlib/libplayer.a target/$$version \
	&& tar -C target -czf target/$$version.tar.gz $$version && echo target/$$version.tar.gz
