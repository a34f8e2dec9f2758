SHELL := /bin/bash
.SHELLFLAGS := -o pipefail -ec
.PHONY: run test host-test bench clean

# The main job on a sample: document 01's sheet, filed, acknowledged and printed.
run:
	@if [ ! -e target/bin/panel ]; then echo 'building and proving the panel: the first time this takes some minutes' >&2; fi
	@$(MAKE) --no-print-directory target/bin/panel
	@target/bin/panel examples/sample.sheet

# Everything: rt ci (the layout of all files, every proof, every must-fail edit, every program), then the host tests. The last line is the verdict.
test:
	@log=$$(mktemp); rt ci | tee $$log; if grep -Eq '^rt: ok.*, [1-9][0-9]* bad' $$log; then echo 'a must-fail edit is bad'; exit 1; fi; \
	$(MAKE) --no-print-directory host-test; tail -n 1 $$log; rm -f $$log

# The examples' prints, with the stack that docs/MANUAL.md names; then, where cargo and cc are here, the archive and the panel against the independent implementation: its own tests, some
# 12 million blobs and tables, and some 3,000 sheets.
host-test: target/bin/panel
	@for sheet in examples/*.sheet; do (ulimit -s 1280; exec env -i target/bin/panel $$sheet) | cmp - $${sheet%.sheet}.txt; done
	@if command -v cargo >/dev/null && command -v cc >/dev/null; then \
	    $(MAKE) --no-print-directory target/staticlib/libdawnclavier.a; \
	    cd host; \
	    cargo test --quiet --release --offline --features archive; \
	    cargo run --quiet --release --offline --features archive --bin differential; \
	    cargo run --quiet --release --offline --bin sheets -- ../target/bin/panel; \
	    cargo build --quiet --release --offline --features archive --bin memory; \
	    if command -v valgrind >/dev/null; then valgrind --quiet --error-exitcode=9 target/release/memory; \
	    else echo 'memory run skipped: valgrind is not here'; fi; \
	else echo 'host tests skipped: cargo or cc is not here'; fi

# A program, proved and built: rt run builds it and runs it once on what lies in its folder.
target/bin/%: FORCE
	@mkdir -p target/bin
	@(cd crates/$* && rt run </dev/null) >target/$*.log 2>&1 || { cat target/$*.log; exit 1; }
	@cp crates/$*/out/$* $@

# The archive for other languages, under its own name.
target/staticlib/libdawnclavier.a: FORCE
	@mkdir -p target/staticlib
	@(cd crates/dawnclavier_c && rt lib) >target/staticlib.log 2>&1 || { cat target/staticlib.log; exit 1; }
	@cp crates/dawnclavier_c/out/libdawnclavier_c.a $@

FORCE:

# What the proofs cost: lines and check time of each crate. Then the archive's and the programs' time over the independent implementation's, in one
# run: docs/BENCH.md and its plot.
bench: target/bin/timed target/bin/panel target/staticlib/libdawnclavier.a
	@tools/measure
	@cd host && cargo run --quiet --release --offline --features archive --bin bench -- ../target/bench.md ../target/bench.csv ../target/bin
	@tools/plot target/bench.csv docs/bench.svg
	@{ sed '/^## Last run/q' docs/BENCH.md; echo; cat target/bench.md; } >target/BENCH.md && mv target/BENCH.md docs/BENCH.md

clean:
	rm -rf target host/target crates/*/out
