# The few things that people do. `make` alone lists them.
.PHONY: help gate more crate format library program differential bench stack documents pages pictures bends

help:
	@grep -E '^[a-z]+:.*##' $(MAKEFILE_LIST) | sed 's/:.*## /	/' | expand -t 16

gate: ## everything proved from nothing, the edits refused, the programs run
	bash .ci/run

more: ## what the gate does not run: samples, C and Rust tests, differential test, documents
	.ci/more

crate: ## prove one crate and those below it, the quick loop too: make crate C=cells
	cd crates/$(C) && rt check

format: ## put all Rattle and antt files in the layout
	for crate in crates/*/; do (cd $$crate && rt fmt) || exit; done

library: ## the proved library for C and Rust, target/staticlib/libexports.a
	cd crates/exports_c && rt lib
	mkdir -p target/staticlib
	cp crates/exports_c/out/libexports_c.a target/staticlib/libexports.a

program: ## the proved listing program, target/bin/listing
	cd crates/listing && rt run < stdin | diff - stdout
	mkdir -p target/bin
	cp crates/listing/out/listing target/bin/listing

differential: library ## 100,000 inputs against the independent implementation
	cd bindings/rust && cargo run --release -p differential -- --count 100000

bench: library ## the tables of docs/BENCHMARK.md
	cd bindings/rust && cargo run --release -p bench -- --without-slow

stack: library ## how much stack the calls take
	$(MAKE) -C bindings/c stack

documents: ## every name in the documents is there, the tables and the picture are what their scripts write
	python3 tools/check_docs.py

pages: ## the pages and tables that scripts write; the edits are tried for it
	mkdir -p target
	rt must-fail >target/must-fail.log
	-python3 tools/edits.py target/must-fail.log
	python3 tools/sizes.py
	python3 tools/reading.py --write

pictures: ## docs/rooms.svg, the crates and what each stands on, from crates.txt
	python3 tools/picture.py

bends: ## every bent definition is refused (an hour)
	python3 tools/bend.py
