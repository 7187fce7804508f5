# What the repository does: `make demo` shows it on sample data, `make test` is the gate, `make bench` measures it,
# `make robust` tries the programs where something is wrong around them, `make memory` makes each allocation of a day and a run fail,
# `make planted` tries the planted bugs, which the proofs must refuse, `make fmt` formats the sources.
.PHONY: demo test docs bench robust memory planted fmt

# One build at a time: they share a log.
.NOTPARALLEL:

SAMPLES = crates/samples/data

demo:
	@tools/build.py cuivakko pieces retouch
	@tools/show_day.sh target/bin/cuivakko crates/cuivakko/data/master.dds crates/cuivakko/stdin
	@tools/show_day.sh target/bin/cuivakko crates/busy_day/data/master.dds crates/busy_day/data/orders.txt
	@for file in $(SAMPLES)/*.dds; do echo "$$file"; target/bin/pieces $$file || exit 1; done
	@target/bin/retouch $(SAMPLES)/cube-rgb.dds

target/bin/%: crates.txt $(shell find crates -path '*/out' -prune -o \( -name '*.rt' -o -name '*.antt' \) -print)
	@tools/build.py $*

test:
	.ci/run

# The code in README.md stands in crates/example, and what the documents name is there.
docs:
	tools/check_docs.py

# The ratios of its costs to those of bench/, the same work in plain Rust.
bench: target/bin/bench
	cd bench && cargo build --release --offline
	python3 bench/run.py

robust: target/bin/cuivakko target/bin/pieces target/bin/retouch
	tools/robust.sh target/bin

memory: target/bin/cuivakko
	cd crates/orders_tests && rt test >/dev/null
	cd crates/loans_tests && rt test >/dev/null
	tools/fail_alloc.sh target/bin

# At least three bugs in each public function, with the edits of the gate, but for those of planted/FEWER.txt; some in private ones too.
planted:
	tools/plant_bugs.py --count && tools/plant_bugs.py

fmt:
	for crate in crates/*; do (cd $$crate && rt fmt) || exit 1; done
