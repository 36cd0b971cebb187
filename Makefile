# Runs hip_play on standard input before anything is proved: an answer within a minute or two of a fresh clone.
.PHONY: try
try:
	@cd crates/hip_play && rt try

# Proves, builds and runs hip_play on standard input. What was built stays: as long as no source below it changed, it is only run.
PLAY := crates/hip_play/out/hip_play
# Two checks side by side where there is memory for both (a check takes up to 4 GB), each of as many jobs as rt chooses.
SIDE_BY_SIDE := $(shell awk '/^MemAvailable/ { print ($$2 > 10000000 ? 2 : 1) }' /proc/meminfo)

.PHONY: play
play:
	@$(MAKE) --silent -j $(SIDE_BY_SIDE) $(PLAY) < /dev/null >&2
	@$(PLAY)

# Each library that hip_play stands on is proved again where one of its own files, or a library below it, changed.
LIBRARIES := hip_raw hip_match hip_bytes hip_text hip_cuts hip_fields hip_names hipstr hip_script
sources = $(wildcard crates.txt) $(shell find $(wildcard crates/$(1)/src crates/$(1)/specs crates/$(1)/proofs))
below = $(foreach name,$(filter $(LIBRARIES),$(shell sed -n 's/^$(1)://p' crates.txt)),crates/$(name)/out/proved)

define library
crates/$(1)/out/proved: $(call sources,$(1)) $(call below,$(1))
	cd crates/$(1) && rt lib && touch out/proved
endef
$(foreach name,$(LIBRARIES),$(eval $(call library,$(name))))

$(PLAY): $(call sources,hip_play) $(call below,hip_play)
	cd crates/hip_play && rt run > /dev/null && touch out/hip_play

# Copies hipstr and what it stands on into another repository of the kit's: make vendor INTO=DIR. With USES=1 hip_uses too.
.PHONY: vendor
vendor:
	@scripts/vendor.sh "$(INTO)" $(USES)

# The README's program, in a repository of its own, before anything is proved.
.PHONY: check-readme
check-readme:
	@scripts/check-readme.sh

# The gate: the README's program, the contracts that CALLING.md quotes, the words that DEFINITIONS.md tells, as specs have them, the tests that
# docs/PLANTS.md names, the calls that copy bytes, and then every proof from nothing, every must-fail edit, every test, every program. Four
# checks at a time, each in one process: a check in several takes up to a third more processor time.
.PHONY: test
test: check-readme
	@docs/check-calling
	@docs/definitions
	@docs/check-words
	@scripts/check-tested.sh
	@scripts/check-copies.sh
	@bash -c 'TIMEFORMAT="The gate took %U processor seconds, %S more in the system, and %R of wall time."; time RT_JOBS=$${RT_JOBS:-4} rt ci'

# The unit that the gate's processor time is told in (docs/BENCHMARKS.md), on this machine at this hour.
.PHONY: unit
unit:
	@bench/unit.sh

# Measures the handles beside plain vectors, and beside hipstr in Rust where HIPSTR_RS names a checkout of it.
.PHONY: bench
bench:
	@cd crates/hip_bench && rt lib
	@bench/run.sh

# Runs hip_tools on each example of examples/tools, on bad input of each kind, and with an output that takes nothing.
.PHONY: tools
tools:
	@cd crates/hip_tools && rt run -- count < /dev/null > /dev/null
	@scripts/tools.sh

# Measures hip_tools count on 64 MiB, beside the same over hipstr in Rust where HIPSTR_RS names a checkout of it.
.PHONY: count
count:
	@bench/count.sh

# Measures hip_tools count on words that share one hash under a fixed seed, beside random words.
.PHONY: flood
flood:
	@bench/flood.sh

# Measures the walks over the ranges of a text beside Rust's `str`.
.PHONY: walks
walks:
	@cd crates/hip_match_bench && rt lib
	@bench/walks.sh

# Proves functions of a user's own over handles and over `String`, and prints the processor seconds of each.
.PHONY: callers
callers: crates/hipstr/out/proved
	@bench/callers.sh

# Runs the program over a random script under valgrind, on both backends, and the tests that `rt test` has built.
.PHONY: leaks
leaks:
	@cd crates/hip_play && rt run < /dev/null > /dev/null
	@bench/leaks.sh

# Runs each scenario of hip_refused_tests again and again, with one request for memory refused, each in turn.
.PHONY: refuse
refuse:
	@cd crates/hip_refused_tests && rt test > /dev/null
	@bench/refuse.sh
