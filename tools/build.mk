# What rt builds for the Makefiles of the root, tests, examples and bench: of a static library crates/NAME/out/libNAME.a, of a program
# crates/NAME/out/NAME. Each is built again when any crate has changed: every file, and every folder, whose time changes when a file comes
# or goes; rt sees for itself which of them it proves again. ROOT is the way to the root.
ROOT ?= ..
PARTS = src specs proofs proofs/*
CRATES := $(ROOT)/crates.txt $(wildcard $(PARTS:%=$(ROOT)/crates/*/%) \
    $(PARTS:%=$(ROOT)/crates/*/%/*.rt) $(PARTS:%=$(ROOT)/crates/*/%/*.antt))
CRATE = $(patsubst %/out/,%,$(dir $@))

$(ROOT)/crates/engine/out/libengine.a $(ROOT)/crates/polynomial_bench/out/libpolynomial_bench.a: $(CRATES)
	$(ROOT)/tools/need-rt && cd $(CRATE) && rt lib && touch out/$(@F)

# rt builds a program only to run it: here on no input.
$(ROOT)/crates/desk/out/desk: $(CRATES)
	$(ROOT)/tools/need-rt && cd $(CRATE) && rt run < /dev/null && touch out/$(@F)

.NOTPARALLEL:
