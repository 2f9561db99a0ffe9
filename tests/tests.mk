# What checks the library from outside, beside the comparison: included by the
# Makefile at the top.

TACIT_LIB_DIR ?= build
SECONDS       ?= 60

.PHONY: coverage stack fuzz outside bench

# How much of the library's code a comparison runs, by function.
coverage: $(TACIT_LIB_DIR)/libtacit.a
	@TACIT_LIB_DIR="$(abspath $(TACIT_LIB_DIR))" tests/coverage/run --calls $(CALLS) --seed $(SEED)

# How much stack each call takes, by its deepest path.
stack: $(TACIT_LIB_DIR)/libtacit.a
	@tests/c/stack "$(TACIT_LIB_DIR)/libtacit.a"

# The library against the second program, on inputs that libFuzzer makes.
fuzz: $(TACIT_LIB_DIR)/libtacit.a
	@TACIT_LIB_DIR="$(abspath $(TACIT_LIB_DIR))" tests/fuzz/run $(SECONDS)

# What the library writes, read by Wireshark; what FRR sends, read by the library.
outside: $(TACIT_LIB_DIR)/libtacit.a
	@TACIT_LIB_DIR="$(abspath $(TACIT_LIB_DIR))" tests/outside/run

# Instructions for each call beside plain C and the second program; writes docs/BENCHMARK.md.
bench: $(TACIT_LIB_DIR)/libtacit.a
	@TACIT_LIB_DIR="$(abspath $(TACIT_LIB_DIR))" bench/run

# Wrong numbers are refused before anything is made: to the fuzzer SECONDS=x is no limit at all.
digits  := 0 1 2 3 4 5 6 7 8 9
without  = $(if $1,$(call without,$(wordlist 2,$(words $1),$1),$(subst $(firstword $1),,$2)),$2)
number   = $(if $2,$(if $(call without,$1,$2),,yes))
counted  = $(and $(call number,$(digits),$($1)),$(call without,0,$($1)))
$(foreach each,CALLS SECONDS,$(if $(call counted,$(each)),,\
    $(error $(each) is a number from 1, not '$($(each))')))
$(if $(call number,$(digits),$(SEED))$(call number,$(digits) a b c d e f A B C D E F,$(patsubst 0x%,%,$(filter 0x%,$(SEED)))),,\
    $(error SEED is a number, or 0x and hexadecimal digits, not '$(SEED)'))
