# tacit: the C library and what checks it. `make help` lists the targets.

PREFIX        ?= /usr/local
DESTDIR       ?=
VERSION       := 5.0.0
CALLS         ?= 200000
SEED          ?= 0x7AC17

# Where libtacit.a is. Set it to check another build of the library.
TACIT_LIB_DIR ?= build

library := $(TACIT_LIB_DIR)/libtacit.a
here    := TACIT_LIB_DIR="$(abspath $(TACIT_LIB_DIR))"
proved  := crates.txt $(shell find crates -name out -prune -o \( -name '*.rt' -o -name '*.antt' \) -print 2>/dev/null)
.PHONY: all help install demo test documents c-test compare mutants mutants-few second clean distclean always
.DELETE_ON_ERROR:

all: $(library) build/tacit.h build/tacit.pc
	@echo "$(library), build/tacit.h and build/tacit.pc are ready; 'make help' lists the targets"

help:
	@echo "make            prove the library and build it: build/libtacit.a, tacit.h, tacit.pc"
	@echo "make install    put these below PREFIX ($(PREFIX)), below DESTDIR if it is set"
	@echo "make demo       run examples/: friday.c, the incident replayed in words, ring.c, a night with limits, border.c, a night without prefixes, multicast.c, a peer without P2MP that then announces it, upgrade.c, records of an older version moved, daemon.c, a daemon in small"
	@echo "make test       the gate: c-test, second, compare and some mutants, then every crate proved"
	@echo "make c-test     check the library through C: tests, sanitizers, header, demos"
	@echo "make compare    the library and the same in plain C against the second implementation; CALLS=$(CALLS) SEED=$(SEED)"
	@echo "make mutants    break the second implementation rule by rule; each must be noticed; MUTANTS=names for some"
	@echo "make coverage   how much of the library's code such a comparison runs, by function (*)"
	@echo "make stack      how much stack each call takes, by its deepest path"
	@echo "make second     the second implementation's own tests"
	@echo "make documents  do the documents name what is there, and does promises::kept hold what they cite"
	@echo "make fuzz       the two on inputs that a fuzzer makes; SECONDS=$(SECONDS) (*)"
	@echo "make outside    what the library writes read by Wireshark, what FRR sends read by the library (*)"
	@echo "make bench      instructions of each call, beside plain C and the second implementation, into docs/BENCHMARK.md (*)"
	@echo "make clean      remove build/; crates/*/out, with what is proved already, stays"
	@echo "make distclean  remove target/ and crates/*/out too"
	@echo "TACIT_LIB_DIR   where libtacit.a is, to check another one (build)"
	@echo "(*)             installs Debian packages by apt-get where they are missing; no other target installs any"

# Of what rt says, a line for each crate that is proved.
define shown
/^fn .*: proved/              { functions++ }
/^crate .*: modules loaded/   { crate = $$2; sub(/:$$/, "", crate) }
/^logic=proved/               { show() }
function show() {
    printf "   %-9s proved%s\n", crate, functions ? ": " functions " functions" : ""
    functions = 0
    fflush()
}
endef
export shown

# Only a proved library is built. All that rt says is shown if it refuses.
build/libtacit.a: $(proved)
	@command -v rt >/dev/null || { echo "rt, the Rattle toolchain, is not on the PATH: libtacit.a cannot be built without it (see README.md)" >&2; exit 1; }
	@mkdir -p build
	@echo "proving the library crate by crate; from nothing this takes some six minutes"
	@bash -o pipefail -c 'cd crates/tacit_c && rt lib --cpu x86-64 2>&1 | tee ../../build/staticlib.log | awk "$$shown"' || { cat build/staticlib.log >&2; exit 1; }
	@cp crates/tacit_c/out/libtacit_c.a $@

build/tacit.h: include/tacit.h
	@mkdir -p build
	@cp $< $@

define pc
prefix=$(PREFIX)
includedir=$${prefix}/include
libdir=$${prefix}/lib

Name: tacit
Description: Application negotiation for targeted LDP sessions (RFC 8223, RFC 7473)
Version: $(VERSION)
Cflags: -I$${includedir}
Libs: -L$${libdir} -ltacit
endef
export pc

# Written anew each time, for PREFIX may be another one.
build/tacit.pc: always
	@mkdir -p build
	@printf '%s\n' "$$pc" >$@

install: $(library)
	install -d "$(DESTDIR)$(PREFIX)/include" "$(DESTDIR)$(PREFIX)/lib/pkgconfig"
	install -m 644 include/tacit.h "$(DESTDIR)$(PREFIX)/include/tacit.h"
	install -m 644 "$(library)" "$(DESTDIR)$(PREFIX)/lib/libtacit.a"
	printf '%s\n' "$$pc" >"$(DESTDIR)$(PREFIX)/lib/pkgconfig/tacit.pc"

demo: $(library)
	@mkdir -p build
	@for each in friday ring border multicast upgrade daemon; do \
	    $(here) tests/c/host cc -std=c11 -O2 -Wall -Wextra -Iinclude -o build/$$each examples/$$each.c "$(library)" && \
	    echo && $(here) tests/c/host run build/$$each || exit 1; \
	done

test:
	bash .ci/run

c-test: $(library)
	@$(here) tests/c/run

compare: $(library)
	@$(here) tests/compare/build
	@cd tests/compare && cargo run --release --offline -- --calls $(CALLS) --seed $(SEED)

mutants: $(library)
	@$(here) tests/mutants/run --calls $(CALLS) --seed $(SEED) $(MUTANTS)

# For the gate: one rule of each part, and one fault of the library.
few := area-3-before-5 tac-by-position permitted-despite-sac change-9-not-asked at-limit-never wish-7-before-unchanged \
       capability-theirs-alone forward-lost-all-when-open back-13-before-10-by-the-room record-lists-swapped row-another-touched \
       total-66-losing-taken library-writes-behind
mutants-few: $(library)
	@$(here) tests/mutants/run --calls 200000 --seed $(SEED) $(few)

documents:
	@tests/documents/run

second:
	cd tests/second && cargo test --offline

clean:
	rm -rf build
	@echo "target/ and crates/*/out, with what is proved already, stay; 'make distclean' removes them too"

distclean:
	rm -rf build target crates/*/out

-include tests/tests.mk
