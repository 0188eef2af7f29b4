# The ways in: `make` lists them. Each says what is missing. CC may name another C compiler.
CC ?= cc
CRATE ?= trace
SCRIPT ?= examples/two_desks_and_a_planner.txt
PREFIX ?= /usr/local
DESTDIR ?=
LIBDIR ?= $(PREFIX)/lib
INCLUDEDIR ?= $(PREFIX)/include
FUZZ_SECONDS ?= 60
FUZZ_SEED ?= 1

STORE = target/staticlib/libentry_store.a
STAMPS = target/staticlib/liblocal_stamps.a
HEADERS = include/entry_store.h include/local_stamps.h
# The version stands in this header and nowhere else.
VERSION = $(shell sed -n 's/^\#define ENTRY_STORE_VERSION "\(.*\)".*/\1/p' include/entry_store.h)
export CC

.PHONY: help try prove check journals stamps archive host install uninstall bench fuzz clean need-rt need-cc need-version
.NOTPARALLEL:

help: ## this list
	@sed -n 's/^\([a-z]*\):[^#]*## \(.*\)/\1|\2/p' Makefile | while IFS='|' read -r name what; do \
	    printf '  make %-10s %s\n' "$$name" "$$what"; done
	@echo 'Times but those of check and archive are of an older kit, on two processors. CRATE, SCRIPT, PREFIX, DESTDIR, FUZZ_SECONDS and CC may be set.'

try: need-rt ## a look: plays SCRIPT (an example) with nothing proved, in seconds
	@examples/look '$(SCRIPT)'

prove: need-rt ## proves CRATE (the trace program) and what it rests on, 8 minutes; trace then plays SCRIPT
	@[ -r '$(SCRIPT)' ] || { echo 'make $@: SCRIPT, $(SCRIPT), cannot be read' >&2; exit 2; }
	@.ci/prove $(CRATE)
	@if [ '$(CRATE)' = trace ]; then echo 'target/bin/trace < $(SCRIPT)'; target/bin/trace < '$(SCRIPT)'; fi

check: need-rt need-cc ## the gate, 1 hour: proofs, must-fail edits, programs, the examples in C
	@.ci/run

journals: need-rt ## proves the checker of journals and what it rests on, 2 minutes, and holds it to stored verdicts
	@.ci/prove check_journal
	@.ci/journals

stamps: need-cc $(STAMPS) ## proves and builds local stamps for C, 1 minute, and checks what the programs over it print
	@$(MAKE) --no-print-directory -C examples/stamps all check CC='$(CC)'

archive: $(STAMPS) $(STORE) ## proves and builds both libraries for C, half an hour

$(STAMPS) $(STORE): target/staticlib/lib%.a: crates.txt $(shell find crates -path 'crates/*/out' -prune -o \( -name '*.rt' -o -name '*.antt' \) -print)
	@.ci/archive $*

host: need-cc $(STORE) ## builds the example host, its dump and the fuzz harness, and checks what they print
	@$(MAKE) --no-print-directory -C examples/host all check CC='$(CC)'

install: need-version archive ## libraries, headers and pkg-config files under PREFIX (/usr/local), below DESTDIR if that is set
	@$(call write-pc,entry_store,A verified store for entries under long locks on keys and gaps)
	@$(call write-pc,local_stamps,Verified conversions between UTC minutes and local stamps)
	install -d '$(DESTDIR)$(LIBDIR)/pkgconfig' '$(DESTDIR)$(INCLUDEDIR)'
	install -m 644 $(STORE) $(STAMPS) '$(DESTDIR)$(LIBDIR)'
	install -m 644 $(HEADERS) '$(DESTDIR)$(INCLUDEDIR)'
	install -m 644 target/entry_store.pc target/local_stamps.pc '$(DESTDIR)$(LIBDIR)/pkgconfig'

# A library's pkg-config file: its name and what it is.
define write-pc
printf '%s\n' 'prefix=$(PREFIX)' 'libdir=$(LIBDIR)' 'includedir=$(INCLUDEDIR)' '' 'Name: $(1)' 'Description: $(2)' \
    'Version: $(VERSION)' 'Libs: -L$${libdir} -l$(1)' 'Cflags: -I$${includedir}' > target/$(1).pc
endef

uninstall: ## removes what install wrote
	rm -f $(foreach name,entry_store local_stamps,'$(DESTDIR)$(LIBDIR)/lib$(name).a' \
	    '$(DESTDIR)$(INCLUDEDIR)/$(name).h' '$(DESTDIR)$(LIBDIR)/pkgconfig/$(name).pc')

bench: ## measures calls, and the same work in SQLite, half a minute; tables and plot in target/bench
	@bench/run

fuzz: need-cc $(STORE) ## random calls on random and damaged words for FUZZ_SECONDS (60), under the address sanitizer
	@$(MAKE) --no-print-directory -C examples/host fuzz CC='$(CC)' FUZZ_SECONDS='$(FUZZ_SECONDS)' FUZZ_SEED='$(FUZZ_SEED)'

clean: ## removes target/ and each crate's out/, with all that was proved and built
	rm -rf target crates/*/out

# ---- what is missing is said before anything is proved

need-rt:
	@.ci/need 'make $(MAKECMDGOALS)' rt

need-cc:
	@.ci/need 'make $(MAKECMDGOALS)' cc

need-version:
	@[ -n '$(VERSION)' ] || { echo 'make $(MAKECMDGOALS): no line #define ENTRY_STORE_VERSION in include/entry_store.h' >&2; exit 2; }
