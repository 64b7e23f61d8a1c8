# make: proves the program and builds it, several crates at once, and says when each begins and ends (scripts/proving).
# make lib: the same for the library for C, into build/: libosi-session.a and libosi-session.so, with the number of its soname.
# make install PREFIX=.. LIBDIR=.. DESTDIR=..: puts what was built, program or library or both, where the system finds it, and says
# where; make uninstall takes it away (scripts/install). Neither proves or builds anything.
#
# The other targets are for those who change something, check it or give it away. CONTRIBUTING.md has a table of them. Besides it,
# make bench runs the benchmarks by the clock (bench/README.md), and make mms builds the MMS server and client of examples/mms.
.PHONY: all test quick edits bench ledger lib install uninstall dist check-dist release check-release gateways trials fuzz ladders
.PHONY: ladders-check pages mms interop slow-peers scaling soak witnesses
PREFIX ?= /usr/local
LIBDIR ?= $(PREFIX)/lib
SECONDS ?= 60
MESSAGES ?= 200000

all:
	scripts/proving osi_tool run --cpu=x86-64 -- --help
	scripts/sources > crates/osi_tool/out/sources

test:
	scripts/test_all

quick:
	scripts/quick

edits:
	scripts/edits -v $(CRATE)
	scripts/refused_borrows

bench:
	bench/run

ledger: all lib
	scripts/proving osi_bench lib
	bench/ledger

lib:
	scripts/library

install uninstall: export PREFIX := $(PREFIX)
install uninstall: export LIBDIR := $(LIBDIR)
install uninstall: export DESTDIR := $(DESTDIR)
install:
	@scripts/install

uninstall:
	@scripts/install --remove

dist: all lib
	scripts/dist

check-dist: all lib
	scripts/check_dist

release:
	@scripts/release --check
	$(MAKE) all lib
	scripts/release

check-release:
	scripts/check_release $(SUMS)

gateways: all lib
	scripts/trials gateways

trials: all lib
	scripts/proving osi_bench lib
	scripts/proving osi_runs run
	scripts/trials hostile $(PART)

fuzz: lib
	scripts/trials hostile --fuzz $(SECONDS) $(SEED)

mms: lib
	$(MAKE) -C examples/mms

interop: all mms
	scripts/trials interop

slow-peers: mms
	scripts/trials slow_peers

scaling: mms
	scripts/trials scaling

witnesses: all lib
	scripts/trials witnesses

soak: lib
	scripts/trials soak $(MESSAGES)

ladders:
	tools/pages/ladders docs/ladders

ladders-check:
	python3 -m unittest discover -s tools -t tools
	tools/pages/ladders --check docs/ladders

pages:
	scripts/pages
