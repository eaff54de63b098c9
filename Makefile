# make plan       prove the listing program and what stands below it, and run it on Q of docs/RULES.md; Q=FILE plans that query,
#                 a text or a packed file, by the tool; ARGS=--rows says of a packed one that it has row counts
# make explain    the same for why the plan costs what it costs, of examples/q.txt or of Q=FILE
# make tool       build the tool fanchuki, tools/target/release/fanchuki, and prove the programs that it runs
# make install    put header, archive, shared object, pkg-config file, programs, tool and manual page below PREFIX (/usr/local);
#                 DESTDIR stands before every path, LIBDIR, INCLUDEDIR and MANDIR name other folders than PREFIX's
# make uninstall  take these away again, by the same variables
# make built      all that make install puts in place, proved and built
# make test       every test; it ends in rt's own line 'N passed, 0 failed'
# make outside    only the tests from outside, over the built programs and the archive; ARGS='seed=2 files=10000 lists=500'
#                 tries other random files and lists of calls, and as many of them
# make soak       a million calls of the C call from four threads, held to the reference; ARGS='CALLS THREADS SEED'
# make bench      solve and the whole C call beside C; ARGS=growth writes docs/GROWTH.md anew, ARGS='before REV' measures
#                 beside an earlier revision, ARGS='compare COUNT SEED' holds the C to the product on random queries,
#                 ARGS=loads measures the ordinary load and the load from row counts

.PHONY: plan explain programs tool built install uninstall test outside soak bench kit

# Q, PREFIX and the like reach the recipes by the environment, into which make puts what stands on its command line: there a
# blank or a quote in a path is nothing special.

ifeq ($(Q),)
plan: kit
	@echo "proving plan and the crates below it; some minutes the first time" >&2
	@tests/prove.sh run plan >&2
	@target/bin/plan <examples/q.query
else
plan: tool
	@tools/target/release/fanchuki plan $(ARGS) "$$Q"
endif

explain: tool
	@tools/target/release/fanchuki explain $(ARGS) "$${Q:-examples/q.txt}"

programs: kit
	@echo "proving plan, calls and the crates below them; some minutes the first time" >&2
	@tests/prove.sh run plan calls >&2

# In this folder, wherever cargo is told to put what it builds.
tool: programs
	@cargo build --quiet --release --offline --manifest-path tools/Cargo.toml --target-dir tools/target

built: tool
	@tests/prove.sh lib fanchuki
	@install/shared.sh

install: built
	@install/install.sh put

uninstall:
	@install/install.sh take

outside: programs
	@tests/outside.sh $(ARGS)

soak: kit
	@tests/prove.sh lib fanchuki
	@FANCHUKI_ARCHIVE=$(CURDIR)/target/staticlib/libfanchuki.a cargo run --quiet --release --offline \
		--manifest-path reference/diff_c/Cargo.toml --bin soak -- $(ARGS)

bench: kit
	@bench/run.sh $(ARGS)

test: kit
	@tests/all.sh

kit:
	@tests/kit.sh
