# The repository's commands. They need `rt`, the command of the Rattle kit, on the path.
RT ?= rt
PROGRAM = crates/faxgate/out/faxgate

.PHONY: all demo test play asked sip c-tests wrong-bodies format memory crash bench load load-table interop serve-interop tables check-docs deb dist \
	check-package

# Proves and builds the program, its crates side by side, and says where it lies. What was proved is kept in the user's cache.
all:
	RT=$(RT) tools/prove-program

# A page through the gateway in real time, on this host, in half a minute.
demo: all
	tools/demo $(PROGRAM)

# The merge gate: every proof, the wrong bodies, the tests, the stored run; the plays, on the program that was built; and the
# documents.
test:
	$(RT) ci
	$(MAKE) play
	$(MAKE) check-docs

# Plays the cases of tests/cases and the modules of tests/play on the program that stands there; it builds and proves nothing.
# It wants Python 3.11, and no `rt`.
play:
	tools/play $(PROGRAM)

# The jobs of lines whose called leg has no peer of its own, 100 times and after a crash with 20 of them, and a machine that rings for
# 60 s. It wants half an hour.
asked:
	FAXGATE_TIMES=100 FAXGATE_JOBS=20 FAXGATE_RINGS=60 tools/play $(PROGRAM) --slow 4 -k asked

# SIP: the head of tools/sip has its rows. It wants kamailio, sipp (Debian's sip-tester), spandsp (libspandsp-dev, libtiff-dev), tcpdump and
# tshark, and root for networks of their own; what is missing is told and passed over, with status 77. It takes half an hour, and with
# `tools/sip PROGRAM --at-once 3`, on a machine that has time, a third of that.
sip: all
	tools/sip $(PROGRAM)

tools/sip_terminals: tools/sip_terminals.c tools/terminals.h
	$(CC) -O2 -Wall -Wextra -o $@ tools/sip_terminals.c -lspandsp -ltiff

# Tests the calls for C from C, through fax_c.h: crates/fax_c/tests.c. The gate proves them, and runs none of these. It wants a C
# compiler, and no other library.
c-tests: bench/c_tests
	bench/c_tests

# Tries every wrong body, those that the gate passes over too, many in one check, and tells which clause refuses each. With
# CRATES="fax_bits fax_udptl" those of these crates alone. It wants Python 3.
wrong-bodies:
	tools/wrong-bodies $(CRATES)

# Puts every crate into the layout of `rt fmt`, which the gate wants, and `rt check` does not ask for.
format:
	for crate in crates/*/; do (cd "$$crate" && $(RT) fmt) || exit 1; done

# Refuses each allocation of a run in turn, both ways and in both codings, of scripts, of a page over sockets, and each of a
# page that is read and written in pieces, of faults that the calls for C tell without memory, of a whole call through the
# gateway, and of one that is driven over a wire. It wants a C compiler, and a minute at most after the proofs of the
# crates.
memory: all bench/c_tests
	tools/refuse-memory $(PROGRAM) samples/hello.hex page
	tools/refuse-memory $(PROGRAM) samples/hello.hex page --pbm
	tools/refuse-memory $(PROGRAM) samples/hello.runs page --back
	tools/refuse-memory $(PROGRAM) samples/text-mr.hex page --coding mr
	tools/refuse-memory $(PROGRAM) samples/text-mr.runs page --back --coding mr --fine --least 96
	tools/refuse-memory $(PROGRAM) samples/call.trace trace
	tools/refuse-memory $(PROGRAM) samples/hello.hex loop
	cd crates/command_tests && $(RT) test > /dev/null
	tools/refuse-test-memory crates/command_tests/out/command_tests_tests trace::memory::a_script_that_is_refused_memory
	cd crates/codec_tests && $(RT) test > /dev/null
	tools/refuse-test-memory crates/codec_tests/out/codec_tests_tests pagestore::memory::a_page_that_is_refused_memory
	tools/refuse-test-memory bench/c_tests faults_that_want_no_memory_are_told
	cd crates/call_tests && $(RT) test > /dev/null
	tools/refuse-test-memory crates/call_tests/out/call_tests_tests gateway::a_page_goes_through_the_gateway
	tools/refuse-test-memory crates/call_tests/out/call_tests_tests gateway::driving::a_run_that_is_refused_memory

# Kills a process that puts pages into a spool, 300 times, and cuts the power under it, 5,000 times over recorded writes; each
# time the next process has to find what was told as put, and at most the one under way besides. Then kills `faxgate serve` with
# machines on its lines, 20 times: each page whose MCF its caller saw has to come in the end. Then turns an octet of a spool, 40
# times, and, as root, fills the disk under one: nothing wrong may be sent. Then kills it while jobs fail, are tried again and are
# dropped by words, 300 times; fills its disk meanwhile, 60 times, half of them as root; turns an octet in either pair of files, 40
# times in each; and opens a folder of 10,000 jobs that failed. It wants Python 3, a C compiler, and some hour after the proofs.
# With slow syncs: CRASH_SYNC_MS=10 tools/crash-serve PROGRAM 100 20.
crash: all
	cd crates/spool_tests && $(RT) test > /dev/null
	tools/crash crates/spool_tests/out/spool_tests_tests
	tools/crash-serve $(PROGRAM)
	tools/damage-serve $(PROGRAM)
	FAXGATE_KILLS=300 FAXGATE_FILLS=30 FAXGATE_TURNS=40 tools/play $(PROGRAM) --slow 10 -k Killed -k full_disk -k damaged
	FAXGATE_UNDELIVERED=10000 tools/play $(PROGRAM) -k many_undelivered

# Checks that the tables of code words are those that tools/code-tables makes of the words of ITU-T T.4. It wants
# Python 3 and no `rt`.
tables:
	tools/code-tables check

# Checks the documents and the samples against the code, and that each check finds what it is for; where the program was built,
# runs the commands that they show. It wants Python 3.11, git, and no `rt`.
check-docs:
	tools/check-docs --self-test $(wildcard $(PROGRAM))

# Times the codec beside libtiff and spandsp: see bench/README.md. It wants a C compiler and both libraries.
KIT_C = $(dir $(shell $(RT) doc))c
FAX_C = crates/fax_c
bench/bench: bench/bench.c bench/others.c bench/others.h $(FAX_C)/fax_c.h
	cd $(FAX_C) && $(RT) lib
	$(CC) -O2 -Wall -Wextra -I$(FAX_C) -o $@ bench/bench.c bench/others.c $(FAX_C)/out/libfax_c.a $(KIT_C)/liblibc_c.a -ltiff -lspandsp -lm

# A small program in C over the library, which checks what it is told. It wants a C compiler, and no other library.
bench/example: $(FAX_C)/example.c $(FAX_C)/fax_c.h
	cd $(FAX_C) && $(RT) lib
	$(CC) -O2 -Wall -Wextra -I$(FAX_C) -o $@ $(FAX_C)/example.c $(FAX_C)/out/libfax_c.a $(KIT_C)/liblibc_c.a

# The tests of the calls for C, of `make c-tests`.
bench/c_tests: $(FAX_C)/tests.c $(FAX_C)/fax_c.h
	cd $(FAX_C) && $(RT) lib
	$(CC) -O2 -Wall -Wextra -I$(FAX_C) -o $@ $(FAX_C)/tests.c $(FAX_C)/out/libfax_c.a $(KIT_C)/liblibc_c.a

bench: all bench/example bench/bench
	bench/example
	bench/bench bench/pages
	bench/gateway $(PROGRAM) bench/pages/text-1728.mr
	RT=$(RT) bench/pieces bench/pages/text-1728.mr

# Calls between two T.38 terminals of spandsp through the gateway: see docs/INTEROP.md. It wants a C compiler, libspandsp-dev
# and libtiff-dev, and some minutes.
tools/interop: tools/interop.c tools/terminals.h
	$(CC) -O2 -Wall -Wextra -o $@ tools/interop.c -lspandsp -ltiff

interop: all tools/interop
	tools/interop $(PROGRAM)

# The same in real time, through `faxgate serve` over UDP on this host: with losses, beside the same terminals without a
# gateway; to a machine behind a media gateway; and with callers that hang up. It takes some ten minutes.
tools/serve_interop: tools/serve_interop.c tools/terminals.h
	$(CC) -O2 -Wall -Wextra -o $@ tools/serve_interop.c -lspandsp -ltiff

serve-interop: all tools/serve_interop
	tools/serve_interop $(PROGRAM)

# Many lines of `faxgate serve` at once, in real time over UDP on this host: pages at 14,400 bit/s through 1, 100, 1,000 and
# 2,000 lines, through two processes of 1,000, and idle lines; and then `make load-table`. See docs/PERFORMANCE.md. It wants a C
# compiler, more than 8,200 open files (`ulimit -n`), and some twenty minutes; figures of time want a machine that does nothing
# else, or LOAD="cores=2,3 priority=50" as root: the core of the machines, that of the servers, and real-time scheduling.
tools/load/load: tools/load/load.c tools/load/*.h
	$(CC) -O2 -Wall -Wextra -o $@ tools/load/load.c -lpthread

tools/load/sockets: tools/load/sockets.c
	$(CC) -O2 -Wall -Wextra -o $@ tools/load/sockets.c

load: all tools/load/load tools/load/sockets
	tools/load/sockets 4000
	for lines in 1 100 1000 2000; do tools/load/load $(PROGRAM) $$lines $(LOAD) || exit 1; done
	tools/load/load $(PROGRAM) 2000 processes=2 $(LOAD)
	tools/load/load $(PROGRAM) 4000 pages=0 $(LOAD)
	tools/load/load $(PROGRAM) 10000 pages=0 processes=4 $(LOAD)
	$(MAKE) load-table

# What is wanted of a service, run by run: with slow syncs, hostile callers, pages that wait, a page on each leg. Each run tells its
# figures, and of each bar whether it is met; all are run, and the status is not 0 where one is missed. It wants /dev/shm, 1 GB of
# memory and some twelve minutes. It uses the program that stands there, so that one which is not proved can be tried:
# `make load-table PROGRAM=PATH`.
load-table: tools/load/load
	tools/load/load $(PROGRAM) table $(LOAD)

# A package of the proved program, in out/: for Debian, or a tarball of the same files. Of one commit it has the same octets each time.
# It refuses a program that `make` did not prove, and changes that are not committed. It wants git, and dpkg-deb for the first.
deb: all
	RT=$(RT) tools/package deb

dist: all
	RT=$(RT) tools/package dist

# Checks the package: its files, its manual pages and its units; as root with debootstrap, its installation in a Debian of its own,
# its upgrade while a page waits, and its removal; with systemd-nspawn the same under systemd. What is missing is told and passed
# over, with status 77. `tools/check-package --unproved PROGRAM` checks the package of a program that is not proved yet.
check-package: all
	RT=$(RT) tools/check-package
