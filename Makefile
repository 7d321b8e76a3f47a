.PHONY: help try run test check backends serve receiver receiver-test interop faults filing audit oracle compare planted perf mutants bindings dist rust-perf

# Bare `make` says what there is, and runs nothing. The times are those of two cores with nothing else to do; what is proved stays proved until
# a file changes.
help:
	@echo 'command        what it does                                                            needs                  about'
	@echo 'make try       plays a session through the engine, line by line, without a proof       Rattle (rt), python3   10 seconds'
	@echo 'make run       proves the bench, and plays the same session                            Rattle, python3        10 minutes, then at once'
	@echo 'make test      the gate: proves all from nothing, refuses wrong programs, runs all     Rattle                 15 minutes'
	@echo 'make check     what needs no prover: documents, trace, edits, contracts, sessions      python3                5 seconds'
	@echo 'make backends  every program compiled in three ways and interpreted, compared          Rattle, python3        3 minutes'
	@echo 'make serve     a server of the files in a folder: DIR=./served PORT=6500               Rattle, python3        10 minutes, then at once'
	@echo 'make receiver  takes records and gives out rule files: DIR=./received PORT=6500        Rattle, python3        10 minutes, then at once'
	@echo 'make receiver-test  that receiver killed, cut off, with full disks, many clients       Rattle, cc, strace, root  12 minutes, then 3'
	@echo 'make faults    that server with slow and full disks, kills, many and silent clients    Rattle, cc, root       12 minutes, then 2'
	@echo 'make interop   stock clients at that server, and transfer at stock servers             Rattle, root, Debian   13 minutes, then 1'
	@echo 'make filing    what a receiver files: log, note, damages, power cuts, pcapng            Rattle, tshark         3 minutes, then 1'
	@echo 'make oracle    builds the original Rust with a driver, for comparison                  cargo, OBEX_SRC        2 minutes'
	@echo 'make compare   port beside original: questions, then sessions: N=1000000 SEED=1        the oracle, Rattle     13 minutes, then 2'
	@echo 'make planted   the sessions tell wrong readings of the papers apart                    the oracle             half an hour'
	@echo 'make perf      throughput of port, original and other servers in one run               the oracle, openssl, valgrind  20 minutes, then 5'
	@echo 'make mutants   the wrong programs that are not in the gate, NAME=crate for one crate   Rattle, python3        1 to 2 hours; goes on where it stopped'
	@echo 'make bindings  engine, client, headers, blocks for Rust and C: archives, tests, misuse Rattle, cargo, cc      20 minutes, then 3'
	@echo 'make dist      a folder to build against without Rattle: DIST=target/dist              Rattle                 15 minutes, then at once'
	@echo 'make rust-perf throughput of both servers through one Rust API, after make bindings    cargo                  1 minute'

# Plays the example session through the bench without proving anything, in four ways, and prints what it wrote.
try:
	@tools/run/backends --show record

# What the compiler makes beside what the language says: every program on its stored input, and the sessions of the bench. Last line:
# 'backends: N runs as stored, M that the interpreter cannot make, 0 not ended in time, 0 different'.
backends:
	@tools/run/backends

# Proves what is needed, then plays the example session through the bench. Only the session goes to standard output.
run:
	@tools/run/progress check bench >&2
	@target/bin/bench <crates/bench/sessions/record.in

# The gate: every crate proved from nothing, every must-fail edit refused, every program run and compared. Its last line is 'N passed, 0 failed'.
test:
	@tools/run/gate

# The repository agrees with itself: documents and trace name what there is, quoted code is the tree's, the style of code and proofs gets no
# worse, every edit applies to its file, every public function has a contract, the documented table of first bytes is the code's, the stored
# sessions are as they are made, and as far as bench and oracle are built as these do them.
check:
	@tools/check/all

# A server of the files in DIR, behind a socket of the loopback (tools/run/serve). PORT=number, DIR=folder, which may have spaces in its name;
# IDLE=seconds after which a silent client is left, 0 for never; CLIENTS=how many at once; KEEP=1 refuses a Put whose Name a file has.
PORT ?= 6500
DIR ?= ./served
IDLE ?= 600
CLIENTS ?= 256
serve: export SERVED := $(DIR)
serve:
	@tools/run/progress check serve >&2
	@exec tools/run/serve --port $(PORT) --dir "$$SERVED" --idle $(IDLE) --clients $(CLIENTS) $(if $(KEEP),--keep)

# A receiver of records in DIR, behind a socket (tools/run/receiver, docs/RECEIVER.md). ADDRESS=where it listens; PORT, DIR, IDLE and CLIENTS as above.
ADDRESS ?= 127.0.0.1
receiver: export RECEIVED := $(if $(filter file,$(origin DIR)),./received,$(DIR))
receiver:
	@tools/run/progress check receiver >&2
	@exec tools/run/receiver --address $(ADDRESS) --port $(PORT) --dir "$$RECEIVED" --idle $(IDLE) --clients $(CLIENTS)

# The receiver on good days and bad ones: each of its calls killed and failing, short writes, power cuts, full disks, many clients, passwords; all
# that it files is audited. Last line: 'receiver-test: N of N'.
receiver-test:
	@tools/run/progress check receiver audit transfer >&2
	@tools/test/receiver

# The server on a bad day: slow and full disks, limits, kills, many and silent clients, odd names. Last line: 'faults: N of N'.
faults:
	@tools/run/progress check serve >&2
	@tools/test/faults

# Stock clients against the server, and the client against five servers. Last line: 'interop: N of N'.
interop:
	@tools/run/progress check serve receiver transfer >&2
	@tools/test/interop

# The formats of docs/ARCHIVE.md, written, damaged and read by showlog and by both auditors. Last line: 'archive-test: N of N'.
filing:
	@tools/run/progress check showlog audit >&2
	@tools/test/archive

# The sessions below DIR, audited by all frames, by packets alone and, if it is built, by the program `audit` (docs/AUDIT.md). Last line: 'audit: N sessions, M lines differ'.
audit:
	@tools/run/audit "$(DIR)"

# The original with a driver, for comparison by running. Nothing of the gate needs it.
oracle:
	@oracle/build

# Port beside original: headers, packets and tag lists on random and exhaustive questions, then whole sessions, the state after each
# operation included. Last line of each: 'compared N different 0'. N=number of sessions (1,000,000), SEED=another seed.
compare: oracle
	@tools/run/progress check codec replay >&2
	@tools/compare/codec
	@tools/compare/sessions $(or $(N),1000000) $(SEED)

# Wrong readings of the papers, planted in copies of the original: the sessions tell each apart. Last line: 'planted N found N'.
planted: oracle
	@tools/compare/planted $(N) $(SEED)

# Throughput beside the original, OpenSSL and other servers, what filing costs the receiver, and how the engine's cost grows.
perf: oracle
	@tools/run/progress check load load_link serve receiver replay digest_c archive_c >&2
	@tools/perf/all

# The wrong programs that are not in the gate: the prover must refuse each. NAME=crate for one crate. Last line: 'N refused, 0 alive'.
mutants:
	@tools/run/mutants $(NAME)

# The engine, the client, header bytes and blocks for Rust and C: looks for what it needs, writes the archives of what has changed, and tests
# them from Rust and C, from programs outside and from the distribution. Last line: 'N passed, 0 failed'. N=number of sessions through both
# servers (200,000), CALLS=number of calls of the misuse test (10,000,000), SEED=another seed.
bindings:
	@N=$(or $(N),200000) CALLS=$(or $(CALLS),10000000) SEED=$(or $(SEED),7) tools/test/bindings

# A folder with archives, headers, crates, examples and documents that a machine without Rattle can build against. DIST=folder, which is made anew.
DIST ?= target/dist
dist:
	@tools/make/staticlib engine_c client_c headers_c archive_c digest_c
	@tools/make/dist $(DIST)

# Throughput of the original's server and the proved one, through the same Rust API.
rust-perf:
	@tools/perf/rust
