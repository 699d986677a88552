# make fly         prove and build the core, then fly a slow pass above a stage: a table, logs and a picture, our shield beside the earlier rule;
#                  a pass of three legs on a route, one whose segment is exchanged, a loop flown three times, a curved pass, one in which a rotor stops, and one
#                  from an operator's desk.
#                  The files go to flights/, which nothing here removes
#                  `make fly SCENARIO=my.txt` flies that file instead (docs/SCENARIOS.md); OUT=folder has the files elsewhere;
#                  the picture wants gnuplot, which is looked for first; root has it installed, and is told before it is; INSTALL=no installs nothing
# make log         a flight as CSV on standard output, and its picture: `make log FILE=flights/pass-shield.flight`, or a log (docs/FLYING.md);
#                  with ENTER=0.03 EXIT=0.07 the picture of a log has these thresholds; OUT and INSTALL as above
# make explain     a flight in words: who flew from which record to which and which margin made it so, and where the log's own flags differ:
#                  `make explain FILE=flights/pass-shield.flight`, or a log with ENTER=0.03 EXIT=0.07; with CSV=yes as CSV (docs/FLYING.md)
# make check       flights of whatever box: whether each follows the shield's rule, or its first wrong record and what is wrong with it; files or folders:
#                  `make check LOGS="flights/pass-shield.log night" ENTER=0.03 EXIT=0.07`; with PROFILE=lost-rotor as flown with a rotor lost (docs/FLYING.md);
#                  one may be given as FILE too; a name with spaces stands alone, or in quotes among others: LOGS="'night 1.log' night"
# make review      a flight as one page that any browser shows from a disk, with the proved core in it: `make review FILE=flights/pass-shield.flight`, or a log with
#                  ENTER and EXIT; PAGE=my.html has it elsewhere than in flights/review.html; without FILE the page waits for what is dropped on it
# make expand      a pattern of legs and repeats, as text: its legs as they are flown, and the bytes of both, in flights/:
#                  `make expand FILE=host/fly/scenarios/loop.txt` (docs/SCENARIOS.md); OUT as above. All of these are one program's, which has more:
#                  `host/target/release/fosavalo --help`
# make choices     the pass with other choices of set, filter and noise: what hangs on them
# make test        the gate: proofs, must-fail edits, programs, the host's comparisons; its last line is `N passed, 0 failed`.
#                  What the prover says is kept in gate/. Where an emulator cannot be had it ends with `, M skipped` (docs/PLATFORM.md)
# make quick       between whole gates: what changed and what stands above it is proved, over what earlier checks kept, the host takes a tenth of its cases;
#                  its last line says what it left out
# make edits       every must-fail edit by itself, over the work of a check of its crate: that it is refused at each fact that it names, with all that the prover
#                  says in target/edits/; `make edits CRATE=calls` has those of one crate, CRATE=calls/NAME one
# make table       roots, sines and cosines beside the hardware's and document 01's
# make exhaustive  every f32 (some minutes)
# make routines    every routine beside the Rust's, ROWS rows of input each: `make routines ROWS=100000000` (without it, the gate's million)
# make ticks       the joint tick beside the Rust's calls, TICKS accepted ticks: `make ticks TICKS=100000000` (without it, the gate's five million);
#                  then half as many, mixed with ticks on routes
# make answers     makes the oracle's stored answers again, which the program `replay` runs (docs/ORACLE.md)
# make bench       times, as ratios to the other side in one run; `make bench BEFORE=../old/libfosavalo.a` has an earlier archive's tick beside ours;
#                  that archive has to be for this machine
# make stack       the stack that each C call takes, painted and looked at on the compiled archive
# make core        proves the core and the desk above it and makes their archives for this machine, libfosavalo.a and libfosavalo_desk.a in
#                  target/staticlib/x86_64-linux/; where nothing changed, nothing is proved
# make archives    these, and this machine's archive of the test face
# make targets     the archives of all five targets, of the same proved modules, and each driven with the same calls: x86-64, aarch64, riscv64, Cortex-M
#                  and WebAssembly. What runs another machine's code is installed as gnuplot is (INSTALL=no)
# make dist        what links and runs without the toolchain, for every target, in dist/ and there as a tar: archives, this machine's shared libraries, headers,
#                  files for pkg-config and CMake, the Rust crates, the module for Python, those of WebAssembly with their JavaScript, the program
#                  `fosavalo` for this machine, licence, checksums
# make kit         the conformance kit, for those who translate or wrap the core, in dist/ and there as a tar: vectors as text, the runner `conform`, adapters
#                  to copy (docs/CONFORMANCE.md)
# make docs        the safe crates' pages, host/target/doc/fosavalo/index.html and fosavalo_desk beside it
# make map         MAP.md, PROMISES.md, STATEMENTS.md and EDITS.md of crates/ anew, from the sources
# make clean       removes all that was built and what checks have kept, and no flight
# make help        these lines, as `make` alone
.DEFAULT_GOAL := help
.PHONY: fly log explain check review expand choices test quick edits table archives targets core exhaustive routines ticks answers bench stack dist kit docs map clean help

HOST = cd host && cargo
# one program for flights and logs; each of these targets is a short form of its subcommand
FOSAVALO = cargo build --manifest-path host/Cargo.toml --release --offline --quiet --package fly && host/target/release/fosavalo
PICTURE = INSTALL=$(INSTALL) tools/have gnuplot gnuplot-nox 'The picture' || true
THRESHOLDS = $(if $(ENTER),--enter "$(ENTER)") $(if $(EXIT),--exit "$(EXIT)")
TO = $(if $(OUT),--out "$(OUT)")
# for what says first what it would install
CORE = tools/archives fosavalo fosavalo_desk

fly:
	@$(PICTURE)
	@$(CORE)
	@cargo build --manifest-path host/Cargo.toml --release --offline --package fly
	@echo && $(FOSAVALO) fly $(if $(SCENARIO),"$(SCENARIO)") $(TO)

log:
	@$(PICTURE)
	@$(CORE)
	@$(FOSAVALO) log $(if $(FILE),"$(FILE)") $(THRESHOLDS) $(TO)

explain: core
	@$(FOSAVALO) explain $(if $(FILE),"$(FILE)") $(THRESHOLDS) $(if $(filter yes,$(CSV)),--csv)

check: core
	@if [ -e "$$LOGS" ]; then set -- "$$LOGS"; else set -- $(LOGS); fi && $(FOSAVALO) check $(if $(FILE),"$(FILE)") "$$@" $(THRESHOLDS) $(if $(PROFILE),--profile "$(PROFILE)")

review: core
	@tools/archives --for wasm32 fosavalo
	@$(FOSAVALO) review $(if $(FILE),"$(FILE)") $(THRESHOLDS) $(if $(PROFILE),--profile "$(PROFILE)") -o "$(if $(PAGE),$(PAGE),flights/review.html)"

expand: core
	@$(FOSAVALO) expand $(if $(FILE),"$(FILE)") $(TO)

choices: core
	@$(FOSAVALO) fly --choices

test:
	@tools/gate

quick:
	@tools/gate quick

edits:
	@tools/edits $(CRATE)

core:
	@$(CORE)

archives:
	@tools/archives

targets:
	@INSTALL=$(INSTALL) tools/targets

table: archives
	@$(HOST) run --release --offline --quiet --bin table

exhaustive: archives
	@$(HOST) run --release --offline --quiet --bin exhaustive

routines: archives
	@$(HOST) run --release --offline --quiet --bin routines $(ROWS)

ticks: archives
	@$(HOST) run --release --offline --quiet --bin joint $(TICKS)

answers: archives
	@$(HOST) run --release --offline --quiet --bin answers

bench:
	@tools/bench $(if $(BEFORE),"$(abspath $(BEFORE))")

stack: archives
	@$(HOST) run --release --offline --quiet --bin bench stack

dist:
	@tools/dist

kit:
	@tools/kit

docs: core
	@$(HOST) doc --release --offline --no-deps --package fosavalo --package fosavalo-desk

map:
	@$(HOST) run --release --offline --quiet --bin pages

clean:
	rm -rf target host/target gate dist examples/c/joint examples/rust/target python/__pycache__ crates/*/out

help:
	@sed -n 's/^# //p; /^\.PHONY/q' Makefile
