PREFIX ?= /usr/local
DUMP ?= crates/answers_reports/data/fifo_arb_bug1.vcd
CLOCK ?= tb.clk
CASES ?= 1000
MUTANTS ?= 100000
PROGRAMS ?= 10000
SEED ?= 1
SECONDS ?= 3600
QUICK ?= $(PREFIX)/bin/svamon
PROVED ?= crates/svamon/out/svamon
GATE ?= out/gate.txt

BYTECODE := crates/answers_bytecode/out/answers_bytecode
CASES_OF_CORES := crates/answers_bytecode/data/core_cases.txt
REPORTS := crates/answers_reports/out/answers_reports
REFUSING := scripts/tools/fail_alloc 3 crates/svamon/out/svamon
PROGRAM := examples/fails_at_its_tick/program.svm
FILES = --vcd examples/$(1)/dump.vcd --sva examples/$(1)/assertion.sva

help:
	@echo 'make demo             shows the reports on examples/ within a minute, unproved'
	@echo 'make quick PREFIX=    builds svamon without proof and puts it into PREFIX/bin (PREFIX is $(PREFIX)): five'
	@echo '                      minutes. The gate proves these sources, and make verify-quick compares the programs'
	@echo 'make install PREFIX=  proves and builds svamon, and puts it into PREFIX/bin: hours'
	@echo 'make verify-quick     compares the reports of the program QUICK ($(QUICK)) and of'
	@echo '                      the program PROVED ($(PROVED)) on all examples'
	@echo 'make dist             makes an archive, and a Containerfile, of what make install put into PREFIX/bin, in out/'
	@echo 'make test             the gate: proves all from nothing, and runs tests, programs, and the edits of what'
	@echo '                      changed; then tries the built programs from outside'
	@echo 'make test-all         the gate with all edits'
	@echo 'make test-day         the gate with the edits of an eighth of the crates, which turns with the day'
	@echo 'make edits NAME=      tries the must-fail edits of a crate, and writes its stamp'
	@echo 'make bench            times reading against the plain C baseline, on dumps of 50 and 200 MB made from DUMP'
	@echo '                      (clock CLOCK), and on odd shapes; reading and checking texts; bytecode; verifying;'
	@echo '                      judging; checking by programs; the machine against a plain C one; and what several'
	@echo '                      workers gain'
	@echo 'make allocations      refuses each allocation of svamon in turn, and of the reader and writer of bytecode,'
	@echo '                      of the verifier, and of a core at its steps; and looks at what counts in bytecode take'
	@echo 'make random           compares svamon by 1, 2, 4 and 64 workers with an independent judge on CASES random'
	@echo '                      dumps and texts (SEED), the reader of bytecode with another on MUTANTS random mutants'
	@echo '                      of each of two programs, the verifier with another on CASES random programs and their'
	@echo '                      mutants, and the machine with another on PROGRAMS random programs of 100 clocks'
	@echo 'make wrong-threads    builds workers with a fault of threads that no contract sees; the tests must fail'
	@echo 'make fuzz             runs whole commands over mutated files, 100,000 runs or an hour (SEED)'
	@echo 'make soak             compares svamon so for SECONDS (an hour), twice as many cases at once as there are'
	@echo '                      processors'

demo:
	@echo 'The reports on examples/, by a build without proof that checks each step as it runs, and is slow.'
	@scripts/tools/demo < /dev/null
	@echo 'For a dump of your own: make quick PREFIX=~/x, then ~/x/bin/svamon check --vcd dump.vcd --sva rules.sva'

quick:
	@scripts/tools/quick $(PREFIX)/bin/svamon

verify-quick:
	@scripts/tools/verify_quick.py $(QUICK) $(PROVED)

dist:
	@scripts/tools/dist.py $(PREFIX)/bin/svamon $(GATE) out

test:
	@scripts/tools/gate

test-all:
	@scripts/tools/gate all

test-day:
	@scripts/tools/gate day

edits:
	@test -n '$(NAME)' || { echo 'make edits NAME=crate'; exit 2; }
	@scripts/tools/edits $(NAME)

install:
	@scripts/tools/install $(PREFIX)

# The programs that a green gate left, else new ones. Some runs by rt have no cases, and fail.
svamon:
	@scripts/tools/built $@ || { cd crates/$@ && rm -f out/$@ && { rt run -- help; test -x out/$@; }; }

answers_bytecode answers_texts answers_reports bench_reader:
	@scripts/tools/built $@ || { cd crates/$@ && rm -f out/$@ && { rt run > /dev/null 2>&1; test -x out/$@; }; }

bench: svamon answers_bytecode answers_texts bench_reader
	bench/run $(DUMP) $(CLOCK)
	bench/shapes
	bench/texts
	bench/suites
	bench/bytecode
	bench/verifier
	bench/judge
	bench/check
	bench/turns
	bench/rules
	bench/machine
	bench/core
	bench/threads

allocations: svamon answers_bytecode
	scripts/tools/bytecode_memory.py $(BYTECODE)
	scripts/tools/verifier_memory $(BYTECODE)
	$(REFUSING) check $(call FILES,fails_at_its_tick) --workers 2
	$(REFUSING) check $(call FILES,fails_at_its_tick) --workers 1
	$(REFUSING) check $(call FILES,one_then_down)
	$(REFUSING) judge $(call FILES,whole_profile)
	$(REFUSING) check $(call FILES,axi_port) --axi examples/axi_port/ports.txt
	$(REFUSING) build $(call FILES,fails_at_its_tick) --name r --out /dev/null
	$(REFUSING) rules --axi examples/axi_port/ports.txt
	$(REFUSING) verify $(PROGRAM)
	$(REFUSING) upgrade $(PROGRAM) --out /dev/null
	$(REFUSING) run --vcd examples/fails_at_its_tick/dump.vcd --code $(PROGRAM)
	awk 'BEGIN { RS = "\001"; ORS = "" } NR == 3' $(CASES_OF_CORES) > $(BYTECODE).case
	scripts/tools/fail_alloc -i $(BYTECODE).case 1 $(BYTECODE) cores

random: svamon answers_bytecode answers_reports
	scripts/random/mangled_dumps.py $(REPORTS) $(MUTANTS) $(SEED)
	scripts/random/random_bytecode.py $(BYTECODE) $(MUTANTS) $(SEED)
	scripts/random/random_verifier.py $(BYTECODE) $(CASES) $(SEED)
	scripts/random/random_machine.py $(BYTECODE) $(PROGRAMS) 100 $(SEED)
	cd crates/svamon/out && ../../../scripts/random/random_judge.py ./svamon $(CASES) $(SEED)
	cd crates/svamon/out && ../../../scripts/random/random_explain.py ./svamon $(CASES) $(SEED)
	cd crates/svamon/out && ../../../scripts/random/random_import.py ./svamon $(CASES) $(SEED)
	cd crates/svamon/out && ../../../scripts/random/mangled_files.py ./svamon $(CASES) $(SEED)
	scripts/random/large_dumps.py crates/svamon/out/svamon 20 $(SEED)
	scripts/random/edge_ports.py crates/svamon/out/svamon
	scripts/random/least_axi4.py crates/svamon/out/svamon
	scripts/random/same_reports.py crates/svamon/out/svamon
	scripts/random/long_chains.py crates/svamon/out/svamon
	scripts/random/random_axi4.py crates/svamon/out/svamon 100 $(SEED)

wrong-threads:
	@scripts/tools/wrong_threads

fuzz: svamon
	scripts/random/whole_commands.py crates/svamon/out/svamon 100000 $(SEED) $(SECONDS)

soak: svamon
	scripts/tools/soak crates/svamon/out/svamon $(SECONDS) $(SEED)

.PHONY: help demo quick verify-quick dist test test-all test-day edits install svamon bench allocations random fuzz soak
.PHONY: wrong-threads
.PHONY: answers_bytecode answers_texts answers_reports bench_reader
