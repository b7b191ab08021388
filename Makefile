# `make look` checks an example without a proof; `make build` proves and builds build/papcalc, `make demo` runs
# that on the examples; `make install` puts it and its manual page under PREFIX; `make test` is the whole gate.
.PHONY: build author look demo install uninstall deb test answers rows client-java wrong-bodies decimal-tool bench-decimal bench-machine bench-plan \
    refused-memory edit-memory kill-trials bench-book bench-worst bench-intervals bench-processes check-java embedded cluster-trials

PREFIX ?= /usr/local

# The crates below the program are proved side by side, on as many processors as there are; JOBS=N says otherwise.
build:
	python3 tools/build.py $(JOBS)
	cd crates/papcalc && python3 ../../tools/rt.py run -- --version
	mkdir -p build
	cp crates/papcalc/out/papcalc build/papcalc

# The companion program for authors of flowcharts: build/pap_author draws a flowchart as a page, begins a range file, and
# compares two flowcharts.
author:
	python3 tools/build.py "$(JOBS)" pap_author
	cd crates/pap_author && python3 ../../tools/rt.py run -- --version
	mkdir -p build
	cp crates/pap_author/out/pap_author build/pap_author

# Proves nothing and keeps nothing: the kit compiles a program that has `check` alone, with tests at run time, and prints what it wrote.
look:
	TRY=1 tools/bench.sh look --data payroll_tax.xml=$(CURDIR)/examples/payroll_tax.xml \
	    --data payroll_tax.toml=$(CURDIR)/examples/payroll_tax.toml -- payroll_tax.xml payroll_tax.toml

demo: build
	build/papcalc check examples/payroll_tax.xml examples/payroll_tax.toml
	build/papcalc once examples/payroll_tax.xml examples/payroll_tax.toml PERIOD=2 PAY=450000 TAX_CLASS=1
	build/papcalc run < examples/month.script

# What users run: the program that `make build` made, pap_author where `make author` made it, papledger and the tools for large payrolls
# and test tables (these need Python 3.9), completion for bash and zsh, the manual page, the documents, the clients and the examples.
# DESTDIR stands before PREFIX, for packages.
SHARE = $(DESTDIR)$(PREFIX)/share
TOOLS_FOR_USERS = tools/split_table.py tools/table_parts.py tools/table_rows.py tools/parts.py tools/earlier_parts.py tools/run_part.sh \
    tools/compare_table.py tools/test_tables.py tools/tool_end.py
install:
	@test -x build/papcalc || { echo 'install: there is no build/papcalc yet: make build makes it' >&2; exit 1; }
	install -D -m 755 build/papcalc '$(DESTDIR)$(PREFIX)/bin/papcalc'
	if [ -x build/pap_author ]; then install -D -m 755 build/pap_author '$(DESTDIR)$(PREFIX)/bin/pap_author'; fi
	install -D -m 755 clients/python/papledger '$(DESTDIR)$(PREFIX)/bin/papledger'
	install -D -m 644 docs/papcalc.1 '$(SHARE)/man/man1/papcalc.1'
	install -D -m 644 packaging/papcalc.bash '$(SHARE)/bash-completion/completions/papcalc'
	install -D -m 644 packaging/papcalc.bash '$(SHARE)/bash-completion/completions/pap_author'
	install -D -m 644 packaging/_papcalc '$(SHARE)/zsh/site-functions/_papcalc'
	rm -rf '$(SHARE)/papcalc'
	install -d '$(SHARE)/papcalc/python/papledger' '$(SHARE)/papcalc/tools' '$(SHARE)/papcalc/doc' '$(SHARE)/papcalc/examples'
	install -m 644 clients/python/src/papledger/*.py clients/python/src/papledger/py.typed '$(SHARE)/papcalc/python/papledger'
	install -m 755 $(TOOLS_FOR_USERS) '$(SHARE)/papcalc/tools'
	if [ -d tools/cluster ]; then cp -R tools/cluster '$(SHARE)/papcalc/tools'; fi
	install -m 644 README.md docs/*.md docs/*.svg docs/*.png '$(SHARE)/papcalc/doc'
	cp -R examples/. '$(SHARE)/papcalc/examples'
	rm -rf '$(SHARE)/papcalc/examples/answers'

uninstall:
	rm -f $(foreach name,papcalc pap_author papledger,'$(DESTDIR)$(PREFIX)/bin/$(name)') '$(SHARE)/man/man1/papcalc.1'
	rm -f $(foreach name,papcalc pap_author,'$(SHARE)/bash-completion/completions/$(name)') '$(SHARE)/zsh/site-functions/_papcalc'
	rm -rf '$(SHARE)/papcalc'

# A Debian package of what `make install` installs, in build/: built once, it installs on machines without Rattle.
deb:
	tools/make_deb.sh

test:
	bash .ci/run

# The rows of examples/answers, on the built programs.
answers: build author
	python3 tools/answer_rows.py build/papcalc build/pap_author

# Each piece of memory that the program asks for refused in turn, on small scripts and the other words (needs a C compiler).
refused-memory: build
	python3 tools/refused_memory.py build/papcalc

# Each piece of memory that an edit of a book asks for refused in turn, for an edit of each kind: the book stays as it was, and the same
# edit then succeeds (needs a C compiler).
edit-memory: build
	python3 tools/edit_memory.py

# A program that keeps a year killed at 2,000 random moments.
kill-trials: build
	python3 tools/kill_trials.py build/papcalc 2000

# The client in Java (needs a JDK) says the same as that in Python.
client-java: build
	python3 examples/clients/client.py build/papcalc > build/client-python
	java examples/clients/Client.java build/papcalc > build/client-java
	cmp build/client-python build/client-java
	cat build/client-java

# The worked examples, on the built program. They aren't part of the repository: in development they lie beside it.
rows:
	@test -f ../shared/run_rows.py || { echo 'rows: the worked examples (../shared) are not part of the repository' >&2; exit 1; }
	$(MAKE) build
	tools/worked_rows.sh "$(CURDIR)/build/papcalc"
	python3 tools/call_rows.py build/papcalc ../shared/rows/calls.json

# Tries the wrong bodies of all crates or of CRATES="a b/EDIT", also those that the gate leaves out, and says by which goals each is
# refused. What is known of an edit is kept, so a run that was cut off is gone on with.
wrong-bodies:
	python3 tools/wrong_bodies.py $(CRATES)

decimal-tool:
	cd crates/decimal_tool && rt run < stdin > /dev/null
	mkdir -p build
	cp crates/decimal_tool/out/decimal_tool build/decimal_tool

# Nanoseconds of each operation on decimals, beside those of java.math.BigDecimal on the same amounts, whose scales and
# modes vary; the sums of the results must be equal (needs a JDK).
bench-decimal:
	tools/bench.sh decimal_bench 2000
	mkdir -p build
	javac -d build tools/BenchDecimal.java
	java -cp build BenchDecimal 2000

# Generated operations on decimals of the full range, each answer compared with that of java.math.BigDecimal (needs a JDK).
check-java: decimal-tool
	javac -d build tools/CheckDecimal.java
	java -cp build CheckDecimal generate 1 300000 > build/operations
	build/decimal_tool < build/operations > build/answers
	java -cp build CheckDecimal compare build/operations build/answers

# Nanoseconds a step of the machine on straight-line code, beside the same statements on java.math.BigDecimal (needs a JDK).
bench-machine:
	tools/bench.sh machine_bench straight
	mkdir -p build
	javac -d build tools/BenchMachine.java
	java -cp build BenchMachine

# Picoseconds a step of the flowchart of a pay period and of a full-size one on the built program, each beside the same flowchart as a
# Java class on java.math.BigDecimal (needs a JDK).
bench-plan: build
	python3 tools/full_plan.py build
	python3 tools/bench_plan.py build/papcalc examples/payroll_tax.xml examples/payroll_tax.toml PERIOD=2 PAY=450000
	python3 tools/bench_plan.py build/papcalc build/full.xml build/full.toml PERIOD=2 RATE_1=0.1 $(foreach k,1 3 5 7 9 11 13,AMOUNT_$(k)=450000)

# Milliseconds of each kind of edit in books of 300 and of 49,992 runs, and of a script of `add` lines with its report beside a plain
# Java program, whose report has to be the same (needs a JDK).
bench-book: build
	python3 tools/bench_book.py build/papcalc

# Seconds of `check` on the flowcharts that take it longest, of those we know.
bench-worst: build
	python3 tools/worst_plan.py build
	bash -c 'for name in worst table tests nested branching; do echo $$name; time build/papcalc check build/$$name.xml build/$$name.toml; done'

# Nanoseconds of each operation on intervals.
bench-intervals:
	tools/bench.sh interval_bench intervals

# A program that embeds the library (docs/EMBEDDING.md), compiled with tests at run time and without a proof.
embedded:
	TRY=1 tools/bench.sh embedded --data payroll_tax.xml=$(CURDIR)/examples/payroll_tax.xml \
	    --data payroll_tax.toml=$(CURDIR)/examples/payroll_tax.toml -- payroll_tax.xml payroll_tax.toml

# Pay runs a second with 1, 2 and 4 processes, each with a table of its own of 49,992 runs.
bench-processes: build
	python3 tools/bench_processes.py build/papcalc

# A million pay runs in parts on one machine, by Slurm on one to three nodes and by Dask, with a node, a task and a worker killed and a disk
# full on the way (needs Debian's slurm-wlm and python3-distributed, and root; RUNS=N for other tables, RUNS='N full' for a full-size
# flowchart).
cluster-trials: build
	python3 tools/cluster_trials.py build/papcalc $(RUNS)
