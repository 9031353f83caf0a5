# `rt` is the command of the Rattle kit.
script = examples/left_over.link
seconds = 60

.PHONY: run try test examples pictures looks bindings dist install bench simgrid networks hostile hostile_tests names torture clean

# Proves the library and the program, builds the program as bin/linkrun, and runs it on a script. At first each crate is
# proved by one process, up to four crates at a time: more processes at one crate take up to twice the processor time,
# since each reads its lemmas anew.
run: bin/linkrun
	./bin/linkrun < $(script)

# Runs a script without proofs, for whoever wants to see it first: some 70 processor seconds, in two processes. `rt try` compiles
# all sources, the standard library too, on one core, and on another one it looks for names that a check would refuse.
try:
	cd crates/linkrun && rt try < ../../$(script)

bin/linkrun: FORCE
	@mkdir -p bin
	cd crates/linkrun && { [ -e out/linkrun ] || rt all check --jobs 4 >&2; } && rt run < /dev/null > /dev/null
	cp crates/linkrun/out/linkrun bin/linkrun

bin/linkcheck: FORCE
	@mkdir -p bin
	cd crates/linkcheck && rt run < /dev/null > /dev/null
	cp crates/linkcheck/out/linkcheck bin/linkcheck

bin/linkdraw: FORCE
	@mkdir -p bin
	cd crates/linkdraw && rt run < /dev/null > /dev/null
	cp crates/linkdraw/out/linkdraw bin/linkdraw

bin/broadcast: FORCE
	@mkdir -p bin
	cd crates/broadcast && rt run -- 2 > /dev/null
	cp crates/broadcast/out/broadcast bin/broadcast

bin/networks: FORCE
	@mkdir -p bin
	cd crates/networks && rt run > /dev/null
	cp crates/networks/out/networks bin/networks

# The gate: every proof from nothing, the edits that must fail, the tests and the program. What stood in out/ before, it
# puts back: the libraries of a gate before this one, which have no stamp, go first, so that those of this one stay. So do
# packages, since they have a link, which the gate does not take. What it leaves is as new as the gate, also where it was
# kept from one before: so the bindings take it.
test:
	@rm -rf bin/dist
	@for rlib in crates/*/out/rlib; do [ -e $$rlib/stamp ] || rm -rf $$rlib; done
	rt ci
	@touch -c crates/*/out/rlib/*.rlib/format

# Runs each example and compares what it prints: scripts, the partner that asks line by line, networks, traces and
# pictures.
examples: bin/linkrun bin/linkcheck bin/linkdraw bin/networks
	@for script in examples/*.link examples/generated/*.link; do \
		./bin/linkrun < $$script 2>/dev/null | cmp - $${script%.link}.out && echo $$script || exit 1; \
	done
	@for example in partner fat_tree trunks; do \
		python3 examples/$$example.py | cmp - examples/$$example.out && echo examples/$$example.py || exit 1; \
	done
	@python3 examples/broadcast.py | ./bin/linkrun | cmp - examples/broadcast.out && echo examples/broadcast.py
	@for trace in examples/traces/*.trace; do \
		./bin/linkcheck $$trace | cmp - $${trace%.trace}.out && echo $$trace || exit 1; \
	done
	@for picture in docs/pictures/*.svg; do \
		./bin/linkdraw examples/$$(basename $${picture%.svg}).link | cmp - $$picture && echo $$picture || exit 1; \
	done
	@./bin/linkdraw --table messages examples/broadcast_24.link | python3 examples/latencies.py \
		| cmp - examples/latencies.out && echo examples/latencies.py
	@python3 tests/tables.py bin/linkrun bin/linkdraw $$(ls examples/*.link examples/generated/*.link | grep -v broadcast_24)

# Draws the pictures of docs/ anew.
pictures: bin/linkdraw
	@for picture in docs/pictures/*.svg; do \
		./bin/linkdraw examples/$$(basename $${picture%.svg}).link > $$picture; \
	done

# Looks at pictures and pages of 2, 12 and 64 peers in Chromium, if that is there, and leaves screenshots in bin/looks.
looks: bin/linkdraw
	@python3 tests/pictures.py bin/linkdraw bin/looks

# The library for C, Rust and Python, in bin/bindings, and the tests of each language whose tools are there. After the
# gate, `make bindings over=gate` takes the libraries that it proved.
bindings:
	@bindings/archive.sh $(over)
	@bindings/check.sh

# Packages of what `make bindings` left, in bin/dist: a tar for C and C++, a wheel and a crate; and a program of each
# language from these alone. `make install PREFIX=/usr/local` installs what is in the tar.
dist:
	@bindings/dist.sh
	@bindings/dist_check.sh

install:
	@bindings/dist.sh install $(or $(PREFIX),/usr/local)

# Times of one allocation and of one message beside those of the Rust original. `make bench work="NAME .."` runs those alone.
bench: bin/linkrun bin/broadcast bin/networks
	python3 bench/run.py bin/linkrun bin/broadcast bin/networks $(work)

# Times of rates over routes beside those of SimGrid, which has to be there (of Debian, libsimgrid-dev).
simgrid: bin/networks
	g++ -O2 -std=c++17 bench/simgrid.cpp -lsimgrid -o bin/simgrid
	python3 bench/simgrid.py bin/networks bin/simgrid

# Compares the rates of 10,000 random networks with a plain reckoning by fractions. Takes half a minute.
networks: bin/networks
	python3 tests/networks.py bin/networks

# Refuses allocations, reads and writes one by one, and runs bad scripts. Takes a minute or two (docs/HOSTILE.md). After
# the gate, `make hostile over=gate` takes the program and the tests that it built.
hostile: bin/refuse.so $(if $(over),,bin/linkrun hostile_tests)
	python3 tests/hostile.py crates/linkrun/out/linkrun bin/refuse.so crates/p2p_simulated_hostile/out/p2p_simulated_hostile_tests

hostile_tests:
	cd crates/p2p_simulated_hostile && rt test > /dev/null

# Whether the documents name only what there is.
names:
	@python3 tests/names.py

# Compares random scripts with a plain scheduler, for a minute. `make torture seconds=3600 seed=7` does so for an hour.
torture: bin/linkrun bin/refuse.so
	python3 tests/torture.py bin/linkrun bin/refuse.so $(seconds) $(seed)

bin/refuse.so: tests/refuse.c
	@mkdir -p bin
	cc -O2 -shared -fPIC -o $@ $<

clean:
	rm -rf bin crates/*/out

FORCE:
