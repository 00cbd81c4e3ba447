.PHONY: run test differential soak memcheck threads float-settings fuzz mutants report-largest deliberate-errors further-edits \
    sheet-by-hand streams-fail exact-error rules-page docs-check docs-slips oracle-test archive archive-here firmware firmware-test firmware-bench \
    bench examples rust-test picture expected python python-test python-bench python-pictures doubles doubles-test

# On another machine than x86-64, what links the archive takes one that is made for it, and our programs run on QEMU with the kit's C library.
MACHINE := $(shell uname -m)
ARCHIVES = target/staticlib
ifneq ($(MACHINE),x86_64)
ARCHIVES = target/firmware/$(MACHINE)
TOOLS := $(dir $(shell readlink -f $$(command -v rt)))../toolchain
export HULLASHLAR_RUNNER = qemu-x86_64 $(TOOLS)/lib/ld-linux-x86-64.so.2 --library-path $(TOOLS)/lib
endif
export HULLASHLAR_ARCHIVE_DIR = $(CURDIR)/$(ARCHIVES)

# Prints the tensor of the example sheet, which docs/RULES.md takes apart bit by bit.
run:
	tools/build.sh sheet_tensor
	$(HULLASHLAR_RUNNER) target/bin/sheet_tensor < crates/sheet_tensor/stdin

test:
	.ci/run

# How many cases of each kind are compared with the Rust; of a kind that is not named here there are 10,000.
CASES = --moments 60000 --curve 60000 --slopes 60000 --build 50000 --change 50000 --verify 100000 \
    --change_list 20000 --either_order 60000 --query 400000 --quick_query 200000 --quick_beside_full 530000 \
    --even_query 240000 --at_every_place 5000 \
    --direct_query 200000 --direct_beside_even 120000 --even_profile 200000 --profiled_direct 120000 \
    --quick_queries 100000 --direct_queries 100000 \
    --read 240000 --read_edition_1 60000 --sheet_tensor 120000 --short_sheet 65793 \
    --write 240000 --written_back 120000 --surface 120000 \
    --exact_index 60000 --locate_axis 60000 --locate_step_index 100000 --stepped 100000 --stepped_many 100000 \
    --cell_value 8520460 --cursor_next 200000 --device_curve 4101 --report 24000 --sheet_text 4000 --empty_slice 40000
SEED = 20240917

# Holds the exported calls against the Rust, bit for bit, and what the device's program and the report print; fails where there is a
# difference, or nothing was compared of a kind.
differential: archive-here
	tools/build.sh device_curve sheet_report sheet_tensor
	cd oracle && cargo run --offline --release -p differential -- --seed $(SEED) $(CASES)

# The same in rounds of another seed each, for SOAK seconds, over every call and every program; prints the seeds, how often each refusal was
# given, and each case that differs. SEED=N CASE=KIND:NUMBER runs such a case alone; SEED=N alone begins with that seed.
SOAK = 300
soak: SEED = 0
soak: archive-here
	tools/build.sh device_curve sheet_report sheet_tensor
	cd oracle && cargo run --offline --release -p differential -- --seed $(SEED) $(if $(CASE),--case $(CASE),--soak $(SOAK))

# Kinds of cases that run a program, which memcheck does not follow.
NO_PROGRAMS = --device_curve 0 --report 0 --sheet_text 0

# A round of every call under valgrind's memcheck: no error, and no use of what was not set.
memcheck: archive-here
	cd oracle && cargo build --offline --release -p differential
	valgrind --quiet --error-exitcode=9 oracle/target/release/differential --seed $(SEED) --cases 2000 $(NO_PROGRAMS)

# The same cases on four threads at once, each on slices of its own: all see the same.
threads: archive-here
	cd oracle && cargo run --offline --release -p differential -- --seed $(SEED) --cases 20000 $(NO_PROGRAMS) --threads 4

# Which answers move where a host has set its floats otherwise; and that hullashlar_floats_ready tells each such setting, in a host that is
# compiled with -ffast-math too. Of x86-64.
float-settings: archive-here
	mkdir -p target/examples
	gcc -std=c11 -Wall -Wextra -Werror -O2 -Iinclude tests/float_settings.c -o target/examples/float_settings
	gcc -std=c11 -Wall -Wextra -Werror -O3 -ffast-math -DFAST -Iinclude tests/float_settings.c -o target/examples/float_settings_fast
	target/examples/float_settings
	target/examples/float_settings_fast
	cd oracle && cargo run --offline --release -p differential -- --seed $(SEED) --settings 2000

# Fuzzes the calls that take a sheet, and the programs, for FUZZ seconds, with the oracle as judge in the same process; FILE=... runs what it
# has found alone. Wants clang with libclang-rt-14-dev; of x86-64.
FUZZ = 300
fuzz:
	python3 tests/fuzz/run.py $(FUZZ) $(FILE)

# Puts N random mutants to the prover, of the library's code and of its definitions by turns; fails where one is accepted that
# tests/mutants/equal.txt does not know. Each takes as long as the check of its crate.
N = 20
mutants: SEED =
mutants:
	rt all check
	python3 tests/mutants/run.py $(N) $(SEED)

# Runs the report on a million sheets and a byte more, beside the oracle.
report-largest:
	tools/build.sh sheet_report
	cd oracle && cargo build --offline --release -p printed
	python3 tests/report_largest.py

# Runs copies of the code, each with one deliberate error, on the oracle's fixed list of answers; fails where an error is not found.
deliberate-errors:
	python3 tests/deliberate_errors/run.py

# Tries the edits of tests/further_edits, which the gate leaves out for their time; fails where one is not refused.
further-edits:
	python3 tests/further_edits/run.py

# Packs a sheet by docs/RULES.md alone and runs it. The oracle's tests hold the same sheet and the same lines against the Rust.
sheet-by-hand:
	tools/build.sh sheet_tensor
	python3 tests/sheet_by_hand/sheet.py | cmp - tests/sheet_by_hand/two_axes.sheet
	$(HULLASHLAR_RUNNER) target/bin/sheet_tensor < tests/sheet_by_hand/two_axes.sheet | diff tests/sheet_by_hand/expected.txt -

# Runs the programs where their input or their output fails, and on sheets cut at every byte, and sees what they say; with strace also by how many
# calls a tensor is printed and a long stream is read.
streams-fail:
	tools/build.sh sheet_tensor sheet_report device_curve
	python3 tests/streams_fail.py

# Measures how far the values of the archive lie from the exact spline, worked out in fractions.
exact-error: archive-here
	python3 tests/exact_error.py

# Holds docs/RULES.md against the definitions: its chapters, contents and table of calls; and docs/DECISIONS.md: numbers, statuses, and the forms against the code.
rules-page:
	python3 tests/rules_page.py
	python3 tests/forms_page.py

# Holds the documents, the headers and the comments against the code: what is named exists, what stands twice is equal, and nothing is left out;
# tests/docs_check has a file for each check. Each fault is one line, FILE:LINE: what is wrong.
docs-check:
	python3 -B tests/docs_check

# Puts deliberate slips into a copy, one after the other; fails where a slip is not found, or where there is a fault without one.
docs-slips:
	python3 -B tests/docs_check/try_slips.py

# The Rust side's own tests: the unchanged files, the worked examples, the generator, what is kept beside the programs.
oracle-test:
	cd oracle && cargo test --offline

# The archive of the exported calls, target/staticlib/libhullashlar.a.
archive:
	tools/build.sh hullashlar_c

# The same, and on another machine than x86-64 the archive that the proved module gives for it.
archive-here: archive
ifneq ($(MACHINE),x86_64)
	python3 firmware/make_archives.py $(MACHINE)
endif

# Archives of the proved module for the processors of aids, target/firmware/TARGET/libhullashlar.a; wants `rt` and Python alone.
firmware:
	python3 firmware/make_archives.py

# How many calls are made on each processor.
FIRMWARE_CALLS = 500000

# Holds those archives against the x86-64 one, on each processor as the emulator has it; docs/FIRMWARE.md names the packages it wants.
firmware-test: firmware
	python3 tests/firmware/run.py $(FIRMWARE_CALLS)

# Measures them, and prints the tables of docs/FIRMWARE.md.
firmware-bench: firmware
	python3 tests/firmware/bench.py

# Measures the exported calls beside the Rust's functions, and beside the limit where the folder of its C is at hand (LIMIT_SRC, by default
# ../shared/limit), adds up their stack from the archive's code, and measures the report on long streams; prints the tables of docs/BENCH.md;
# wants valgrind and objdump.
bench: archive-here
	cd oracle && cargo run --offline --release -p bench
ifeq ($(MACHINE),x86_64)
	python3 tests/stack_frames.py
	tools/build.sh sheet_report
	python3 tests/report_speed.py
endif

# The examples of the calls in C; that of double arithmetic stands apart, as its archive is for x86-64.
CALLS = $(filter-out doubles,$(sort $(basename $(notdir $(wildcard examples/calls/*.c)))))
EXAMPLE_IN_C = gcc -std=c11 -Wall -Wextra -Werror -O2 -Iinclude

# The example hosts on one sheet, each held against the output that is kept beside it, and those that write the sheet back against the changed sheet.
# Then a program for each call of the headers, and that each call has one; and the program of README.md, which says what it prints.
examples: archive-here
	mkdir -p target/examples
	python3 examples/gain_sheet.py | cmp - examples/gain.sheet
	python3 examples/gain_sheet.py changed | cmp - examples/changed.sheet
	gcc -std=c11 -Wall -Wextra -Werror -O2 -Iinclude examples/host.c $(ARCHIVES)/libhullashlar.a -o target/examples/host_in_c
	gcc -std=c11 -Wall -Wextra -Werror -O2 -Iinclude examples/firmware.c $(ARCHIVES)/libhullashlar.a -o target/examples/firmware
	cd rust/hullashlar && cargo build --offline --release --target-dir ../../target/rust --example host
	target/examples/host_in_c examples/gain.sheet target/examples/c.sheet | diff examples/expected.txt -
	target/rust/release/examples/host examples/gain.sheet target/examples/rust.sheet | diff examples/expected.txt -
	target/examples/firmware examples/gain.sheet | diff examples/firmware_expected.txt -
	cmp examples/changed.sheet target/examples/c.sheet
	cmp examples/changed.sheet target/examples/rust.sheet
	mkdir -p target/examples/calls
	test "$$(grep -oh 'examples/calls/[a-z0-9_]*\.c' include/*.h | sort -u)" = "$$(ls examples/calls/*.c | sort)"
	for call in $(CALLS); do $(EXAMPLE_IN_C) examples/calls/$$call.c $(ARCHIVES)/libhullashlar.a -o target/examples/calls/$$call || exit 1; done
	for call in $(CALLS); do echo "== $$call"; target/examples/calls/$$call || exit 1; done > target/examples/calls/answers.txt
	diff examples/calls/expected.txt target/examples/calls/answers.txt
	sed -n '/^```c$$/,/^```$$/{/^```/!p}' README.md > target/examples/readme.c
	$(EXAMPLE_IN_C) target/examples/readme.c $(ARCHIVES)/libhullashlar.a -o target/examples/readme
	grep -qF "/* $$(target/examples/readme): " target/examples/readme.c
ifeq ($(MACHINE),x86_64)
	$(EXAMPLE_IN_C) examples/calls/doubles.c $(ARCHIVES)/libhullashlar_doubles.a -o target/examples/calls/doubles
	target/examples/calls/doubles | diff examples/calls/doubles_expected.txt -

examples: doubles
endif

# The Rust crate's own tests, its documented examples among them.
rust-test: archive-here
	cd rust/hullashlar && cargo test --offline --target-dir ../../target/rust

# Draws the picture of README.md anew, from numbers that the library computes.
picture: archive
	mkdir -p target/picture
	gcc -std=c11 -Wall -Wextra -Werror -O2 -Iinclude docs/picture/cut.c target/staticlib/libhullashlar.a -o target/picture/cut
	target/picture/cut | python3 docs/picture/draw.py > docs/picture/stale-derivatives.svg

# Draws the rooms of docs/ARCHITECTURE.md anew, from crates.txt.
.PHONY: rooms
rooms:
	python3 docs/picture/rooms.py

# What the programs are run on and what they must print: sheets by a script, the fixed list and all outputs by the oracle. It changes
# nothing unless the script, the generator, an example or the reading has changed.
expected:
	python3 tests/make_sheets.py
	cd oracle && cargo run --offline --release -q -p cases --bin replay_list > ../crates/trial_replay/stdin
	cd oracle && cargo run --offline --release -q -p printed -- ../crates

# A Python that has numpy: Debian's packages belong to /usr/bin/python3, which need not be the first on the path.
PYTHON = $(shell for python in python3 /usr/bin/python3; do $$python -c 'import numpy' 2> /dev/null && echo $$python && break; done)

# What the Python package hands numbers to: the proved archive as a shared library, with loops over two of its calls, and the program that reports.
python: archive-here
	tools/build.sh sheet_report
	mkdir -p python/hullashlar/proved
	gcc -std=c11 -Wall -Wextra -Werror -O2 -Iinclude -shared -fPIC -nostartfiles python/point_by_point.c \
	    -Wl,--whole-archive $(ARCHIVES)/libhullashlar.a -Wl,--no-whole-archive -Wl,--no-undefined -o python/hullashlar/proved/libhullashlar.so
	cp target/bin/sheet_report python/hullashlar/proved/

# The package's tests; README.md says which packages they want.
python-test: python
	cd python && PYTHONPATH=. $(PYTHON) -B -m pytest -q -p no:cacheprovider

# A million points by one call from Python, beside a loop in C and beside SciPy.
python-bench: python
	PYTHONPATH=python $(PYTHON) -B python/bench/queries.py

# Draws the pictures of the package anew: the map of README.md and the wrong scale of docs/TUTORIAL.md.
python-pictures: python
	PYTHONPATH=python $(PYTHON) -B -m hullashlar draw examples/gain.sheet --names "frequency, kHz" "level, dB" "gain, dB" \
	    -o docs/picture/gain-map.png
	PYTHONPATH=python $(PYTHON) -B -m hullashlar draw examples/scales.sheet --change 2 2 1.05 --stale --names "noise, dB" speech scale \
	    -o docs/picture/wrong-scale.png

# How many rounds of 628 pairs double arithmetic is tried on.
ROUNDS = 80000

# The archive of double arithmetic in whole numbers, target/staticlib/libhullashlar_doubles.a.
doubles:
	tools/build.sh hullashlar_doubles

# Holds double arithmetic in whole numbers against the machine's own operations, on directed and random pairs; fails where an answer differs,
# and where a copy with a deliberate error is not found.
doubles-test: doubles
	python3 tests/doubles/run.py $(ROUNDS)

include install/install.mk
