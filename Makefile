# The two commands are `make run` and `make test`. `make run` needs rt alone; what else the tests need `make tools` installs.
SHELL := /bin/bash
.SHELLFLAGS := -eu -o pipefail -c
.ONESHELL:
.SILENT:
.PHONY: run test second archive header host sections vectors stored malformed differential benchmark tools

STRICT := -Wall -Wextra -Werror -pedantic -Iinclude
ARCHIVE := target/staticlib/libboard.a
# bytes of jump tables and data that the archive may have (it has 700; a jump table of 22 digits is 88), of read-only data of all kinds (2,156; 256 more
# would be the table), and rows of four rising bytes (4, each in the constant of a pshufb, which says which byte goes where; a table of digits has more)
TABLES := 787
READ_ONLY := 2171
RISING := 4
# host/plain.c under the archive's names, and under those that host/benchmark.c gives it where it is compiled at -O3
AS_ARCHIVE := -Dplain_receive=cabinet_receive -Dplain_answer=cabinet_answer -Dplain_check=cabinet_check -Dplain_act=cabinet_act \
  -Dplain_step_back=cabinet_step_back
AS_O3 := -Dplain_receive=plain_o3_receive -Dplain_answer=plain_o3_answer -Dplain_check=plain_o3_check -Dplain_act=plain_o3_act \
  -Dplain_step_back=plain_o3_step_back

# a command that the tests need, and the Debian package that has it. Toolchain and product are for x86-64 Linux.
TOOLS := gcc:gcc g++:g++ cargo:cargo rustc:rustc readelf:binutils valgrind:valgrind

# the bench program: frames from standard input, replies to standard output
run:
	.ci/prove run bench
	exec crates/bench/out/bench

# the gate: rt ci first, then second, stored, malformed, header, host, sections and differential
test: tools
	exec .ci/run

# the independent second program's own tests
second: tools
	cargo test --quiet --offline --manifest-path second/Cargo.toml --target-dir target/second

# include/cabinet.h as C99 and as C++, and the panel's use and the loop that its comment shows, taken from there
header: tools
	gcc -std=c99 $(STRICT) -fsyntax-only host/compile_header.c
	g++ -std=c++11 $(STRICT) -fsyntax-only host/compile_header.cpp
	sed -n "/LOOK BEFORE STORING/,/A HOST'S LOOP/s/^ \*   //p" include/cabinet.h | gcc -std=c99 $(STRICT) -fsyntax-only -x c -
	sed -n "/A HOST'S LOOP/,/^ \*\//s/^ \*   //p" include/cabinet.h | gcc -std=c99 $(STRICT) -fsyntax-only -x c -

# installs what is missing, as root, and prints the command that does it; where all is there it prints nothing
tools:
	missing=()
	for tool in $(TOOLS); do
	    command -v "$${tool%%:*}" > /dev/null || missing+=("$${tool#*:}")
	done
	if (( $${#missing[@]} > 0 )); then
	    install="apt-get update -qq && DEBIAN_FRONTEND=noninteractive apt-get install -y -qq $${missing[*]}"
	    echo "$$install" >&2
	    bash -c "$$install" >&2
	fi

# the crate board_c, under the name that its C hosts know
archive:
	.ci/prove lib board_c
	mkdir -p target/host $(dir $(ARCHIVE))
	cp crates/board_c/out/libboard_c.a $(ARCHIVE)

# the cases of crates/vectors and what the second program says of them, written anew
vectors: tools
	cargo run --quiet --offline --release --manifest-path second/Cargo.toml --target-dir target/second --bin vectors -- crates/vectors

# the stored cases are what the second program writes
stored: tools
	cargo run --quiet --offline --release --manifest-path second/Cargo.toml --target-dir target/second --bin vectors -- target/vectors
	cmp target/vectors/stdin crates/vectors/stdin
	cmp target/vectors/stdout crates/vectors/stdout

# operations that the second program never writes: an input that is cut off in a field, a call before the first 'B', an 'X' of no buffer
malformed:
	.ci/prove run vectors
	says() { cmp <(printf "$$1" | crates/vectors/out/vectors) <(echo "$$2"); }
	says 'S\x01' 'S 4 0 0 6BB13106 C20CD8D6 C844E541 4075688A 00000000'
	says 'S\x00\x01\xff\x99\x01\x01\x00\x00\x10\x00\xff' 'S 10 0 0 5F42C8EE C20CD8D6 C844E541 4075688A F7695982'
	says 'F\x00\x00' 'F 2 0 0 0 0 00000000 C20CD8D6 C844E541 4075688A 00000000 8B0359A9'
	says 'B\x00\x01\xff\x99\x01\x01\x00\x00\x02\x1c\x00\xc8\x02XX\x07\x00\x00\x00\x01\xffC\x00\x00' 'C 6 0 0 0 0 5F42C8EE C20CD8D6 C844E541 4075688A 2FC3FE78'
	echo "malformed operations: 4 as before the design pass"

# the archive: the bench listing in pieces of every length, the README's two programs, then every vector
host: tools archive
	gcc -std=c99 -O2 $(STRICT) host/bench_listing.c $(ARCHIVE) -o target/host/bench_listing
	valgrind --quiet --error-exitcode=1 target/host/bench_listing
	cmp <(sed -n '/^    #include "cabinet.h"/,/^    }/s/^    //p' README.md) <(cat host/first_host.c host/panel.c)
	gcc -std=c99 -O2 $(STRICT) host/first_host.c $(ARCHIVE) -o target/host/first_host
	target/host/first_host | cmp - <(printf '#9920000123456782B\r\n')
	gcc -std=c99 -O2 $(STRICT) host/panel.c $(ARCHIVE) -o target/host/panel
	echo y | target/host/panel | cmp - <(printf '244H: 1 from 001, store? #9924400100151\r\n')
	echo n | target/host/panel | cmp - <(printf '244H: 1 from 001, store? ')
	gcc -std=c99 -O2 $(STRICT) host/play_vectors.c $(ARCHIVE) -o target/host/play_vectors
	target/host/play_vectors < crates/vectors/stdin | cmp - crates/vectors/stdout
	echo "vectors: $$(wc -l < crates/vectors/stdout) calls as the second program says"

# the archive's sections, in which no table of digits is (.ci/sections), and what it asks its host for; host/plain.c has a table as data, and a line
# below has one that code lays, and each rule that they break must say so
sections: tools archive
	.ci/sections $(ARCHIVE) $(TABLES) $(READ_ONLY) $(RISING)
	asks=$$(nm -u $(ARCHIVE) | sed -n 's/^ *U //p' | sort -u | xargs)
	[[ $$asks == memset ]] || { echo "the archive asks its host for: $$asks" >&2; exit 1; }
	gcc -std=c99 -O2 $(STRICT) -c host/plain.c -o target/host/plain.o
	echo 'int worth(int d) { volatile char of[8] = {1, 2, 3, 4, 5, 6, 7, 8}; return of[d & 7]; }' | gcc -O2 -x c -c - -o target/host/laid.o
	said=$$(.ci/sections target/host/plain.o 0 0 2>&1) && { echo "the table of host/plain.c was not refused" >&2; exit 1; }
	for why in 'read-only data of [0-9]* bytes: [.]rodata' 'jump tables and data of' 'read-only data of [0-9]* bytes, and' 'four rising bytes in a row'; do
	    grep -q "^$$why" <<< "$$said" || { echo "not said of host/plain.c: $$why" >&2; exit 1; }
	done
	said=$$(.ci/sections target/host/laid.o $(TABLES) $(READ_ONLY) 2>&1 > /dev/null) && { echo "a table laid by code was not refused" >&2; exit 1; }
	grep -qx 'four rising bytes in a row, [0-9]* times' <<< "$$said" || { echo "said of a table laid by code: $$said" >&2; exit 1; }

# drawn calls compared with the second program, every byte of every area after each; DIFFERENTIAL_CALLS=N and DIFFERENTIAL_SEED=N for others
differential: tools archive
	gcc -std=c99 -O2 $(STRICT) host/play_calls.c $(ARCHIVE) -o target/host/play_calls
	PLAYER="target/host/play_calls" cargo run --quiet --offline --release --manifest-path second/Cargo.toml --target-dir target/second --bin differential

# the archive's time beside host/plain.c's, compiled at -O2 and at -O3, each compared first as the archive is
benchmark: tools archive
	for level in 2 3; do
	    gcc -std=c99 -O$$level $(STRICT) $(AS_ARCHIVE) host/play_calls.c host/plain.c -o target/host/play_plain
	    PLAYER="target/host/play_plain" cargo run --quiet --offline --release --manifest-path second/Cargo.toml --target-dir target/second --bin differential | tail -n 1
	done
	gcc -std=c99 -O3 $(STRICT) $(AS_O3) -c host/plain.c -o target/host/plain_o3.o
	gcc -std=c99 -O2 $(STRICT) host/benchmark.c host/plain.c target/host/plain_o3.o $(ARCHIVE) -o target/host/benchmark
	lscpu | sed -n 's/^Model name: *//p'
	target/host/benchmark
