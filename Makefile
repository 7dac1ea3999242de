# `make help` lists the commands.
.PHONY: help run quick test install program library wheel rust dist verify edits check-c check-rust check-vendor live bench contracts

needs_rt = @command -v rt >/dev/null 2>&1 || { echo "make: the Rattle toolchain is missing: no command 'rt' on the PATH" >&2; exit 1; }

help:
	@printf '%s\n' \
	  'With python3, a C compiler and cargo (two processors):' \
	  '  make run                    lists a sample stream                                                 1 minute' \
	  '  make quick                  the C library, the Python package, three programs: not proved         1' \
	  '  make install QUICK=1 PREFIX=DIR [LIBDIR= DESTDIR=]    puts these there                            1' \
	  '  make rust                   a Cargo package with the API of the Rust crate postgres-protocol      2 seconds' \
	  '  make dist                   what a release has, in out/dist: sdist, wheel, crates, C library, sums    2' \
	  '  make test                   all tests that need no proof                                          4 minutes' \
	  '  make test TARGET=aarch64    (s390x, i686) packages, tables, programs and C under qemu, as root    10' \
	  '  make check-rust             of these, the tests of the Cargo package                              1' \
	  '' \
	  'With rt, the Rattle toolchain (four processors):' \
	  '  make verify                 every proof, test and edit that a proof has to refuse                 60 to 120 minutes' \
	  '  make library, make wheel    the C library and the Python package, proved                          10 to 40' \
	  '  make program                pgwire, proved, which ./pgwire runs (scripts/program build pgtrace)   10 to 40' \
	  '  make install PREFIX=DIR [LIBDIR= DESTDIR=]    all of it, proved                                   60 to 120' \
	  '  make check-c, check-vendor  tests of the proved library; the commands of docs/VENDORING.md        10 to 40' \
	  '  make edits [CRATES=pgp_base]    each wrong body by itself                                         hours' \
	  '  make bench [WORKS=write]    times the works of crates/test_bench                                   10' \
	  '' \
	  'For who changes it: make live tries it all with a PostgreSQL server of this machine; make contracts writes docs/CONTRACTS.md.'

export QUICK LIBDIR DESTDIR PYTHON

run:
	@scripts/sample

quick:
	@scripts/quick

test:
	@if [ -n "$(TARGET)" ]; then scripts/other_cpu "$(TARGET)"; else scripts/test; fi

install:
	@scripts/install "$(PREFIX)"

program:
	@scripts/program build
	@printf 'the proved program is built: ./pgwire runs it\n'

library:
	@scripts/library build

wheel:
	@[ -e out/c/libpostgres_protocol.so ] || scripts/library build
	@scripts/wheel

rust:
	@python3 -B bindings/rust/generate.py out/rust

dist:
	@scripts/dist $(TARGET)

verify:
	$(needs_rt)
	RT_JOBS=$${RT_JOBS:-$$(.ci/lanes)} rt ci

edits:
	$(needs_rt)
	.ci/edits $(CRATES)

check-c:
	@scripts/check_c $(LIBRARIES)

check-rust:
	@scripts/check_rust

check-vendor:
	$(needs_rt)
	@scripts/check_vendor $(LIBRARIES)

contracts:
	.ci/contracts --write

bench:
	$(needs_rt)
	cd crates/test_bench && rt run -- check
	@printf 'nanoseconds for each unit:\n'
	@./crates/test_bench/out/test_bench $(WORKS)

live:
	$(needs_rt)
	cd crates/test_rows && rt run >/dev/null 2>&1 || [ -x out/test_rows ]
	cd crates/pgserve && rt run -- --version >/dev/null 2>&1 || [ -x out/pgserve ]
	cd crates/pgtrace && rt run -- --version >/dev/null 2>&1 || [ -x out/pgtrace ]
	@[ -e out/c/libpostgres_protocol.so ] || scripts/library build
	@scripts/wheel
	@rm -rf out/venv && python3 -m venv --system-site-packages out/venv && out/venv/bin/pip install -q --no-index out/wheel/*.whl
	@live/run $(if $(SERVER),--server $(SERVER)) $(NAMES)