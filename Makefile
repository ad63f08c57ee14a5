# make run: lists a record, samples/four.eti or RECORD=file. make example: the same from C. make live-example: the same of a live line, from standard input. make test: the gate.
# make command: the command spindlewren, for engineers. make install PREFIX=..: command, headers, static library, pkg-config file, manual page and BOUNDARY.md; make uninstall.
# make rows: the bench figures. make soak: a gigabyte through a pipe, then the comparison with the Rust implementation for SECONDS, from SEED on. make bench: times.
.PHONY: run rows example live-example command install uninstall soak bench test
RECORD = samples/four.eti
SECONDS = 600
SEED = $(shell date +%s)
# what rt made in their out/ is left aside
crates = $(shell find crates crates.txt -name out ! -path "*/proofs/*" -prune -o -type f -print)

run:
	@[ ! -d "$(RECORD)" ] || { echo "$(RECORD): is a directory" >&2; exit 1; }
	@tools/run listing <"$(RECORD)"

rows:
	@for program in rows answers writes; do tools/run $$program || exit 1; done

example: target/example/controller
	@target/example/controller "$(RECORD)"

target/example/controller: examples/controller.c include/spindlewren.h $(crates)
	@mkdir -p target/example
	@$(CC) -std=c99 -O2 -Wall -Wextra -Wpedantic -Werror -Iinclude examples/controller.c "$$(tools/archive controller)" "$$(tools/archive walks)" "$$(tools/archive sizing)" "$$(tools/archive profiles)" -o $@

# the line from standard input
live-example: target/example/live
	@target/example/live

target/example/live: examples/live.c include/spindlewren.h $(crates)
	@mkdir -p target/example
	@$(CC) -std=c99 -O2 -Wall -Wextra -Wpedantic -Werror -Iinclude examples/live.c "$$(tools/archive controller)" "$$(tools/archive walks)" "$$(tools/archive living)" -o $@

command: target/command/spindlewren
	@echo "$(CURDIR)/target/command/spindlewren"

target/command/spindlewren: Makefile $(wildcard command/* include/*) tools/archives tools/library $(crates)
	@mkdir -p target/command
	@$(CC) -std=c99 -O2 -Wall -Wextra -Wpedantic -Werror -DVERSION='"$(VERSION)"' -Iinclude command/*.c "$$(tools/library)" -o $@

PREFIX = /usr/local
VERSION = 1.0
HEADERS = spindlewren.h spindlewren_boot.h spindlewren_lines.h
under = $(DESTDIR)$(PREFIX)

# the header names BOUNDARY.md
install: target/command/spindlewren
	@case "$(PREFIX)" in /*) ;; *) echo "PREFIX must begin with /, since the pkg-config file names it: $(PREFIX)" >&2; exit 1 ;; esac
	@mkdir -p "$(under)/bin" "$(under)/include" "$(under)/lib/pkgconfig" "$(under)/share/man/man1" "$(under)/share/doc/spindlewren"
	@install -m 755 target/command/spindlewren "$(under)/bin/"
	@install -m 644 $(HEADERS:%=include/%) "$(under)/include/"
	@install -m 644 "$$(tools/library)" "$(under)/lib/"
	@sed 's|@PREFIX@|$(PREFIX)|; s|@VERSION@|$(VERSION)|' tools/spindlewren.pc >"$(under)/lib/pkgconfig/spindlewren.pc"
	@install -m 644 command/spindlewren.1 "$(under)/share/man/man1/"
	@install -m 644 docs/BOUNDARY.md "$(under)/share/doc/spindlewren/"

uninstall:
	@! cd "$(under)/" 2>/dev/null || rm -f bin/spindlewren $(HEADERS:%=include/%) lib/libspindlewren.a lib/pkgconfig/spindlewren.pc share/man/man1/spindlewren.1 share/doc/spindlewren/BOUNDARY.md
	@! [ -d "$(under)/share/doc/spindlewren" ] || rmdir "$(under)/share/doc/spindlewren"

soak:
	@tests/live/gigabyte
	@tests/independent/run --seed $(SEED) --seconds $(SECONDS)

bench:
	@bench/run

test:
	@.ci/run
