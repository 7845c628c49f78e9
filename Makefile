# `make run` does the main job, `make test` proves and tests everything. `make lib` writes the archive for C, `make codes` the line program, `make console`
# the console. `make install` puts them, the header and the manual pages below PREFIX (/usr/local), `make uninstall` takes them away. `make bench` times the
# archive against plain C, and the calls on a channel; `make soak` compares archive and programs with an independent model until it is stopped.

.PHONY: run codes console lib bench soak test install uninstall places

# Two rt at once would write the same proofs. rt takes the processors by itself.
.NOTPARALLEL:

archive := target/staticlib/libgps_chips.a
header := include/gps_chips.h

# What `make run` asks for: SIGNAL PRN PLACE COUNT. Here the first twelve chips of P of PRN 1.
LINE ?= 2 1 0 12
export LINE

need = @command -v $(1) >/dev/null || { echo 'make: $(2) is not on the PATH' >&2; exit 1; }
need-rt = $(call need,rt,the Rattle toolchain (rt))

# The line program, fed with a line.
run: codes
	@printf "echo '%s' | target/bin/codes\n" "$$LINE"
	@printf '%s\n' "$$LINE" | target/bin/codes
	@echo 'For more: type lines of SIGNAL PRN PLACE COUNT into target/bin/codes, or target/bin/codes <FILE >REPLIES'

# A program: proves it and all below it, builds it, and tests how it reads standard input and writes standard output, which no proof covers. For `make install` a
# program that passed is newer than its sources, and one that failed its tests older.
codes console:
	$(need-rt)
	@mkdir -p target/bin
	@echo 'proving $@ and what it rests on, some minutes the first time (target/$@.log)'
	@{ (cd crates/$@ && rt run </dev/null) && cp crates/$@/out/$@ target/bin/$@ && tests/$@/run.sh; } >target/$@.log 2>&1 || { touch -c -t 200001010000 target/bin/$@; cat target/$@.log >&2; exit 1; }
	@touch target/bin/$@
	@echo 'program: target/bin/$@'

# Has rt write machine code for every x86-64 processor. Without it, rt writes for those of x86-64-v2, which the first ones were not.
everywhere := --cpu=x86-64

# Proves the call for C and all below it, and writes it as an archive.
lib:
	$(need-rt)
	@mkdir -p target
	@echo 'proving gps_chips and what it rests on, some nine minutes the first time (target/lib.log)'
	@{ (cd crates/gps_chips_c && rt lib $(everywhere)) && mkdir -p $(dir $(archive)) && cp crates/gps_chips_c/out/libgps_chips_c.a $(archive); } >target/lib.log 2>&1 || { cat target/lib.log >&2; exit 1; }
	@echo 'archive: $(archive)'
	@echo 'header:  $(header)'
	@echo 'link:    cc prog.c -Iinclude $(archive)'

# The engine's calls on a channel, as an archive that the bench alone is linked with.
calls := target/bench/libbench_calls.a
# Plain C is given its best: where its loops happen to lie it takes up to half as long again.
aligned := -falign-functions=64 -falign-loops=64

# Compares the archive, the engine's calls on a channel, and plain C that makes the same chips, with the independent model, byte by byte, then times them, in some
# 25 seconds. Best with nothing else running.
bench: lib
	$(call need,$(firstword $(CC)),a C compiler ($(CC)))
	@mkdir -p target/bench
	@{ (cd crates/bench_calls && rt lib $(everywhere)) && cp crates/bench_calls/out/libbench_calls.a $(calls); } >target/bench.log 2>&1 || { cat target/bench.log >&2; exit 1; }
	@$(CC) -O3 $(aligned) -std=c99 -D_POSIX_C_SOURCE=199309L -Wall -Wextra -Werror -Iinclude -Itests/reference bench/*.c tests/reference/codes.c \
		tests/reference/registers.c $(archive) $(calls) -o target/bench/bench
	@target/bench/bench tests/tables

# Compares the archive and both programs with the independent model of tests/reference, in rounds of new cases, until it is stopped (Ctrl-C). Then it says what
# it covered. SOAK has its options, such as --seconds 60 or --seed 7.
soak: lib codes console
	$(call need,$(firstword $(CC)),a C compiler ($(CC)))
	@CC='$(CC)' tests/reference/soak.sh $(SOAK)

# Everything: the documents and the standards' tables; every proof, every wrong answer that has to be refused, every program; the C side, the independent model.
# The last line is rt's verdict, "N passed, 0 failed".
test:
	$(need-rt)
	$(call need,$(firstword $(CC)),a C compiler ($(CC)))
	@CC='$(CC)' tests/run.sh

# ---- installing

VERSION := 1.0.0

# Where it goes; a relative folder is taken from here. DESTDIR, if it is given, stands before all of them and is told to nothing that is installed.
PREFIX ?= /usr/local
BINDIR ?= $(PREFIX)/bin
LIBDIR ?= $(PREFIX)/lib
INCLUDEDIR ?= $(PREFIX)/include
MANDIR ?= $(PREFIX)/share/man

programs := target/bin/codes target/bin/console
# What rt keeps of its work, in crates/NAME/out, is no source.
sources := crates.txt $(shell find crates -mindepth 2 -name out -prune -o -print)
installed = $(BINDIR)/codes $(BINDIR)/console $(INCLUDEDIR)/gps_chips.h $(LIBDIR)/libgps_chips.a $(LIBDIR)/pkgconfig/gps_chips.pc \
	$(MANDIR)/man1/codes.1 $(MANDIR)/man1/console.1 $(MANDIR)/man3/gps_chips.3

# A folder or file as the shell is to see it, and a folder as gps_chips.pc has it: by its ${prefix} where it is below PREFIX.
to = "$(DESTDIR)$(abspath $(1))"
in-pc = $(patsubst $(abspath $(PREFIX))/%,$${prefix}/%,$(abspath $(1)))

# `lib`, `codes` and `console` always ask rt. These ask it only for what is missing or older than its sources, so that root needs no rt to install.
$(archive): $(sources)
	@$(MAKE) --no-print-directory lib
$(programs): target/bin/%: $(sources)
	@$(MAKE) --no-print-directory $*

# What pkg-config prints is cut into words at every space, so that a folder with one can't be told.
one-folder = $(if $(filter-out 1,$(words $(abspath $($(1))))),$(error $(1) is '$($(1))': it has to be one folder, with no space in its whole path))
places:
	@: $(foreach name,PREFIX BINDIR LIBDIR INCLUDEDIR MANDIR,$(call one-folder,$(name)))

# Folders that are there stay as they are: `install -d` would set their modes.
install: places $(archive) $(programs)
	@umask 022 && for folder in $(foreach folder,$(sort $(dir $(installed))),$(call to,$(folder))); do \
		mkdir -p "$$folder" && [ -w "$$folder" ] || { echo "make: nothing is installed: $$folder can't be written (sudo, or another PREFIX?)" >&2; exit 1; }; \
	done
	install -m 755 $(programs) $(call to,$(BINDIR))
	install -m 644 $(header) $(call to,$(INCLUDEDIR))
	install -m 644 $(archive) $(call to,$(LIBDIR))
	sed 's|@PREFIX@|$(abspath $(PREFIX))|; s|@LIBDIR@|$(call in-pc,$(LIBDIR))|; s|@INCLUDEDIR@|$(call in-pc,$(INCLUDEDIR))|; s|@VERSION@|$(VERSION)|' \
		gps_chips.pc.in | install -m 644 /dev/stdin $(call to,$(LIBDIR)/pkgconfig/gps_chips.pc)
	install -m 644 man/codes.1 man/console.1 $(call to,$(MANDIR)/man1)
	install -m 644 man/gps_chips.3 $(call to,$(MANDIR)/man3)

# The files alone: a folder may have been there before, or have become somebody else's.
uninstall: places
	rm -f $(foreach file,$(installed),$(call to,$(file)))
