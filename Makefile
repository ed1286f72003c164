# `make run` runs the main job, `make test` runs everything that is checked. The others: `make library`, `make driver`,
# `make bench`, `make fuzz`, `make memory`, `make carriers`, `make map`, `make install PREFIX=..`. ARCH=aarch64 or ARCH=x86_64 says for which
# processor; without it, for this machine's own. CORE=small says that the library is to have the small core's calls alone, and that
# `make run` runs on it. OPTIMIZE=s or OPTIMIZE=z says that the library is to be small in the place of fast.

CARGO = cargo --quiet
SECOND = second/target/release/second
GP2 = second/target/release/gp2
ARCH ?= $(shell tools/processor own)
CORE ?= wide
NAME_wide = nhiemavut
NAME_small = nhiemavut_small
NAME = $(NAME_$(CORE))
OPTIMIZE ?= 3
LIBRARY = target/library/$(ARCH)$(addprefix -O,$(filter s z,$(OPTIMIZE)))/lib$(NAME).a
RUNNER_wide = runner
RUNNER_small = small_runner
SOURCES = crates.txt $(shell find crates -path '*/out' -prune -o \( -name '*.rt' -o -name '*.antt' \) -print)

# What `make run` runs: a runner image, or a program and a host graph in text.
PROGRAM ?= programs/case-p/case-p.gp2
HOST ?= programs/case-p/case-p.host
FUEL ?= 10
RECORDS ?= 8

PREFIX ?= /usr/local
LIBDIR ?= $(PREFIX)/lib
COUNT ?= 1000
ROUNDS ?= 10

export ARCH

.PHONY: run test tools runner carriers library driver bench fuzz memory map install clean

# Runs an image by the proved runner of a core, x86-64 code.
run: tools runner
ifdef IMAGE
	@tools/processor run x86_64 target/bin/$(RUNNER_$(CORE)) <$(IMAGE)
else
	@mkdir -p target
	@$(GP2) asm $(PROGRAM) --core $(CORE) --host $(HOST) --fuel $(FUEL) --records $(RECORDS) -o target/run.image
	@tools/processor run x86_64 target/bin/$(RUNNER_$(CORE)) <target/run.image
endif

# The second interpreter and its tools, built from the standard library alone.
tools:
	@test -x $(GP2) || echo "builds the text tools .." >&2
	@cd second && $(CARGO) build --release --offline

# The runner program and what it rests on: rt builds what it has proved. What is proved already is not proved again.
runner:
	@tools/prove programs $(RUNNER_$(CORE))

# The programs that carry tables between the old layout and today's: target/bin/widen and target/bin/narrow, x86-64 code.
carriers:
	@tools/prove programs widen narrow

# The static library for C, built again when a source of it is newer: all calls, or the small core's alone. A linker takes those of its
# members whose calls are used, so each is compiled with no others.
library: $(LIBRARY)
	@:

target/library/%/libnhiemavut.a: target/library/%/run.o target/library/%/small.o target/library/%/carry.o target/library/%/text.o
	@tools/module archive $@ $^

target/library/%/libnhiemavut_small.a: target/library/%/small.o
	@tools/module archive $@ $^

target/library/%/run.o: CALLS = nhiemavut_run nhiemavut_undo
target/library/%/small.o: CALLS = nhiemavut_small_run nhiemavut_small_undo
target/library/%/carry.o: CALLS = nhiemavut_widen nhiemavut_narrow nhiemavut_pack nhiemavut_unpack
target/library/%/text.o: CALLS = nhiemavut_import nhiemavut_export

.PRECIOUS: target/library/%.o
target/library/%.o: target/checked/$(ARCH)/interpreter_c.done
	@mkdir -p $(@D)
	@tools/module object interpreter_c $(*D) $@ $(CALLS)

# A program or a static library, proved for a processor.
.PRECIOUS: target/checked/$(ARCH)/%.done
target/checked/$(ARCH)/%.done: $(SOURCES)
	@tools/module check $* $(ARCH)

# The worked driver, on the pass that colours a graph with two colours.
driver:
	@sh examples/run driver

# The proved code beside plain C: whole programs, then the matcher alone.
bench:
	bench/programs
	bench/matching

# The compiled calls beside the second interpreter, on fresh random inputs.
fuzz:
	sh fuzz/run $(COUNT) $$(date +%s) $(ROUNDS)

# The worked driver and random inputs under valgrind.
memory:
	sh fuzz/memory $(COUNT)

# The picture of the crates by layer, in README.md.
map:
	tools/map

install: library
	mkdir -p $(DESTDIR)$(PREFIX)/include $(DESTDIR)$(LIBDIR)/pkgconfig
	cp include/nhiemavut.h $(DESTDIR)$(PREFIX)/include/
	cp $(LIBRARY) $(DESTDIR)$(LIBDIR)/
	sed -e 's|@PREFIX@|$(PREFIX)|' -e 's|@LIBDIR@|$(patsubst $(PREFIX)/%,$${prefix}/%,$(LIBDIR))|' -e 's|@NAME@|$(NAME)|' include/nhiemavut.pc.in \
		>$(DESTDIR)$(LIBDIR)/pkgconfig/$(NAME).pc

# The second interpreter's own tests, with its check of every stored expected output; the proofs, the must-fail edits and the programs
# over stored files, by the kit's own check of all crates as they stand here; what `make run` prints; the stored corpus and fresh images
# through this machine's own code; the C examples and a short comparison of the compiled calls, for each processor whose code can be run
# here. The last line is rt's own, said again.
test:
	tools/map --check
	tools/names
	cd second && $(CARGO) test --release --offline
	@mkdir -p .gate
	@rm -f .gate/proved
	@tools/prove sum >.gate/sum
	@{ rt ci 2>&1; echo $$? >.gate/status; } | tee .gate/log; test "$$(cat .gate/status)" = 0
	@grep -q '^rt: ok;' .gate/log && ! grep -qE '^rt: ok;.*, [0-9]+ bad' .gate/log || { echo "there are bad must-fail edits" >&2; exit 1; }
	@test "$$(tools/prove sum)" = "$$(cat .gate/sum)" && mv .gate/sum .gate/proved
	$(MAKE) --no-print-directory run | cmp - crates/runner/stdout
	ARCH= sh fuzz/run --stored
	ARCH= sh fuzz/run 1000 3 10
	for arch in $$(tools/processor kinds); do ARCH=$$arch sh examples/run && ARCH=$$arch sh fuzz/run 1000 2 || exit 1; done
	@tail -n 1 .gate/log

clean:
	rm -rf target second/target .gate
