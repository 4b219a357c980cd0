# Two proof runs would wait for one another.
.NOTPARALLEL:
.PHONY: run help take test edits lib install uninstall fuzz bench

CRATES := $(shell find crates -name out -prune -o \( -name '*.rt' -o -name '*.antt' \) -print) crates.txt

#: make run       completes the order bindings/samples/order.txt, or ORDER=path; the first time it proves and builds the library
# Completes an order written as lines FIELD REVISION TEXT with the command kieselbrot. A refused order is an answer, too.
ORDER ?= bindings/samples/order.txt
run: command
	@$(COMMAND) complete "$(ORDER)" || test $$? -ne 2

#: make help      this list; README.md has more of each
# What there is to make: the lines below and above that begin with #:
help:
	@sed -n 's/^#: //p' Makefile

#: make take      FIELDS="101 106": takes up what is proposed for some fields, prints the lines to append to the order
# Takes up what is proposed for some fields of an order, FIELDS="101 106", and prints the lines to append to it.
take: lib
	@./tools/take "$(ORDER)" $(FIELDS)

#: make test      the gate: every crate proved, what changed from nothing, and all tests; half an hour and more where nothing is kept
# Lints, then rt ci: layout, every crate proved, the must-fail edits, the programs; then the checks from outside.
test:
	@./tools/test

#: make edits     the must-fail edits that the gate leaves out; an hour and more
# The must-fail edits that the gate leaves out: more-must-fail.
edits:
	@./tools/edits

#: make lib       the libraries libkieselbrot.a and libkieselbrot.so.MAJOR in target/staticlib, for x86-64 Linux
# The library's version.
VERSION := $(shell sed -n 's/^version = "\(.*\)"/\1/p' bindings/rust/Cargo.toml)
MAJOR := $(firstword $(subst ., ,$(VERSION)))

# The static library for C and Rust, and the shared one. They are for x86-64 Linux.
LIB := target/staticlib/libkieselbrot.a
SHARED := target/staticlib/libkieselbrot.so.$(MAJOR)
lib: $(LIB) $(SHARED)

# rt names the archive for the crate; its functions get the major version into their names.
$(LIB): $(CRATES) tools/mark bindings/rust/Cargo.toml
	@./tools/prove lib capi
	@mkdir -p $(dir $@)
	@./tools/mark $(MAJOR) crates/capi/out/libcapi.a $@

# The documented functions alone are exported.
$(SHARED): $(LIB) bindings/c/exports.map
	@gcc -shared -Wl,-soname,$(notdir $@) -Wl,--version-script=bindings/c/exports.map -Wl,--no-undefined -Wl,-z,relro,-z,now \
		-Wl,--whole-archive $(LIB) -Wl,--no-whole-archive -o $@

#: make command   the command kieselbrot in bindings/rust/target/release
# The command kieselbrot, linked with the library.
COMMAND := bindings/rust/target/release/kieselbrot
.PHONY: command
command: lib
	@cd bindings/rust && KIESELBROT_LIB_DIR="$(abspath $(dir $(LIB)))" cargo build --offline --release --quiet -p command --bin kieselbrot

#: make install   libraries, headers, kieselbrot.pc, the command and its manual page under PREFIX=/usr/local; make uninstall
# Archive, shared library, headers, pkg-config file, the command and its manual page. PREFIX is an absolute path; DESTDIR goes before it.
PREFIX ?= /usr/local
into = $(DESTDIR)$(PREFIX)

install: lib command
	@case "$(PREFIX)" in /*) ;; *) echo "PREFIX=$(PREFIX) is not an absolute path" >&2; exit 1;; esac
	install -d "$(into)/lib/pkgconfig" "$(into)/include" "$(into)/bin" "$(into)/share/man/man1"
	install -m 644 $(LIB) "$(into)/lib"
	install -m 755 $(SHARED) "$(into)/lib"
	ln -sf $(notdir $(SHARED)) "$(into)/lib/libkieselbrot.so"
	install -m 644 bindings/c/kieselbrot.h bindings/c/kieselbrot_words.h "$(into)/include"
	sed 's|@PREFIX@|$(PREFIX)|; s|@VERSION@|$(VERSION)|' bindings/c/kieselbrot.pc.in >"$(into)/lib/pkgconfig/kieselbrot.pc"
	install -m 755 $(COMMAND) "$(into)/bin"
	install -m 644 bindings/rust/command/kieselbrot.1 "$(into)/share/man/man1"

uninstall:
	rm -f "$(into)/lib/libkieselbrot.a" "$(into)/lib/libkieselbrot.so" "$(into)/lib/$(notdir $(SHARED))"
	rm -f "$(into)/include/kieselbrot.h" "$(into)/include/kieselbrot_words.h" "$(into)/lib/pkgconfig/kieselbrot.pc"
	rm -f "$(into)/bin/kieselbrot" "$(into)/share/man/man1/kieselbrot.1"

# The program. rt run proves and builds it, and runs it once, on no input.
target/bin/budgetorder: $(CRATES)
	@./tools/prove run budgetorder
	@mkdir -p $(dir $@)
	@cp crates/budgetorder/out/budgetorder $@

#: make fuzz      the library against the second implementation on N=20000000 generated cases
# The library against the second implementation on N generated cases.
N ?= 20000000
fuzz: lib
	cd bindings/rust && CASES=$(N) cargo run --offline --release -p compare

#: make bench     library and second implementation in one run, and a book of orders beside sort; WRITE=1 writes docs/BENCHMARKS.md
# Library and second implementation in one run, and a book of orders beside sort; WRITE=1 writes docs/BENCHMARKS.md and, with gnuplot, its chart.
bench: command
	cd bindings/rust && KIESELBROT_LIB_DIR="$(abspath $(dir $(LIB)))" cargo run --offline --release -p bench -- $(if $(WRITE),../../docs/BENCHMARKS.md)

#: make bench-book  the book of orders alone, of ORDERS=100000 and of ten times as many
# The book of orders alone, of ORDERS and of ten times as many.
.PHONY: bench-book
ORDERS ?= 100000
bench-book: command
	cd bindings/rust && KIESELBROT_LIB_DIR="$(abspath $(dir $(LIB)))" cargo run --offline --release -p bench -- --book $(ORDERS)
