# `make` builds the program and shows it at work. `make check` is what one runs while working, `make test` the merge gate,
# `make wrong-bodies` and `make wrong-rules` try the mistakes that the gate leaves out, `make try` and `make try-cases` run the program before
# any proof, and `make bench` measures: docs/GATE.md says more.
# Each does all set-up on a fresh machine that has the toolchain's command `rt`.

PREFIX ?= /usr/local
bindir ?= $(PREFIX)/bin
ROOT = $(DESTDIR)$(PREFIX)
PROGRAM = crates/ed_main/out/ed_main
EXAMPLES = $(patsubst examples/%,%,$(wildcard examples/*/script.ed examples/*/before examples/*/after))

.PHONY: all program try try-cases install uninstall check test wrong-bodies wrong-rules bench

all: program
	examples/run --show
	@echo
	@echo "The program is $(CURDIR)/out/edv. To copy it to PREFIX/bin: make install PREFIX=.."

# `rt run` proves, compiles and links, and leaves the program in its crate's out/.
program:
	mkdir -p crates/ed_main/out out
	cd crates/ed_main && rt run -- edit -s data/F <stdin >out/first_run
	ln -sf ../$(PROGRAM) out/edv

# What is UNPROVED promises nothing. SCRIPT names another script and FILE another file; `rt try` edits a copy.
try:
	@echo 'UNPROVED: nothing below is of the proved program, which make builds'
	@cd crates/ed_main && rt try --data "F=$(abspath $(or $(FILE),crates/ed_main/data/F))" -- edit -s F <"$(abspath $(or $(SCRIPT),crates/ed_main/stdin))"

# FOLDER has cases that lie as those of examples/ do, which are taken where none is named. The build stays in out/unproved.
try-cases:
	@tests/try-cases $(FOLDER)

# Copies what is built, and calls nothing of the toolchain: under `sudo` it makes no file in this tree. The drop-in `ed` finds the program
# by its own place.
install:
	@test -x $(PROGRAM) || { echo "make install: $(PROGRAM) isn't built; run make first" >&2; exit 1; }
	install -D -m 755 $(PROGRAM) "$(DESTDIR)$(bindir)/edv"
	ln -sf edv "$(DESTDIR)$(bindir)/ed_main"
	install -d "$(ROOT)/libexec/edv"
	sed "s|/\.\./\.\./bin\"|/$$(realpath -m --relative-to="$(PREFIX)/libexec/edv" "$(bindir)")\"|" packaging/ed >"$(ROOT)/libexec/edv/ed"
	chmod 755 "$(ROOT)/libexec/edv/ed"
	install -D -m 644 packaging/ed.1 "$(ROOT)/libexec/edv/man/man1/ed.1"
	install -D -m 644 man/edv.1 "$(ROOT)/share/man/man1/edv.1"
	install -D -m 644 docs/VERIFIER.md "$(ROOT)/share/doc/edv/VERIFIER.md"
	install -D -m 644 docs/RECIPES.md "$(ROOT)/share/doc/edv/RECIPES.md"
	for example in $(EXAMPLES); do \
	  install -D -m 644 examples/$$example "$(ROOT)/share/doc/edv/examples/$$example" || exit 1; \
	done
	install -D -m 644 packaging/completions/edv.bash "$(ROOT)/share/bash-completion/completions/edv"
	install -D -m 644 packaging/completions/_edv "$(ROOT)/share/zsh/site-functions/_edv"
	install -D -m 644 packaging/completions/edv.fish "$(ROOT)/share/fish/vendor_completions.d/edv.fish"

# Takes away what `make install` put there, and no folder that others may use.
uninstall:
	rm -f "$(DESTDIR)$(bindir)/edv" "$(DESTDIR)$(bindir)/ed_main" "$(ROOT)/share/man/man1/edv.1" \
	  "$(ROOT)/share/bash-completion/completions/edv" "$(ROOT)/share/zsh/site-functions/_edv" \
	  "$(ROOT)/share/fish/vendor_completions.d/edv.fish"
	rm -rf "$(ROOT)/libexec/edv" "$(ROOT)/share/doc/edv"

check:
	tests/check

test:
	tests/gate

# CRATE names one or more crates; with none, those of all are tried. CHANGED=REV takes those that what changed since then asks for, FOLDER=must-fail
# those of the gate, and with LIST=1 they are only listed.
wrong-bodies:
	tests/wrong-bodies $(if $(LIST),--list) $(if $(CHANGED),--changed $(CHANGED)) $(CRATE)

# RULE names one or more rules; with none, all are tried.
wrong-rules:
	tests/wrong-rules/run $(RULE)

bench:
	bench/run
