PREFIX ?= /usr/local
PROGRAM = crates/ifs/out/ifs

.PHONY: all test check try bench install clean

# Proves the program and what it stands on, and builds it.
all: $(PROGRAM)

$(PROGRAM): $(shell find crates -path '*/out' -prune -o \( -name '*.rt' -o -name '*.antt' \) -print) crates.txt
	@echo 'Proving each crate that the program needs: about half an hour on four processors, the first time.'
	cd crates/ifs && rt run -- stub --output-ifs=- data/libfoo.so >/dev/null
	@touch $(PROGRAM)

test:
	.ci/run

# The repository's own checks: the documents against the code.
check:
	scripts/check.py

# What is tried by hand, and what is measured; a script whose tools are missing is skipped (77).
try: $(PROGRAM)
	@for script in scripts/try_*.py scripts/link_stubs.py; do echo "$$script"; $$script || [ $$? -eq 77 ] || exit 1; done

bench: $(PROGRAM)
	@for script in bench/stub.py bench/texts.py bench/limits.py bench/builds.py; do \
	  echo "$$script"; $$script || [ $$? -eq 77 ] || exit 1; done

install: $(PROGRAM)
	install -D $(PROGRAM) $(DESTDIR)$(PREFIX)/bin/ifs
	install -D -m 644 docs/ifs.1 $(DESTDIR)$(PREFIX)/share/man/man1/ifs.1
	install -d $(DESTDIR)$(PREFIX)/share/bash-completion/completions $(DESTDIR)$(PREFIX)/share/zsh/site-functions
	scripts/completions.py bash >$(DESTDIR)$(PREFIX)/share/bash-completion/completions/ifs
	scripts/completions.py zsh >$(DESTDIR)$(PREFIX)/share/zsh/site-functions/_ifs

clean:
	rm -rf crates/*/out
