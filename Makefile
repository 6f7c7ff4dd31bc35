# Installs the programs, the clients, their pages and what shells complete:
#     make install PREFIX=/usr/local DESTDIR=        make uninstall, with the same words
#     make dist GATE='the last line of the gate'     a tarball of the same, and a file that says what is in it
#     make deb                                       a package for Debian, with a unit that runs offices
# DERBYFIG and CONSOLE are the programs. Where they aren't there they are proved and built first, by rt of the kit.

PREFIX = /usr/local
DERBYFIG = crates/derbyfig/out/derbyfig
CONSOLE = crates/turn_console/out/turn_console
DIST = derbyfig.tar.gz
DEB = derbyfig.deb
GATE = not told

to = $(DESTDIR)$(PREFIX)
shells = share/bash-completion/completions/derbyfig share/zsh/site-functions/_derbyfig \
	share/fish/vendor_completions.d/derbyfig.fish
python = __init__.py counter.py faults.py py.typed state.py
files = bin/derbyfig bin/turn_console bin/derbyfig-counter $(addprefix share/derbyfig/derbyfig/,$(python)) share/man/man1/derbyfig.1 share/man/man1/turn_console.1 $(shells)

.PHONY: install uninstall dist deb

crates/%/out/derbyfig crates/%/out/turn_console:
	cd crates/$* && rt run -- --help > /dev/null

install: $(DERBYFIG) $(CONSOLE)
	install -D $(DERBYFIG) $(to)/bin/derbyfig
	install -D $(CONSOLE) $(to)/bin/turn_console
	install -D clients/counter $(to)/bin/derbyfig-counter
	for file in $(python); do install -D -m 644 clients/derbyfig/$$file $(to)/share/derbyfig/derbyfig/$$file || exit 1; done
	for page in derbyfig turn_console; do install -D -m 644 docs/man/$$page.1 $(to)/share/man/man1/$$page.1 || exit 1; done
	mkdir -p $(addprefix $(to)/,$(dir $(shells)))
	set -- bash zsh fish; for file in $(shells); do \
		python3 install/completions.py $$1 $(realpath $(DERBYFIG)) > $(to)/$$file || exit 1; shift; done

uninstall:
	rm -f $(addprefix $(to)/,$(files))

dist:
	sh install/dist.sh '$(DIST)' '$(GATE)' '$(DERBYFIG)' '$(CONSOLE)'

deb:
	sh install/deb.sh '$(DEB)' '$(DERBYFIG)' '$(CONSOLE)'
