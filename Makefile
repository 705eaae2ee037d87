# Builds, tests, installs and packs Desync. Without a target: what there is.

PREFIX ?= /usr/local
DESTDIR ?=
ARGS ?= run examples/toggle.blif examples/toggle.vec
PROGRAM = crates/desync/out/desync
RT = rt
JOBS ?= 1
OUT = out
VERSION := $(shell cat VERSION)
NAME = desync-$(VERSION)-x86_64-linux
RIGHTS = $(firstword $(wildcard LICENSE) COPYRIGHT)
PACKAGE = tools/desync_tools
TOOLS = $(filter-out __init__,$(basename $(notdir $(wildcard $(PACKAGE)/commands/*.py))))
TO = $(DESTDIR)$(PREFIX)
MANUAL = $(TO)/share/man/man1
BASH = $(TO)/share/bash-completion/completions
ZSH = $(TO)/share/zsh/site-functions
LIBRARY = $(TO)/share/desync/tools
DOCUMENTS = $(TO)/share/doc/desync

.PHONY: help build run test transcripts look install uninstall dist deb

help:
	@echo "make build               prove and build the program, $(PROGRAM), anew"
	@echo "make build JOBS=4        the same, with four crates proved at a time, which is quicker"
	@echo "make run ARGS='..'       build it where it is not there, and run it; another status than 0 shows as 2"
	@echo "make test                proofs, tests and wrong bodies: rt ci"
	@echo "make transcripts         run what the documents and examples show"
	@echo "make look                what the repository looks at itself: names, house rules, edges, memory"
	@echo "make install             program, tools, pages of the manual, completions, documents and examples, to \$$DESTDIR\$$PREFIX"
	@echo "make install PROGRAM=..  the same, with a program that is built already; so for run, transcripts, dist and deb"
	@echo "make uninstall           take these away"
	@echo "make dist                out/$(NAME).tar.gz, with the same"
	@echo "make deb                 out/desync_$(VERSION)_amd64.deb, with the same, by dpkg-deb"

$(PROGRAM):
	@command -v $(RT) >/dev/null || { echo "there is no $@ and no rt to build it: README names the kit that has rt; a release has the program" >&2; exit 1; }
	cd crates/desync && $(RT) run -- run data/toggle.blif data/toggle.vec

build:
	[ $(JOBS) -le 1 ] || { cd crates/desync && $(RT) all check --jobs $(JOBS); }
	cd crates/desync && $(RT) run -- run data/toggle.blif data/toggle.vec

run: $(PROGRAM)
	@$(PROGRAM) $(ARGS)

test:
	$(RT) ci

transcripts: $(PROGRAM)
	tools/house/check_transcripts $(PROGRAM)

look:
	tools/house/check_docs
	tools/house/lint --quiet
	tools/house/edges
	tools/house/memory_answers
	tools/house/check_tools
	tools/house/check_python

install: $(PROGRAM)
	install -d "$(TO)/bin" "$(MANUAL)" "$(BASH)" "$(ZSH)"
	install -d "$(LIBRARY)/desync_tools/commands" "$(LIBRARY)/desync_tools/page"
	install -d "$(DOCUMENTS)/docs" "$(DOCUMENTS)/examples/graphs" "$(DOCUMENTS)/examples/refused"
	install -m 755 $(PROGRAM) "$(TO)/bin/desync"
	install -m 644 docs/desync.1 "$(MANUAL)/desync.1"
	install -m 644 tools/desync.bash "$(BASH)/desync"
	install -m 644 tools/desync.zsh "$(ZSH)/_desync"
	install -m 755 $(TOOLS:%=tools/%) "$(LIBRARY)"
	install -m 644 VERSION $(wildcard $(PACKAGE)/*.py) "$(LIBRARY)/desync_tools"
	install -m 644 $(wildcard $(PACKAGE)/commands/*.py) "$(LIBRARY)/desync_tools/commands"
	install -m 644 $(wildcard $(PACKAGE)/page/*) "$(LIBRARY)/desync_tools/page"
	for tool in $(TOOLS); do \
	    ln -sf "../share/desync/tools/$$tool" "$(TO)/bin/desync-$$tool" || exit 1; \
	done
	tools/house/manual --into "$(MANUAL)" $(TOOLS)
	tools/house/completion --into "$(BASH)" bash $(TOOLS)
	tools/house/completion --into "$(ZSH)" zsh $(TOOLS)
	install -m 644 VERSION README.md CHANGELOG.md CONTRIBUTING.md "$(DOCUMENTS)"
	install -m 644 $(RIGHTS) "$(DOCUMENTS)/copyright"
	install -m 644 $(wildcard docs/*.md docs/*.svg docs/*.html) "$(DOCUMENTS)/docs"
	install -m 644 $(wildcard examples/*.*) "$(DOCUMENTS)/examples"
	install -m 644 $(wildcard examples/graphs/*) "$(DOCUMENTS)/examples/graphs"
	install -m 644 $(wildcard examples/refused/*) "$(DOCUMENTS)/examples/refused"

uninstall:
	rm -f "$(TO)/bin/desync" "$(MANUAL)/desync.1" "$(BASH)/desync" "$(ZSH)/_desync"
	rm -f $(TOOLS:%="$(TO)/bin/desync-%") $(TOOLS:%="$(MANUAL)/desync-%.1")
	rm -f $(TOOLS:%="$(BASH)/desync-%") $(TOOLS:%="$(ZSH)/_desync-%")
	rm -rf "$(TO)/share/desync" "$(DOCUMENTS)"

dist: $(PROGRAM)
	@rm -rf "$(OUT)/$(NAME)"
	@$(MAKE) -s install PROGRAM="$(PROGRAM)" DESTDIR="$(OUT)/$(NAME)" PREFIX=
	@install -m 644 README.md $(RIGHTS) "$(OUT)/$(NAME)"
	@cd "$(OUT)/$(NAME)" && find . -type f ! -name SHA256SUMS | sort | xargs -d '\n' sha256sum > SHA256SUMS
	@tar -C "$(OUT)" --sort=name --owner=0 --group=0 --numeric-owner -czf "$(OUT)/$(NAME).tar.gz" "$(NAME)"
	@rm -rf "$(OUT)/$(NAME)"
	@echo "$(OUT)/$(NAME).tar.gz"

deb: $(PROGRAM)
	@rm -rf "$(OUT)/deb"
	@$(MAKE) -s install PROGRAM="$(PROGRAM)" DESTDIR="$(OUT)/deb" PREFIX=/usr
	@install -d "$(OUT)/deb/DEBIAN"
	@sed 's/^Version:.*/Version: $(VERSION)/' tools/deb.control > "$(OUT)/deb/DEBIAN/control"
	@dpkg-deb --root-owner-group --build "$(OUT)/deb" "$(OUT)/desync_$(VERSION)_amd64.deb" >/dev/null
	@rm -rf "$(OUT)/deb"
	@echo "$(OUT)/desync_$(VERSION)_amd64.deb"
