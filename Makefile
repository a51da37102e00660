# Installs the proved program that lies in dist/, with its pages, tools, units and completion.
#
#     make install [PREFIX=/usr/local] [DESTDIR=] [PROGRAM=dist/paraid]
#     make uninstall [PREFIX=..] [DESTDIR=..]
#     make list        the files that `make install` reads
#     make release     a tar of them, with their sums
#
# Nothing is built here: `./paraid` proves and builds the program, `rt ci` is the gate.

PREFIX = /usr/local
SBINDIR = $(PREFIX)/sbin
LIBDIR = $(PREFIX)/lib/paraid
UNITDIR = $(PREFIX)/lib/systemd/system
MANDIR = $(PREFIX)/share/man
COMPLETIONDIR = $(PREFIX)/share/bash-completion/completions
DOCDIR = $(PREFIX)/share/doc/paraid
DESTDIR =
PROGRAM = dist/paraid

# Of the tools those that serve a running array. Each is also a command, paraid-NAME.
COMMANDS = $(notdir $(wildcard $(addprefix tools/,ctl power state lint locate day check)))
# Nothing that is installed uses these two: they are of the checks of pages and of the trials.
MODULES = $(notdir $(filter-out tools/sources.py tools/trials.py,$(wildcard tools/*.py)))
PAGES = $(wildcard docs/*.[1-8])
UNITS = paraid-nbd@.service paraid-check@.service paraid-check@.timer
SAMPLES = $(wildcard examples/*.toml examples/first.trace examples/gears.trace) examples/day.txt etc/stop-for-check.conf
TEXTS = $(wildcard README.md docs/INSTALL.md docs/DRIVES.md LICENSE CHANGELOG.md)

# What goes where: MODE=FILE=PLACE.
FILES = 755=$(PROGRAM)=$(SBINDIR)/paraid \
	$(foreach it,$(COMMANDS),755=tools/$(it)=$(LIBDIR)/$(it)) \
	$(foreach it,$(MODULES),644=tools/$(it)=$(LIBDIR)/$(it)) \
	$(foreach it,$(PAGES),644=$(it)=$(MANDIR)/man$(subst .,,$(suffix $(it)))/$(notdir $(it))) \
	$(foreach it,$(UNITS),644=$(firstword $(wildcard etc/$(it).in etc/$(it)))=$(UNITDIR)/$(it)) \
	644=etc/paraid.bash=$(COMPLETIONDIR)/paraid \
	$(foreach it,$(SAMPLES) $(TEXTS),644=$(it)=$(DOCDIR)/$(notdir $(it)))
LINKS = $(foreach it,$(COMMANDS),$(SBINDIR)/paraid-$(it))
# By it the tools find the program, wherever that is.
BESIDE = $(filter-out $(SBINDIR)/paraid,$(LIBDIR)/paraid)
# `man paraid-NAME` finds the page that tells of this tool: NAME=PAGE.
NAMES = $(foreach it,check lint locate power state,$(it)=tools) ctl=nbd

.PHONY: help places install uninstall list release
help:
	@sed -n 's/^#     //p' Makefile

# Units name these folders, and the lists above have no blank in a name.
places:
	@for it in $(foreach it,SBINDIR LIBDIR UNITDIR MANDIR COMPLETIONDIR DOCDIR,'$($(it))'); do \
		case $$it in [!/]* | '' | *[[:space:]'=%,&\']*) \
			echo "make: a folder begins with a slash, and has no blank and none of = % , & \\ in it: $$it" >&2; exit 1 ;; \
		esac; \
	done

install: places
	@[ '$(PROGRAM)' != dist/paraid ] || (cd ./dist && sha256sum --check --quiet --strict SUMS) || \
		{ echo "make: dist/ has no sound program: tools/dist --write makes it of what rt ci has built" >&2; exit 1; }
	@set -e; umask 022; for it in $(FILES); do \
		mode=$${it%%=*}; from=$${it#*=}; to=$${from#*=}; from=$${from%%=*}; \
		echo "$$to"; \
		case $$from in \
		*.in) mkdir -p "$(DESTDIR)$${to%/*}"; \
			sed -e 's,@SBINDIR@,$(SBINDIR),g' -e 's,@LIBDIR@,$(LIBDIR),g' -e 's,@DOCDIR@,$(DOCDIR),g' \
				"$$from" >"$(DESTDIR)$$to"; chmod "$$mode" "$(DESTDIR)$$to" ;; \
		*) install -D -m "$$mode" "$$from" "$(DESTDIR)$$to" ;; \
		esac; \
	done
	@set -e; for it in $(LINKS); do echo "$$it"; ln -srfn "$(DESTDIR)$(LIBDIR)/$${it##*/paraid-}" "$(DESTDIR)$$it"; done
	@set -e; for it in $(BESIDE); do echo "$$it"; ln -srfn "$(DESTDIR)$(SBINDIR)/paraid" "$(DESTDIR)$$it"; done
	@set -e; for it in $(NAMES); do to=$(MANDIR)/man8/paraid-$${it%=*}.8; \
		echo "$$to"; ln -sfn "paraid-$${it#*=}.8" "$(DESTDIR)$$to"; done

uninstall: places
	@for it in $(FILES); do to=$${it##*=}; rm -f "$(DESTDIR)$$to"; done
	@rm -f $(foreach it,$(LINKS) $(BESIDE),"$(DESTDIR)$(it)")
	@for it in $(NAMES); do rm -f "$(DESTDIR)$(MANDIR)/man8/paraid-$${it%=*}.8"; done
	@rm -rf "$(DESTDIR)$(LIBDIR)/__pycache__"
	@for it in $(LIBDIR) $(DOCDIR); do [ ! -d "$(DESTDIR)$$it" ] || rmdir "$(DESTDIR)$$it"; done

list:
	@printf '%s\n' Makefile dist/SUMS $(foreach it,$(FILES),$(word 2,$(subst =, ,$(it)))) | sort -u

release:
	@tools/release
