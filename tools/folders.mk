# Where `make install` puts things, for each Makefile that installs.

PREFIX = /usr/local
DESTDIR =
BINDIR = $(PREFIX)/bin
SBINDIR = $(PREFIX)/sbin
LIBDIR = $(PREFIX)/lib
LIBEXECDIR = $(PREFIX)/libexec
MANDIR = $(PREFIX)/share/man
DATADIR = $(PREFIX)/share/keyretain
UNITDIR = $(PREFIX)/lib/systemd/system
USERUNITDIR = $(PREFIX)/lib/systemd/user
SYSUSERSDIR = $(PREFIX)/lib/sysusers.d

# $(call pages,NAME ..): the rows of manual pages.
SOURCES_OF_ALL := $(dir $(lastword $(MAKEFILE_LIST)))..
pages = $(foreach it,$(1),'$(SOURCES_OF_ALL)/man/$(it):$(MANDIR)/man$(subst .,,$(suffix $(it)))/$(it):644')

# What is put, and taken away again, is a row each: a source, its place and its mode; or a name, the place of a link to
# it, and `link`. A unit names the folder of its program.
put = @set -e; IFS=:; for row in $(1); do set -- $$row; to="$(DESTDIR)$$2"; install -d "$${to%/*}"; \
  case $$1:$$3 in *:link) ln -sf "$$1" "$$to" ;; *.service:*) \
    sed '/^Exec/{ s|@bindir@|$(BINDIR)|g; s|@sbindir@|$(SBINDIR)|g }' "$$1" >"$$to"; chmod "$$3" "$$to" ;; \
  *) install -m "$$3" "$$1" "$$to" ;; esac; case $$1 in *.service) $(call whole,"$$to") ;; esac; done

# $(call whole,FILE): fails where a word of what is installed still waits for what it stands for.
whole = if grep -H '@[a-z][a-z]*@' $(1) >&2; then exit 1; fi
take = @IFS=:; for row in $(1); do set -- $$row; rm -f "$(DESTDIR)$$2"; done
