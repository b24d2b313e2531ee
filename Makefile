# The toolchain's command `rt` is on PATH; TOOLCHAIN has its logic. README.md says what else is needed.

include tools/folders.mk
PRESETDIR = $(PREFIX)/lib/systemd
COMPLETIONDIR = $(PREFIX)/share/bash-completion/completions
ZSHDIR = $(PREFIX)/share/zsh/site-functions
FISHDIR = $(PREFIX)/share/fish/vendor_completions.d
PYTHON = python3

# What `make install` puts there and `make uninstall` takes away. Who may not read a program isn't shown the memory of what
# it runs.
INSTALLED = 'bin/keyretain:$(BINDIR)/keyretain:755' 'bin/keyretaind:$(SBINDIR)/keyretaind:711' \
  $(call pages,keyretain.1 keyretain-protocol.7 keyretaind.8) \
  'contrib/systemd/keyretaind.service:$(UNITDIR)/keyretaind.service:644' \
  'contrib/systemd/keyretaind@.service:$(UNITDIR)/keyretaind@.service:644' \
  'contrib/systemd/user/keyretaind.service:$(USERUNITDIR)/keyretaind.service:644' \
  'contrib/systemd/keyretain.conf:$(SYSUSERSDIR)/keyretain.conf:644' \
  'contrib/systemd/user-quota.conf:$(DATADIR)/user-quota.conf:644' \
  $(foreach kind,system user,\
    'contrib/systemd/80-keyretain.preset:$(PRESETDIR)/$(kind)-preset/80-keyretain.preset:644') \
  $(foreach name,keyretain keyretain-session,\
    'contrib/bash-completion/$(name):$(COMPLETIONDIR)/$(name):644') \
  $(foreach name,d -guard -agent -status,'keyretain-session:$(COMPLETIONDIR)/keyretain$(name):link') \
  'contrib/zsh-completion/_keyretain:$(ZSHDIR)/_keyretain:644' \
  'contrib/fish-completion/keyretain.fish:$(FISHDIR)/keyretain.fish:644' \
  $(foreach name,keyretaind keyretain-session keyretain-guard keyretain-agent keyretain-status,\
    'keyretain.fish:$(FISHDIR)/$(name).fish:link')

PROGRAMS = keyretain keyretaind
# What `make try` runs, with each $ as it was typed.
override RUN := $(value RUN)
export RUN

# Whether a compiler is there, with this header; else which packages of Debian have both.
wants = @$(1) $(CPPFLAGS) -E -include $(2) -x c /dev/null >/dev/null 2>&1 || \
  { echo 'make $@ wants $(1) and the header $(2): install $(3)' >&2; exit 1; }

.PHONY: build help clean try run clients guard pam ssh-agent test gate wrong-bodies fuzz check-man check-keyutils install \
  uninstall deb dist bench bench-instructions measure

# Proves and builds the programs and the rules of the guard and of sessions, crate by crate, as many side by side as
# there are processors, and says which, and how long the rest takes. It may be ended at any time, and then goes on where it was.
build:
	@tools/check-toolchain
	@tools/proved >/dev/null || printf '%s\n' 'Each crate is proved first; it may be ended, and goes on later.' \
	  'Programs within minutes: make run'
	@sum=$$(tools/proved --sum) && tools/build $(PROGRAMS) krs_screen_c krs_admission_c && tools/proved --put "$$sum"
	@echo 'proved and built: $(PROGRAMS:%=bin/%)'

# Removes what was built here. What this machine keeps of proofs stays where the toolchain keeps it.
clean:
	rm -rf bin packages crates/*/out c/build python/build

# Prints what each target does.
help:
	@awk '/^# / { said = said " " substr($$0, 3) } /^[a-z-]+:/ && said != "" { sub(/:.*/, ""); sub(/[.] .*/, ".", said); \
	  line = sprintf("%-18s", $$0); count = split(said, words, " "); \
	  for (i = 1; i <= count; i++) { if (length(line words[i]) > 79) { print line; line = sprintf("%18s", "") } \
	    line = line " " words[i] } print line } !/^#|^[A-Z]+ =/ { said = "" }' Makefile

# A shell in which keyctl(1), kinit(1) and any static program use a daemon of its own, which ends with it; or the command
# RUN. What isn't proved yet is compiled with no proof, and it says so. Wants a C compiler.
try:
	@tools/try $${RUN:+sh -c "$$RUN"}

# Shows a daemon at work at once: starts one, adds a key through it, and reads it back. It takes the proved programs
# where bin/ has them, and else compiles the sources with no proof, in bin/unproved, and says so.
run:
	@tools/run

# Proves which session a process comes into, builds that rule as a library for C, and the C clients over it. Wants a C
# compiler; the agent of containers wants jansson too (libjansson-dev).
clients:
	@tools/check-toolchain
	tools/build krs_admission_c
	$(MAKE) -C c clients PREFIX="$(PREFIX)"

# Proves the rule of the guard and builds it as a library for C, and the guard over it. Wants a C compiler.
guard:
	@tools/check-toolchain
	tools/build krs_screen_c
	$(MAKE) -C c guard
	mkdir -p bin
	install -m 755 c/build/keyretain-guard bin/

# Builds the PAM module, which makes a session for each login. Wants a C compiler and the headers of PAM (libpam0g-dev).
pam:
	$(call wants,$(CC),security/pam_modules.h,gcc and libpam0g-dev)
	$(MAKE) -C c pam PREFIX="$(PREFIX)"

# Builds keyretain-ssh-agent, an ssh-agent whose keys are the daemon's. Wants a C compiler and the headers of OpenSSL
# (libssl-dev).
ssh-agent:
	$(call wants,$(CC),openssl/param_build.h,gcc and libssl-dev)
	$(MAKE) -C c ssh-agent

# Runs the tests, in some minutes: those of the crates, those over real sockets, of the clients, the helpers, the guard and
# the pages, side by side. It compiles the sources for that, with checks and no proof: NOTHING IS PROVED by it.
test:
	@tools/check-toolchain
	tests/all

# What must hold before a change is merged, in hours: `make test`; then every proof that this machine doesn't keep, the
# wrong bodies of the crates that changed and of a tenth of the others, and the tests of what was proved. ALL=1 has each
# wrong body refused: before a release.
gate:
	@tools/check-toolchain
	tests/gate $(if $(ALL),--all)

# Has each wrong body refused by itself, over what earlier builds kept.
wrong-bodies:
	tests/wrong-bodies

# Fuzzes four parts one after the other, each for so many seconds and under sanitizers: the C clients against a hostile
# daemon in memory, what the supervisor reads of a program's memory, what a runtime tells the agent of containers, and
# the ssh-agent by messages. Wants a clang with libFuzzer, jansson and the headers of OpenSSL (libjansson-dev, libssl-dev).
SECONDS = 30
fuzz:
	$(call wants,clang,jansson.h,clang and libjansson-dev)
	$(call wants,clang,openssl/param_build.h,clang and libssl-dev)
	set -e; for part in library supervisor agent ssh-agent; do $(MAKE) -C c -f fuzz.mk fuzz-$$part SECONDS=$(SECONDS); done

# Whether the man pages render without a warning.
check-man:
	tests/man-pages

# Runs the tests of keyutils, whose unpacked source is in SUITE, with the system's keyctl(1) on keyretaind; with
# SYSCALLS=1 under keyretain-session --syscalls.
check-keyutils:
	@[ -d "$(SUITE)" ] || { echo 'make check-keyutils SUITE=DIR: a folder with the source of keyutils' >&2; exit 2; }
	$(MAKE) build
	tests/keyutils-suite $(SUITE)

# $(call part,TEST,FOLDER,TARGET,NAME,WHY): installs a part where the test holds, and else says why it is not installed.
part = +@if $(1); then $(MAKE) -s -C $(2) $(3) PREFIX="$(PREFIX)" DESTDIR="$(DESTDIR)" PYTHON="$(PYTHON)"; \
  else echo '$(4) not installed: $(5)'; fi

# Puts what `make build` made, the man pages, the systemd units, the completions, the Python client, and what `make
# clients`, `make guard`, `make pam` and `make ssh-agent` made if they were run, in their folders.
install:
	@cd bin 2>/dev/null && sha256sum --status -c proved 2>/dev/null || \
	  { echo 'run make build first: what it proved is installed, and nothing else' >&2; exit 1; }
	$(call put,$(INSTALLED))
	$(call part,[ -x c/build/keyretain-guard ],c,install-guard,the guard is,make guard builds it)
	$(call part,[ -x c/build/keyretain-session ],c,install-clients,the C clients are,make clients builds them)
	$(call part,[ -e c/build/pam_keyretain.so ],c,install-pam,the PAM module is,make pam builds it)
	$(call part,[ -x c/build/keyretain-ssh-agent ],c,install-ssh-agent,the ssh-agent is,make ssh-agent builds it)
	$(call part,$(PYTHON) -c 1 2>/dev/null,python,install,the Python client is,no $(PYTHON))
	@echo 'installed below $(DESTDIR)$(PREFIX)'

# Packages for Debian 12, in the folder packages/, of the programs that `make build` proved. Wants debhelper, dh-python,
# libjansson-dev, libpam0g-dev and libssl-dev.
deb:
	@debian/make-packages packages

# The sources as a tar file, and its sum: the same bytes whenever they are made of one commit.
dist:
	@mkdir -p packages
	@version=$$(sed -n 's/^pub const VERSION: &str = "\(.*\)";$$/\1/p' crates/krs_words/src/version.rt) && \
	  name=keyretain-$$version && cd packages && \
	  git -C .. archive --format=tar --prefix="$$name/" HEAD >"$$name.tar" && gzip -nf -9 "$$name.tar" && \
	  sha256sum "$$name.tar.gz" | tee "$$name.tar.gz.sha256"

# Takes away what `make install` has put there, and the links by which units were enabled for the system or for all
# users. What users have enabled for themselves stays.
uninstall:
	@set -e; for part in c python; do \
	  $(MAKE) -s -C $$part uninstall PREFIX="$(PREFIX)" DESTDIR="$(DESTDIR)" PYTHON="$(PYTHON)"; done
	$(call take,$(INSTALLED))
	@for folder in "$(DESTDIR)$(PREFIX)/lib" "$(DESTDIR)$(PREFIX)/libexec" "$(DESTDIR)$(PREFIX)/share"; do \
	  [ ! -d "$$folder/keyretain" ] || rmdir --ignore-fail-on-non-empty "$$folder/keyretain"; done
	@[ ! -d "$(DESTDIR)/etc/systemd" ] || find "$(DESTDIR)/etc/systemd" -type l \
	  \( -lname '$(UNITDIR)/keyretain*' -o -lname '$(USERUNITDIR)/keyretain*' \) -delete
	@grep -ls pam_keyretain "$(DESTDIR)"/etc/pam.d/* | sed 's/$$/ still names pam_keyretain: take its line out/'

# Nanoseconds per ask, on one processor where taskset is there to pin it; then threads at one desk, on all processors.
bench:
	tools/build krs_bench
	cd crates/krs_bench && $$(command -v taskset >/dev/null && echo taskset -c 0) out/krs_bench all
	cd crates/krs_bench && out/krs_bench desk

# Instructions of each ask, with 10 and with 1,000 links. Wants valgrind.
bench-instructions:
	@command -v valgrind >/dev/null || { echo 'make bench-instructions wants valgrind, which is not there' >&2; exit 1; }
	tools/build krs_bench
	bench/instructions

# Asks a second of the daemon over its socket, beside an echo server and a plain server in C. Wants a C compiler.
measure:
	bench/measure
