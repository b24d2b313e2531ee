# Fuzzes, under sanitizers, what parses another process's bytes: the libraries against a hostile daemon in memory, what
# the supervisor reads of a program's memory, what a runtime of containers tells the agent, and messages to the
# ssh-agent. `make -f fuzz.mk fuzz-library SECONDS=600` wants a clang with libFuzzer; fuzz-agent jansson too, and
# fuzz-ssh-agent OpenSSL's headers. `replay` runs the corpus of the libraries alone, by any compiler that has the
# sanitizers. An input that fails is put into BUILD as crash-*, timeout-* and so on, and `BUILD/fuzz-PART FILE` runs it
# again. `minimize` puts those inputs of the libraries that reach what no other does into BUILD/kept.

BUILD = build/fuzz
SECONDS = 30
CLANG = clang
HEADERS = $(wildcard */*.h */fuzz/*.h)
PARTS = library supervisor agent ssh-agent

# The calls to the kernel that library/fuzz/server.c answers.
WRAPPED = socket connect bind getsockopt setsockopt fcntl fstat close send recv poll clock_gettime mmap munmap madvise \
  posix_spawn waitpid read
comma = ,
in = $(patsubst %,$(1)/%.c,$(2))

CFLAGS = -O1 -g
SANITIZE = address,undefined
FLAGS = -D_DEFAULT_SOURCE -Wall -Wextra -Wno-unused-parameter -Werror -fno-sanitize-recover=all -I.

# Both libraries. A supervisor stands in the place of keyutils/caller.c, and has calls to the kernel of its own.
OF-library = $(call in,library/fuzz,fuzz server library keyutils) $(call in,library,socket connection asks session) \
  $(call in,common,frames places holder serials rows syscalls) $(call in,keyutils,standings caller keyutils)
WITH-library = -std=c11 -DKEYRETAIN_KEEPER='"/nowhere"' $(patsubst %,-Wl$(comma)--wrap=%,$(WRAPPED)) -pthread
LIMITS-library = -max_len=1024 -timeout=10
OF-supervisor = $(call in,supervisor,fuzz calls pipes queues memory proc filter) $(call in,common,rows syscalls serials frames) \
  library/asks.c
WITH-supervisor = -std=c11 -pthread
LIMITS-supervisor = -max_len=8192 -timeout=10 -print_funcs=0 -detect_leaks=0
OF-agent = $(call in,agent,fuzz state)
WITH-agent = -std=c11 -ljansson
LIMITS-agent = -max_len=2048 -timeout=10 -print_funcs=0 -detect_leaks=0
OF-ssh-agent = $(call in,ssh-agent,fuzz answer key)
WITH-ssh-agent = -std=gnu11 -Wl,--wrap=PKCS5_PBKDF2_HMAC -Wl,--wrap=popen -Wl,--wrap=pclose -lcrypto
LIMITS-ssh-agent = -max_len=8192 -timeout=20
SEEDS-library = library/fuzz/corpus
SEEDS-ssh-agent = $(BUILD)/corpus

.PHONY: replay minimize $(PARTS:%=fuzz-%)

$(PARTS:%=fuzz-%): fuzz-%: $(BUILD)/fuzz-%
	@mkdir -p $(BUILD)/found-$*
	$< $(LIMITS-$*) -rss_limit_mb=2048 -max_total_time=$(SECONDS) -artifact_prefix=$(BUILD)/ -print_final_stats=1 \
	  $(BUILD)/found-$* $(SEEDS-$*)

fuzz-ssh-agent: $(BUILD)/corpus

.SECONDEXPANSION:
$(PARTS:%=$(BUILD)/fuzz-%): $(BUILD)/fuzz-%: $$(OF-$$*) $(HEADERS) fuzz.mk
	@mkdir -p $(BUILD)
	$(CLANG) $(CFLAGS) $(FLAGS) -fsanitize=fuzzer,$(SANITIZE) -o $@ $(OF-$*) $(WITH-$*)

replay: $(BUILD)/replay
	$(BUILD)/replay $(SEEDS-library)/*

$(BUILD)/replay: library/fuzz/replay.c $(OF-library) $(HEADERS) fuzz.mk
	@mkdir -p $(BUILD)
	$(CC) $(CFLAGS) $(FLAGS) -fsanitize=$(SANITIZE) -o $@ library/fuzz/replay.c $(OF-library) $(WITH-library)

minimize: $(BUILD)/fuzz-library
	rm -rf $(BUILD)/kept
	mkdir -p $(BUILD)/kept $(BUILD)/found-library
	$< $(LIMITS-library) -rss_limit_mb=2048 -set_cover_merge=1 $(BUILD)/kept $(SEEDS-library) $(BUILD)/found-library

# Keys and certificates of ssh-keygen(1), as ssh-add(1) sends them.
$(BUILD)/corpus: ssh-agent/seeds.py
	rm -rf $@
	$< $@
