# To whom a client talks, what it hands on, and that it ends: for tests/clients.
# shellcheck shell=bash disable=SC2016,SC2034,SC2154

# ---- Nothing hangs

try_hangs() {
  local name mode wanted
  for name in hangs hangs-address,undefined hangs-thread; do
    [ -x "$dir/$name" ] || continue
    while read -r mode wanted; do
      # one has a thread of its own, and starts none in a child of a program with threads
      # nor is their fork for handlers of signals
      case $name:$mode in hangs-thread:environment | hangs-thread:child | hangs-*:handler) continue ;; esac
      is "a program with threads, $name: $mode" "$wanted" "$("$dir/$name" "$daemon" "$mode")"
    done <<'END'
fork forks
end ends
cancel answers
cancel-at-end returns
crowd all end
handler goes on
child answers
halves cut
environment changed alone
END
  done
}

try_hostile() {
  local name mode wanted
  for name in hostile hostile-address,undefined; do
    [ -x "$dir/$name" ] || continue
    while IFS=: read -r mode wanted; do
      # a sanitizer has memory of its own, which its allocator doesn't give back
      case $name:$mode in
        hostile-*:half | hostile-*:lost | hostile-*:ahead | hostile-*:no\ frame | hostile-*:dump) continue ;;
        hostile-*:sent | hostile-*:read | hostile-*:full) continue ;;
      esac
      is "$name: $mode" "$wanted" "$("$dir/$name" "$dir/hostile.sock" "$mode")"
    done <<'END'
zero:ETIMEDOUT
signals:ETIMEDOUT
drip:ETIMEDOUT
half:gone
lost:gone
ahead:gone
no frame:gone
sent:gone
read:gone
full:gone
closed:ECONNRESET
flood:EAGAIN
gap:EPROTO
longest:262140
note:EPROTO
dump:left out
empty:ENOENT
long:ENAMETOOLONG
END
  done
}

# A server that accepts nothing, whose queue of connections is full; signals come meanwhile.
try_backlog() {
  local server
  : >"$dir/full.text"
  python3 -B -c '
import socket, sys, time
server = socket.socket(socket.AF_UNIX)
server.bind(sys.argv[1])
server.listen(0)
waiting = [socket.socket(socket.AF_UNIX) for _ in range(4)]
for each in waiting:
    each.setblocking(False)
    try: each.connect(sys.argv[1])
    except BlockingIOError: print("full", flush=True); break
time.sleep(60)' "$dir/full.sock" >"$dir/full.text" &
  server=$!
  until_true grep -q full "$dir/full.text"
  is 'connecting ends after ten seconds, whatever signals come' 'ETIMEDOUT 10' \
    "$(KEYRETAIN_SOCKET=$dir/full.sock "$dir/once" signals)"
  end_by TERM "$server"
}

# ---- Many threads and processes, and a daemon that is slow or full

try_busy() {
  local name mode wanted
  serve --lanes 16
  for name in busy busy-address,undefined busy-thread; do
    [ -x "$dir/$name" ] || continue
    while IFS=: read -r mode wanted; do
      # shellcheck disable=SC2086 # some have a word
      is "$name: $mode" "$wanted" "$(timeout 120 "$dir/$name" ${mode/DAEMON/$daemon})"
    done <<'END'
fair:fair
stalled DAEMON:200 late, then answered
threads DAEMON:200 late, then answered, and the process's key is there
late DAEMON:200 late, then answered
held:1 1 1 1 answered
thread:1 1 the same
no-process:EAGAIN
END
    while IFS=: read -r mode wanted; do
      # shellcheck disable=SC2086 # some have a word
      is "$name, in a session: $mode" "$wanted" "$(in_session -- timeout 120 "$dir/$name" $mode)"
    done <<'END'
held:0 1 0 1 answered
crowd:1
thread:1 0 the same
many 24:24 of 24
END
  done
  try_counted
  kill_daemon TERM
  serve --lanes 8
  for name in busy busy-address,undefined busy-thread; do
    [ ! -x "$dir/$name" ] || is "$name: processes that fall silent" '30 answered, 4 held, 0 inherited, answered' \
      "$(in_session -- timeout 120 "$dir/$name" silent 30)"
  done
  kill_daemon TERM
}

# calls_of RING COUNT [WORD ..]: how many system calls a program makes in all that reads a key of this ring so often, as
# one that has no rights, run by these words: the least of three runs, as on a busy machine a connection may seem to be
# no longer used, and is made once more
calls_of() {
  for _ in 1 2 3; do
    KEYRETAIN_SOCKET=$path setpriv --reuid 65534 --regid 65534 --clear-groups \
      "${@:3}" strace -f -c -o "$dir/counted" "$dir/busy" read "$1" "$2" >/dev/null 2>&1
    awk '$NF == "total" { print $4 }' "$dir/counted"
  done | sort -n | head -n 1
}

# What a call takes: geteuid, fstat, send and receive; also in a session, on a connection that was asked often.
try_counted() {
  local calls
  { [ "$(id -u)" = 0 ] && command -v strace >/dev/null && command -v setpriv >/dev/null; } ||
    { skipped 'how many system calls a call takes: not root, no strace, or no setpriv'; return; }
  chmod 711 "$dir" && chmod 755 "$dir/keyretain" "$dir/c" && chmod 666 "$path"
  : >"$dir/counted" && chmod 666 "$dir/counted"
  set --
  for ring in -2 -3; do
    calls=$(($(calls_of "$ring" 1100 "$@") - $(calls_of "$ring" 100 "$@")))
    # a call that has to wait on a busy machine takes some more
    [ "$calls" -lt 3990 ] || [ "$calls" -gt 4010 ] || calls=4000
    is "the system calls of 1000 calls: ring $ring" 4000 "$calls"
    set -- "$dir/c/keyretain-session" --
  done
}

# ---- Keepers

keepers() { pgrep -f "^$dir/keyretain/keyretain-keeper .*$path|^keyretain-keeper .*$path"; }

has_one_keeper() { [ "$(keepers | wc -l)" = 1 ]; }

# keep NAME WORD ..: a keeper on a pipe, whose other end is $life, and what it answers
keep() {
  rm -f "$dir/life"
  : >"$dir/answer"
  mkfifo "$dir/life"
  "$dir/keyretain/keyretain-keeper" --socket "$path" "$@" <"$dir/life" >"$dir/answer" 2>"$dir/said" 9<"$dir/life" &
  exec {life}>"$dir/life"
  until_true grep -q . "$dir/answer"
}

let_go() { exec {life}>&-; }

# in_named: the session keyring of the session that $dir/answer tells
in_named() { KEYRETAIN_SESSION=$(head -n 1 "$dir/answer") timeout 20 "$dir/acts" session; }

try_keeper() {
  local life serial sockets word since
  serve --lanes 32
  is 'keeper: the words --version' "keyretain-keeper $version" "$("$dir/c/keyretain-keeper" --version)"
  is 'keeper: no such option' 2 "$("$dir/c/keyretain-keeper" --none 2>/dev/null; echo $?)"
  is 'keeper: a name with an end of line' 2 \
    "$("$dir/c/keyretain-keeper" --name $'a\nb' --socket "$dir/none" </dev/null >/dev/null 2>&1; echo $?)"
  is 'keeper: a name and a ring' 2 "$("$dir/c/keyretain-keeper" --name a --hold b 2>/dev/null; echo $?)"
  for word in 0 -1 1000000 1s ''; do
    is "keeper: a patience of '$word'" 2 "$("$dir/c/keyretain-keeper" --patience "$word" 2>/dev/null; echo $?)"
  done
  keep --name kept
  serial=$(sed -n '1s/:kept$//p' "$dir/answer")
  is 'keeper: where the session is' "$path" "$(sed -n 2p "$dir/answer")"
  is 'keeper: its session' "$serial" "$(in_named)"
  if [ "$(id -u)" = 0 ]; then
    is 'keeper: its descriptors' '0 1 2 3' "$(find "/proc/$(keepers)/fd" -mindepth 1 -printf '%f\n' | sort -n | xargs)"
    is 'keeper: where it tells nothing' /dev/null "$(readlink "/proc/$(keepers)/fd/2")"
    is 'keeper: it keeps no folder in use' / "$(readlink "/proc/$(keepers)/cwd")"
  else
    is 'keeper: only root may look at it' no "$(ls "/proc/$(keepers)/fd" >/dev/null 2>&1 && echo yes || echo no)"
  fi
  is 'keeper: it has left the terminal and its session' no \
    "$([ "$(sid_of "$(keepers)")" = "$(sid_of $$)" ] && echo yes || echo no)"
  let_go
  until_true has_no_keeper
  is 'keeper: ends with its pipe' EKEYREVOKED "$(in_named)"
  keep --name revoked
  printf r >&"$life"
  until_true has_no_keeper
  is 'keeper: revokes when it is told' EKEYREVOKED "$(in_named)"
  let_go
  keep --deaf --name deaf
  printf r >&"$life"
  is 'keeper: a deaf one is told nothing' "$(sed -n '1s/:.*//p' "$dir/answer")" "$(sleep 0.5; in_named)"
  kill -STOP "$daemon"
  let_go
  since=$SECONDS
  keep --name slow --patience 500
  is 'keeper: a daemon that does not answer' "failed 110 $path: Connection timed out: all its lanes" \
    "$(cut -d" " -f 1-9 "$dir/answer")"
  is 'keeper: it waits as long as it was told' yes "$([ $((SECONDS - since)) -lt 8 ] && echo yes)"
  kill -CONT "$daemon"
  let_go
  keep --name patient --patience 5000
  is 'keeper: with a patience it stays' "$(sed -n '1s/:.*//p' "$dir/answer")" "$(sleep 0.5; in_named)"
  kill_daemon TERM
  gone 'keeper: ends with the daemon'
  let_go
  keep --name late
  is 'keeper: no daemon' "failed 111 $path: Connection refused: its daemon has ended:" \
    "$(cut -d" " -f 1-9 "$dir/answer")"
  let_go
}

# A keyring of the user keyring is held until its keys have expired, though nobody is in a session.
try_hold() {
  local life
  serve --lanes 32
  keep --hold credentials --patience 1000
  is 'hold: a key is put there' ok "$("$dir/acts" put credentials 300)"
  let_go
  sleep 2.5
  is 'hold: it is there after that, longer than its patience' ok "$("$dir/acts" put credentials 300)"
  keep --hold credentials
  let_go
  until_true has_one_keeper
  is 'hold: one keeper does it' 1 "$(keepers | wc -l)"
  is 'hold: a key that expires soon' ok "$("$dir/acts" put credentials 2)"
  until_true has_no_keeper
  is 'hold: until its keys have expired' ENOKEY "$("$dir/acts" put credentials 2)"
  keep --hold credentials
  let_go
  gone 'hold: nothing is held for nothing'
  keep --hold credentials
  is 'hold: a key that nobody may look at' ok "$("$dir/acts" hide credentials)"
  let_go
  sleep 2.5
  is 'hold: it is a key all the same' '1 1' "$("$dir/acts" links credentials) $(keepers | wc -l)"
  kill_daemon TERM
  where 'python3 -c 1' 'hold: what the daemon says of the keyring: no python3' \
    has_none 'hold: what the daemon says of the keyring' python3 -B "$parts/holding.py" \
      "$dir/keyretain/keyretain-keeper"
}

# What a command inherits, and enters.
try_inherited() {
  serve --lanes 32
  is 'a command in a session inherits no connection' 0 "$(in_session -- "$dir/acts" sockets)"
  is 'nor does what a program in a session executes' 0 "$("$dir/acts" execute named "$dir/acts" sockets)"
  is 'a session is entered by its variable' yes "$(in_session -- sh -c '
    a=$('"$dir"'/acts session); b=$("$0" --join -- '"$dir"'/acts session); [ "$a" = "$b" ] && echo yes' \
    "$dir/c/keyretain-session")"
  is "what everybody can read of the keeper of a session without a name" "keyretain-keeper --deaf --socket $path " \
    "$(in_session -- sh -c 'tr "\0" " " </proc/"$(pgrep -n -f "^keyretain-keeper .*$1")"/cmdline' sh "$path")"
  is 'a session that nobody holds is not entered' 1 \
    "$(KEYRETAIN_SESSION=5:nobody in_session --join -- true 2>/dev/null; echo $?)"
  is 'nor is one that no variable names' 1 "$(in_session --join -- true 2>/dev/null; echo $?)"
  is 'what is said of that, as in a login without a session' \
    'keyretain-session: there is no session to join: KEYRETAIN_SESSION names none' \
    "$(KEYRETAIN_SESSION='' in_session --join -- true 2>&1 | head -n 1)"
  is 'a name to join' 2 "$(in_session --join name 2>/dev/null; echo $?)"
  is 'a name with an end of line' EINVAL "$("$dir/acts" join $'a\nb')"
  is 'the same for a command' 1 "$(in_session $'a\nb' -- true 2>/dev/null; echo $?)"
  is 'a session that is joined while signals come' 'ok, no child' "$("$dir/acts" interrupted signals)"
  is 'a session where few descriptors are allowed' ok "$(ulimit -n 100; "$dir/acts" join few)"
  is 'a call an hour later' 'ok ok' "$("$dir/acts" later)"
  try_left
  try_entered
  is 'no memory for the environment' 'ENOMEM, the same session' "$("$dir/acts" no-memory)"
  is 'a kernel that tells nothing of descriptors' 'EACCES 0' "$("$dir/acts" blind)"
  is 'nor of those that are handed on: no session is held' 'EACCES 0' "$("$dir/acts" blind-join)"
  is 'files under the number of what held a session' 'ok, 297 of 297 files left' \
    "$("$dir/acts" again <"$top/README.md")"
  is 'no keeper is there' 3 "$("$dir/no-keeper/keyretain-session" -- true 2>/dev/null; echo $?)"
  mkdir -p "$dir/none/keyretain"
  printf '#!/bin/sh\necho $$ >"%s"\nkill -STOP $$\n' "$dir/stopped" >"$dir/none/keyretain/keyretain-keeper"
  chmod 755 "$dir/none/keyretain/keyretain-keeper"
  is 'a keeper that is stopped before it is in the background' 3 \
    "$(jumping timeout 60 "$dir/no-keeper/keyretain-session" -- true 2>/dev/null; echo $?)"
  kill -KILL "$(<"$dir/stopped")"
  rm -r "$dir/none"
  kill_daemon TERM
  gone 'a command in a session'
}

# A process holds the session that it has joined last, and none that it has left, or failed to join.
try_left() {
  local input fed
  until_true has_no_keeper
  feed left "$dir/acts" left
  until_true has_one_keeper
  is 'sessions that a process has left, or not entered, are held by nobody' 'ok, 1 keeper' \
    "$(<"$dir/left"), $(keepers | wc -l) keeper"
  end_fed
}

# Where the environment names a session by another serial, its keys aren't possessed, nor is it the session.
try_entered() {
  local input fed ring key
  feed held "$dir/acts" hold entered
  read -r ring key <"$dir/held"
  is 'a key of the session that the environment names' ok "$(KEYRETAIN_SESSION=$ring:entered "$dir/acts" read "$key")"
  is 'the same by another serial' EACCES "$(KEYRETAIN_SESSION=$((ring + 1)):entered "$dir/acts" read "$key")"
  is 'nor is that the session' EKEYREVOKED "$(KEYRETAIN_SESSION=$((ring + 1)):entered "$dir/acts" session)"
  is 'what holds another session than the one that is named lets no connection go' '1 1 1 1 answered' \
    "$(in_session -- env KEYRETAIN_SESSION="$ring:entered" timeout 60 "$dir/busy" held)"
  end_fed
}

# ---- Places

# A daemon of one's own that is down isn't replaced by the system's.
try_own_place() {
  local runtime=$dir/down acts=$dir/acts KEYRETAIN_SOCKET=''
  mkdir -p "$runtime/keyretain"
  is "one's own daemon, which is down" "$runtime/keyretain/keyretain.sock" "$(XDG_RUNTIME_DIR=$runtime "$acts" where)"
  is 'no call is answered then' 'ENOSYS 0' "$(XDG_RUNTIME_DIR=$runtime "$dir/once")"
  rmdir "$runtime/keyretain"
  is 'where none was set up' /run/keyretain/keyretain.sock "$(XDG_RUNTIME_DIR=$runtime "$acts" where)"
}

# As root, or as root of a user namespace.
try_two_uids() {
  local run=("$parts/two-uids" "$dir" "$keyretaind")
  if [ "$(id -u)" != 0 ]; then
    run=(unshare --map-root-user --map-auto --mount "${run[@]}")
    unshare --map-root-user --map-auto --mount true 2>/dev/null || run=()
  elif ! unshare --mount true 2>/dev/null; then
    run=()
  fi
  if [ "${#run[@]}" = 0 ] || ! command -v setpriv >/dev/null; then
    skipped 'two users: not root, and no user namespace with two; or no setpriv'
  else
    has_none 'two users' "${run[@]}"
  fi
}

# ---- How it is built and installed

try_built() {
  local object
  if command -v readelf >/dev/null; then
    for object in libkeyretain.so.0 libkeyutils.so.1 keyretain-session keyretain-keeper; do
      is "$object: bound before it runs" 1 "$(readelf -dW "$dir/c/$object" | grep -c 'FLAGS_1.*NOW')"
      is "$object: a guard on the stack" yes "$(readelf -sW "$dir/c/$object" | grep -q __stack_chk_fail && echo yes)"
    done
    is 'the name of libkeyretain' libkeyretain.so.0 "$(readelf -dW "$dir/c/libkeyretain.so.0" |
      sed -n 's/.*SONAME.*\[\(.*\)\]/\1/p')"
    readelf --dyn-syms -W "$dir/c/libkeyretain.so.0" | awk '$7 != "UND" && $4 == "FUNC" { print $8 }' >"$dir/shown"
    is 'libkeyretain: the functions that it shows' \
      "$(grep -o '\bkr_[a-z_]*(' "$top/c/library/keyretain.h" | tr -d '(' | sort)" \
      "$(sed 's/@.*//' "$dir/shown" | sort)"
    is 'libkeyretain: how many version 0.1 has' 36 "$(grep -c '@@KEYRETAIN_0\.1$' "$dir/shown")"
  else
    skipped 'how the objects are built: no readelf'
  fi
  if command -v c++ >/dev/null; then
    printf '#include <keyretain.h>\nint main() { return kr_open(0) != 0; }\n' >"$dir/include.cc"
    is 'a program in C++' built "$(c++ -std=c++98 -Wall -Wextra -pedantic -Werror -Wno-long-long -I"$top/c/library" \
      "$dir/include.cc" "$dir/c/libkeyretain.so.0" -o "$dir/include" 2>&1 && echo built)"
  else
    skipped 'a program in C++: no compiler'
  fi
}

try_installed() {
  local made=(make -s -C "$top/c" BUILD="$dir/i" PREFIX=/p DESTDIR="$dir/root" CFLAGS=-O1)
  cp -a "$dir/c" "$dir/i"
  "${made[@]}" install-clients >/dev/null || { is 'installing' installed failed; return; }
  is 'the keeper is installed: nobody of its uid may read it, and so look into it' 711 \
    "$(stat -c %a "$dir/root/p/libexec/keyretain/keyretain-keeper")"
  is 'and its page' there "$([ -e "$dir/root/p/share/man/man8/keyretain-keeper.8" ] && echo there)"
  "${made[@]}" uninstall
  is 'nothing is left' '' "$(find "$dir/root" ! -type d)"
}
