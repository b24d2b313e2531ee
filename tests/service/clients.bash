# Clients that share a daemon: what they see of each other, and how they end.
# shellcheck shell=bash disable=SC2034,SC2154

# One connection keeps a uid's keys; single calls and another client of the uid reach them, other uids do not.
try_sharing() {
  comes keeper 1
  answers keeper 'add user alpha a @u' 5
  calls 'a call to a kept key' 0 $'a\n' print 5
  prints 'a call by another uid' 1 $'error 13 EACCES\n' --socket "$path" --uid 2000 --gid 2000 print 5 </dev/null
  answers keeper 'open 8' 1
  answers keeper 'watch 5 1 5' ok
  calls 'a call that updates' 0 $'ok\n' update 5 b
  answers keeper 'readq 1 64' 01000001100500000500000000000000
  answers keeper 'readq 1 64' 'error 11 EAGAIN'
  answers keeper 'print 5' b
  calls 'a call that adds' 0 $'8\n' add user spaced 'two words' @u
  answers keeper 'print 8' 'two words'
  comes second 6
  answers second 'context 1' ok
  answers second 'print 5' 'error 3 ESRCH'
  answers second 'context 6' ok
  answers second 'print 5' b
  answers second 'readq 1 64' 'error 9 EBADF'
  answers second 'revoke 5' ok
  answers keeper 'print 5' 'error 128 EKEYREVOKED'
  answers keeper 'timeout 8 1' ok
  sleep 1.1
  answers second 'print 8' 'error 127 EKEYEXPIRED'
  close_client second 1
  answers keeper 'hello 1000 1000' 7
  close_client keeper 1
  until_true is_left
  calls 'a call after the last context of the uid' 1 $'error 126 ENOKEY\n' print 5
  calls 'its user keyring is empty' 0 $'\n' rlist @u
  calls 'its user keyring is a new one' 0 $'keyring;1000;1000;1f3f0000;_uid.1000\n' rdescribe @u
}

# The daemon may serve a new connection before it has seen the end of an earlier one.
is_left() {
  [[ $(timeout "$patience" "$keyretain" --socket "$path" --uid 1000 print 8 2>/dev/null </dev/null) == *ENOKEY ]]
}

# one_by_one NAME: a second client is not accepted, and waits, until the first has ended
one_by_one() {
  local waiting holding
  comes first 1
  holding=$(held)
  apart "$keyretain" --socket "$path" --uid 1000 --gid 1000 rdescribe @u >"$dir/waits" 2>/dev/null </dev/null &
  waiting=$!
  sleep 0.5
  is "$1: the second client waits" '' "$(<"$dir/waits")"
  is "$1: the second client is not accepted" "$holding" "$(held)"
  answers first 'id @u' 3
  close_client first 0
  finish "$waiting"
  is "$1: the second client is served" $'0 keyring;1000;1000;1f3f0000;_uid.1000' "$status $(<"$dir/waits")"
  is_served "$1" 2
}

try_one_lane() {
  start --lanes 1 --accept 2
  one_by_one 'one lane'
}

# A daemon with room for no thread's stack serves a connection itself, before it accepts the next.
try_no_threads() {
  limited without-threads '-Ss 8192 && ulimit -Sv 10000'
  local keyretaind=$dir/without-threads
  start --lanes 4 --accept 2
  one_by_one 'no threads'
}

# A daemon that may have so few files that accepts fail. Who comes then waits, as if no lane were free, and is served
# when others have ended.
try_few_files() {
  local n
  limited with-few-files '-Sn 12'
  local keyretaind=$dir/with-few-files
  start --lanes 32 --accept 14
  comes first 1
  answers first 'add user alpha a @u' 5
  for n in {1..13}; do open_client "more$n"; done
  sleep 0.5
  is 'few files: nothing is told' "listening $path" "$(<"$log")"
  answers first 'print 5' a
  for n in {1..12}; do close_client "more$n" 0; done
  answers more13 'hello 1000 1000' 2
  answers more13 'print 5' a
  close_client more13 0
  close_client first 0
  is_served 'few files' 14
}

# are_others_shown MODE PROGRAM WANTED: whether a daemon's memory is shown to its uid, where its program has this mode.
# What setpriv itself executes is executed with its capabilities, and so can be read.
are_others_shown() {
  local as='setpriv --reuid 65534 --regid 65534 --clear-groups' program=$dir/of-mode-$1 keyretaind=$dir/as-nobody
  install -m "$1" "$2" "$program"
  # shellcheck disable=SC2016 # the shell that is executed expands these
  printf '#!%s\nexec %s sh -c %q %q "$@"\n' "$BASH" "$as" 'exec "$0" "$@"' "$program" >"$keyretaind"
  chmod 755 "$keyretaind"
  runs=$((runs + 1))
  start_on "$dir/nobody/$1.sock"
  is "a daemon of mode $1: its memory, to its uid" "$3" \
    "$($as sh -c "read -r line </proc/$daemon/maps && echo shown || echo hidden" 2>/dev/null)"
  kill_daemon KILL
}

# The mode that make install gives the daemon hides it from all but root.
try_others() {
  { [ "$(id -u)" = 0 ] && command -v setpriv >/dev/null; } ||
    { skipped "who is shown the daemon's memory: not root, or no setpriv"; return; }
  chmod 711 "$dir"
  install -d -o 65534 -g 65534 "$dir/nobody"
  are_others_shown 755 "$keyretaind" shown
  are_others_shown 711 "$keyretaind" hidden
}

# Keyrings that are nested crosswise are walked each once, whatever the number of ways to them.
try_crosswise() {
  is 'keyrings that are nested crosswise' walked "$(python3 -B "$top/tests/service/mesh.py" "$path" 2>/dev/null)"
}

# are_woken CLIENTS: each of them is answered that asked while another had the turn for long, though nobody asks then
are_woken() {
  is "$1 clients, whose threads sleep" woken "$(python3 -B "$top/tests/service/wakes.py" "$path" "$1" 2>/dev/null)"
}

# keeps_all SIZE CLIENTS [ASK]: so many clients fill the memory of a daemon with payloads of so many bytes, and then
# with what the ask that is named takes. What is too much is refused with ENOMEM, no connection ends and no key is lost.
keeps_all() {
  start
  is "little memory, $2 clients with payloads of $1 bytes, ${3:-ADD of new keys alone}" kept \
    "$(python3 -B "$top/tests/service/memory.py" "$path" "$@" 2>/dev/null)"
  kill_daemon TERM
}

# A daemon under a limit of memory, which one client fills, and eight: a small one; and one with room for pools of the C
# library.
try_little_memory() {
  local size asks
  limited with-little-memory '-Ss 256 && ulimit -Sv 48000'
  limited with-pools '-Ss 256 && ulimit -Sv 262144'
  local keyretaind=$dir/with-little-memory
  for size in 1 20 200 500 1000 2000 4000 8000 16000 32767; do keeps_all "$size" 1; done
  for size in 200 2000 16000; do keeps_all "$size" 8; done
  for asks in UPDATE ADD LINK WATCH OPEN_QUEUE; do keeps_all 2000 1 "$asks"; done
  keyretaind=$dir/with-pools
  keeps_all 32767 1
  for size in 2000 32767; do keeps_all "$size" 8; done
}

# injecting NAME ERROR WHEN: a program that is the daemon, whose accepts of these numbers fail with this error
injecting() {
  printf '#!%s\nexec strace -f -qq -o /dev/null -e trace=accept,accept4 -e inject=%s:error=%s:when=%s %q "$@"\n' \
    "$BASH" accept,accept4 "$2" "$3" "$keyretaind" >"$dir/$1"
  chmod +x "$dir/$1"
}

# Whether failures can be injected here.
can_inject() {
  strace -qq -o /dev/null -e trace=accept -e inject=accept:error=EPERM:when=1 true 2>/dev/null
}

# passes CAUSE: an accept that fails for it is tried again, and the next connection is served all the same
passes() {
  injecting "with-$1" "$1" 2..4
  local keyretaind=$dir/with-$1
  start --accept 2
  comes first 1
  answers first 'add user alpha a @u' 5
  comes second 2
  answers second 'print 5' a
  close_client second 0
  close_client first 0
  is_served "an accept that failed with $1" 2
}

try_passing_causes() {
  local cause
  for cause in EAGAIN ENOMEM ENFILE EMFILE ECONNABORTED ENOBUFS; do passes "$cause"; done
  injecting with-first-failing EMFILE 1..3
  local keyretaind=$dir/with-first-failing
  start --accept 1
  comes alone 1
  close_client alone 0
  is_served 'accepts that failed while nobody was served' 1
}

# A cause that passes, and lasts: accepts are tried for ten seconds where no connection is served, and for as long as
# one is.
try_lasting_causes() {
  injecting with-all-failing EMFILE 1+
  injecting with-many-failing EMFILE 2..120
  local keyretaind=$dir/with-all-failing began=$SECONDS
  start
  finish "$daemon"
  is 'accepts that all fail: tried for some ten seconds' yes "$( ((SECONDS - began >= 9)) && echo yes)"
  is 'accepts that all fail: the status' 3 "$status"
  is 'accepts that all fail: what is printed' "listening $path"$'\nerror: accept' "$(<"$log")"
  is 'accepts that all fail: what is told' "keyretaind: accept: Too many open files (os error 24)
keyretaind: it may open no more files: raise LimitNOFILE= of its unit, or ulimit -n" "$(<"$log.told")"
  is 'accepts that all fail: the path is gone' gone "$(path_state)"
  keyretaind=$dir/with-many-failing
  start --accept 2
  comes first 1
  comes second 2
  close_client second 0
  close_client first 0
  is_served 'accepts that fail for longer' 2
}

# A cause that doesn't pass. The daemon says so at once, refuses who comes, serves those that it has accepted to their
# ends, and then ends, without its path.
try_failed_accept() {
  injecting with-failures EPERM 2
  local keyretaind=$dir/with-failures
  start --lanes 32
  comes first 1
  calls 'the connection that is not accepted' 3 $'error: connection\n' id @u
  until_true has_told_accept
  is 'a failed accept is told at once' "listening $path"$'\nerror: accept' "$(<"$log")"
  until_true test -s "$log.told"
  is 'a failed accept: why' 'keyretaind: accept: Operation not permitted (os error 1)' "$(<"$log.told")"
  is 'the path while others are served' there "$(path_state)"
  calls 'who connects then is refused' 3 $'error: connection\n' id @u
  answers first 'add user alpha a @u' 5
  close_client first 0
  finish "$daemon"
  is 'after a failed accept: the status' 3 "$status"
  is 'after a failed accept: what is printed' "listening $path"$'\nerror: accept' "$(<"$log")"
  is 'after a failed accept: the path is gone' gone "$(path_state)"
}

has_told_accept() { [[ $(<"$log") == *accept ]]; }

# A daemon whose output takes nothing more: its path goes before it says that it has served.
try_full_output() {
  local end line
  runs=$((runs + 1))
  path=$dir/$runs.sock log=$dir/$runs.pipe
  mkfifo "$log"
  exec {end}<>"$log"
  apart "$keyretaind" --socket "$path" --accept 1 >"$log" 2>/dev/null </dev/null &
  daemon=$!
  IFS= read -r -t "$patience" line <&"$end"
  is 'full output: it listens' "listening $path" "$line"
  timeout 1 tr '\0' x </dev/zero >"$log"
  calls 'full output: a call' 0 $'3\n' id @u
  until_true test ! -e "$path"
  is 'full output: the path is gone' gone "$(path_state)"
  is 'full output: it has not ended' 1 "$(has_ended "$daemon"; echo $?)"
  IFS= read -r -t "$patience" line <&"$end"
  is 'full output: it says that it has served' 'served 1' "${line//x/}"
  finish "$daemon"
  is 'full output: its status' 0 "$status"
  exec {end}>&-
}

# A client that is killed: what it had ends, and its lane serves the next.
try_killed_client() {
  start --lanes 1 --accept 2
  comes victim 1
  answers victim 'add user a x @u' 5
  kill -KILL "${client[victim]}"
  close_client victim 137
  runs_script 'after a killed client' 1 $'2\nok\nerror 3 ESRCH\nok\nerror 126 ENOKEY\n' \
    'hello 1000 1000' 'context 1' 'print 5' 'context 2' 'print 5'
  is_served 'a killed client' 2
}

# A daemon that is killed: its client says that the connection has failed.
try_killed_daemon() {
  start
  comes orphan 1
  kill_daemon KILL
  answers orphan 'print 3' 'error: connection'
  close_client orphan 3
}

# Lines of a client of its own uid, and their answers; serials and the context depend on the others.
script_client() {
  local uid=$((2000 + $1))
  printf '%s\n' "hello $uid $uid" 'newring box @u' "add user name secret-$uid @u" 'rdescribe @u' 'search @u user name' \
    'rlist @u' 'request user name' 'clear @u' 'request user name' 'rlist @u' 'id 0' 'add logon none x @u' |
    timeout $((patience * 3)) "$keyretain" --socket "$path" script >"$dir/many.$1" 2>/dev/null
  echo "status $?" >>"$dir/many.$1"
}

try_many_scripts() {
  local n uid got wanted contexts=() waits=()
  start --lanes 16 --accept 100
  for n in {1..100}; do
    script_client "$n" &
    waits+=("$!")
  done
  wait "${waits[@]}"
  for n in {1..100}; do
    uid=$((2000 + n))
    mapfile -t got <"$dir/many.$n"
    contexts+=("${got[0]}")
    wanted=("${got[0]}" "${got[1]:-}" "${got[2]:-}" "keyring;$uid;$uid;1f3f0000;_uid.$uid" "${got[2]:-}"
      "${got[1]:-} ${got[2]:-}" "${got[2]:-}" ok 'error 126 ENOKEY' '' 'error 22 EINVAL' 'error 22 EINVAL' 'status 1')
    is "client $n of 100 scripts" "${wanted[*]}" "${got[*]}"
  done
  is '100 scripts: their contexts' "$(seq 1 100)" "$(printf '%s\n' "${contexts[@]}" | sort -n)"
  is_served '100 scripts' 100
}

# A client of its own uid that stays while all others are there, and looks at the key of the next one.
staying_client() {
  local n=$1 uid=$((3000 + $1)) next=$(($1 % 100 + 1)) key
  to=() from=() client=() failed=0 step=0.2
  open_client "stays$n"
  ask "stays$n" "hello $uid $uid"
  ask "stays$n" "add user name secret-$uid @u"
  key=$answer
  echo "$key" >"$dir/new.$n" && mv "$dir/new.$n" "$dir/key.$n"
  flock -s "$dir/here" true
  answers "stays$n" "print $key" "secret-$uid"
  answers "stays$n" "print $(<"$dir/key.$next")" 'error 13 EACCES'
  answers "stays$n" "update $key hex:00ff" ok
  answers "stays$n" "print $key" ':hex:00ff'
  answers "stays$n" 'rlist @u' "$key"
  : >"$dir/saw.$n"
  flock -s "$dir/seen" true
  close_client "stays$n" 1
  [ "$failed" = 0 ]
}

# until_all NAME PID ..: waits until each of 100 clients has made its file, or one has ended
until_all() {
  local name=$1 files pid
  shift
  until files=("$dir/$name".*) && [ "${#files[@]}" -ge 100 ]; do
    for pid; do kill -0 "$pid" 2>/dev/null || return 1; done
    sleep 0.2
  done
}

# The clients wait for each other by locks, as a hundred that look again and again take the processors from the daemon.
try_many_at_once() {
  local n here seen waits=()
  start --lanes 128 --accept 100
  exec {here}>"$dir/here" {seen}>"$dir/seen"
  flock "$here"
  flock "$seen"
  for n in {1..100}; do
    staying_client "$n" &
    waits+=("$!")
  done
  until_all key "${waits[@]}"
  flock -u "$here"
  until_all saw "${waits[@]}"
  flock -u "$seen"
  exec {here}>&- {seen}>&-
  for n in {1..100}; do
    wait "${waits[n - 1]}"
    is "client $n of 100 at once" 0 $?
  done
  is '100 at once: their keys' 100 "$(cat "$dir"/key.* | sort -u | wc -l)"
  is_served '100 at once' 100
}
