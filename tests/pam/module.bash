# The module under an application of the tests, login.c, with services in a folder of its own: for tests/pam.
# shellcheck shell=bash disable=SC2016,SC2034,SC2154

keeper=''  # the file that the module executes
user=''    # who logs in
log_in=()  # the application, maybe as another user
module=''  # the folder of the module
inside=''  # an act: what a shell prints that is in the session of the login, and in no other
none='KEYRETAIN_SESSION= KEYRETAIN_SOCKET='
show=(show:KEYRETAIN_SESSION show:KEYRETAIN_SOCKET)

# service NAME WORD ..: a service that has the module in its sessions, with these words
service() { printf 'session optional %s %s\n' "$dir/$module/pam_keyretain.so" "${*:2}" >"$dir/conf/$1"; }

# logs_in SERVICE ACT ..: what the application prints, its lines in one
logs_in() {
  timeout "$patience" "${log_in[@]}" "$dir/conf" "$1" "$user" "${@:2}" 2>"$dir/said" </dev/null | paste -sd' '
}

# gives NAME WANTED SERVICE ACT ..
gives() {
  local said
  is "$1" "$2" "$(logs_in "${@:3}")"
  said=$(grep -m 1 -E 'Sanitizer|runtime error' "$dir/said")
  [ -z "$said" ] || is "$1: what a sanitizer says" '' "$said"
}

# keepers [MORE]: at $path
keepers() { pgrep -f "^keyretain-keeper .*$path"; }

# serve OPTION ..: a daemon that each user reaches, and the service `one` for it
serve() {
  start "$@"
  chmod 666 "$path"
  service one "socket=$path"
}

# ---- Sessions

try_sessions() {
  gives 'a login' 'open success inside close success end success' one open "$inside" close end
  gone 'a login'
  gives 'after it' 'open success close success EKEYREVOKED' one open close "$inside"
  gives 'without a close' 'open success inside end success' one open "$inside" end
  gone 'without a close'
  gives 'a close alone' 'close success end success' one close end
  gives 'one after the other' 'open success close success close success open success inside' \
    one open close close open "$inside"
  is 'one within another: two sessions' '2 of 2' "$(logs_in one open "run:echo \${KEYRETAIN_SESSION#*:}
    $dir/login $dir/conf one $user open 'run:echo \${KEYRETAIN_SESSION#*:}'" | tr ' ' '\n' | grep _ses | sort |
    awk '!seen[$0]++ { n++ } END { print n " of " NR }')"
  gives 'opened twice, closed once' 'open success open success close success inside' one open open close "$inside"
  gives 'opened twice, closed twice' 'open success open success close success close success EKEYREVOKED' \
    one open open close close "$inside"
}

# Each login in the stack counts; `force` has another session made.
try_stacks() {
  local count="run:for i in \$(seq 100); do n=\$(pgrep -fc '^keyretain-keeper .*$path'); [ \$n = 1 ] && break
    sleep 0.1; done; echo \$n keeper"
  service twice "socket=$path"
  cat "$dir/conf/one" >>"$dir/conf/twice"
  gives 'twice in a stack' 'open success inside 1 keeper close success EKEYREVOKED' \
    twice open "$inside" "$count" close "$inside"
  service forced "force socket=$path"
  gives 'forced' 'open success inside open success inside 1 keeper close success inside close success EKEYREVOKED' \
    forced open "$inside" open "$inside" "$count" close "$inside" close "$inside"
  is 'forced: another session' 2 "$(logs_in forced open 'run:echo ${KEYRETAIN_SESSION#*:}' open \
    'run:echo ${KEYRETAIN_SESSION#*:}' | tr ' ' '\n' | grep -c _ses)"
  gone forced
}

# Applications open in one process, and close in another.
try_processes() {
  gives 'closed by a child' 'open success close success EKEYREVOKED close success end success' \
    one open child:close "$inside" close end
  gives 'pam_end of a child' 'open success end success inside' one open child:end "$inside"
  gives 'a child that ends' 'open success none unset inside' one open child:show:none "$inside"
  gone 'by a child'
}

try_inherited() {
  local list="run:ls -v /proc/self/fd >$dir/inherited; paste -sd, $dir/inherited"
  is 'what a program of the login inherits: no more than before' 1 \
    "$(logs_in one "$list" open "$list" | tr ' ' '\n' | grep ^0,1,2,3 | sort -u | wc -l)"
}

# What outlives the login and still has a context keeps its keys, unless they are revoked.
try_revoke() {
  local name word signal wanted
  while read -r name word signal wanted; do
    service "$name" "socket=$path" "$word"
    rm -f "$dir/over" "$dir/stayed"
    gives "$name" 'open success close success' "$name" open "run:$dir/stay $dir/over >$dir/stayed 2>&1 &
      until grep -q . $dir/stayed; do sleep 0.05; done; pkill -$signal -f '^keyretain-keeper .*$path'" close
    gone "$name"
    touch "$dir/over"
    until_true has_two_lines "$dir/stayed"
    is "$name: a program that stays" "$wanted" "$(sed -n 2p "$dir/stayed")"
  done <<'END_OF_TABLE'
revoked revoke TERM EKEYREVOKED
not-revoked debug 0 still there
END_OF_TABLE
}

# ---- The environment

try_environment() {
  local KEYRETAIN_SESSION=1:caller KEYRETAIN_SOCKET=$path XDG_RUNTIME_DIR=$dir/runtime
  export KEYRETAIN_SESSION KEYRETAIN_SOCKET XDG_RUNTIME_DIR
  mkdir -p "$dir/runtime/keyretain" && ln -sf "$path" "$dir/runtime/keyretain/keyretain.sock"
  gives 'both variables' "open success KEYRETAIN_SOCKET=$path" one open show:KEYRETAIN_SOCKET
  service nowhere "socket=$dir/nowhere"
  gives "the caller's session and daemon" "KEYRETAIN_SESSION unset KEYRETAIN_SOCKET unset open success $none" \
    nowhere "${show[@]}" open "${show[@]}"
  service usual
  if [ -e /run/keyretain ] || [ -e "/run/user/$(id -u)/keyretain" ]; then
    skipped "the caller's daemon in the place of the usual one: there is one here"
  else
    gives "the caller's daemon in the place of the usual one" "open success $none" usual open "${show[@]}"
  fi
  service library "socket=$path" "library=$dir/keyretain"
  gives 'a library' "open success LD_LIBRARY_PATH=$dir/keyretain" library open show:LD_LIBRARY_PATH
  gives 'no library without its word' 'open success LD_LIBRARY_PATH unset' one open show:LD_LIBRARY_PATH
  service library "socket=$dir/nowhere" "library=$dir/keyretain"
  gives 'no library without a session' 'open success LD_LIBRARY_PATH unset' library open show:LD_LIBRARY_PATH
  service library "socket=$path" library=keyretain
  gives 'a library of a relative path' 'open success inside LD_LIBRARY_PATH unset' \
    library open "$inside" show:LD_LIBRARY_PATH
  service wrong "socket=$path" wrong revoked=1
  gives 'no such option' 'open success inside' wrong open "$inside"
  service only "socket=$dir/nowhere"
  sed -i 's/optional/required/' "$dir/conf/only"
  gives 'required, and the only one' 'open success close success' only open close
}

# ---- No daemon, and no keeper

# in_time NAME SINCE: a login isn't kept waiting. It is two seconds; the limit is far above it, for a busy machine, and
# below what it would take otherwise.
in_time() { is "$1: in time" yes "$([ $((SECONDS - $2)) -lt 30 ] && echo yes || echo "$((SECONDS - $2)) seconds")"; }

try_stopped() {
  local since=$SECONDS module=strict
  service one "socket=$path"
  service twice "socket=$path"
  cat "$dir/conf/one" >>"$dir/conf/twice"
  kill -STOP "$daemon"
  gives 'a daemon that is stopped' "open success $none close success" one open "${show[@]}" close
  in_time 'a daemon that is stopped' "$since"
  printf '#!/bin/sh\necho executed >>%s\nexec %s.true "$@"\n' "$dir/executed" "$keeper" >"$keeper.counts"
  chmod 755 "$keeper.counts"
  mv "$keeper" "$keeper.true" && mv "$keeper.counts" "$keeper"
  : >"$dir/executed" && chmod 666 "$dir/executed"
  gives 'twice in a stack, stopped' "open success $none open success close success" twice open "${show[@]}" open close
  is 'twice in a stack, stopped: it is tried once' 1 "$(wc -l <"$dir/executed")"
  mv "$keeper.true" "$keeper"
  kill -CONT "$daemon"
  gone 'a daemon that goes on'
  module=module
  service one "socket=$path"
  gives 'a daemon that goes on' 'open success inside' one open "$inside"
}

try_full() {
  local holder since=$SECONDS module=strict
  serve --lanes 1
  KEYRETAIN_SOCKET=$path "$dir/keyretain-session" -- sleep 1000 &
  holder=$!
  until_true holds_lane
  gives 'a daemon that is full' "open success $none" one open "${show[@]}"
  in_time 'a daemon that is full' "$since"
  end_by TERM "$holder"
  gone 'a daemon that is full'
  module=module
  service one "socket=$path"
  gives 'a daemon with a lane again' 'open success KEYRETAIN_SOCKET='"$path" one open show:KEYRETAIN_SOCKET
  kill_daemon TERM
  gives 'a daemon that is down' "open success $none" one open "${show[@]}"
  is 'a daemon that is down: what the log says, and what to do' 1 "$(grep -c "^log 5 no session for $user: \
$path: Connection refused: its daemon has ended: remove the path" "$dir/said")"
  is 'a daemon that is down: what the user is told' "told 3 keyretain: this login has no session of its own \
(Connection refused): keyretain-session begins one, or says what to do" "$(grep ^told "$dir/said")"
  gives 'a login that is silent' "open success $none" one silent "${show[@]}"
  is 'a login that is silent: what the user is told' '' "$(grep ^told "$dir/said")"
}

# A daemon that is started anew in the midst of a login: the next login has a session.
try_restarted() {
  local login
  rm -f "$dir/there" "$dir/go"
  logs_in one open "run:touch $dir/there; until [ -e $dir/go ]; do sleep 0.05; done" "$inside" close end \
    >"$dir/restarted" &
  login=$!
  until_true [ -e "$dir/there" ]
  kill_daemon TERM
  start_again --lanes 16
  chmod 666 "$path"
  touch "$dir/go"
  finish "$login"
  is 'a daemon that was started anew' 'open success EKEYREVOKED close success end success' "$(<"$dir/restarted")"
  gone 'a daemon that was started anew'
  gives 'the next login' 'open success inside' one open "$inside"
}

# A keeper that is killed under its session.
try_killed() {
  gives 'a keeper that is killed' 'open success EKEYREVOKED close success end success' \
    one open "run:kill -9 \$(pgrep -f '^keyretain-keeper .*$path'); sleep 0.2" "$inside" close end
  gone 'a keeper that is killed'
}

# says TEXT: in the keeper's place, a program that prints this, as printf does
says() {
  printf '#!/bin/sh\nprintf "%s"\n' "$1" >"$keeper"
  chmod 755 "$keeper"
}

# Whoever runs as the user may answer in the keeper's place.
try_answers() {
  local name text long since
  long=$(printf '%0600d' 1)
  mv "$keeper" "$keeper.true"
  gives 'a keeper that is not there' "open success $none close success" one open "${show[@]}" close
  says '5:name\\n/path\\n'
  gives 'two lines' 'open success KEYRETAIN_SESSION=5:name KEYRETAIN_SOCKET=/path close success' \
    one open "${show[@]}" close
  printf '#!/bin/sh\nprintf "5:name\\n"\nsleep 0.2\nprintf "/path\\n"\n' >"$keeper"
  gives 'two lines, one after the other' 'open success KEYRETAIN_SESSION=5:name KEYRETAIN_SOCKET=/path' \
    one open "${show[@]}"
  while IFS='|' read -r name text; do
    says "${text/LONG/$long}"
    gives "a keeper that says $name" "open success $none" one open "${show[@]}"
    is "a keeper that says $name: lines of the log that say so, and for whom" 1 \
      "$(grep -c "^log 5 no session for $user: ." "$dir/said")"
    is "a keeper that says $name: bytes of the log that are not printed" '' "$(tr -d '\n -~' <"$dir/said")"
  done <<'END_OF_TABLE'
nothing|
one line|5:name\\n
no end of line|5:name\\n/path
a relative path|5:name\\npath\\n
a long path|5:name\\n/LONG\\n
a long name|5:LONG\\n/path\\n
no serial|:name\\n/path\\n
the serial 0|0:name\\n/path\\n
a serial that is negative|-5:name\\n/path\\n
a long serial|12345678901:name\\n/path\\n
no name|5:\\n/path\\n
no colon|5\\n/path\\n
a byte that is not printed|5:na\\033[2Jme\\n/path\\n
a byte above the others|5:na\\377me\\n/path\\n
a path with such a byte|5:name\\n/pa\\001th\\n
an empty first line|\\n5:name\\n/path\\n
a refusal|refused 13 the name: Permission denied\\n
END_OF_TABLE
  long=$(printf '%0106d' 1)
  says "5:name\\\\n/$long\\\\n"
  gives 'a path of 107 bytes' "open success KEYRETAIN_SOCKET=/$long" one open show:KEYRETAIN_SOCKET
  says "5:name\\\\n/1$long\\\\n"
  gives 'a path of 108 bytes, which no address of a socket holds' "open success $none" one open "${show[@]}"
  since=$SECONDS
  local module=strict
  service one "socket=$path"
  printf '#!/bin/sh\nwhile printf x; do sleep 0.3; done\n' >"$keeper"
  gives 'a keeper that says a byte now and then' "open success $none" one open "${show[@]}"
  printf '#!/bin/sh\nexec yes\n' >"$keeper"
  gives 'a keeper that has no end' "open success $none" one open "${show[@]}"
  printf '#!/bin/sh\nexec sleep 50\n' >"$keeper"
  gives 'a keeper that says nothing for long' "open success $none" one open "${show[@]}"
  printf '#!/bin/sh\necho $$ >%s\nkill -STOP $$\n' "$dir/stopped" >"$keeper"
  : >"$dir/stopped" && chmod 666 "$dir/stopped"
  gives 'a keeper that is stopped' "open success $none" one open "${show[@]}"
  kill -KILL "$(<"$dir/stopped")"
  in_time 'keepers that do not answer' "$since"
  mv "$keeper.true" "$keeper"
}

# A keeper that answers, and then ends neither at a byte nor at the end of its pipe.
try_deaf_keeper() {
  local since=$SECONDS module=strict
  service one "socket=$path"
  mv "$keeper" "$keeper.true"
  printf '#!/bin/sh\nprintf "5:name\\n/path\\n"\nexec sleep 50\n' >"$keeper"
  chmod 755 "$keeper"
  gives 'a keeper that does not end' 'open success close success end success' one open close end
  in_time 'a keeper that does not end' "$since"
  since=$SECONDS
  printf '#!/bin/sh\nhead -c 65536 /dev/zero >/proc/self/fd/0\nprintf "5:name\\n/path\\n"\nexec sleep 50\n' >"$keeper"
  gives 'a keeper that has filled its pipe' 'open success close success end success' one open close end
  in_time 'a keeper that has filled its pipe' "$since"
  mv "$keeper.true" "$keeper"
  module=module
  service one "socket=$path"
}

# ---- What a keeper is given

# reports: in the keeper's place, a program that writes down what it was given. Signals 32 and 33 are the C library's
# own: posix_spawn(3) leaves them ignored, as make(1) does for whatever it runs, and sigaction(3) doesn't set them.
reports() { install -m 755 "$dir/report" "$keeper"; }

# given UID GID GROUPS: the lines of it, in the order of the program
given() {
  printf '%s\n' 0 1 2 /dev/null / 0 'a session of its own' "Uid: $1 $1 $1 $1" "Gid: $2 $2 $2 $2" "Groups: $3" \
    'SigBlk: 0000000000000000' 'SigIgn: 0000000000000000' "keyretain-keeper --patience 39800 --socket $path"
}

report() {
  # signals 32 and 33 are the C library's own, and nobody can have them be as at first: make(1) has them ignored
  sed 's/[[:space:]]\+/ /g; s/ $//; /^SigIgn/s/0000000\(08\|10\|18\)0000000/0000000000000000/' "$dir/given"
}

try_given() {
  local SECRET=host-key groups
  export SECRET
  groups=$(id -G "$user" | tr ' ' '\n' | sort -n | paste -sd' ')
  mv "$keeper" "$keeper.true"
  reports
  : >"$dir/given" && chmod 666 "$dir/given"
  logs_in one children:ignored block open >/dev/null
  is 'what a keeper is given' "$(given "$(id -u "$user")" "$(id -g "$user")" "$groups")" "$(report)"
  module=shipped service one "socket=$path"
  logs_in one open >/dev/null
  service one "socket=$path"
  is 'how long a keeper has, of the two seconds of a login' 1800 \
    "$(sed -n 's/^keyretain-keeper --patience \([0-9]*\) .*/\1/p' "$dir/given")"
  mv "$keeper.true" "$keeper"
}

# As long as the application's memory runs as the user nobody's signal reaches it, and none has it written to a file.
try_no_core() {
  local log_in=(strace -f -qq -e 'trace=setsid,setresuid,prctl,rt_sigprocmask,execve' -o "$dir/trace" "$dir/login") pid
  # who isn't root may not read the words of a process that isn't dumpable
  { [ "$(id -u)" = 0 ] && strace -f -qq -o /dev/null true 2>/dev/null; } ||
    { skipped 'what is called before a keeper is executed: not root, or no strace(1)'; return; }
  ASAN_OPTIONS=detect_leaks=0 logs_in one open close >/dev/null
  pid=$(sed -n 's/^\([0-9]*\) .*execve("[^"]*keyretain-keeper".*/\1/p' "$dir/trace")
  is 'what is called before a keeper is executed' \
    'setsid setresuid prctl(PR_SET_DUMPABLE, SUID_DUMP_DISABLE rt_sigprocmask(SIG_SETMASK, [] execve' \
    "$(sed -n "s/^$pid  *//p" "$dir/trace" | sed -n -e 's/^\(sets[a-z]*\).*/\1/p' \
      -e 's/^\(setresuid\).*/\1/p' -e 's/^\(prctl([^)<]*[^)< ]\).*/\1/p' \
      -e 's/^\(rt_sigprocmask([^]]*]\).*/\1/p' -e 's/^\(execve\).*/\1/p' -e '/^execve/q' | paste -sd' ')"
}

# A keeper that can't be given the user's ids isn't executed: it would be root's. It makes such calls itself, later.
try_refused_ids() {
  local call log_in
  { [ "$(id -u)" = 0 ] && strace -f -qq -o /dev/null true 2>/dev/null; } ||
    { skipped 'calls that fail before a keeper is executed: not root, or no strace(1)'; return; }
  for call in setgroups setresgid setresuid; do
    log_in=(strace -f -qq -o /dev/null -e "trace=$call" -e "inject=$call:error=EAGAIN:when=1" "$dir/login")
    is "$call fails before a keeper is executed" "open success $none close success" \
      "$(ASAN_OPTIONS=detect_leaks=0 logs_in one open "${show[@]}" close)"
  done
  gone 'calls that fail before a keeper is executed'
}

# ---- Applications of all kinds

try_applications() {
  local how
  gives 'descriptors 0 to 2 are closed' 'open success inside close success' one close-standard open "$inside" close
  rm -f "$dir/victim"
  gives 'all descriptors are closed, and used anew' 'open success close success end success 29 of 29 open, 0 bytes' \
    one open "close-everything:$dir/victim" close end "show-everything:$dir/victim"
  is 'no descriptor is left' 1 "$(logs_in one open close descriptors repeat:5 descriptors |
    grep -oE '[0-9]+ descriptors' | sort -u | wc -l)"
  for how in ignored handled; do
    gives "children are $how" 'open success close success signals as before, no child seen' \
      one "children:$how" open close "signals:$how"
    gives "children are $how, and the keeper is killed" 'open success close success signals as before, no child seen' \
      one "children:$how" open "kill-keepers:$path" close "signals:$how"
  done
  gives 'no child is left, of any kind' 'open success no child close success no child' \
    one open offspring close offspring
  gives 'signals that interrupt' 'open success inside close success' one interrupts open interrupts:end "$inside" close
  gives 'a SIGPIPE that was held back before' 'open success close success SIGPIPE held back' \
    one hold-pipe open "kill-keepers:$path" close show-pipe
  gives 'threads that hold locks' '40 sessions' one threads repeat:40
  gone 'applications of all kinds'
}

# A libkeyutils that asks the kernel where no session is named, and in programs that run set-uid.
try_else_kernel() {
  has_none 'what the kernel is handed' "$dir/handed"
  [ "$("$dir/whose")" != 'no keys of the kernel' ] ||
    { skipped 'a libkeyutils that asks the kernel too: it lets nobody have keys here'; return; }
  is 'no session is named' 'kernel 6, keyretaind 0' "$("$dir/whose")"
  is 'an empty one is' 'kernel 6, keyretaind 0' "$(KEYRETAIN_SESSION='' "$dir/whose")"
  gives 'in a login' 'open success kernel 0, keyretaind 6' one open "run:$dir/whose"
  [ "$(id -u)" = 0 ] || { skipped 'a libkeyutils that asks the kernel too, set-uid: not root'; return; }
  install -m 4755 "$dir/whose" "$dir/set-uid"
  is 'a program that runs set-uid' 'kernel 6, keyretaind 0' \
    "$(KEYRETAIN_SESSION=5:name setpriv --reuid 65534 --clear-groups "$dir/set-uid")"
}

# ---- Users, by root alone

# setresuid(2) and setresgid(2) take -1 for no change: who let such a user in would have a keeper of root's.
try_no_ids() {
  local ids
  unshare --mount true 2>/dev/null || { skipped 'users without a uid or a gid: no mount namespace'; return; }
  log_in=(unshare --mount sh -c 'mount --bind "$0" /etc/passwd && exec "$@"' "$dir/passwd" "$dir/login")
  user=keyretain-none
  for ids in 4294967295:65534 65534:4294967295; do
    { cat /etc/passwd && echo "$user:x:$ids::/:/bin/sh"; } >"$dir/passwd"
    gives "a user of the ids $ids" "open success $none close success" one open "${show[@]}" close
  done
}

try_users() {
  local nobody=65534 ids as=(setpriv --reuid 65534 --regid 65534 --clear-groups)
  { [ "$(id -u)" = 0 ] && "${as[@]}" true 2>/dev/null && [ "$(id -un $nobody 2>/dev/null)" = nobody ]; } ||
    { skipped 'logins of another user: not root, or no setpriv or no user nobody'; return; }
  user=nobody
  gives 'root lets nobody in' "open success KEYRETAIN_SOCKET=$path close success" one open show:KEYRETAIN_SOCKET close
  try_given
  # to look for leaks it would have to trace itself, which the kernel no longer allows
  ASAN_OPTIONS=detect_leaks=0 gives 'closed as the user' 'open success close success EKEYREVOKED' \
    one open become:$nobody close "$inside"
  log_in=("${as[@]}" "$dir/login")
  gives 'who lets itself in' 'open success inside close success' one open "$inside" close
  log_in=(setpriv --reuid "$nobody" --rgid "$nobody" --egid 0 --groups "$(id -g nobody)" "$dir/login")
  try_given
  for ids in '--ruid 4005 --euid 65534' '--ruid 65534 --euid 4005'; do
    # shellcheck disable=SC2206 # these are words
    log_in=(setpriv $ids --regid 65534 --clear-groups "$dir/login")
    is "who is nobody by half, $ids" "open success $none close success" "$(logs_in one open "${show[@]}" close)"
  done
  log_in=("${as[@]}" "$dir/login")
  user=root
  gives 'who lets another one in' "open success $none close success" one open "${show[@]}" close
  log_in=("$dir/login")
  user=no-such-user
  gives 'somebody who is not there' "open success $none close success" one open "${show[@]}" close
  try_no_ids
  log_in=("$dir/login")
  user=$(id -un)
}

try_module() {
  keeper=$dir/libexec/keyretain/keyretain-keeper
  module=module
  user=$(id -un)
  log_in=("$dir/login")
  inside="run:S=\$($dir/stay); [ \"\$S\" = \"\${KEYRETAIN_SESSION%%:*}\" ] && echo inside || echo \"\$S\""
  serve --lanes 32
  try_sessions
  try_stacks
  try_processes
  try_inherited
  try_revoke
  try_environment
  try_given
  try_no_core
  try_refused_ids
  try_applications
  try_killed
  try_answers
  try_deaf_keeper
  try_else_kernel
  try_users
  try_stopped
  try_restarted
  kill_daemon TERM
  try_full
}
