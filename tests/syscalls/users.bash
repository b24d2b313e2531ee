# What passes between users under one supervisor, for tests/syscalls: logins by the stacks of pam(7) as they are
# installed, set-uid programs, and identities that come and go.
# shellcheck shell=bash disable=SC2016,SC2154 # texts are for other shells; names come from the part

# begin_users: users keyretain-1 and keyretain-2, of uids 4101 and 4102, in a mount namespace, whose shell is
# $dir/shell: it adds to $dir/said what the session is, whose the user keyring is, and what is read of root's key, whose
# serial is in $dir/roots.
begin_users() {
  local file i
  for file in passwd group shadow; do cp "/etc/$file" "$dir/$file"; done
  for i in 1 2; do
    echo "keyretain-$i:x:$((4100 + i)):$((4100 + i))::/:$dir/shell" >>"$dir/passwd"
    echo "keyretain-$i:x:$((4100 + i)):" >>"$dir/group"
    echo "keyretain-$i:*:19000:0:99999:7:::" >>"$dir/shadow"
  done
  cat >"$dir/shell" <<END
#!/bin/sh
{ "$dir/tree" whose | sed 's/[.][0-9a-f]*//'; "$dir/tree" owner 4294967295; "$dir/tree" read "\$(cat "$dir/roots")"
} 2>&1 | paste -sd ' ' >>"$dir/said"
END
  chmod 755 "$dir/shell"
  cat >"$dir/as-users" <<END
for file in passwd group shadow; do mount --bind "$dir/\$file" "/etc/\$file"; done
exec "\$@"
END
  : >"$dir/said"
  chmod 666 "$dir/said"
}

# logged_in COMMAND ..: what the shell has said that this begins, below root with a key in its user keyring
logged_in() {
  : >"$dir/said"
  timeout "$limit" unshare -m bash "$dir/as-users" "$dir/$built/keyretain-session" --syscalls -- sh -c \
    '"$0" putting "secret of root" >"$1/roots"; shift; exec "$@"' "$dir/tree" "$dir" "$@" \
    >"$dir/login.text" 2>&1 </dev/null
  cat "$dir/said"
}

# try_login NAME WANTED PROGRAM OPTION ..: by a program of Debian's, with its own stack
try_login() {
  command -v "$3" >/dev/null || { skipped "$1: not here"; return; }
  is "$built: $1: the session, the user keyring, root's key" "$2" "$(logged_in "${@:3}")"
}

try_logins() {
  local own='_ses 4102 4102 EACCES' none='_uid_ses 4102 4102 EACCES'
  { [ "$(id -u)" = 0 ] && unshare -m true 2>/dev/null; } ||
    { skipped 'logins: not root, or no mount namespace'; return; }
  begin_users
  grep -qs '^session.*pam_keyinit.so.*force' /etc/pam.d/su-l || own=$none
  try_login 'su -l' "$own" su -l keyretain-2
  try_login 'su' "$none" su keyretain-2
  try_login 'runuser' "$none" runuser keyretain-2 -c true
  try_login 'runuser -l' "$own" runuser -l keyretain-2
  try_login 'login' "$own" script -qec 'login -f keyretain-2' /dev/null
  try_sshd "$own"
  try_keyinit
}

# By Debian's sshd on a port of this machine, which takes a key of this test.
try_sshd() {
  local port=$((20000 + RANDOM % 20000)) sshd
  { sshd=$(command -v /usr/sbin/sshd) && command -v ssh >/dev/null && ip link show lo >/dev/null 2>&1; } ||
    { skipped 'a login by sshd(8): not here'; return; }
  ssh-keygen -q -t ed25519 -N '' -f "$dir/host-key" && ssh-keygen -q -t ed25519 -N '' -f "$dir/user-key"
  cp "$dir/user-key.pub" "$dir/authorized" && chmod 644 "$dir/authorized"
  mkdir -p /run/sshd
  is "$built: a login by sshd(8): the session, the user keyring, root's key" "$1" "$(logged_in sh -c "
    '$sshd' -D -p $port -h '$dir/host-key' -o AuthorizedKeysFile='$dir/authorized' -o StrictModes=no \\
      -o UsePAM=yes -o PidFile=none &
    server=\$!
    for i in \$(seq 100); do
      ssh -q -p $port -i '$dir/user-key' -o StrictHostKeyChecking=no -o UserKnownHostsFile=/dev/null \
        -o BatchMode=yes keyretain-2@127.0.0.1 && break
      sleep 0.1
    done
    kill \$server")"
}

# What pam_keyinit(8) does, without the program around it: so also where other users' limits can't be set.
try_keyinit() {
  local how
  for how in '' old; do
    is "$built: what pam_keyinit does $how" 'joined, linked, _ses 4105, the user keyring 4105, EACCES, revoked' \
      "$(supervised -- "$dir/tree" keyinit $how 2>&1 | sed 's/[.][0-9a-f]*//')"
  done
}

# A user's program, executed set-uid, that asks and becomes its user again; below a session of root's.
# In a user namespace of several users who has executed a program is told by a number of that namespace.
try_within() {
  local within
  unshare -U true 2>/dev/null || { skipped 'set-uid programs in a user namespace: none may be made'; return; }
  unshare -U sleep 1000 &
  within=$!
  until_true has_maps "$within" 4200
  install -o 4200 -g 4200 -m 4755 "$dir/tree" "$dir/tree-within"
  prints 'a session that a program begins which is set-uid to the root of its user namespace' '_ses 4205' \
    nsenter -t "$within" -U -S 5 -G 5 "$dir/tree-within" whose-joined
  prints 'who owns a key, in a user namespace' 'Operation not supported' nsenter -t "$within" -U -S 5 -G 5 \
    "$dir/tree" gives 4200
  end_by TERM "$within"
}

try_deputies() {
  local wanted='EKEYREVOKED, then none' copied how
  [ "$(id -u)" = 0 ] || { skipped 'set-uid programs: not root'; return; }
  for how in alone joins brought; do
    prints "who has joined a session, and has another real uid: $how" EACCES "$dir/tree" leaves-joined "$how"
  done
  install -m 4755 "$dir/tree" "$dir/tree-set-uid"
  for how in '' work; do
    prints "a session that a set-uid program begins, which nobody finds by a name${how:+, though it wants one}" \
      '_ses 4105' setpriv --reuid 4105 --regid 4105 --clear-groups "$dir/tree-set-uid" whose-joined ${how:+"$how"}
  done
  prints 'a set-uid program of a user below a session of root' "$wanted" "$dir/tree" deputy "$dir/tree-set-uid"
  prints 'a set-uid program of a user that has joined a session' "EKEYREVOKED, then its user's" "$dir/tree" \
    joined-deputy "$dir/tree-set-uid"
  try_within
  begin_room || { skipped 'a set-uid program with a copied tag: no CAP_SYS_RESOURCE'; return; }
  copied=$("${in_room[@]}" timeout "$limit" "$dir/now/keyretain-session" --syscalls -- "$dir/tree" deputy \
    "$dir/tree-set-uid" copied 2>&1)
  is 'a set-uid program of a user, with the tag of a session of root' "$wanted" "$copied"
  try_copies
  end_room
}

# Tags of a program that its user may not trace. Of so many files, or one more, a supervisor has one left at some time.
try_copies() {
  local who='who has a copied tag of a program that its user may not trace' many
  is "$who" 'kept out' "$(with_files 1024 untraceable)"
  for many in 100 101; do
    is "$who, below a supervisor that may open $many files, of which few are left" 'kept out' \
      "$(with_files "$many" untraceable crowd)"
    is "a session of a process below a supervisor that may open $many files, of which none are left for a while" kept \
      "$(with_files "$many" outlast)"
  done
  is "$who, where none were left before" 'kept out' "$(with_files 100 untraceable later)"
}

# with_files FILES WORD ..: what tree says, below a supervisor that may open so many files. No more of its user's may be
# on their way through sockets (ETOOMANYREFS), and those of other tests are: so it is tried for a minute.
with_files() {
  local said i
  ulimit -n "$1"
  for i in $(seq 120); do
    said=$("${in_room[@]}" timeout "$limit" "$dir/now/keyretain-session" --syscalls -- "$dir/tree" "${@:2}" 2>&1)
    [[ $said == *'Too many references'* ]] || break
    sleep 0.5
  done
  printf '%s\n' "$said"
}

# A set-uid program of root's that a user executes, and that executes keyretain-session: set-uid it looks for the
# system's daemon.
try_set_uid_session() {
  local who wanted
  { [ "$(id -u)" = 0 ] && unshare -m true 2>/dev/null && command -v setpriv >/dev/null; } ||
    { skipped 'a session that a set-uid program begins: not root, no mount namespace, or no setpriv(1)'; return; }
  begin_room || { skipped 'a session that a set-uid program begins: no CAP_SYS_RESOURCE'; return; }
  install -m 4755 "$dir/tree" "$dir/tree-set-uid"
  for who in real effective; do
    [ "$who" = real ] && wanted='_ses 4105' || wanted='_uid_ses.0 0'
    is "a session that a set-uid program begins: who is its $who user is in" "$wanted" \
      "$(in_session_of_set_uid as "$who" "$dir/tree" whose)"
  done
  is 'a session that a set-uid program begins: who has a copied tag of its command' 'kept out' \
    "$(in_session_of_set_uid first)"
  end_room
}

# in_session_of_set_uid WORD ..: what tree says
in_session_of_set_uid() {
  timeout "$limit" "${in_room[@]}" unshare -m sh -c 'mount -t tmpfs run /run && mkdir /run/keyretain &&
    ln -s "$0" /run/keyretain/keyretain.sock && exec "$@"' "$path" setpriv --reuid 4105 --regid 4105 --clear-groups \
    "$dir/tree-set-uid" as itself "$dir/now/keyretain-session" --syscalls -- "$dir/tree" "$@" 2>&1
}

# Where /proc hides what a user may not trace, the supervisor of that user can't look at all above a process.
try_hidden() {
  local hides said
  for hides in 0 2; do
    { [ "$(id -u)" = 0 ] && unshare -m mount -t proc -o "hidepid=$hides" proc /proc 2>/dev/null; } ||
      { skipped 'processes that /proc hides: not root, or no mount namespace'; return; }
    chmod 666 "$path"
    said=$(timeout "$limit" unshare -m sh -c 'mount -t proc -o "$0" proc /proc &&
      exec setpriv --reuid=65534 --regid=65534 --clear-groups "$@"' "hidepid=$hides" \
      "$dir/$built/keyretain-session" --syscalls -- "$dir/tree" below-hidden 2>&1)
    is "$built: below a process that /proc hides, with hidepid=$hides" \
      "$([ "$hides" = 0 ] && echo 'the same' || echo EKEYREVOKED)" "$said"
  done
}

# ---- Nothing is used up

# So many contexts and connections as a supervisor holds when all that asked have gone.
try_given_up() {
  local many=100 descriptors waits supervisor
  [ "$(id -u)" = 0 ] || { skipped 'many identities: not root'; return; }
  prints "$many identities, one after the other" "$many served, then root" "$dir/tree" others "$many" one
  prints '60 identities at one time, each in a session' "60 served, then root" "$dir/tree" others 60 all
  prints 'a key that a user has left, beside 80 processes of another' kept "$dir/tree" left-key 80
  prints 'the same, beside 30 identities' kept "$dir/tree" left-key 30 groups
  prints "a process keyring, where the session that is named is another user's" 'EACCES, kept' "$dir/tree" taken work \
    4105 "$dir/tree" joins-in-vain work
  prints 'the session of who logs another user in, beside 80 processes' revoked "$dir/tree" login-beside 80
  is "$built: 200 processes at one time, with few descriptors" \
    'served all, refused the others by EDQUOT, kept all, then served' \
    "$(ulimit -n 160; supervised -- "$dir/tree" processes 200 2>&1)"
  is "$built: 200 threads at one time, with few descriptors" 'served all, refused the others by EDQUOT, one for all' \
    "$(ulimit -n 160; supervised -- "$dir/tree" threads 200 2>&1)"
  is "$built: 200 processes, with few descriptors and 80 older processes that are not given up" '200 served' \
    "$(ulimit -n 400; supervised -- "$dir/tree" beside-crowd 200 80 2>&1)"
  rm -f "$dir/go" "$dir/put"
  "$dir/now/keyretain-session" --syscalls -- sh -c '"$0" others 40 all >/dev/null; touch "$1/put"
    until [ -e "$1/go" ]; do sleep 0.05; done' "$dir/tree" "$dir" &
  waits=$!
  until_true test -e "$dir/put"
  supervisor=$(pgrep -P "$waits")
  until_true has_few_descriptors
  descriptors=$(find "/proc/$supervisor/fd" -mindepth 1 | wc -l)
  is 'what a supervisor has open when 40 identities have gone' 'as few as before' \
    "$([ "$descriptors" -le 20 ] && echo 'as few as before' || echo "$descriptors")"
  touch "$dir/go"
  finish "$waits"
}

# More identities than the daemon has room for, which end: neither who is there loses a key, nor who else asks a lane.
try_flood() {
  [ "$(id -u)" = 0 ] || { skipped 'a flood of identities: not root'; return; }
  serve --lanes 8
  prints "a user's key beside 250 identities that leave one each, and another client" $'kept\nserved' \
    sh -c '"$0" flood 250; timeout 5 "$1" --syscalls -- echo served' "$dir/tree" "$dir/$built/keyretain-session"
  prints 'the same, of the user of a thread that is not the first' kept "$dir/tree" flood 250 stays thread
  prints 'the same of 250 that all live until the last has asked' $'kept\nserved' \
    sh -c '"$0" flood 250 stays; for i in 1 2 3 4; do timeout 5 "$1" --syscalls -- echo served && break; done' \
    "$dir/tree" "$dir/$built/keyretain-session"
  prints 'a key in the place of the user keyring' kept "$dir/tree" kept-in-session
  kill_daemon TERM
}

another_daemon() {
  kill_daemon KILL
  start_again --lanes 8
}

keys_elsewhere() { supervised -- "$dir/tree" numbered 30; }

# try_kept_serial STEPS [WHAT]: another daemon at the path gives the numbers of the last one again, to whom it will.
try_kept_serial() {
  local waits event
  [ "$(id -u)" = 0 ] || { skipped 'a serial that is told to another user: not root'; return; }
  serve --lanes 8
  [ -p "$dir/kept.ready" ] || mkfifo -m 666 "$dir/kept.ready" "$dir/kept.go"
  supervised -- "$dir/tree" kept-serial "$dir/kept.ready" "$dir/kept.go" "${@:2}" >"$dir/kept.text" 2>&1 &
  waits=$!
  for event in $1; do
    read -r _ <"$dir/kept.ready"
    "$event"
    : >"$dir/kept.go"
  done
  finish "$waits"
  is "a serial of the daemon before, told again to another user${2+: of a $2}" EKEYREVOKED "$(<"$dir/kept.text")"
  kill_daemon TERM
}

has_few_descriptors() { [ "$(find "/proc/$supervisor/fd" -mindepth 1 | wc -l)" -le 20 ]; }

# A join asks the daemon, and looks at no other process.
try_cheap_join() {
  local waits supervisor calls tracer
  { [ "$(id -u)" = 0 ] && command -v strace >/dev/null; } ||
    { skipped 'what a join costs: not root, or no strace(1)'; return; }
  rm -f "$dir/go" "$dir/ready" "$dir/calls.text"
  "$dir/now/keyretain-session" --syscalls -- "$dir/tree" idle 300 "$dir/ready" "$dir/go" >"$dir/idle.text" 2>&1 &
  waits=$!
  until_true test -e "$dir/ready"
  supervisor=$(pgrep -P "$waits")
  strace -qq -e trace=openat -o "$dir/calls.text" -p "$supervisor" 2>/dev/null &
  tracer=$!
  until_true is_traced "$supervisor"
  touch "$dir/go"
  finish "$waits"
  finish "$tracer"
  calls=$(wc -l <"$dir/calls.text")
  is '20 joins beside 300 idle processes: all are joined' '20 joined' "$(<"$dir/idle.text")"
  is 'and what the supervisor opens for that' 'few files' "$([ "$calls" -lt 400 ] && echo few files || echo "$calls")"
}

# ---- A session that has a name

# Others ask below it, and a user who knows the name joins it meanwhile, by another supervisor.
try_named() {
  local waits
  [ "$(id -u)" = 0 ] || { skipped 'a session that has a name: not root'; return; }
  chmod 711 "$dir"
  rm -f "$dir/end"
  supervised work -- sh -c '"$0" session >"$1/work"; until [ -e "$1/end" ]; do
    setpriv --reuid 4101 --regid 4101 --clear-groups "$0" session >/dev/null 2>&1; done' "$dir/tree" "$dir" &
  waits=$!
  until_true test -s "$dir/work"
  is 'a session that has a name, joined by another user meanwhile' 'never' \
    "$(supervised -- setpriv --reuid 4102 --regid 4102 --clear-groups "$dir/tree" joins-named work \
      "$(<"$dir/work")" 600)"
  touch "$dir/end"
  finish "$waits"
}

try_users() {
  try_logins
  try_deputies
  try_set_uid_session
  try_hidden
  try_given_up
  try_cheap_join
  try_named
}

# One user is one in the line, whatever that user has: of the calls of 400 processes that ask in a loop few are answered
# between two of another user.
try_turns() {
  [ "$(id -u)" = 0 ] || { skipped 'turns of users: not root'; return; }
  prints "400 processes of another user that ask: their calls within one" few "$dir/tree" beside 400
  prints "200 that join a session each time" few "$dir/tree" beside 200 join
  try_asks
  try_calls_of_reads
  try_slow_workers
  try_page
}

# calls_of_reads COUNT: the system calls of a supervisor and of a program that reads a key so often
calls_of_reads() {
  timeout "$limit" strace -f -qq -c -o "$dir/counted" "$dir/now/keyretain-session" --syscalls -- \
    "$dir/tree" reads "$1" >/dev/null 2>&1
  awk '$NF == "total" { print $4 }' "$dir/counted"
}

# Three looks guard a race: whether the call still waits, before something is changed and before it is written to; and
# whether the process is the one that has asked before.
try_calls_of_reads() {
  local calls
  command -v strace >/dev/null || { skipped 'the system calls of a call: no strace'; return; }
  calls=$(($(calls_of_reads 900) - $(calls_of_reads 100)))
  is 'the system calls of 800 reads of 32 bytes, and the supervisor'\''s' '26 for each' \
    "$([ "$calls" -gt 16000 ] && [ "$calls" -le 20900 ] && echo '26 for each' || echo "$calls")"
}

# What no room is found for costs no asks of whom it might be taken from.
try_asks() {
  local asks
  command -v strace >/dev/null || { skipped 'asks of calls that find no room: no strace'; return; }
  timeout "$limit" strace -f -qq -e trace=sendto -e signal=none -o "$dir/asks" "$dir/now/keyretain-session" \
    --syscalls -- "$dir/tree" keyrings 80 >/dev/null 2>&1
  asks=$(grep -c 'sendto(.*, MSG_NOSIGNAL' "$dir/asks")
  is 'asks for 160 calls, some of which find no room' 'five for each at most' \
    "$([ "$asks" -gt 100 ] && [ "$asks" -le 800 ] && echo 'five for each at most' || echo "$asks")"
}

# A worker has the supervisor's descriptors until it has closed them: by strace(1) that takes longer. What ends then is
# told of no more.
try_slow_workers() {
  { [ "$(id -u)" = 0 ] && command -v strace >/dev/null; } ||
    { skipped 'workers that begin slowly: not root, or no strace(1)'; return; }
  is "a user's key beside 20 identities that end, while workers begin slowly" kept "$(timeout "$limit" strace -f -qq \
    -o /dev/null -e trace=close_range -e inject=close_range:delay_enter=300000 "$dir/now/keyretain-session" --syscalls \
    -- "$dir/tree" flood 20 2>&1)"
}

# A page of a file whose server doesn't answer: its user's call fails a second later, and others are answered meanwhile.
try_page() {
  local said
  mkdir -p "$dir/page"
  rm -f "$dir/asked"
  said=$(unshare -m python3 -B "$lib/served.py" "$dir/page" read timeout -s KILL 30 "$dir/now/keyretain-session" \
    --syscalls -- bash -c 'setpriv --reuid 65533 --clear-groups "$0" page "$1/file" >"$2" & until [ -e "$1.held" ]; do
    sleep 0.02; done; timeout 5 "$0" session >/dev/null && echo served; wait; cat "$2"' \
    "$dir/tree" "$dir/page" "$dir/asked" 2>/dev/null)
  case $? in
    77 | 127) skipped 'a page of a file whose server does not answer: no python3, or no FUSE can be had here' ;;
    *) is "others, where a page of one's does not answer" \
      $'served\nBad address, then Bad address, then served' "$said" ;;
  esac
}
