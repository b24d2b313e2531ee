# Containers of the test runtime, for tests/agent: what they are told, what they keep from each other, and what an agent
# takes from a runtime.
# shellcheck shell=bash disable=SC2034,SC2154

agent='' socket='' folder='' agents=0
within=() # what the agent is run by
errors='' # what it tells, where that isn't looked at

# Not in a user namespace of one's own, where uid 0 is no root.
is_root() { [ "$(id -u)" = 0 ] && setpriv --reuid 4005 --regid 4005 --clear-groups true 2>/dev/null; }

# begin_agent OPTION ..: an agent that listens
begin_agent() {
  agents=$((agents + 1))
  socket=$dir/$agents.sock folder=$dir/$agents.folder
  begin_agent_at "$@"
}

begin_agent_at() {
  : >"$dir/agent.out" # what an agent before it has said is no answer
  "${within[@]}" "$dir/$variant/keyretain-agent" --socket "$socket" --folder "$folder" --daemon "$keyretaind" \
    --memory 0 "$@" >"$dir/agent.out" 2>>"${errors:-$dir/$variant.err}" </dev/null &
  agent=$!
  until_true is_listening
}

is_listening() { [ "$(cat "$dir/agent.out" 2>/dev/null)" = "listening $socket" ] || has_ended "$agent"; }

# end_agent NAME: it ends by SIGTERM, with its containers, and leaves nothing
end_agent() {
  end_by TERM "$agent"
  is "$1: the agent's status" 0 "$status"
  is "$1: the agent's socket" gone "$(if [ -e "$socket" ]; then echo there; else echo gone; fi)"
  is "$1: what is left of its containers" '' "$(ls "$folder")"
}

# contain ID OPTION .. -- CMD ..: a command in a container
contain() { timeout 120 "$dir/runtime" "$socket" "$@" </dev/null 2>&1; }

# calls ID WORD ..: key calls in a container
calls() { contain "$1" -- "$dir/calls" "${@:2}"; }

# executes ID WORD ..: key calls of what is executed in the container whose first process is $first, as runc(8) tells it
executes() { contain "$1" --pid "$first" -- "$dir/calls" "${@:2}"; }

# says NAME LINES COMMAND ..: what a command prints, its lines side by side
says() { is "$1" "$2" "$("${@:3}" | tr '\n' ' ')"; }

has_no_containers() { [ -z "$(ls "$folder")" ]; }

has_one_container() { [ "$(find "$folder" -type s | wc -l)" = 1 ]; }

# What a runtime executes in another container of the same id, as after a restart of the agent.
try_other_namespace() {
  local apart first
  unshare --pid --fork --kill-child sleep 100 &
  apart=$!
  until_true pgrep -P "$apart" >"$dir/pids"
  first=$(pgrep -P "$apart")
  says 'a process that is not in its PID namespace' 'ENOSYS ' contain c --pid "$first" -- "$dir/calls" add k v @s
  says 'one that is' 'ok v ' contain c --pid "$first" -- nsenter -t "$first" -p "$dir/calls" add k v @s print k
  unshare --mount sleep 100 &
  first=$!
  until_true grep -qx sleep "/proc/$first/comm"
  says "one that is not in its mount namespace, where its PIDs are the host's" 'ENOSYS ' \
    contain d --pid "$first" -- "$dir/calls" add k v @s
  says 'one that is in that' 'ok v ' contain d --pid "$first" -- nsenter -t "$first" -m "$dir/calls" add k v @s print k
  kill -KILL "$apart" "$first"
  finish "$apart"
  finish "$first"
}

# session_of COMMAND ..: what the command says of a session, without its mask
session_of() { "$@" describe @s | sed 's/;[0-9a-f]*;_ses/; _ses/'; }

# with_container ID COMMAND ..: a command while a container of this id has a key `kept` in its session and user keyring.
# $first is its first process.
with_container() {
  local id=$1 container first
  rm -f "$dir/$id.go" "$dir/$id.ready"
  shift
  calls "$id" add kept "of-$id" @s add kept "of-$id" @u put "$dir/$id.ready" await "$dir/$id.go" print kept \
    >"$dir/$id.out" &
  container=$!
  until_true [ -s "$dir/$id.ready" ]
  first=$(<"$dir/$id.ready")
  "$@"
  : >"$dir/$id.go"
  finish "$container"
  says "what the container $id has meanwhile" "ok ok of-$id " cat "$dir/$id.out"
}

# ---- One

try_calls() {
  local uid gid
  uid=$(id -u) gid=$(id -g)
  says 'a key in a container' 'ok secret ' calls a add k secret @s print k
  says 'its session' "keyring;$uid;$gid; _ses.a " session_of calls a
  says 'its user keyring' "keyring;$uid;$gid;1f3f0000;_uid.$uid " calls a describe @u
  says "its user keyring isn't linked to the session" 'ok ENOKEY ' calls a add k secret @u print k
  says 'a session of its own' 'ok ok ENOKEY ' calls a add k secret @s join other print k
  says 'a session for its parent, which is the runtime and is not served' 'ok EPERM ' calls a join other to-parent
  says 'a child has the session' 'ok secret ' calls a add k secret @s exec "$dir/calls" print k
  says 'its thread keyring ends with execve' 'ok ENOKEY ' calls a add k secret @t exec "$dir/calls" print k
  says 'an empty keyring is not that of the host' 'ENOKEY ' calls a print kept
  is 'all that tests/syscalls knows the answers of' '' "$(diff "$dir/answers.text" <(contain a -- "$dir/answers"))"
}

# The profile says whether all calls are handed over that pipes of notes want.
try_notes() {
  says 'pipes of notes in a container' 'notes: no check failed ' notes_of contain n --metadata 'keyretain with notes' --
  says 'by a profile that hands over the key calls alone' 'not told, EOPNOTSUPP ' contain o --metadata keyretain -- \
    "$dir/notes" none
}

# notes_of COMMAND ..: what the program notes of tests/syscalls finds there
notes_of() { "$@" "${notes:-$dir/notes}" answers | sed 's/[0-9]* passed, 0 failed$/no check failed/'; }

# ---- What a runtime sends

try_sending() {
  local four='["x","y","z","seccompFd"]'
  says 'a process id of 0' 'ok v ' contain b --pid 0 -- "$dir/calls" add k v @s print k
  says 'a process id of no process' 'ok v ' contain b --pid 2147483647 -- "$dir/calls" add k v @s print k
  where is_root 'containers that are in no namespace of the agent: not root' try_other_namespace
  says 'a state in pieces' 'ok v ' contain b --pieces -- "$dir/calls" add k v @s print k
  says 'a connection that stays open' 'ok v ' contain b --open -- "$dir/calls" add k v @s print k
  says 'four descriptors' 'ok v ' contain b --count 4 --names "$four" -- "$dir/calls" add k v @s print k
  says 'too many descriptors' 'ENOSYS ' contain b --count 2 -- "$dir/calls" print k
  says 'far too many descriptors' 'ENOSYS ' contain b --count 40 -- "$dir/calls" print k
  says 'too few descriptors' 'ENOSYS ' contain b --names "$four" -- "$dir/calls" print k
  says 'a descriptor less than it names, behind the listener' 'ENOSYS ' \
    contain b --names '["seccompFd","x"]' -- "$dir/calls" print k
  says 'no descriptors' 'ENOSYS ' contain b --count 0 -- "$dir/calls" print k
  says 'a descriptor that is no listener' 'ENOSYS ' \
    contain b --count 2 --names '["seccompFd","x"]' -- "$dir/calls" print k
  says 'a broken object' 'ENOSYS ' contain b --state '{"fds":["seccompFd"],"state":{"id":"b"}' -- "$dir/calls" print k
  says 'no object' 'ENOSYS ' contain b --state '[]' -- "$dir/calls" print k
  says 'an object of nothing' 'ENOSYS ' contain b --state '{}' -- "$dir/calls" print k
  says 'an id that leads out of a folder' 'ENOSYS ' calls ../b print k
  says 'an id of two dots' 'ok v ' calls .. add k v @s print k
  is 'what lies beside its folder' '' "$(find "$dir" -maxdepth 1 -newer "$folder" -name 'b*')"
  says 'after all that' 'ok v ' calls b add k v @s print k
}

# ---- More than one

try_two() {
  says 'another container has none of its keys' 'ENOKEY ok ok own ' \
    calls b print kept add kept own @u add kept own @s print kept
  with_container bc says 'nor has one whose id its own begins with' 'ENOKEY ' calls b print kept
  with_container b says 'each has its own of one name' 'of-a ' contain a --pid "$first" -- "$dir/calls" print kept
}

# As root of another container may be that has the host's uids and sees the host's processes.
try_apart() {
  local others=() daemon
  [ "$(id -u)" != 0 ] || others=(setpriv --bounding-set=-all --inh-caps=-all)
  "${others[@]}" true 2>/dev/null ||
    { skipped "what others of its uid may read of a container's daemon: no setpriv"; return; }
  daemon=$(children "$(children "$agent" | tr -d ' ')" | tr -d ' ')
  is "a container's daemon" keyretaind "$(tr '\0' '\n' <"/proc/$daemon/cmdline" | head -n 1)"
  is 'what others of its uid may read of it' nothing \
    "$("${others[@]}" head -c 1 "/proc/$daemon/maps" 2>/dev/null || echo nothing)"
}

try_exec() {
  says 'what is executed in a container has its session' 'of-a ' executes a print kept
  says 'and one of which no process id is told' 'of-a ' contain a --pid 0 -- "$dir/calls" print kept
  says 'and what adds a key' 'ok more ' executes a add later more @s print later
  says 'which stays when it has ended' 'more ' executes a print later
}

# Two runtimes may have given one id each.
try_same_id() {
  local outer=$first
  says 'another container of its id has none of its keys' 'ENOKEY ' calls a print kept
  with_container a try_two_of_id
}

try_two_of_id() {
  says 'what is executed in the other one adds a key' 'ok ' executes a add later w @s
  says 'which it has' 'w ' executes a print later
  says 'what is executed in the first one has none of that' 'ENOKEY of-a ' \
    contain a --pid "$outer" -- "$dir/calls" print later print kept
  says 'and what has no process id of either, no key' 'ENOKEY ENOKEY ' \
    contain a --pid 0 -- "$dir/calls" print later print kept
}

# What one listener tells is waited for once, or what is executed would wait for the next call of the first process.
try_twice() {
  local first
  rm -f "$dir/told" "$dir/asked" "$dir/end"
  contain t --often 2 -- "$dir/calls" await "$dir/told" add k v @s put "$dir/asked" await "$dir/end" >/dev/null &
  first=$!
  until_true grep -q 'container t: one more' "$dir/$variant.err"
  sleep 0.2 # the server may still have to take it
  touch "$dir/told"
  until_true test -s "$dir/asked"
  says 'a listener that is told twice' 'v ' \
    timeout 20 "$dir/runtime" "$socket" t --pid "$(<"$dir/asked")" -- "$dir/calls" print k
  touch "$dir/end"
  finish "$first"
}

# Whoever else has the listener of what has ended, as a runtime for a moment: its container goes on.
try_held() {
  local holder
  rm -f "$dir/held" "$dir/freed"
  contain a --held "$dir/held" "$dir/freed" --pid "$first" -- "$dir/calls" print kept >"$dir/held.out" &
  holder=$!
  until_true [ -e "$dir/held" ]
  says 'a container where a listener is held for which nobody is left' 'of-a ' executes a print kept
  : >"$dir/freed"
  finish "$holder"
  says 'what had that listener' 'of-a ' cat "$dir/held.out"
}

# The second ends while the first is there.
try_limits() {
  says 'a second container of two' 'ok ' calls b add k v @s
  until_true has_one_container
  with_container b says 'a third container of two' 'ENOSYS ' calls c print k
  until_true has_one_container
  says 'a third, where the second has ended' 'ok ' calls c add k v @s
}

# Containers of one id, one soon after the other: the server of the one before may still be there.
try_again() {
  local i wrong=0
  for i in $(seq 60); do
    [ "$(calls same print k add k v @s print k | tr '\n' ' ')" = 'ENOKEY ok v ' ] || wrong=$((wrong + 1))
  done
  is '60 containers of one id' 0 "$wrong"
}

# ---- Ids

try_ids() {
  local uids=own describe=("$dir/calls" describe @u) zero='keyring;0;0;1f3f0000;_uid.0 '
  unshare -U true 2>/dev/null || { skipped 'user namespaces: not allowed here'; return; }
  if is_root; then uids=100000; fi
  says "ids of the container's user namespace" "$zero" contain n --uids "$uids" -- "${describe[@]}"
  says 'where it has pids of its own' "$zero" contain n --uids "$uids" --pids -- "${describe[@]}"
}

try_other_ids() {
  is_root || { skipped 'other uids, and user namespaces within containers: not root'; return; }
  says 'another uid' 'keyring;4005;4005;1f3f0000;_uid.4005 ' calls a become 4005 describe @u
  says 'its session is none but its user-session keyring' 'keyring;4005;4005;1f3f0000;_uid_ses.4005 ' \
    calls a become 4005 describe @s
  says "it doesn't find what root has in the container's session" 'ok ENOKEY ' calls a add k v @s become 4005 print k
  says 'what it adds' 'ok v ' calls a become 4005 add k v @s print k
  says 'what executes something as another uid' 'ok v ' calls a become 4005 add k v @s exec "$dir/calls" print k
  unshare -U true 2>/dev/null || { skipped 'other uids of a user namespace: not allowed here'; return; }
  says 'another uid of a user namespace' 'keyring;33;33;1f3f0000;_uid.33 ' \
    contain n --uids 100000 -- "$dir/calls" become 33 describe @u
  says 'a group of a user namespace' 'ok ok ok v ' \
    contain n --uids 100000 -- "$dir/calls" add k v @s chgrp 7 mode 013f0200 belong 33 7 read
  says 'another group of it' 'ok ok ok EACCES ' \
    contain n --uids 100000 -- "$dir/calls" add k v @s chgrp 7 mode 013f0200 belong 33 8 read
  says 'one of the host that the runtime has left it, which has no number there' 'ok ok ok EACCES ' \
    setpriv --groups 4005 "$dir/runtime" "$socket" n --uids 100000 -- \
    "$dir/calls" add k v @s chgrp "$(</proc/sys/kernel/overflowgid)" mode 013f0200 keep 33 read
  says 'the last uid of those that it has' 'keyring;999;999;1f3f0000;_uid.999 ' \
    contain n --uids 100000 -- "$dir/calls" become 999 describe @u
  try_nested
}

# A process that asks first, in a user namespace that it has made itself: its user keyrings are others, which are
# refused, and it doesn't say whose ids the container's are. So it is of root's, whose uid may be the agent's.
try_nested() {
  local word first who
  for word in '' --pids '--uids 100000' '--uids 100000 --pids'; do
    for first in -Ur -Urpf; do
      # shellcheck disable=SC2086 # the words are options
      says "unshare $first by the first process, ${word:-without namespaces}" 'EOPNOTSUPP EKEYREVOKED ' \
        contain n $word -- "$dir/calls" become 33 exec unshare "$first" "$dir/calls" describe @u describe @s
      for who in 33 0; do
        # shellcheck disable=SC2016,SC2086 # it is for the other shell; the words are options
        says "unshare $first by uid $who, which asks first, ${word:-without namespaces}; then another" \
          'EOPNOTSUPP keyring;34;34;1f3f0000;_uid.34 ' contain n $word -- sh -c \
          '"$0" become "$2" exec unshare "$1" "$0" describe @u; "$0" become 34 describe @u' "$dir/calls" "$first" "$who"
      done
    done
  done
}

# What fills its daemon is refused, and nobody else.
try_memory() {
  errors=$dir/memory.err # a daemon with sanitizers says there why it doesn't begin
  begin_agent --memory 48
  if [ "$(calls a serial @u 2>&1)" = ENOSYS ]; then
    skipped "limits of memory: this daemon doesn't begin within one, as with sanitizers"
  else
    says 'a container that fills its daemon' 'ok ENOMEM v ' calls a add k v @s fill @s print k
    with_container b says 'beside another one' 'ENOMEM ' calls a fill @u
  fi
  end_agent 'a limit of memory'
  errors=
}

try_containers() {
  variant=$1
  : >"$dir/$variant.err"
  begin_agent
  is 'the mode of its socket' '600' "$(stat -c %a "$socket")"
  try_calls
  try_notes
  try_sending
  with_container a try_two
  with_container a try_exec
  with_container a try_same_id
  with_container a try_apart
  try_twice
  with_container a try_held
  try_again
  try_ids
  try_other_ids
  end_agent 'containers'
  begin_agent --containers 2
  with_container a try_limits
  end_agent 'two containers'
  try_memory
}
