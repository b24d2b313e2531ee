# Ends of agents, servers and daemons, hostile runtimes, and who may connect, for tests/agent.
# shellcheck shell=bash disable=SC2016,SC2034,SC2154

children() { cat "/proc/$1/task/$1/children" 2>/dev/null; }

state_of() { sed -n 's/^State:\t\(.\).*/\1/p' "/proc/$1/status" 2>/dev/null; }

is_in_state() { [ "$(state_of "$1")" = "$2" ]; }

# A process that is being taken away is X for a moment.
is_gone() { [[ $(state_of "$1") == ?([XZ]) ]]; }

# find_processes: $server and $keeper are the server and the daemon of the one container
find_processes() {
  read -r server < <(children "$agent")
  read -r keeper < <(children "$server")
}

options=() # of the runtime that begins it

# begin_container ID WORD ..: a container that has a key, waits, and then makes these calls. $first is its first process
begin_container() {
  rm -f "$dir/go" "$dir/ready"
  contain "$1" "${options[@]}" -- "$dir/calls" add kept v @s put "$dir/ready" await "$dir/go" "${@:2}" \
    >"$dir/container.out" &
  container=$!
  until_true [ -s "$dir/ready" ]
  first=$(<"$dir/ready")
  find_processes
}

# end_container NAME LINES: what it has said after it was let go
end_container() {
  : >"$dir/go"
  finish "$container"
  says "$1" "ok $2" cat "$dir/container.out"
}

# one_goes NAME: a container works
one_goes() { says "$1" 'ok w ' calls x add k w @s print k; }

# ---- Processes that are killed

try_daemon_killed() {
  begin_container a print kept add k v @s print k
  kill -KILL "$keeper"
  until_true is_gone "$keeper"
  one_goes 'another container, where a daemon was killed'
  : >"$dir/go"
  finish "$container"
  is 'a container whose daemon was killed' 'ok' "$(head -n 1 "$dir/container.out")"
  is 'what it gets is an error' '' "$(tail -n +2 "$dir/container.out" | grep -vE '^E[A-Z]+$')"
  is 'in the end that there are no keys' ENOSYS "$(tail -n 1 "$dir/container.out")"
  until_true has_no_containers
  says 'another of its id' 'ENOKEY ok v ' calls a print kept add k v @s print k
}

try_server_killed() {
  begin_container a print kept add k v @s
  kill -KILL "$server"
  until_true is_gone "$keeper"
  is 'a daemon whose server was killed' 1 "$(is_gone "$keeper" && echo 1)"
  until_true has_no_containers
  end_container 'a container whose server was killed' 'ENOSYS ENOSYS '
  says 'another of its id, where a server was killed' 'ENOKEY ok v ' calls a print kept add k v @s print k
}

try_agent_killed() {
  begin_container a print kept add k v @s
  end_by KILL "$agent"
  until_true is_gone "$server"
  until_true is_gone "$keeper"
  is 'a server whose agent was killed' 1 "$(is_gone "$server" && is_gone "$keeper" && echo 1)"
  end_container 'a container whose agent was killed' 'ENOSYS ENOSYS '
  is 'what it leaves' 'there 1' "$(if [ -S "$socket" ]; then echo there; fi) $(find "$folder" -type s | wc -l)"
  begin_agent_at
  is 'what another agent leaves of that' 0 "$(find "$folder" -type s | wc -l)"
  one_goes 'a container of another agent'
}

try_agent_ended() {
  begin_container a print kept add k v @s
  end_agent 'an agent with a container'
  is 'how much is lost' 'keyretain-agent: ends, and the keys of 1 containers with it' \
    "$(tail -n 1 "${errors:-$dir/$variant.err}")"
  is 'its server and its daemon' 1 "$(is_gone "$server" && is_gone "$keeper" && echo 1)"
  end_container 'a container whose agent has ended' 'ENOSYS ENOSYS '
}

# Its server reads a page of a file system that the container serves, which doesn't come.
try_held_server() {
  local held=$dir/paged
  { is_root && python3 -c 1 2>/dev/null; } ||
    { skipped 'a server that waits for memory: not root, no setpriv, or no python3'; return; }
  rm -rf "$held" "$held.held" && mkdir "$held"
  begin_agent
  unshare -m python3 -B "$lib/served.py" "$held" read "$dir/runtime" "$socket" a -- sh -c 'echo $$ >"$0.pid"
    exec "$@"' "$held" python3 -c "$asks_by_file" "$held/file" </dev/null >/dev/null 2>&1 &
  container=$!
  until_true is_held_or_none
  if [ -e "$held.held" ]; then
    end_agent 'an agent of which a server waits for memory'
    kill -KILL "$(<"$held.pid")"
  else
    skipped 'a server that waits for memory: no FUSE can be had here'
    end_agent 'an agent of which no server waits for memory'
  fi
  finish "$container"
}

is_held_or_none() { [ -e "$dir/paged.held" ] || is_gone "$container"; }

asks_by_file='import ctypes, mmap, os, sys
memory = mmap.mmap(os.open(sys.argv[1], os.O_RDONLY), 1, mmap.MAP_PRIVATE)
words = [b"user", ctypes.byref(ctypes.c_char.from_buffer(memory)), b"v", ctypes.c_size_t(1), -3]
ctypes.CDLL(None).syscall(217 if os.uname().machine == "aarch64" else 248, *words)'

# An orphan of a container, which has executed nothing, asks; then it gives its session to its parent. That is one that
# isn't served, as another container's first process, and is within execve(2), which waits to close a file.
try_held_parent() {
  local held=$dir/above said
  { is_root && python3 -c 1 2>/dev/null; } ||
    { skipped 'an orphan whose parent is held up: not root, no setpriv, or no python3'; return; }
  rm -rf "$held" "$held".*
  mkdir "$held"
  begin_agent
  said=$(unshare -m python3 -B "$lib/served.py" "$held" flush bash -c 'python3 -c "$1" "$0/file" "${@:2}" >"$0.said" &
    for _ in {1..500}; do [ ! -s "$0.said" ] || break; sleep 0.02; done
    cat "$0.said"' "$held" "$is_above" "$dir/runtime" "$socket" a -- python3 -c "$is_orphan" "$held.held" \
    </dev/null 2>/dev/null)
  case $? in
    77) skipped 'an orphan whose parent is held up: no FUSE can be had here' ;;
    *) is 'an orphan whose parent is held up' 'True -1' "$said" ;;
  esac
  end_agent 'an agent beside a process that is held up'
}

is_above='import ctypes, os, sys
ctypes.CDLL(None).prctl(36, 1) # PR_SET_CHILD_SUBREAPER
if os.fork() == 0:
    os.execv(sys.argv[2], sys.argv[2:])
os.open(sys.argv[1], os.O_RDONLY)
os.execvp("true", ["true"])'

is_orphan='import ctypes, os, sys, time
keyctl, libc, parent = 219 if os.uname().machine == "aarch64" else 250, ctypes.CDLL(None), os.getpid()
if os.fork() > 0:
    os._exit(0)
while os.getppid() == parent or not os.path.exists(sys.argv[1]):
    time.sleep(0.02)
print(libc.syscall(keyctl, 0, -3, 0) > 0, libc.syscall(keyctl, 18))'

# ---- A listener that is on its way while the server ends

try_stopped_server() {
  local next before
  begin_container a
  kill -STOP "$server"
  until_true is_in_state "$server" T
  before=$(count_more)
  executes a await "$dir/go" print kept >"$dir/next.out" &
  next=$!
  until_true has_more "$before"
  end_container 'a container that ends while its server is stopped' ''
  try_old_id
  kill -CONT "$server"
  finish "$next"
  says 'what was executed in it, and is left behind' 'v ' cat "$dir/next.out"
}

count_more() { grep -c 'container a: one more' "$dir/$variant.err"; }

has_more() { [ "$(count_more)" -gt "$1" ]; }

# The server of a container that has ended is there: another one of its id isn't served by that.
try_old_id() {
  says 'another of its id, while its server is there' 'ENOKEY ok v ' calls a print kept add k v @s print k
  says "one whose first process has that one's number" 'ENOKEY ' executes a print kept
  says 'one of which no process id is told' 'ENOKEY ' contain a --pid 0 -- "$dir/calls" print kept
  if unshare -U true 2>/dev/null; then
    says 'one that has a user namespace' 'keyring;0;0;1f3f0000;_uid.0 ' contain a --uids own -- "$dir/calls" describe @u
  fi
}

# What a server that goes no further isn't given any more, and the agent waits for nothing.
try_full_server() {
  begin_container a
  kill -STOP "$server"
  until_true is_in_state "$server" T
  is 'more listeners than a stopped server can be given' '' "$(contain a --often 500 --pid "$first" -- true)"
  one_goes 'another container, beside a server that takes none'
  is 'the others are refused' 1 "$(grep -q 'container a: there are too many' "$dir/$variant.err" && echo 1)"
  kill -KILL "$server"
  until_true has_no_containers
  end_container 'a container whose server takes none' ''
}

# The server has ended, and the agent takes the next listener before it learns of that. The first process that the
# runtime tells lives on.
try_ended_server() {
  local next before options=(--pid "$$")
  rm -f "$dir/half" "$dir/rest"
  begin_container a
  before=$(count_descriptors)
  contain a "${options[@]}" --halves "$dir/half" "$dir/rest" -- \
    "$dir/calls" print kept add k v @s print k >"$dir/next.out" &
  next=$!
  until_true [ -e "$dir/half" ]
  until_true has_more_descriptors "$before" # it has taken the connection, where that can be seen
  kill -STOP "$agent"
  until_true is_in_state "$agent" T
  end_container 'a container that ends while its agent is stopped' ''
  until_true is_in_state "$server" Z
  : >"$dir/rest"
  until_true [ ! -e "$dir/rest" ] # the other bytes are sent
  kill -CONT "$agent"
  finish "$next"
  says 'the next one, of which the agent hears first' 'ENOKEY ok v ' cat "$dir/next.out"
}

# ---- How it is started, and ended

# By somebody who ignores the ends of children, and has no standard input: then nothing of it gets that number.
try_started() {
  # shellcheck disable=SC2016 # words of the other shell
  within=(bash -c 'trap "" CHLD; exec "$0" "$@" <&-')
  begin_agent --containers 1
  one_goes 'an agent whose caller ignores SIGCHLD'
  until_true has_no_containers
  one_goes 'the next container, of one at a time'
  where is_root 'a standard input that was closed: only root may look' \
    is 'a standard input that was closed' /dev/null "$(readlink "/proc/$agent/fd/0")"
  end_by INT "$agent"
  is 'an agent that is interrupted' 0 "$status"
  is 'what it leaves' '' "$(ls "$folder")"
  within=()
}

# ---- A daemon that isn't there

# In the daemon's place a program that says something else, and stays.
try_no_daemon() {
  local keyretaind=$dir/says-else
  printf '%s\n' '#include <stdio.h>' '#include <unistd.h>' \
    'int main(void) { return puts("listens to nothing") < 0 || fflush(stdout) || pause(); }' >"$dir/else.c"
  "${CC:-cc}" "$dir/else.c" -o "$keyretaind"
  begin_agent
  says 'a daemon that does not listen' 'ENOSYS ' calls a print k
  until_true has_no_children
  is 'what is left of it' '' "$(children "$agent")"
  is 'what is told of it' 'its daemon has ended before it listened, or is another program' \
    "$(sed -n 's/^keyretain-agent: container a: \(its daemon.*\)/\1/p' "$dir/$variant.err" | tail -n 1)"
  end_agent 'a daemon that does not listen'
}

has_no_children() { [ -z "$(children "$agent")" ]; }

# Where no copy of its program can be had, none begins into which others of its uid may look.
try_no_copy() {
  within=(strace -D -f -qq -o /dev/null -e trace=memfd_create -e inject=memfd_create:error=EACCES)
  if ! "${within[@]}" true 2>/dev/null; then
    skipped 'a daemon without a copy: no strace, or it may not trace'
    within=()
    return
  fi
  begin_agent
  says 'a daemon without a copy' 'ENOSYS ' calls a print k
  is 'what is told of that' "$keyretaind: Permission denied" \
    "$(sed -n 's/^keyretain-agent: container a: \(.*denied\)$/\1/p' "$dir/$variant.err" | tail -n 1)"
  end_agent 'a daemon without a copy'
  within=()
}

# ---- Where it listens

# refuses NAME OPTION ..: an agent that doesn't begin
refuses() {
  timeout "$patience" "$dir/$variant/keyretain-agent" --daemon "$keyretaind" "${@:2}" \
    >/dev/null 2>>"$dir/$variant.err" </dev/null
  is "$1" 3 "$?"
}

# In a PID namespace without a /proc of its own each number there would mean another process.
try_strange_numbers() {
  local apart=(unshare --pid --fork --kill-child)
  is_root || apart=(unshare --user --map-root-user --pid --fork --kill-child)
  "${apart[@]}" true 2>/dev/null ||
    { skipped 'an agent whose /proc has other numbers: no PID namespace may be made'; return; }
  timeout -k 1 "$patience" "${apart[@]}" "$dir/$variant/keyretain-agent" --daemon "$keyretaind" \
    --socket "$dir/other.sock" --folder "$dir/other" >/dev/null 2>>"$dir/$variant.err" </dev/null
  is 'an agent whose /proc has other numbers' 3 "$?"
}

try_places() {
  mkdir -m 755 "$dir/open"
  mkdir -m 710 "$dir/group"
  mkdir -m 700 "$dir/private" "$dir/another"
  ln -s "$dir/private" "$dir/link"
  : >"$dir/file"
  refuses 'a second agent on a socket' --socket "$socket" --folder "$dir/other"
  refuses 'a second agent on a folder' --socket "$dir/other.sock" --folder "$folder"
  refuses 'a folder that others may enter' --socket "$dir/other.sock" --folder "$dir/open"
  refuses 'a folder that its group may enter' --socket "$dir/other.sock" --folder "$dir/group"
  refuses 'a folder that is a link' --socket "$dir/other.sock" --folder "$dir/link"
  if is_root; then
    chown 4005 "$dir/another"
    refuses "another user's folder" --socket "$dir/other.sock" --folder "$dir/another"
  else
    skipped "another user's folder, and another user's socket that is passed: not root"
  fi
  refuses 'a file in the place of the socket' --socket "$dir/file" --folder "$dir/other"
  is 'that file' 'there' "$(if [ -f "$dir/file" ]; then echo there; fi)"
  refuses 'a path that is too long' --socket "$dir/$(printf '%0120d' 0)" --folder "$dir/other"
  refuses 'a folder whose path is too long' --socket "$dir/other.sock" --folder "$dir/$(printf '%0120d' 0)"
  refuses 'a daemon that lacks' --socket "$dir/other.sock" --folder "$dir/other" --daemon "$dir/none"
  refuses 'a folder that lacks' --socket "$dir/other.sock" --folder "$dir/none/none"
  try_strange_numbers
  one_goes 'the first agent, after all that'
  rm -rf "$dir/open" "$dir/group" "$dir/private" "$dir/another" "$dir/link" "$dir/other"
}

# passed MODE UID: an agent whose socket is passed, has this mode, and is this user's
passed() {
  agents=$((agents + 1))
  socket=$dir/$agents.sock folder=$dir/$agents.folder
  python3 -B "$parts/passed.py" "$socket" "$1" "$2" "$dir/$variant/keyretain-agent" --folder "$folder" \
    --daemon "$keyretaind" --memory 0 >"$dir/agent.out" 2>>"$dir/$variant.err" </dev/null &
  agent=$!
}

try_passed() {
  python3 -c 1 2>/dev/null || { skipped 'sockets that are passed: no python3'; return; }
  passed 600 "$(id -u)"
  until_true grep -q 'listening (passed)' "$dir/agent.out"
  one_goes 'an agent whose socket is passed'
  end_by TERM "$agent"
  is 'its status' 0 "$status"
  is 'the socket stays' there "$(if [ -S "$socket" ]; then echo there; fi)"
  passed 606 "$(id -u)"
  finish "$agent"
  is 'a socket to which all may connect' 3 "$status"
  passed 660 "$(id -u)"
  finish "$agent"
  is 'a socket to which its group may connect' 3 "$status"
  is_root || return 0
  passed 600 4005
  finish "$agent"
  is "another user's socket" 3 "$status"
}

as_another() { setpriv --reuid 4005 --regid 4005 --clear-groups "$@" 2>&1; }

try_peers() {
  is_root || { skipped 'runtimes of other users: not root, or no setpriv'; return; }
  says "another user's runtime" "$socket: Permission denied " \
    as_another "$dir/runtime" "$socket" a -- "$dir/calls" print k
  chmod 666 "$socket"
  says 'where it can connect' 'ENOSYS ' as_another "$dir/runtime" "$socket" a -- "$dir/calls" print k
  chmod 600 "$socket"
}

# ---- Rights

# With no more capabilities than the unit has, containers go as with all. The numbers are those of capabilities(7).
try_unit_rights() {
  local -A numbers=([CAP_DAC_OVERRIDE]=1 [CAP_SYS_PTRACE]=19 [CAP_SYS_RESOURCE]=24)
  local name names option=--bounding-set=-all most=0
  is_root || { skipped 'the rights of the unit: not root'; return; }
  names=$(sed -n 's/^CapabilityBoundingSet=//p' "$top/contrib/systemd/keyretain-agent.service")
  for name in $names; do option+=,+${name#CAP_} most=$((most | 1 << numbers[$name])); done
  within=(setpriv "${option,,}")
  begin_agent
  is 'what an agent of the unit has beside its capabilities' 0 "$((16#$(field "$agent" CapEff) & ~most))"
  try_calls
  try_other_ids
  end_agent 'an agent of the unit'
  within=()
}

# field PID NAME: what the kernel says of a process
field() { sed -n "s/^$2:\t//p" "/proc/$1/status"; }

try_rights() {
  begin_container a
  is 'capabilities of a daemon' '0000000000000000 0000000000000000' \
    "$(field "$keeper" CapPrm) $(field "$keeper" CapEff)"
  is 'new privileges of a daemon' 1 "$(field "$keeper" NoNewPrivs)"
  is 'signals that a daemon holds back' 0000000000000000 "$(field "$keeper" SigBlk)"
  is 'core files of a daemon' 0 "$(sed -n 's/^Max core file size *\([^ ]*\).*/\1/p' "/proc/$keeper/limits")"
  if [ "$(id -u)" = 0 ]; then
    is 'environment of a daemon' 'MALLOC_ARENA_MAX=1 LD_BIND_NOW=1 ' \
      "$(tr '\0' ' ' <"/proc/$keeper/environ" 2>/dev/null)"
    is "descriptors of a daemon that aren't its own" '' "$(foreign_descriptors "$keeper")"
  else
    is 'who looks into an agent' 'no no no' "$(looks_into "$agent") $(looks_into "$server") $(looks_into "$keeper")"
  fi
  where is_root "descriptors of a server that aren't its own: only root may look" \
    is "descriptors of a server that aren't its own" '' "$(foreign_descriptors "$server")"
  end_container 'a container that was looked at' ''
}

# What isn't a socket, a listener, an event, a file of /proc, or /dev/null and what the test gave.
foreign_descriptors() {
  local entry
  for entry in "/proc/$1/fd"/*; do
    [ "${entry##*/}" -le 2 ] || readlink "$entry"
  done | grep -vE '^(socket:|anon_inode:|/proc/[0-9]+/|/dev/null$)'
}

looks_into() { if ls "/proc/$1/fd" >/dev/null 2>&1; then echo yes; else echo no; fi; }

# ---- Hostile runtimes

count_descriptors() { find "/proc/$agent/fd" -mindepth 1 2>/dev/null | wc -l; }

has_more_descriptors() { [ "$1" = 0 ] || [ "$(count_descriptors)" -gt "$1" ]; }

has_descriptors() { [ "$(count_descriptors)" = "$1" ]; }

try_hostile() {
  local before memory ticks seed=$RANDOM
  python3 -c 1 2>/dev/null || { skipped 'hostile runtimes: no python3'; return; }
  before=$(count_descriptors)
  memory=$(field "$agent" VmSize)
  for _ in 1 2 3; do # on a busy machine it runs longer; one that spins does so each time
    ticks=$(ticks_of "$agent")
    has_none 'hostile runtimes' python3 -B "$parts/hostile.py" "$socket" "$seed"
    one_goes 'a container after hostile runtimes'
    until_true has_no_containers
    ticks=$(($(ticks_of "$agent") - ticks))
    [ "$ticks" -ge 30 ] || break
  done
  until_true has_descriptors "$before"
  is 'descriptors of an agent after hostile runtimes' "$before" "$(count_descriptors)"
  memory=$(($(kibibytes "$(field "$agent" VmSize)") - $(kibibytes "$memory")))
  is 'how long an agent runs for hostile runtimes' 'less than a third of a second' \
    "$([ "$ticks" -lt 30 ] && echo 'less than a third of a second' || echo "$ticks hundredths of a second")"
  is 'memory that they leave in an agent' 'less than a state a runtime' \
    "$([ "$memory" -lt 65536 ] && echo 'less than a state a runtime' || echo "$memory kB")"
}

kibibytes() { tr -dc 0-9 <<<"$1"; }

# what sanitizers say
say_none() { is "$1: what sanitizers say" '' "$(grep -m 1 -E 'Sanitizer|runtime error' "$dir/$variant.err")"; }

try_ends() {
  variant=$1
  begin_agent
  try_daemon_killed
  try_server_killed
  try_stopped_server
  try_full_server
  try_ended_server
  try_places
  try_peers
  try_rights
  try_hostile
  try_agent_killed
  try_agent_ended
  try_held_server
  try_held_parent
  try_passed
  try_started
  try_no_daemon
  try_no_copy
  try_unit_rights
  say_none "$variant"
}
