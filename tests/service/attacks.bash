# Clients that mean the daemon harm, or want much of it, and what it holds behind them. By python3 alone.
# shellcheck shell=bash disable=SC2154

# KiB by which the daemon's memory may have grown: behind 10000 connections one after the other, which shows what each
# would leave; and behind all attacks, which leaves what the allocator keeps of the longest replies of 16 lanes.
left_by_many=512
left_by_all=4096

# attack NAME WANTED CASE NUMBER: how many answers of the case were right
attack() {
  is "$1" "$2" "$(python3 -B "$top/tests/service/attacks.py" "$path" "$3" "$4" 2>&1 | tail -n 1)"
}

# The memory that the daemon holds.
resident() {
  local name size _
  while read -r name size _; do
    [ "$name" != VmRSS: ] || echo "$size"
  done <"/proc/$daemon/status"
}

# has_grown_little NAME BOUND
has_grown_little() {
  local growth=$(($(resident) - memory))
  is "$1: memory has grown by $growth KiB, which is at most $2" 1 "$((growth <= $2))"
}

# before_attacks LANES: a daemon each of whose lanes has been used, so that what a lane keeps is there already
before_attacks() {
  start --lanes "$1"
  holding=$(held)
  attack "$1 lanes: each before the attacks" $(($1 + 2)) lanes "$1"
  until_true holds "$holding"
  memory=$(resident)
}

# after_attacks LANES: the daemon serves on each lane as before, holds what it held, and ends when it is told to
after_attacks() {
  prints "$1 lanes: a client after the attacks" 0 $'keyring;0;0;1f3f0000;_uid.0\n' --socket "$path" rdescribe @u \
    </dev/null
  attack "$1 lanes: each after the attacks" $(($1 + 2)) lanes "$1"
  until_true holds "$holding"
  is "$1 lanes: what is held" "$holding" "$(held)"
  has_grown_little "$1 lanes" "$left_by_all"
  is "$1 lanes: nothing more is printed" "listening $path" "$(<"$log")"
  kill_daemon TERM
  is "$1 lanes: the end by SIGTERM" 143 "$status"
}

# The wanted numbers are those of the connections, and of the answers to others that are named.
try_attacks() {
  local holding memory
  before_attacks 16
  attack 'connections that end in mid-frame' 10000 cut-short 10000
  has_grown_little '10000 connections' "$left_by_many"
  attack 'clients that never read, whether they wait, and 100 others' $((15 + 1 + 100 + 1)) never-reads 15
  attack 'a full socket of a client that has sent 64 asks, 100 others, and its replies' $((1 + 100 + 64)) full-socket 64
  attack 'three seconds of a byte a second, and 100 others in each' $((3 + 1 + 300)) slow 3
  attack 'a million random bytes, in pieces and whole' $((1000 + 1)) noise 1000
  attack '34 operations, bodies of 0 to 64 bytes, three of each' $((34 * 65 * 3)) frames 64
  attack '1000 asks of both versions on one connection, and nothing behind their replies' $((1000 + 1)) mixed 1000
  attack '300 connections, none of which is served too early' $((300 + 1)) queue-up 300
  after_attacks 16
  before_attacks 256
  attack 'connections in mid-frame side by side' 200 side-by-side 200
  after_attacks 256
}
