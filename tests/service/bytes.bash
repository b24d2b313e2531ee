# Bytes that keyretain can't send, and servers that keyretaind can't be: by python3, where that is there.
# shellcheck shell=bash disable=SC2034,SC2154

sender=()
if python3 -c 1 2>/dev/null; then
  sender=(python3 "$top/tests/service/peer.py")
fi

# send WAY HEX: what the daemon sends back for these bytes, in hexadecimal
send() { "${sender[@]}" send "$path" "$1" "${2// /}"; }

hello='14000000 0100 0001 00000000 e8030000 e8030000 00000000'
hello2='1c000000 0200 0001 00000000 0100000000000000 e8030000 e8030000 00000000'
exec2='10000000 0200 0301 01000000 0700000000000000'
add='1f000000 0100 0601 01000000 0400 75736572 0500 616c706861 02000000 7333 fcffffff'
read='0c000000 0100 0b00 01000000 05000000'

# are_answered NAME ASKS REPLIES: what a new daemon answers to these frames, sent whole and byte by byte
are_answered() {
  local way
  for way in whole bytes; do
    start --accept 1
    is "$1: $way" "${3// /}" "$(send "$way" "$2")"
    is_served "$1: $way" 1
  done
}

# Frames as other clients may send them: the worked bytes of version 1, and of both versions; and bytes that are none.
try_frames() {
  local bad replies='08000000 00000000 01000000 08000000 00000000 05000000 06000000 00000000 7333'
  are_answered frames "$hello$add$read" "$replies"
  replies='10000000 00000000 0100000000000000 01000000 08000000 00000000 05000000'
  replies+='0c000000 00000000 0700000000000000 06000000 00000000 7333'
  are_answered 'frames of both versions' "$hello2$add$exec2$read" "$replies"
  start --lanes 1
  for bad in '07000000' '01000100' '01000100 00' '08000000 0300 0301 01000000' '08000000 0200 0301 01000000' \
    '0f000000 0200 0301 01000000 00000000000000' '08000000 0200 1f00 00000000' '08000000 0100 1f00 00000000' \
    '09000000 0100 0301 01000000 00' '11000000 0200 0301 01000000 0700000000000000 00' \
    '0d000000 0100 0000 01000000 fcffffff 02'; do
    is "no frame: $bad" '' "$(send open "$bad")"
  done
  is 'a frame, and then none' 080000000000000001000000 "$(send open "$hello 07000000")"
  is 'a frame, and half of one' 080000000000000002000000 "$(send whole "$hello 0c000000 0100")"
  kill_daemon TERM
}

# A client that goes in mid-frame, and one that asks and never reads: the one lane is used again.
try_rude_clients() {
  start --lanes 1 --accept 4
  send dies "$hello 1f000000 0100 0601"
  runs_script 'after a client that died in mid-frame' 0 $'2\n5\n' 'hello 2000 2000' 'rlist @us'
  send flood "$hello"
  prints 'after a client that never read' 0 $'keyring;0;0;1f3f0000;_uid.0\n' --socket "$path" rdescribe @u </dev/null
  is_served 'rude clients' 4
}

# is_answered NAME STATUS TEXT REPLY: what a single call prints where a server answers its HELLO, whose tag is 1, so
is_answered() {
  runs=$((runs + 1))
  path=$dir/$runs.sock
  apart "${sender[@]}" answer "$path" "${4// /}" </dev/null &
  until_true test -S "$path"
  sleep "$step" # bound, and not yet listening
  prints "$1 '$4'" "$2" "$3" --socket "$path" id @u </dev/null
  finish $!
}

# is_told NAME REPLY WHY: why a single call ends where a server answers its HELLO so
is_told() {
  runs=$((runs + 1))
  path=$dir/$runs.sock
  apart "${sender[@]}" answer "$path" "$2" </dev/null &
  until_true test -S "$path"
  sleep "$step"
  tells "$1" "keyretain: $path: $3" --socket "$path" id @u </dev/null
  finish $!
}

# A server that answers with other bytes than a reply, in version 1, or with another tag, or ends before the reply does.
try_bad_servers() {
  local bad
  is_answered 'a refusal' 1 $'error 22 EINVAL\n' '0c000000 16000000 0100000000000000'
  for bad in '' '10000000' '10000000 00000000 0100000000000000 0100' '0b000000 16000000 01000000000000' '09000400' \
    '0c000000 07000000 0100000000000000' '0d000000 16000000 0100000000000000 00' '0c000000 00000000 0100000000000000' \
    '08000000 00000000 01000000' '04000000 16000000' '0c000000 16000000 0200000000000000' \
    '0c000000 16000000 0000000000000000' '0c000000 16000000 0100000001000000'; do
    is_answered 'a reply' 3 $'error: connection\n' "$bad"
  done
  is_told 'a server that ends before it replies' '' \
    'the connection failed, or gave no reply; or standard output cannot be written'
  is_told 'a guard that has no place' 0c0000007a0000000100000000000000 \
    'keyretain-guard has no place left for this user: end other clients, or raise --per-uid'
}
