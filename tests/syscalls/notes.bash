# notes.bash: pipes of notes: what is answered, what nobody may, who gets how many, what is left and what it costs.
# shellcheck shell=bash disable=SC2016,SC2034,SC2154,SC2317

# told NAME WANTED WORD ..: what the program notes prints under a supervisor
told() { prints "$1" "$2" "$dir/notes" "${@:3}"; }

has_number_of_files() { [ "$(find "/proc/$supervisor/fd" -mindepth 1 2>/dev/null | wc -l)" -le "$1" ]; }

# begin_notes COMMAND WORD ..: a shell command in a session, of which the supervisor is $supervisor; it has said so
begin_notes() {
  rm -f "$dir"/{go,end}
  : >"$dir/said"
  "$dir/$built/keyretain-session" --syscalls -- bash -c "$@" >"$dir/said" 2>&1 &
  waits=$!
  until_true grep -q . "$dir/said"
  supervisor=$(pgrep -P "$waits")
}

try_notes() {
  is "$built: what pipes of notes answer" none "$(supervised -- "$dir/notes" answers 2>&1 |
    sed 's/^notes: [0-9]* passed, 0 failed$/none/')"
  told 'one that is written to by another' 'not opened, not written, nothing sent' forge
  told 'one number that is left' 'EMFILE, 0 more, nothing told' few 1
  told 'two numbers that are left' 'made, 2 more, told' few 2
  told 'one that is read late' 'some, a loss, 0 other, then on' fill
  told 'a number that a thread changes' 'both, 0 other' race 2000
  told 'a process keyring, beside 16 pipes' 'notes right, the process keyring kept' wear 60
  [ "$(id -u)" = 0 ] || { skipped 'pipes of notes of other users: not root'; return; }
  told '40 users by one pipe' '40 watches, 120 updates, 0 wrong, one for all' together 40
  told 'users who take all that they get' '16 at most, 0 left out' users 8
}

# What another supervisor changes is told too.
try_others_notes() {
  local waits supervisor
  serve --lanes 8
  begin_notes 'exec "$0" reads -4' "$dir/notes"
  supervised -- "$dir/notes" adds
  until_true grep -q linked "$dir/said"
  is "what another supervisor's programs change is told" 'watches linked' "$(xargs <"$dir/said")"
  end_by TERM "$waits"
  kill_daemon TERM
}

# The daemon ends: whoever reads sees the end, and watches anew.
try_notes_end() {
  local waits supervisor
  serve --lanes 8
  begin_notes '"$0" reads -3 & until [ -e "$1/go" ]; do sleep 0.02; done; exec "$0" reads -4' "$dir/notes" "$dir"
  until_true grep -q watches "$dir/said"
  kill_daemon KILL
  start_again --lanes 8
  until_true grep -q end "$dir/said"
  touch "$dir/go"
  until_true has_two_watches
  is 'another daemon: who watches sees the end, and watches anew' 'watches end watches' "$(xargs <"$dir/said")"
  kill "$waits"
  finish "$waits"
  kill_daemon TERM
}

has_two_watches() { [ "$(grep -c watches "$dir/said")" = 2 ]; }

# What has been killed leaves nothing, and nothing is spent when nobody watches.
try_notes_left() {
  local waits supervisor files ticks
  serve --lanes 8
  begin_notes 'echo ready; until [ -e "$1/go" ]; do sleep 0.05; done
    for i in {1..150}; do "$0" often & sleep 0.0$((RANDOM % 40 + 10)); kill -KILL $!; wait $!; done 2>/dev/null
    echo killed; until [ -e "$1/end" ]; do sleep 0.05; done' "$dir/notes" "$dir"
  files=$(find "/proc/$supervisor/fd" -mindepth 1 | wc -l)
  touch "$dir/go"
  until_true grep -q killed "$dir/said"
  is '150 programs that are killed as they watch: descriptors of the supervisor' 'no more' \
    "$(until_true has_number_of_files $((files + 2)) && echo no more)"
  is 'connections when nobody watches' 1 "$(until_true has_one_connection; count_connections)"
  ticks=$(waits_of "$supervisor")
  sleep 1.5
  is 'how often the supervisor of nobody who watches is woken' 'twice at most' \
    "$(ticks=$(($(waits_of "$supervisor") - ticks)); [ "$ticks" -le 2 ] && echo twice at most || echo "$ticks")"
  touch "$dir/end"
  finish "$waits"
  kill_daemon TERM
}

waits_of() { sed -n 's/^voluntary_ctxt_switches:\t//p' "/proc/$1/status"; }

# A call that changes nothing that is watched asks for none of 16 queues; they are asked ten times a second.
try_notes_beside() {
  local waits supervisor tracer
  { [ "$(id -u)" = 0 ] && command -v strace >/dev/null; } ||
    { skipped 'asks beside 16 pipes: not root, or no strace'; return; }
  serve --lanes 8
  begin_notes 'exec "$0" beside 16 "$1/go" 1000' "$dir/notes" "$dir"
  strace -qq -f -p "$supervisor" -e trace=sendto -o "$dir/asks" &
  tracer=$!
  until_true is_traced "$supervisor"
  touch "$dir/go"
  finish "$waits"
  finish "$tracer"
  is '1000 calls beside 16 pipes: asks' 'some 1000' "$(asked=$(grep -c sendto "$dir/asks")
    [ "$asked" -ge 1000 ] && [ "$asked" -lt 4000 ] && echo some 1000 || echo "$asked")"
  kill_daemon TERM
}

try_notes_of_file() {
  local apart=(unshare -m) said
  [ "$(id -u)" = 0 ] || apart=(unshare -Urm)
  "${apart[@]}" true 2>/dev/null || { skipped 'a file that can not be looked at: no namespaces'; return; }
  mkdir -p "$dir/looked"
  said=$("${apart[@]}" python3 -B "$lib/served.py" "$dir/looked" getattr timeout -s KILL 30 \
    "$dir/now/keyretain-session" --syscalls -- "$dir/notes" file "$dir/looked/file" 2>/dev/null)
  case $? in
    77 | 127) skipped 'a file that can not be looked at: no python3, or no FUSE can be had here' ;;
    *) is 'a file that can not be looked at, in the place of a pipe' none "$said" ;;
  esac
}
