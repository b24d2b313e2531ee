# The two programs: their words, what they print, and their statuses.
# shellcheck shell=bash disable=SC2154

row=('hello 1000 1000' 'add user alpha s3 @u' 'print 5' 'rdescribe 5')
row_text=$'1\n5\ns3\nuser;1000;1000;3f010000;alpha\n'

# Context numbers and serials are known where HELLO follows HELLO. That a connection has ended by the time of the next
# one is sure with one lane alone.

# The program on a store of its own: the four statuses.
try_script() {
  prints 'script: all accepted' 0 "$row_text" script < <(printf '%s\n' "${row[@]}")
  prints 'script: no lines' 0 '' script </dev/null
  prints 'script: no newline at the end' 0 $'1\n' script < <(printf 'hello 1000 1000')
  prints 'script: refused, and goes on' 1 $'1\nerror 126 ENOKEY\n3\n' script \
    < <(printf '%s\n' 'hello 1000 1000' 'print 5' 'id @u')
  prints 'script: no such command' 2 $'1\nusage\n' script < <(printf '%s\n' 'hello 1000 1000' frobnicate 'print 5')
  prints 'script: the moment is set' 0 $'ok\n' script <<<'moment 1'
  prints 'script: no words' 2 $'usage\n' </dev/null
  prints 'script: a uid with script' 2 $'usage\n' --uid 1 script </dev/null
  prints 'script: lines that can not be read' 3 '' script </
  if [ -c /dev/full ]; then
    printf '%s\n' "${row[@]}" | "$keyretain" script >/dev/full 2>/dev/null
    is 'script: output that can not be written' 3 $?
  else
    skipped 'output that can not be written: no /dev/full'
  fi
  is 'script: --version' "keyretain $version"$'\nstatus 0' "$("$keyretain" --version 2>/dev/null; echo "status $?")"
  is 'script: --help' 'status 0, longest 80' \
    "$("$keyretain" --help 2>/dev/null >"$dir/help"; echo "status $?, longest $(wc -L <"$dir/help")")"
}

# two FIRST NEXT: two lines that keyretain tells
two() { printf 'keyretain: %s\nkeyretain: %s' "$1" "$2"; }

key='a serial in decimal, or @t, @p, @s, @u or @us'
frame='it fits no frame, which has 65536 bytes at most; a payload has 32767 at most'

# Why there is no connection, and what to do.
try_no_connection() {
  local long
  long=$(printf '%0100d' 0)
  tells 'no such path' "$(two '/nonexistent/socket: No such file or directory (os error 2)' \
    'start a daemon: systemctl --user start keyretaind, or keyretaind --socket PATH')" \
    --socket /nonexistent/socket print 5 </dev/null
  tells 'no such path of a script' "$(two '/nonexistent/socket: No such file or directory (os error 2)' \
    'start a daemon: systemctl --user start keyretaind, or keyretaind --socket PATH')" \
    --socket /nonexistent/socket script </dev/null
  start --accept 0
  is_served 'for a path that is left' 0
  python3 -c 'import socket, sys; socket.socket(socket.AF_UNIX).bind(sys.argv[1])' "$dir/left" 2>/dev/null &&
    tells 'nobody listens' "$(two "$dir/left: Connection refused (os error 111)" \
      'its daemon has ended: remove the path, and start one: keyretaind --socket PATH')" \
      --socket "$dir/left" print 5 </dev/null
  tells 'a path that is cut' "$(two "/${long:0:63}...: path must be shorter than SUN_LEN" \
    'a path has 107 bytes at most')" --socket "/$long$long" print 5 </dev/null
}

# Words that are no command: which is wrong, and how the command is used. What is quoted is cut, and does no harm to a
# terminal; of a command that has a payload no other word is.
try_causes() {
  local long
  long=$(printf '%0100d' 0)
  tells 'no word' 'keyretain: there is no command: see keyretain --help' </dev/null
  tells 'a call of no word' 'keyretain: there is no command: see keyretain --help' --socket "$path" </dev/null
  tells 'a call of no path' \
    'keyretain: --socket PATH is missing: where a daemon listens, which a single command is for' print 5 </dev/null
  tells 'a script of a uid' \
    'keyretain: --uid and --gid are for a single command: a script names its caller by hello' --uid 0 script </dev/null
  tells 'a word that is no text' "keyretain: an argument isn't UTF-8: hex: and digits spell any bytes of a payload" \
    --socket "$path" add user a $'\xe9' @u </dev/null
  tells 'a call that is no command' "$(two 'no such command: frobnicate' 'keyretain --help lists the commands')" \
    --socket "$path" frobnicate 5 </dev/null
  tells 'a call without its words' 'keyretain: not as it is used: add TYPE DESC DATA RING' \
    --socket "$path" add user </dev/null
  tells 'a call of a line' "$(two 'no command here: context' 'it is for scripts: keyretain --socket PATH script')" \
    --socket "$path" context 1 </dev/null
  for word in 0x5 -3 @x %user:token; do
    tells "no key: $word" "$(two 'not as it is used: print KEY' "$word is none: KEY is $key")" \
      --socket "$path" print "$word" </dev/null
  done
  tells 'no number' "$(two 'not as it is used: timeout KEY SECONDS' 'never is none: SECONDS is a decimal number')" \
    --socket "$path" timeout @u never </dev/null
  tells 'no mask' "$(two 'not as it is used: setperm KEY MASK' \
    '0x3f3f3f3f is none: MASK is 1 to 8 hexadecimal digits, without 0x')" \
    --socket "$path" setperm @u 0x3f3f3f3f </dev/null
  tells 'no entry' "$(two 'not as it is used: filter QUEUE ENTRY ..' \
    '1:0:0 is none: ENTRY is four hexadecimal numbers with colons between')" \
    --socket "$path" filter 1 1:0:0:2 1:0:0 </dev/null
  tells 'no payload' "$(two 'not as it is used: add TYPE DESC DATA RING' \
    'DATA is pairs of hexadecimal digits behind hex:')" --socket "$path" add user t hex:6 @u </dev/null
  tells 'no payload of an update' "$(two 'not as it is used: update KEY DATA' \
    'DATA is pairs of hexadecimal digits behind hex:')" --socket "$path" update 5 hex:secret </dev/null
  tells 'a payload in place of a keyring' "$(two 'not as it is used: add TYPE DESC DATA RING' "RING is $key")" \
    --socket "$path" add user t @u secret </dev/null
  tells 'a payload in place of a key' "$(two 'not as it is used: update KEY DATA' "KEY is $key")" \
    --socket "$path" update secret 5 </dev/null
  tells 'a line that is no command' \
    "$(two 'line 2: no such command: \x1b[31mh\xe9' 'keyretain --help lists the commands')" \
    script < <(printf 'hello 1 1\n\033[31mh\351 5\n')
  tells 'a long line that is no command' "$(two "line 1: no such command: ${long:0:64}..." \
    'keyretain --help lists the commands')" script <<<"$long$long"
  tells 'a line that ends as on other systems' "$(two 'line 1: not as it is used: hello UID GID [GROUP ..]' \
    '1000\r is none: GID is a decimal number')" script <<<$'hello 1000 1000\r'
  tells 'a script that ends well' '' script <<<'hello 1 1'
}

# What is told of a connection that was made.
try_told_answers() {
  tells 'a remote line that is no command' "$(two 'line 2: no such command: frobnicate' \
    'keyretain --help lists the commands')" --socket "$path" script < <(printf '%s\n' 'hello 1 1' 'frobnicate 5')
  tells 'a remote line that fits no frame' "$(two 'line 2: no command here: add' "$frame")" --socket "$path" script \
    < <(printf '%s\n' 'hello 1 1' "add user a $(printf '%070000d' 0) @u")
  tells 'a moment of the daemon' \
    "$(two 'line 1: no command here: moment' "over a socket the daemon's own clock counts")" \
    --socket "$path" script <<<'moment 5'
  tells 'a remote script that ends well' '' --socket "$path" script <<<'hello 1 1'
  tells 'a call that fits no frame' "keyretain: $frame" --socket "$path" add user a "$(printf '%070000d' 0)" @u \
    </dev/null
  tells 'a long payload' 'keyretain: a payload has 1 to 32767 bytes' \
    --socket "$path" --uid 1 add user a "$(printf '%040000d' 0)" @u </dev/null
  tells 'a type that there is none of' 'keyretain: the types are user, logon and keyring' \
    --socket "$path" --uid 1 add users a a @u </dev/null
  tells 'a logon key without a prefix' 'keyretain: the description of a logon key is PREFIX:NAME' \
    --socket "$path" --uid 1 add logon a a @u </dev/null
  tells 'a queue of a call' 'keyretain: a queue ends with its connection: open it and use it in one script' \
    --socket "$path" --uid 1 watch @u 1 0 </dev/null
  tells 'a refusal as uid 0' \
    "keyretain: it was asked as uid 0; --uid and --gid name another caller, and keyretain-guard takes one's own alone" \
    --socket "$path" print 99 </dev/null
  tells 'a refusal' '' --socket "$path" --uid 1 print 99 </dev/null
  tells 'a key that a call adds' '' --socket "$path" add user a a @u </dev/null
  tells 'an accepted call' '' --socket "$path" id @u </dev/null
}

# Standard input, output and error that are closed: no socket gets their numbers.
try_closed() {
  start --accept 3
  is 'no standard input' 0 "$(timeout "$patience" "$keyretain" --socket "$path" script <&- >/dev/null 2>&1; echo $?)"
  is 'no standard output' 3 "$(timeout "$patience" "$keyretain" --socket "$path" id @u >&- 2>/dev/null; echo $?)"
  is 'none of the three' 3 "$(timeout "$patience" "$keyretain" --socket "$path" id @u <&- >&- 2>&-; echo $?)"
  is_served 'closed descriptors' 3
}

# lists_many: a script that makes a keyring whose listing is a reply of more than 64 KiB, and prints how many it lists.
many=16400
lists_many() {
  { printf 'hello 1000 1000\n'; printf 'add user %d x @u\n' $(seq "$many"); printf 'rlist @u\n'; } |
    timeout $((patience * 3)) "$keyretain" "$@" script 2>/dev/null | tail -n 1 | wc -w
}

# A reply that is as long as a keyring's listing may be: the client takes it whole.
try_long_listing() {
  is 'a long listing of a script' "$many" "$(lists_many)"
  start --accept 1
  is 'a long listing over the socket' "$many" "$(lists_many --socket "$path")"
  is_served 'a long listing' 1
}

# answers_first NAME WORD ..: a line is answered though the next one, of which a part came with it, isn't whole yet
answers_first() {
  local name=$1 lines replies
  shift
  mkfifo "$dir/part.in" "$dir/part.out"
  "$keyretain" "$@" script <"$dir/part.in" >"$dir/part.out" 2>/dev/null &
  exec {lines}>"$dir/part.in" {replies}<"$dir/part.out"
  printf 'hello 1000 1000\nid @' >&"$lines"
  IFS= read -r -t "$patience" answer <&"$replies" || answer='no answer'
  is "$name: the first line" 1 "$answer"
  printf 'u\n' >&"$lines"
  exec {lines}>&-
  is "$name: the second line" 3 "$(cat <&"$replies")"
  exec {replies}<&-
  finish $!
  is "$name: the status" 0 "$status"
  rm "$dir/part.in" "$dir/part.out"
}

# Lines that come in pieces.
try_parts_of_lines() {
  answers_first 'a part of a line'
  start --accept 1
  answers_first 'a part of a line over the socket' --socket "$path"
  is_served 'a part of a line' 1
}

# An output whose reader has gone: the write fails, and the program says so by its status.
try_broken_pipe() {
  local end
  exec {end}> >(:)
  wait $!
  (trap '' PIPE; exec "$keyretain" script 1>&"$end" <<<'hello 1000 1000') 2>/dev/null
  is 'script: output that nobody reads' 3 $?
  exec {end}>&-
}

# daemon_tells NAME LINE WORD ..: keyretaind doesn't take these words, and this is the last line on standard error
daemon_tells() { is "daemon: $1" "$2" "$(timeout "$patience" "$keyretaind" "${@:3}" 2>&1 >/dev/null | tail -n 1)"; }

# Words of the daemon that it does not take: status 2, what it wants in their place, and no path.
try_words() {
  local words numbers='keyretaind: --lanes takes a number from 1 to 256, --accept one from 0 to 4294967295'
  path=$dir/words.sock
  for words in '' '--socket' "--socket $path --lanes 0" "--socket $path --lanes 257" "--socket $path --lanes x" \
    "--socket $path --accept x" "--socket $path --accept 4294967296" "--socket $path --frobnicate" \
    "--socket $path word" '--lanes 1 --accept 0'; do
    # shellcheck disable=SC2086 # these are words
    is "daemon: words '${words//$dir\//}'" 2 "$(timeout "$patience" "$keyretaind" $words >/dev/null 2>&1; echo $?)"
  done
  daemon_tells 'no path' "keyretaind: --socket takes the path where it listens, which isn't there yet" --lanes 1
  daemon_tells 'no number of lanes' "$numbers" --socket "$path" --lanes many
  daemon_tells 'too many connections' "$numbers" --socket "$path" --accept 4294967296
  daemon_tells 'a path that is no text' "keyretaind: an argument isn't UTF-8: see keyretaind --help" --socket $'\xe9'
  is 'daemon: a path that is no text' $'usage\nstatus 2' \
    "$(timeout "$patience" "$keyretaind" --socket $'\xe9' 2>/dev/null; echo "status $?")"
  is 'daemon: no path after bad words' gone "$(path_state)"
  is 'daemon: --version' "keyretaind $version"$'\nstatus 0' "$("$keyretaind" --version 2>/dev/null; echo "status $?")"
  is 'daemon: --help' "$(<"$top/tests/service/keyretaind.help")"$'\nstatus 0' \
    "$("$keyretaind" --help 2>/dev/null; echo "status $?")"
}

try_nobody() {
  start --accept 0
  is_served 'no connection' 0
}

# Two single calls: the contexts of the first end with its connection, and its key with them.
try_single_calls() {
  start --lanes 1 --accept 2
  calls 'a single call' 0 $'5\n' add user a s @u
  calls 'a later single call' 1 $'error 126 ENOKEY\n' print 5
  is_served 'single calls' 2
}

# Scripts over the socket. The daemon goes on, and is ended by a signal.
try_remote_scripts() {
  start
  runs_script 'remote script: all accepted' 0 "$row_text" "${row[@]}"
  runs_script 'remote script: refused, and goes on' 1 $'2\nerror 126 ENOKEY\nok\n' \
    'hello 1000 1000' 'print 99' 'context 2'
  runs_script 'remote script: moment is no command' 2 $'3\nusage\n' 'hello 1000 1000' 'moment 1' 'print 5'
  prints 'remote script: no lines' 0 '' --socket "$path" script </dev/null
  runs_script 'remote script: an ask that fits no frame' 2 $'usage\n' "add user a $(printf '%070000d' 0) @u"
  runs_script 'remote script: a text that fits no frame' 2 $'usage\n' "join $(printf '%065536d' 0)"
  runs_script 'remote script: an empty line and a comment' 0 $'4\n' '' '# one' 'hello 1000 1000'
  prints 'remote script: a uid with script' 2 $'usage\n' --socket "$path" --uid 1 script </dev/null
  prints 'single call: words that look like options' 0 $'14\n' --socket "$path" add user -k --help @u </dev/null
  for word in 'hello 1 1' 'context 1' 'moment 1' script frobnicate 'print' 'print x' 'id @u --uid 1'; do
    # shellcheck disable=SC2086 # these are words
    calls "single call: $word" 2 $'usage\n' $word
  done
  prints 'single call: uid and gid are 0' 0 $'keyring;0;0;1f3f0000;_uid.0\n' --socket "$path" rdescribe @u </dev/null
  prints 'single call: a uid and a gid' 0 $'keyring;1000;100;1f3f0000;_uid.1000\n' \
    --socket "$path" --gid 100 --uid 1000 rdescribe @u </dev/null
  prints 'single call: a uid alone' 0 $'keyring;1000;0;1f3f0000;_uid.1000\n' --socket "$path" --uid 1000 rdescribe @u \
    </dev/null
  prints 'single call: a gid alone' 0 $'keyring;0;100;1f3f0000;_uid.0\n' --socket "$path" --gid 100 rdescribe @u \
    </dev/null
  prints 'single call: no uid' 1 $'error 22 EINVAL\n' --socket "$path" --uid 4294967295 id @u </dev/null
  is 'single call: a uid that is no number' 2 \
    "$(timeout "$patience" "$keyretain" --socket "$path" --uid x id @u >/dev/null 2>&1 </dev/null; echo $?)"
  kill_daemon TERM
  is 'the daemon, ended by SIGTERM' 143 "$status"
  is 'the path that SIGTERM leaves' there "$(path_state)"
  calls 'a path that nobody listens at any more' 3 $'error: connection\n' print 5
  is_refused 'a path that is left over' "$path" 'Address already in use (os error 98)' "$in_use"
}

in_use='another daemon may use it: remove the path if none does'

# is_refused NAME PATH CAUSE [NEXT]: no daemon can have this path, and it tells why, and what to do
is_refused() {
  is "$1" $'error: socket\nstatus 3' \
    "$(timeout "$patience" "$keyretaind" --socket "$2" --accept 0 2>"$dir/told" </dev/null; echo "status $?")"
  is "$1: what is told" "keyretaind: $2: $3${4:+$'\n'keyretaind: $4}" "$(<"$dir/told")"
}

# A folder in which the daemon's user may make nothing: of root another user's daemon is tried.
try_closed_folder() {
  local closed=$dir/closed keyretaind=$keyretaind
  mkdir -m 500 "$closed"
  if [ "$UID" = 0 ]; then
    command -v setpriv >/dev/null || { skipped 'a folder that is closed to the daemon: no setpriv'; return; }
    chmod 711 "$dir"
    install -m 755 "$keyretaind" "$dir/anothers"
    printf '#!%s\nexec setpriv --reuid 65533 --regid 65533 --clear-groups %q "$@"\n' "$BASH" "$dir/anothers" \
      >"$dir/as-another"
    chmod +x "$dir/as-another"
    keyretaind=$dir/as-another
  fi
  is_refused 'a folder that is closed to it' "$closed/krs.sock" 'Permission denied (os error 13)' \
    'this user may make nothing in its folder: ls -ld'
}

try_paths() {
  local long
  path=$dir/nobody.sock
  calls 'a path that is not there' 3 $'error: connection\n' print 5
  runs_script 'a script on a path that is not there' 3 $'error: connection\n' 'hello 1000 1000'
  path=$dir/file
  : >"$path"
  calls 'a path that is a file' 3 $'error: connection\n' print 5
  is_refused 'a daemon on a file' "$path" 'Address already in use (os error 98)' "$in_use"
  is_refused 'a daemon in no folder' "$dir/none/krs.sock" 'No such file or directory (os error 2)' \
    "its folder isn't there: make it first"
  is_refused 'a daemon below a file' "$path/krs.sock" 'Not a directory (os error 20)'
  try_closed_folder
  long=$dir/$(printf "%0$((106 - ${#dir}))d" 0)
  is_refused 'a path of 108 bytes' "${long}0" 'a path has 1 to 107 bytes'
  is_refused 'an empty path' '' 'a path has 1 to 107 bytes'
  start_on "$long" --accept 0
  is_served 'a path of 107 bytes' 0
  start --accept 1
  is_refused 'a second daemon' "$path" 'Address already in use (os error 98)' "$in_use"
  is 'the path after a second daemon' there "$(path_state)"
  calls 'the first daemon after a second' 0 $'3\n' id @u
  is_served 'the first daemon' 1
}
