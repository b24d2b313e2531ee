# What the tests in bash have in common: a folder and its end, checks, processes, one daemon, one guard, and programs
# that are built. The modules beside this file are what those in Python have in common: they find them by PYTHONPATH.
# shellcheck shell=bash disable=SC2034,SC2154

lib=$(dirname "$(realpath "${BASH_SOURCE[0]}")")
top=$(realpath "$lib/../..")
export PYTHONPATH=$lib PYTHONDONTWRITEBYTECODE=1
patience=60 # seconds that one answer, or the end of a process, may take
step=0.02   # seconds between two looks
passed=0 failed=0 runs=0
path='' log='' daemon='' status='' tried='' told_of='' uses=''
declare -A to=() from=() # ends of clients that stand open here
trap 'exit 1' INT TERM HUP
! command -v cc >/dev/null || [[ :$PATH: == *":$lib/compiler:"* ]] || export PATH=$lib/compiler:$PATH

# ---- A folder, and the end

# begin NAME [FOLDER]: what NAME tries. $dir is a folder of its own in FOLDER, which other users may enter; or ROOM
begin() {
  tried=$1 parts=$top/tests/$1
  if [ -n "${ROOM-}" ] && [ -z "${2-}" ]; then
    dir=$ROOM && mkdir "$dir" || exit 1
  else
    dir=$(mktemp -d "${2:-/tmp}/keyretain.XXXXXX") || exit 1
  fi
  chmod 711 "$dir"
  mkdir -m 1777 "$dir/tmp"
  export TMPDIR=$dir/tmp
  trap clean EXIT
  [ -z "${ONLY-}" ] || shopt -s extdebug
  [ -z "${ONLY-}" ] || trap 'is_chosen $BASH_COMMAND' DEBUG
}

# is_chosen WORD ..: whether a command is carried out where ONLY has patterns: those of the functions try_* that are
is_chosen() {
  local word pattern
  for word; do
    [[ $word == try_* ]] || continue
    for pattern in $ONLY; do
      # shellcheck disable=SC2053 # it is a pattern
      [[ $word == $pattern ]] && return
    done
    return 1
  done
}

# below PID: all that a process and those that it has begun have begun
below() {
  local child
  while read -rd ' ' child; do echo "$child"; below "$child"; done < <(cat "/proc/$1/task"/*/children)
} 2>/dev/null

# clean: ends what was begun here, also what its parent has left, which is known by its environment, and takes all away
clean() {
  set +e
  trap '' INT TERM HUP
  # shellcheck disable=SC2046 # these are words
  kill -KILL $(below $$; grep -lz "^TMPDIR=$dir/" /proc/[0-9]*/environ | tr -dc '0-9\n')
  wait
  rm -rf "$dir"
} 2>/dev/null

# a check whose name is mistyped would be none; a command that is only looked for has its errors thrown away
command_not_found_handle() {
  [ /dev/stderr -ef /dev/null ] && return 127
  echo "fails: there is no command $1"
  : >"${dir-/dev/null}/lacks"
  return 127
}

# within a group of its own a command wouldn't see a signal that ends these tests
timeout() { command timeout --foreground "$@"; }

# ---- Checks

# is NAME WANTED GOT: one check. Of texts of lines it tells those that the other hasn't. What fails again is
# told once
is() {
  local wanted=$2 got=$3
  if [ "$wanted" = "$got" ]; then
    passed=$((passed + 1))
  else
    failed=$((failed + 1))
    [[ $told_of != *$'\n'"$1"$'\n'* ]] || return 0
    told_of+=$'\n'$1$'\n'
    if [[ $wanted == *$'\n'* && $got == *$'\n'* ]]; then
      wanted=$(diff <(printf '%s\n' "$2") <(printf '%s\n' "$3") | sed -n 's/^< //p')
      got=$(diff <(printf '%s\n' "$2") <(printf '%s\n' "$3") | sed -n 's/^> //p')
    fi
    printf 'fails: %s: wanted %q, got %q\n' "$1" "$wanted" "$got"
  fi
}

skipped() { printf 'skipped: %s\n' "$1"; }

# judge NAME TEXT: the checks that the last line counts, `.. N passed, M failed`; what was skipped and what failed is
# printed here. What counts nothing, and skips nothing, has failed
judge() {
  local skips counts='([0-9]+) ([a-z]+ )?passed, ([0-9]+) failed$'
  skips=$(grep '^skipped: ' <<<"$2") && printf '%s\n' "$skips"
  if [[ ${2##*$'\n'} =~ $counts ]] && [ "${BASH_REMATCH[1]}${BASH_REMATCH[3]}$skips${ONLY-}" != 00 ]; then
    passed=$((passed + BASH_REMATCH[1])) failed=$((failed + BASH_REMATCH[3]))
    [ "${BASH_REMATCH[3]}" = 0 ] || printf "%s\n" "$2" | grep -v "^skipped: " | head -n 40 |
      sed "s/^fails: /fails: ${1//[\/&]/.}: /"
  else
    printf '%s\n' "$2" | head -n 40
    is "$1" 'checks that are counted' "${2##*$'\n'}"
  fi
}

# has_none NAME COMMAND ..: judges what a command prints; a signal that ends these tests needn't wait for it
has_none() {
  local within=(timeout 600)
  [ "$(type -t "$2")" != function ] || within=()
  "${within[@]}" "${@:2}" >"$dir/judged" 2>&1 </dev/null &
  wait $!
  judge "$1" "$(<"$dir/judged")"
}

# where CONDITION TEXT COMMAND ..: carries out a command where a condition in the shell's words holds, or skips that
where() { if eval "$1" >/dev/null 2>&1; then "${@:3}"; else skipped "$2"; fi; }

# are_there PROGRAM ..: else this is the end
are_there() {
  local program
  for program; do [ -x "$program" ] || is "the program $program" there 'nothing that can be run (make build)'; done
  [ "$failed" = 0 ] || conclude
}

conclude() {
  [ ! -e "${dir-}/lacks" ] || failed=$((failed + 1))
  printf '%s: %d passed, %d failed\n' "$tried" "$passed" "$failed"
  exit $((failed > 0))
}

# ---- Processes

# until_true CONDITION ..: waits for it, as long as patience lasts
until_true() {
  local end=$((SECONDS + patience))
  until "$@"; do
    [ "$SECONDS" -le "$end" ] || { echo "waited $patience seconds in vain: $*"; return 1; }
    sleep "$step"
  done
}

has_ended() { ! kill -0 "$1" 2>/dev/null; }

# finish PID: waits for a process; $status is its status, or late
finish() {
  if until_true has_ended "$1"; then
    wait "$1"
    status=$?
  else
    kill -KILL "$1"
    wait "$1"
    status=late
  fi
} 2>/dev/null

# end_by SIGNAL PID: ends a process that would go on
end_by() {
  kill "-$1" "$2"
  finish "$2"
} 2>/dev/null

# ticks_of PID: how long it has run, in hundredths of a second
ticks_of() { sed 's/.*) //' "/proc/$1/stat" | awk '{ print $12 + $13 }'; }

# sid_of PID: its session of setsid(2)
sid_of() { sed 's/.*) //' "/proc/$1/stat" | cut -d ' ' -f 4; }

has_two_lines() { [ "$(wc -l <"$1")" = 2 ]; }

# gone NAME: the keepers that a test looks for by `keepers` end
gone() { is "$1: no keeper is left" gone "$(until_true has_no_keeper && echo gone)"; }

has_no_keeper() { ! keepers >/dev/null; }

# apart COMMAND ..: becomes the command, without the ends of clients that stand open here
apart() {
  local each
  for each in "${to[@]}" "${from[@]}" ${end:+"$end"}; do exec {each}>&-; done
  exec "$@"
}

# feed NAME COMMAND ..: a command that reads what goes to $input until end_fed, and what it prints is in $dir/NAME.
# It has printed something then
feed() {
  rm -f "$dir/$1.fed"
  : >"$dir/$1"
  mkfifo "$dir/$1.fed"
  "${@:2}" <"$dir/$1.fed" >"$dir/$1" 2>&1 &
  fed=$!
  exec {input}>"$dir/$1.fed"
  until_true grep -q . "$dir/$1"
}

end_fed() {
  exec {input}>&-
  finish "$fed"
}

# as UID COMMAND ..: a command of another user
as() { setpriv --reuid "$1" --regid "$1" --clear-groups "${@:2}"; }

# ---- A daemon, and a guard before it

# start OPTION ..: a daemon on a path of its own, which listens
start() {
  runs=$((runs + 1))
  start_on "$dir/$runs.sock" "$@"
}

start_on() {
  path=$1 log=$dir/$runs.log
  apart "$keyretaind" --socket "$path" "${@:2}" >"$log" 2>"$log.told" </dev/null &
  daemon=$!
  until_true is_up
}

# serve OPTION ..: the daemon of those who name none
serve() {
  start "$@"
  export KEYRETAIN_SOCKET=$path
}

is_up() { { [ -s "$log" ] && [[ $(<"$log") == "listening $path"* ]]; } || has_ended "$daemon"; }

# What the daemon holds: threads and descriptors.
held() {
  local threads=("/proc/$daemon/task"/*) descriptors=("/proc/$daemon/fd"/*)
  echo "${#threads[@]} threads, ${#descriptors[@]} descriptors"
}

holds() { [ "$(held)" = "$1" ]; }

holds_lane() { [ "$(find "/proc/$daemon/fd" -lname 'socket:*' 2>/dev/null | wc -l)" -ge 2 ]; }

# kill_daemon SIGNAL: ends a daemon that would go on
kill_daemon() { end_by "$1" "$daemon"; }

# start_again OPTION ..: another daemon on the path of the one that has ended
start_again() {
  rm -f "$path" "$log"
  start_on "$path" "$@"
}

# on_daemon LANES COMMAND ..: a command while there is a daemon with so many lanes
on_daemon() {
  serve --lanes "$1"
  "${@:2}"
  kill_daemon TERM
}

# guard_before_it GUARD OPTION ..: that guard before the daemon, which listens at $public
guard_before_it() {
  public=$dir/$runs.public
  "$1" --listen "$public" --daemon "$path" "${@:2}" >"$dir/$runs.out" 2>"$dir/$runs.err" </dev/null &
  guard=$!
  until_true [ -s "$dir/$runs.out" ]
}

# ---- Programs that are built

sanitizers=('-fsanitize=address,undefined' -fno-sanitize-recover=all)

# can_sanitize FLAG ..: whether programs can be built with these flags, and run; SANITIZERS=none says not
can_sanitize() {
  [ "${SANITIZERS-}" != none ] || return 1
  echo 'int main(void) { return 0; }' >"$dir/empty.c"
  cc "$dir/empty.c" "$@" -o "$dir/empty" 2>/dev/null && "$dir/empty" >/dev/null 2>&1
}

# is_used NAME [FILE]: whether a function names the program, of those that ONLY has carried out; or the file does
is_used() {
  local name
  [ -n "${ONLY-}" ] || return 0
  [ -n "$uses" ] || for name in $(compgen -A function | grep -v '^build'); do
    ! is_chosen "$name" || uses+=$(declare -f "$name")
  done
  grep -qw -- "$1" <<<"$uses" || { [ -n "${2-}" ] && grep -qw -- "$1" "$2"; }
}

# compile_to PROGRAM WORD ..: what the words are compiled and linked to. A handler needn't use its argument
compile_to() {
  "${compiler:-cc}" -std=c11 -D_DEFAULT_SOURCE -g -O1 -Wall -Wextra -Wno-unused-parameter -Werror "${@:2}" -I"$lib" \
    -I"$top/c" -pthread -ldl -o "$dir/$1"
}

# make_in FOLDER WORD ..: what make(1) makes of c/ in $dir/FOLDER. Where MADE names a folder, that is kept there the
# first time, and the next only makes what has changed
make_in() {
  local kept=${MADE:+$MADE/$tried.$1}
  [ ! -d "$kept" ] || [ -e "$dir/$1" ] || cp -a "$kept" "$dir/$1" || return 1
  make -s -j 4 -C "$top/c" BUILD="$dir/$1" "${@:2}" || return 1
  [ -z "$kept" ] || [ -d "$kept" ] || cp -a "$dir/$1" "$kept"
}

# make_clients FOLDER WORD ..: the clients in C, or the targets that are named, in $dir/FOLDER for libraries in $dir
make_clients() { make_in "$1" LIBDIR="$dir" LIBEXECDIR="$dir" CFLAGS='-O1 -g -Werror' "${@:2}"; }

# make_installed: the clients in C in $dir/c, of which a session finds the library and the keeper in $dir/lib/keyretain
make_installed() {
  make_clients c LIBDIR="$dir/lib" LIBEXECDIR="$dir/lib" &&
    install -D -t "$dir/lib/keyretain" "$dir/c/libkeyutils.so.1" "$dir/c/keyretain-keeper"
}

# make_helpers PYTHON: the keeper, keyretain-session with its library, and the package with its programs: in
# $dir/installed
make_helpers() {
  local folders=(PREFIX="$dir/installed" LIBDIR="$dir/lib")
  make_clients c LIBEXECDIR="$dir/installed/libexec" "${folders[@]}" install-clients >"$dir/made" 2>&1 &&
    make -s -C "$top/python" "${folders[@]}" PYTHON="$1" install >>"$dir/made" 2>&1
}

# in_session WORD ..: keyretain-session of these
in_session() { "$dir/c/keyretain-session" "$@"; }
