# The daemon and its clients, for tests/service.
# shellcheck shell=bash disable=SC2004,SC2034,SC2154

answer=''
declare -A client=()

# is_served NAME N: the daemon ends by itself after N connections, says so last, tells nothing, and its path is gone
is_served() {
  finish "$daemon"
  is "$1: the daemon's status" 0 "$status"
  is "$1: what the daemon prints" "listening $path"$'\n'"served $2" "$(<"$log")"
  is "$1: what the daemon tells" '' "$(<"$log.told")"
  is "$1: the path is gone" gone "$(path_state)"
}

path_state() { if [ -e "$path" ]; then echo there; else echo gone; fi; }

# limited NAME LIMIT: a program that is the daemon within a limit of ulimit
limited() {
  printf '#!%s\nulimit %s && exec %q "$@"\n' "$BASH" "$2" "$keyretaind" >"$dir/$1"
  chmod +x "$dir/$1"
}

# ---- Clients

# prints NAME STATUS TEXT WORD ..: keyretain with these words prints this text, and ends with this status
prints() {
  is "$1" "$3status $2" "$(timeout "$patience" "$keyretain" "${@:4}" 2>/dev/null; echo "status $?")"
}

# tells NAME TEXT WORD ..: keyretain with these words tells this on standard error
tells() { is "$1" "$2" "$(timeout "$patience" "$keyretain" "${@:3}" 2>&1 >/dev/null)"; }

# calls NAME STATUS TEXT WORD ..: the same of a single call by uid 1000
calls() { prints "$1" "$2" "$3" --socket "$path" --uid 1000 --gid 1000 "${@:4}" </dev/null; }

# runs_script NAME STATUS TEXT LINE ..: the same of a script over the socket
runs_script() { prints "$1" "$2" "$3" --socket "$path" script < <(printf '%s\n' "${@:4}"); }

# open_client NAME: a client that is given its lines one by one
open_client() {
  local name=$1 end
  mkfifo "$dir/$name.in" "$dir/$name.out"
  apart "$keyretain" --socket "$path" script <"$dir/$name.in" >"$dir/$name.out" 2>/dev/null &
  client[$name]=$!
  exec {end}>"$dir/$name.in"
  to[$name]=$end
  exec {end}<"$dir/$name.out"
  from[$name]=$end
}

# ask NAME LINE: $answer is what a client prints for a line
ask() {
  printf '%s\n' "$2" >&"${to[$1]}"
  IFS= read -r -t "$patience" answer <&"${from[$1]}" || answer='no answer'
} 2>/dev/null

# answers NAME LINE ANSWER
answers() {
  ask "$1" "$2"
  is "$1: $2" "$3" "$answer"
}

# comes NAME CONTEXT: a client of uid 1000, which is given this context
comes() {
  open_client "$1"
  answers "$1" 'hello 1000 1000' "$2"
}

# close_client NAME STATUS: its lines end
close_client() {
  local end=${to[$1]}
  exec {end}>&-
  finish "${client[$1]}"
  is "$1: its end" "$2" "$status"
  end=${from[$1]}
  exec {end}>&-
  unset "to[$1]" "from[$1]" "client[$1]"
  rm -f "$dir/$1.in" "$dir/$1.out"
}
