# What the programs in C say of a mistake, and what they do where descriptors are closed.
# shellcheck shell=bash disable=SC2154

# says NAME STATUS TEXT COMMAND ..: how a command ends, and a part of what it says on standard error
says() {
  local name=$1 status=$2 text=$3 said
  said=$("${@:4}" 2>&1 >"$dir/said" </dev/null; echo "status $?")
  case $said in
    *"$text"*"status $status") is "message: $name" "" "$(<"$dir/said")" ;;
    *) is "message: $name" "$text, status $status" "$said" ;;
  esac
}

# lists NAME PROGRAM OPTION ..: -h and --help are the same, and have all options
lists() {
  local program=$1 option
  is "$program: -h and --help" same "$(cmp <("$dir/c/$program" -h) <("$dir/c/$program" --help) && echo same)"
  for option in "${@:2}"; do is "$program: $option" 1 "$("$dir/c/$program" -h | grep -c -e "^  $option")"; done
}

# completes WANTED WORD ..: what the completion in bash offers for the last word, sorted
completes() {
  is "completion of ${*:2}" "$1" "$(
    # shellcheck source=/dev/null
    source "$top/contrib/bash-completion/keyretain-session"
    COMP_WORDS=("${@:2}") COMP_CWORD=$(($# - 2))
    _keyretain_options "$dir/c/$2"
    printf '%s\n' "${COMPREPLY[@]}" | sort | paste -sd' '
  )"
}

try_completion() {
  completes '-- --env --help --join --syscalls --version' keyretain-session ''
  completes --syscalls keyretain-session --s
  completes '' keyretain-session --join -- ''
  completes '--help --hold' keyretain-keeper --h
  : >"$dir/socket-of-nobody"
  completes "$dir/socket-of-nobody" keyretain-session --socket "$dir/socket-of-n"
  [ ! -x "$dir/c/keyretain-agent" ] || completes '--containers' keyretain-agent --c
}

try_words_of_programs() {
  says 'a command without --' 2 '-- is missing before the command: -l' in_session ls -l
  says 'a word that is no option' 2 'no option, and no name of a session: -c' in_session -c true
  says 'a name to join' 2 '--join takes no name, and a command stands behind --: work' in_session --join work
  says '--env behind --join' 2 '--env stands before --join: A=5' in_session --join --env A=5 -- true
  says 'no command' 2 'a command stands behind --' in_session work --
  says 'a value is missing' 2 'a value of one line must follow: --name' "$dir/c/keyretain-keeper" --name
  says 'a patience' 2 '--patience is 1 to 999999: ten' "$dir/c/keyretain-keeper" --patience ten
  says 'a word of the keeper' 2 'no option: x' "$dir/c/keyretain-keeper" x
  lists keyretain-session '--join' '--syscalls' '-h, --help'
  lists keyretain-keeper '--name NAME' '--hold RING' '--socket PATH' '--deaf' '--no-link'
  [ -x "$dir/c/keyretain-agent" ] || { skipped 'words of the agent: no jansson.h (libjansson-dev)'; return; }
  lists keyretain-agent '--socket PATH' '--folder PATH' '--daemon PROGRAM' '--containers N' '--memory MEBIBYTES'
  says 'a number of the agent' 2 'no number from 1 to 4096: x' "$dir/c/keyretain-agent" --containers x
  says 'no containers' 2 'no number from 1 to 4096: 0' "$dir/c/keyretain-agent" --containers 0
  says 'a word of the agent' 2 'no option: x' "$dir/c/keyretain-agent" x
}

try_faults() {
  says 'no daemon' 3 'where no daemon is: unset it, or start one there' env KEYRETAIN_SOCKET="$dir/none" \
    "$dir/c/keyretain-session" -- true
  mv "$dir/keyretain/libkeyutils.so.1" "$dir/aside"
  says 'no library' 3 'keyretain/libkeyutils.so.1: No such file or directory' in_session -- true
  mv "$dir/aside" "$dir/keyretain/libkeyutils.so.1"
  says 'a dot' 1 'a name begins with no dot' in_session .x -- true
  says 'a long name' 1 'a name has at most 4095 bytes' in_session "$(printf %04096d 0)" -- true
  says 'an end of line' 1 'a name has no end of line' in_session $'a\nb' -- true
  says 'a session that is gone' 1 'begin one by keyretain-session' env KEYRETAIN_SESSION=5:nobody \
    "$dir/c/keyretain-session" --join -- true
  says 'no session' 1 'begins one' env -u KEYRETAIN_SESSION "$dir/c/keyretain-session" --join -- true
}

# What is closed is filled before anything is opened, and is closed for the command as before.
try_closed_descriptors() {
  # shellcheck disable=SC2016 # the command's own
  is 'the descriptors of a command' closed "$(in_session -- sh -c '[ -e /proc/$$/fd/0 ] || echo closed' <&-)"
  is 'a keeper without a pipe' 1 "$("$dir/c/keyretain-keeper" <&- >/dev/null 2>&1; echo $?)"
  is 'a keeper that cannot answer' 1 "$("$dir/c/keyretain-keeper" </dev/null 2>/dev/null >&-; echo $?)"
}

# A secret in a variable, of the user keyring and of a session that has another one.
try_variables() {
  local key
  # shellcheck disable=SC2016 # the command's own
  is 'variables of keys' 's3 s3 4' "$(in_session work -- sh -c '
    keyctl add user token s3 @s >/dev/null; key=$(keyctl add user plain "s3 4" @s)
    exec "$0" --env "A=%user:token" --env "B=$key" --join -- sh -c "echo \$A \$B"' "$dir/c/keyretain-session")"
  says 'no such key, and what to do' 1 'keyctl show tells which it has' in_session --env TOKEN=%user:none -- true
  says 'no such key' 1 'none: Required key not available' in_session --env TOKEN=%user:none -- true
  # shellcheck disable=SC2016 # the command's own
  says 'a null byte' 1 'null: Invalid argument' in_session -- sh -c 'printf "a\\0b" | keyctl padd user null @s >&2
    exec "$0" --env TOKEN=%user:null --join -- true' "$dir/c/keyretain-session"
  # shellcheck disable=SC2016 # the command's own
  says "another user's key" 1 'planted: Required key not available' env PYTHONPATH="$top/python" \
    python3 -B "$parts/planted.py" "$path" "$dir/c/keyretain-session" -- sh -c 'keyctl link "$PLANTED" @s
    exec "$0" --env TOKEN=%user:planted --join -- true' "$dir/c/keyretain-session"
  # shellcheck disable=SC2016 # the command's own
  says "another user's keyrings, nested too deeply" 0 '' env PYTHONPATH="$top/python" \
    python3 -B "$parts/planted.py" "$path" "$dir/c/keyretain-session" -- \
    sh -c 'keyctl link "$PLANTED" @u && exec "$0" -- true' "$dir/c/keyretain-session"
  for key in TOKEN 1T=5 TOKEN= TOKEN=%logon:a:b TOKEN=5x TOKEN=%user:; do
    says "--env $key" 2 '--env is VARIABLE=' in_session --env "$key" -- true
  done
  says '--env alone' 2 '--env is VARIABLE=' in_session --env
  says 'with --syscalls' 2 'not for --syscalls' in_session --env TOKEN=5 --syscalls -- true
  says 'behind --syscalls' 2 'not for --syscalls: TOKEN=5' in_session --syscalls --env TOKEN=5 -- true
}

try_messages() {
  serve --lanes 4
  if command -v keyctl >/dev/null; then try_variables; else skipped 'keyretain-session --env: no keyctl'; fi
  try_words_of_programs
  try_completion
  try_faults
  try_closed_descriptors
  kill_daemon TERM
  rm -f "$path"
}
