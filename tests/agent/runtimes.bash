# Containers of runc, crun and podman, for tests/agent.
# shellcheck shell=bash disable=SC2034,SC2154

# What crun wants where the system has both versions of cgroups: not to see the second.
first_cgroups=()
if [ -d /sys/fs/cgroup/unified ]; then
  first_cgroups=(unshare -m sh -c 'umount /sys/fs/cgroup/unified && exec "$@"' sh)
fi

script=$top/contrib/seccomp/keyretain-seccomp

# make_bundle NAME UIDS: a bundle $dir/NAME, with a root of its own
make_bundle() {
  mkdir -p "$dir/$1/rootfs"/{bin,proc,dev,tmp}
  cp "$dir/calls-static" "$dir/$1/rootfs/bin/calls"
  cp "$dir/answers-static" "$dir/$1/rootfs/bin/answers"
  cp "$dir/notes-static" "$dir/$1/rootfs/bin/notes"
  chmod -R a+rX "$dir/$1"
  chmod 1777 "$dir/$1/rootfs/tmp"
  [ "$2" = host ] || chown -R "$2:$2" "$dir/$1/rootfs"
  python3 -B "$parts/bundle.py" "$dir/$1" "$2" >"$dir/$1/plain.json"
  python3 -B "$script" --agent "$socket" --bundle "$dir/$1/plain.json" >"$dir/$1/config.json"
}

# run_bundle NAME ID: a container of a bundle, which waits for let_go
run_bundle() {
  (cd "$dir/$1" && exec "${runtime[@]}" run "$2" </dev/null >"$dir/$1/out" 2>"$dir/$1/err") &
  containers[$1]=$!
  until_true eval "[ -e '$dir/$1/rootfs/tmp/ready' ] || has_ended ${containers[$1]}"
}

let_go() {
  : >"$dir/$1/rootfs/tmp/go"
  finish "${containers[$1]}"
  cat "$dir/$1/out" "$dir/$1/err"
}

in_container() { timeout "$patience" "${runtime[@]}" exec "$@" 2>&1; }

# try_runtime NAME COMMAND ..: two containers of a runtime, one in a user namespace, and what is executed in them
try_runtime() {
  local name=$1 runtime
  local -A containers=()
  shift
  runtime=("$@" --root "$dir/$name.state")
  command -v "$name" >/dev/null || { skipped "containers of $name: not here"; return; }
  variant=plain
  begin_agent
  make_bundle "$name-one" host
  make_bundle "$name-two" 100000
  run_bundle "$name-one" "$name-one"
  if [ ! -e "$dir/$name-one/rootfs/tmp/ready" ]; then
    skipped "containers of $name: it can't run one here ($(tail -n 1 "$dir/$name-one/err"))"
  else
    try_bundles "$name"
  fi
  end_agent "$name"
}

try_bundles() {
  local one=$1-one two=$1-two notes=/bin/notes
  run_bundle "$two" "$two"
  says "$1: what is executed has the container's session" 'v ' in_container "$one" /bin/calls print kept
  says "$1: and adds to it" 'ok ' in_container "$one" /bin/calls add later w @s
  says "$1: another container has its own" 'ENOKEY v ' in_container "$two" /bin/calls print later print kept
  says "$1: another uid" 'keyring;33;33;1f3f0000;_uid.33 ENOKEY ' \
    in_container "$one" /bin/calls become 33 describe @u print kept
  says "$1: another uid of a user namespace" 'keyring;33;33;1f3f0000;_uid.33 ENOKEY ' \
    in_container "$two" /bin/calls become 33 describe @u print kept
  is "$1: all that tests/syscalls knows the answers of" '' \
    "$(diff "$dir/answers.text" <(in_container "$one" /bin/answers))"
  says "$1: pipes of notes" 'notes: no check failed ' notes_of in_container "$one"
  says "$1: the session" "keyring;0;0; _ses.$one " session_of in_container "$one" /bin/calls
  says "$1: one container" 'ok keyring;0;0;1f3f0000;_uid.0 v ' let_go "$one"
  says "$1: the other, whose uid 0 is 100000 outside" 'ok keyring;0;0;1f3f0000;_uid.0 v ' let_go "$two"
  until_true has_no_containers
  is "$1: the daemons end with the containers" '' "$(ls "$folder")"
}

# What podman is given, without its store of images.
podman_run() {
  timeout 120 "${first_cgroups[@]}" podman --storage-driver vfs --root "$dir/podman" --runroot "$dir/podman.run" \
    --cgroup-manager cgroupfs run --rm --cgroups=disabled --network none --ulimit nofile=1024:1024 \
    --ulimit nproc=1000:1000 --security-opt "seccomp=$1" --rootfs "$dir/podman-root" "${@:2}" 2>&1
}

try_podman() {
  local said
  command -v podman >/dev/null || { skipped 'containers of podman: not here'; return; }
  variant=plain
  begin_agent
  make_bundle podman-bundle host
  cp -r "$dir/podman-bundle/rootfs" "$dir/podman-root"
  if ! python3 -B "$script" --agent "$socket" >"$dir/profile.json" 2>"$dir/profile.err"; then
    skipped "containers of podman: $(<"$dir/profile.err")"
  elif ! said=$(podman_run unconfined /bin/calls); then
    skipped "containers of podman: it can't run one here (${said##*$'\n'})"
  else
    says 'podman: a container' 'ok v keyring;0;0;1f3f0000;_uid.0 ' \
      podman_run "$dir/profile.json" /bin/calls add k v @s print k describe @u
    says 'podman: the next one' 'ENOKEY ' podman_run "$dir/profile.json" /bin/calls print k
  fi
  end_agent podman
}

# The script that makes profiles, beside what the profile was.
try_profiles() {
  has_none 'profiles' python3 -B "$parts/profiles.py" "$script"
}

try_runtimes() {
  python3 -c 1 2>/dev/null || { skipped 'profiles and containers of runc, crun and podman: no python3'; return; }
  try_profiles
  if ! is_root; then
    skipped 'containers of runc, crun and podman: not root'
  elif ! cc -std=c11 -static -O1 "$parts/calls.c" -o "$dir/calls-static" 2>/dev/null ||
    ! build_answers "$dir/answers-static" -static 2>/dev/null ||
    ! build_notes notes-static -static 2>/dev/null; then
    skipped 'containers of runc, crun and podman: the C library has no static one'
  else
    try_runtime runc runc
    try_runtime crun "${first_cgroups[@]}" crun --cgroup-manager=disabled
    try_podman
  fi
}
