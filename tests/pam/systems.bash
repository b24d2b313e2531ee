# Systems that are entered for a while, by namespaces or under a systemd of their own: for tests/pam and tests/packages.
# shellcheck shell=bash disable=SC2016,SC2034,SC2154,SC2317

first_process='' # of a system that was booted

can_enter() { [ "$(id -u)" = 0 ] && unshare --mount --pid --net --fork true 2>/dev/null; }

# in_namespaces ROOT FOLDER COMMAND ..: as root of ROOT, where FOLDER is as here, in mount, process and network
# namespaces that end with it, with a /proc and a /run of its own
in_namespaces() {
  timeout 600 unshare --mount --pid --net --ipc --uts --fork --kill-child bash -c '
    root=$1 folder=$2
    shift 2
    ip link set lo up 2>/dev/null || python3 -c "
import fcntl, socket, struct
fcntl.ioctl(socket.socket(), 0x8914, struct.pack(\"16sH14x\", b\"lo\", 1))" # SIOCSIFFLAGS, IFF_UP
    if [ "$root" != / ]; then
      mkdir -p "$root$folder" && mount --bind "$folder" "$root$folder" && mount --bind /dev "$root/dev" || exit 1
    fi
    mount -t proc proc "$root/proc" && mount -t tmpfs tmpfs "$root/run" || exit 1
    exec chroot "$root" "$@"' - "$@"
}

# unpack TAR FOLDER: but for devices, which the folder need not have
unpack() { mkdir -p "$2" && tar -xf "$1" -C "$2" --exclude='./dev/*'; }

# boot TREE: by systemd-nspawn, without a network; $container is its process, $first_process the first one within
boot() {
  systemd-nspawn --quiet --directory="$1" --register=no --keep-unit --private-network --machine=keyretain --boot \
    </dev/null >"$dir/booted" 2>&1 &
  container=$!
  until_true has_begun && until_true is_running && return
  tail -n 5 "$dir/booted"
  return 1
}

has_begun() { first_process=$(pgrep -P "$container" | head -n 1) && [ -n "$first_process" ]; }

is_running() {
  case $(within systemctl is-system-running 2>/dev/null) in running | degraded) : ;; *) return 1 ;; esac
}

# within COMMAND ..: in the system that was booted
within() {
  timeout 120 nsenter --target "$first_process" --all env -i PATH=/usr/sbin:/usr/bin:/sbin:/bin "$@" </dev/null
}

power_off() {
  within systemctl poweroff >/dev/null 2>&1
  finish "$container"
}
