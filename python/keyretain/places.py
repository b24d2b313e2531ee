"""Where the daemon is looked for, and who has to listen there before anything is told to it."""
from __future__ import annotations

import ctypes
import enum
import errno
import os
import stat
import struct
from typing import NamedTuple, Optional, Union

SYSTEM_PATH = "/run/keyretain/keyretain.sock"
AT_SECURE = 23  # getauxval(3)
OVERFLOW_UID, ALL_UIDS = 65534, 0xFFFFFFFF  # user_namespaces(7)
PROC_SUPER_MAGIC, STATFS_ROOM = 0x9FA0, 256  # statfs(2), whose structure is smaller

Path = Union[str, bytes, "os.PathLike[str]"]


class Peer(NamedTuple):
    """Who listened when the connection was made: unix(7), SO_PEERCRED."""

    pid: int
    uid: int
    gid: int


class Trust(enum.Enum):
    """Who may listen. A path that was found in the runtime directory must be the effective user's."""

    OWN = "the effective user"
    SYSTEM = "the system's daemon or root"
    NAMED = "the effective user, the system's daemon or root"
    ANY = "anybody"


class Place(NamedTuple):
    """A path, who may listen there, and for whom."""

    path: Path
    trust: Trust
    user: int


def environment(name: str) -> str:
    """A variable, where the environment is the user's own: a program that runs set-uid has another's."""
    return "" if RUNS_SET_UID else os.environ.get(name, "")


def _is_secure_by_library() -> bool:
    """The same by getauxval(3). Where Python can't ask it, the answer is the safe one."""
    try:
        import ctypes  # pylint: disable=import-outside-toplevel # few programs want it
        getauxval = ctypes.CDLL(None).getauxval
    except (ImportError, OSError, AttributeError):
        return True
    getauxval.argtypes, getauxval.restype = [ctypes.c_ulong], ctypes.c_ulong
    return bool(getauxval(AT_SECURE))


def _is_secure() -> bool:
    """What the kernel says of this program. The file is root's alone where the program was given capabilities, or has
    changed its ids."""
    try:
        with open("/proc/self/auxv", "rb") as vector:
            return any(key == AT_SECURE and value for key, value in struct.iter_unpack("@2L", vector.read()))
    except PermissionError:
        return _is_secure_by_library()
    except (OSError, struct.error):
        return os.getuid() != os.geteuid() or os.getgid() != os.getegid()


# Whether the kernel gave this program rights that whoever started it hadn't, as secure_getenv(3) asks. It stays so.
RUNS_SET_UID = _is_secure()


def _runtime_directory() -> str:
    """$XDG_RUNTIME_DIR, unless it is another user's: su(1) may keep it."""
    named = environment("XDG_RUNTIME_DIR")
    try:
        if named and os.stat(named).st_uid == os.geteuid():
            return named
    except OSError:
        pass
    return f"/run/user/{os.geteuid()}"


def _is_set_up(folder: str) -> bool:
    """Whether the user has set up a daemon, which may be down."""
    try:
        os.stat(folder)
    except (FileNotFoundError, NotADirectoryError):
        return False
    except OSError:
        pass
    return True


def find() -> Place:
    """$KEYRETAIN_SOCKET; else the socket in the user's runtime directory, if that has a folder for it; else the
    system's. A daemon of one's own that is down isn't replaced by the system's, which others may ask."""
    if named := environment("KEYRETAIN_SOCKET"):
        return Place(named, Trust.NAMED, os.geteuid())
    folder = _runtime_directory() + "/keyretain"
    if not RUNS_SET_UID and _is_set_up(folder):
        return Place(folder + "/keyretain.sock", Trust.OWN, os.geteuid())
    return Place(SYSTEM_PATH, Trust.SYSTEM, os.geteuid())


def default_path() -> Path:
    """Where a Client without a path connects."""
    return find().path


def place_of(path: Optional[Path], trust: Optional[str]) -> Place:
    """That of a Client with these arguments. `trust` is "any" for a program that doesn't ask who listens at a path that
    is named."""
    if trust not in (None, "any"):
        raise ValueError(f'trust is None or "any", not {trust!r}')
    place = find() if path is None else Place(path, Trust.NAMED, os.geteuid())
    spelled = os.fsencode(place.path)
    if not spelled:
        raise FileNotFoundError(errno.ENOENT, os.strerror(errno.ENOENT), place.path)
    if b"\0" in spelled:
        raise ValueError("a path with a null byte: an abstract name is anybody's to take")
    return place._replace(trust=Trust.ANY) if trust and place.trust is Trust.NAMED else place


def _has_proc() -> bool:
    """Whether /proc is proc(5): below another user's root directory any file may stand there. statfs(2) tells the type
    first, which nothing in Python's library does."""
    status = ctypes.create_string_buffer(STATFS_ROOM)
    is_told = ctypes.CDLL(None).statfs(b"/proc", status) == 0
    return is_told and ctypes.c_long.from_buffer(status).value == PROC_SUPER_MAGIC


def _is_one_user(uid: int) -> bool:
    """Whether it is the number of one user, and not of all who have none: in a user namespace that hasn't all uids."""
    try:
        if not _has_proc():
            return uid != OVERFLOW_UID
        with open("/proc/sys/kernel/overflowuid", "rb") as unknown, open("/proc/self/uid_map", "rb") as numbers:
            return uid != int(unknown.read()) or int(numbers.readline().split()[2]) == ALL_UIDS
    except (OSError, ValueError, IndexError):
        return uid != OVERFLOW_UID


def _is_no_others(folder: str) -> bool:
    """Whether it is no other user's than this one's or root's, who may have no number in a user namespace."""
    owner = os.stat(folder).st_uid
    return owner in (0, os.geteuid()) or not _is_one_user(owner)


def is_system_daemon(uid: int, path: Path) -> bool:
    """Root, or who owns the folder of the system's socket, which only root can make, unless /run or all is another
    user's. Neither may have a number in a user namespace, and then others look like it: they can't listen in that
    folder, but anywhere else."""
    try:
        status = os.lstat(os.path.dirname(SYSTEM_PATH))
        is_its = _is_no_others("/") and _is_no_others("/run") and stat.S_ISDIR(status.st_mode) and status.st_uid == uid
    except OSError:
        return uid == 0
    return uid == 0 or is_its and (os.fsencode(path) == os.fsencode(SYSTEM_PATH) or _is_one_user(uid))


def check(peer: Peer, place: Place) -> None:
    """PermissionError where somebody listens who mustn't be told what this user keeps."""
    is_own, trust = peer.uid == place.user, place.trust
    if trust is Trust.ANY or is_own and trust is not Trust.SYSTEM:
        return
    if trust is Trust.OWN or not is_system_daemon(peer.uid, place.path):
        raise PermissionError(errno.EACCES, f"uid {peer.uid} listens, and not {trust.value}", place.path)


# What to do, in the words of libkeyretain's kr_advice(3): by the place, which a program has NAMED, or KEYRETAIN_SOCKET,
# or which is the user's own or the system's.

THERE, OWN = "start one there: keyretaind --socket PATH", "systemctl --user enable --now keyretaind"
WITHOUT_SYSTEMD = "no daemon is there; start one, as keyretaind(8) shows it: keyretaind --socket PATH, with " \
    "KEYRETAIN_SOCKET=PATH"
MODES = "who may connect is told by the modes of the path and its folder: ls -ld"
EXPORTED = "KEYRETAIN_SOCKET names this path"
WHY = f"systemctl status 'keyretain*' tells who administers it why; one of your own: {OWN}"
ABSENT = ("start a daemon: systemctl --user start keyretaind, or keyretaind --socket PATH",
          f"{EXPORTED}, where no daemon is: unset it, or {THERE}",
          f"no daemon is there; start one: {OWN}",
          f"the system's daemon doesn't run: {WHY}")
LEFT = ("its daemon has ended: remove the path, and start one: keyretaind --socket PATH",
        f"{EXPORTED}, whose daemon has ended: unset it, or remove the path and {THERE}",
        f"its daemon has ended: systemctl --user restart keyretaind, or remove the path and {THERE}",
        f"the system's daemon has ended: {WHY}")
SHUT = (MODES, f"{EXPORTED}: unset it; {MODES}", MODES,
        "only the group keyretain may connect, which has the keys of all users, and behind keyretain-guard nobody "
        f"needs it; one of your own: {OWN}")
ANOTHERS = ("another user listens there, who is told nothing: name another path",
            f"{EXPORTED}, where another user listens, who is told nothing: unset it",
            f"another user listens there, who is told nothing: remove the path, and start one: {OWN}",
            "who listens there isn't the system's daemon, and is told nothing: ask who administers it")
FULL = "all its lanes may be held: keyretain-status tells by whom; keyretaind --lanes, or keyretain-guard " \
    "--connections, gives more"
ENDED = "the daemon, or the one behind keyretain-guard, may have ended: its journal tells"
OTHER_ERRORS = {
    errno.EAGAIN: FULL, errno.ETIMEDOUT: FULL, errno.ECONNRESET: ENDED, errno.EPIPE: ENDED,
    errno.EDQUOT: "keyretain-guard has no place left for this user: end other clients, or raise --per-uid",
    errno.ENAMETOOLONG: "a path has 107 bytes at most",
}


def _advices(path: Path, error: int) -> Optional[tuple[str, ...]]:
    """By the errors of connect(2). Who may not connect and who isn't trusted are the same to who connects."""
    if error == errno.EACCES:
        return ANOTHERS if os.access(path, os.W_OK, effective_ids=True) else SHUT
    return {errno.ENOENT: ABSENT, errno.ENOTDIR: ABSENT, errno.ECONNREFUSED: LEFT}.get(error)


def advice(path: Optional[Path], error: Optional[int]) -> Optional[str]:
    """What a program's user may do where a Client of this path, or its first ask, was refused with this errno: a
    sentence, or None where none is known."""
    found = find()
    texts = _advices(found.path if path is None else path, error) if error else None
    if texts is None:
        return OTHER_ERRORS.get(error or 0)
    if path is not None:
        return texts[0]
    if found.trust is Trust.NAMED:
        return texts[1]
    is_absent, has_folder = texts is ABSENT, os.path.exists(os.path.dirname(SYSTEM_PATH))
    if is_absent and (found.trust is Trust.OWN or not has_folder):
        return texts[2] if os.path.exists("/run/systemd/system") else WITHOUT_SYSTEMD  # sd_booted(3)
    return texts[2 if found.trust is Trust.OWN else 3]
