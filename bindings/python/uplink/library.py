"""The proved library: found, built once, kept and called.

Its assembly comes with the package where that was installed, and else from dist/ of the repository that the package stands in; there
tools/fresh first compares it with the proved crates. A C compiler (`cc`, or what CC names) makes a shared library of it at the first use, which
is kept in $XDG_CACHE_HOME/uplink, or ~/.cache/uplink, under the digest of the assembly."""
from __future__ import annotations

import ctypes
import functools
import hashlib
import os
import platform
import shlex
import struct
import subprocess
import sys
import tempfile
from typing import List, NamedTuple, Optional, Tuple

from .errors import NoLibrary, Refused
from .records import LIST_BYTES

SUM_BYTES = 64 * 32
LINES_SHOWN = 20

HERE = os.path.dirname(os.path.abspath(__file__))
REPOSITORY = os.path.dirname(os.path.dirname(os.path.dirname(HERE)))


def processor() -> str:
    machine = platform.machine()
    if not sys.platform.startswith("linux") or machine not in ("x86_64", "aarch64") or struct.calcsize("P") != 8:
        raise NoLibrary("the proved library is there for Linux on x86-64 and Arm, not for %s on %s" % (sys.platform, machine))
    return machine


def run(words: List[str], what: str) -> None:
    """Runs a program; NoLibrary has what it said where it fails."""
    try:
        done = subprocess.run(words, stdin=subprocess.DEVNULL, stdout=subprocess.PIPE, stderr=subprocess.STDOUT, errors="replace")
    except OSError as error:
        raise NoLibrary("%s: `%s` can't be started (%s); install it, and put it on the PATH" % (what, words[0], error.strerror)) from None
    if done.returncode != 0:
        said = "\n".join(done.stdout.split("\n")[:LINES_SHOWN]).rstrip()
        raise NoLibrary("%s: `%s` failed%s" % (what, words[0], ":\n" + said if said else ", and said nothing"))


def assembly() -> Tuple[str, str]:
    """The path of the assembly for this processor, and its digest, which is the one that PROOF beside it names."""
    name = "uplink-%s.s" % processor()
    folder = os.path.join(HERE, "dist")
    if not os.path.isdir(folder):
        folder = os.path.join(REPOSITORY, "dist")
        if not os.path.isfile(os.path.join(REPOSITORY, "tools", "fresh")):
            raise NoLibrary("there is no dist/ in %s and no repository around it: install the package with pip, from a whole copy of the repository" % HERE)
        run(["sh", os.path.join(REPOSITORY, "tools", "fresh")], "dist/ is not what the crates at hand were compiled to, so nothing is loaded")
    path = os.path.join(folder, name)
    try:
        with open(path, "rb") as file:
            digest = hashlib.sha256(file.read()).hexdigest()
        with open(os.path.join(folder, "PROOF"), encoding="utf-8") as file:
            named = [line.split()[1:] for line in file if line.startswith(name + " ")]
    except (OSError, UnicodeDecodeError) as error:
        raise NoLibrary("the library's assembly can't be read: %s" % error) from None
    if named != [[digest]]:
        raise NoLibrary("%s is not the file that PROOF beside it names: its digest differs. Install the package anew" % path)
    return path, digest


def cache_folder() -> str:
    """Where the shared library is kept."""
    given = os.environ.get("XDG_CACHE_HOME", "")
    return os.path.join(given if os.path.isabs(given) else os.path.join(os.path.expanduser("~"), ".cache"), "uplink")


def built() -> str:
    """The path of the shared library, which is built where it isn't kept yet."""
    source, digest = assembly()
    folder = cache_folder()
    kept = os.path.join(folder, "libuplink-%s-%s.so" % (processor(), digest[:32]))
    if os.path.isfile(kept):
        return kept
    try:
        os.makedirs(folder, mode=0o700, exist_ok=True)
        with tempfile.TemporaryDirectory(dir=folder) as room:
            made = os.path.join(room, "libuplink.so")
            compiler = shlex.split(os.environ.get("CC", "")) or ["cc"]
            run([*compiler, "-shared", "-o", made, source], "the proved library can't be built, which takes a C compiler (cc, or what CC names)")
            os.replace(made, kept)
    except OSError as error:
        raise NoLibrary("the proved library is built once and kept in %s, and that can't be written (%s). Set XDG_CACHE_HOME to a folder that can"
                        % (folder, error.strerror)) from None
    return kept


BYTES = [ctypes.c_char_p, ctypes.c_size_t]
ROOM = [ctypes.c_void_p, ctypes.c_size_t]
ANSWER = [ctypes.c_void_p]
ARGUMENTS = {
    **{name: BYTES + ROOM + ANSWER for name in (
        "read", "derive", "integrate", "derivative", "integral", "inverse", "derivative_faithful", "integral_faithful")},
    **{name: BYTES + [ctypes.c_uint8] + ROOM + ANSWER for name in ("write", "write_faithful")},
    **{name: BYTES + [ctypes.c_double, ctypes.c_void_p] + ANSWER for name in ("run", "value")},
    "cost": BYTES + ANSWER,
}

Answer = ctypes.c_uint64 * 8


@functools.lru_cache(maxsize=None)
def functions() -> ctypes.CDLL:
    """The functions of include/uplink.h."""
    path = built()
    try:
        library = ctypes.CDLL(path)
        for name, arguments in ARGUMENTS.items():
            function = getattr(library, "uplink_" + name)
            function.argtypes, function.restype = arguments, ctypes.c_uint64
    except (OSError, AttributeError) as error:
        raise NoLibrary("%s can't be loaded (%s). Remove it, so that it is built anew, or set XDG_CACHE_HOME to another folder" % (path, error)) from None
    return library


class Read(NamedTuple):
    """What `uplink_read` gives."""

    sum: bytes
    is_complex: bool
    pairs: int


def read(data: bytes) -> Read:
    out, answer = ctypes.create_string_buffer(SUM_BYTES), Answer()
    checked(functions().uplink_read(data, len(data), out, SUM_BYTES, answer), answer)
    # The answer's words: place, count, the complex flag, and how many pairs of terms were multiplied.
    return Read(out.raw[:answer[1] * 32], bool(answer[2]), answer[3])


def checked(number: int, answer: "ctypes.Array[ctypes.c_uint64]", x: Optional[float] = None) -> None:
    if number:
        raise Refused(number, answer[0], x)


def bytes_to_bytes(name: str, data: bytes, size: int) -> bytes:
    """A function that takes a list or a sum and gives one, by its name without `uplink_`; `size` is that of a record or entry given."""
    room = LIST_BYTES if size == 24 else SUM_BYTES
    out, answer = ctypes.create_string_buffer(room), Answer()
    checked(getattr(functions(), "uplink_" + name)(data, len(data), out, room, answer), answer)
    return out.raw[:answer[1] * size]


def write(name: str, data: bytes, is_complex: bool) -> bytes:
    """`write` or `write_faithful`: the list of a sum."""
    out, answer = ctypes.create_string_buffer(LIST_BYTES), Answer()
    checked(getattr(functions(), "uplink_" + name)(data, len(data), is_complex, out, LIST_BYTES, answer), answer)
    return out.raw[:answer[1] * 24]


def values(name: str, data: bytes, xs: List[float]) -> List[float]:
    """`run` of a list or `value` of a sum at each x."""
    function, size = getattr(functions(), "uplink_" + name), len(data)
    value, answer = ctypes.c_double(), Answer()
    at = ctypes.addressof(value)
    found = []
    for x in xs:
        checked(function(data, size, x, at, answer), answer, x)
        found.append(value.value)
    return found


def cost(data: bytes) -> int:
    answer = Answer()
    checked(functions().uplink_cost(data, len(data), answer), answer)
    return answer[1]
