"""Work whose seconds and memory a text of strangers decides, done by a Python of its own that has limits."""
import json
import os
import pickle
import resource
import signal
import subprocess
import sys
from collections.abc import Callable

from .errors import BadInput, Failed

SECONDS, PATIENCE = 4, 120  # of a processor, and of the clock on a machine that does other work too
MEMORY = 128 << 20  # bytes beside those that it has before the work
FAULTS: dict[str, type[Exception]] = {one.__name__: one for one in (BadInput, Failed)}
START = "import sys; sys.path[:] = sys.argv[1:]; from psmax.process_limits import answer; answer()"


def limited(called: str, work: Callable[..., str], *given: object) -> str:
    """The text that a function of a module gives, or its fault. It calls `keep_limits` once it has all that it needs
    but the text, and it is a fault of its own that these don't suffice."""
    with begin() as child:
        try:
            told, _ = child.communicate(pickle.dumps((work, given)))
        finally:
            child.kill()
    if child.returncode in (-signal.SIGXCPU, -signal.SIGALRM):
        raise BadInput(f"{called}: it takes more than {SECONDS} seconds to read")
    if child.returncode != 0:
        raise BadInput(f"{called}: it takes more than {MEMORY >> 20} MB of memory to read")
    kind, *texts = json.loads(told)
    if kind == "text":
        return f"{texts[0]}"
    raise FAULTS.get(kind, RuntimeError)(*texts)


def begin() -> subprocess.Popen[bytes]:
    """A Python that answers. It is no copy of this process, in which another thread may hold a lock."""
    return subprocess.Popen([sys.executable, "-S", "-c", START, *sys.path], stdin=subprocess.PIPE,
                            stdout=subprocess.PIPE, stderr=subprocess.DEVNULL, start_new_session=True)


def answer() -> None:
    """What the other end of standard input is told: the text, or the kind of a fault and its texts."""
    work, given = pickle.load(sys.stdin.buffer)
    told = told_by(work, *given)
    sys.stdout.write(json.dumps(told))


def told_by(work: Callable[..., str], *given: object) -> list[str]:
    try:
        return ["text", work(*given)]
    except MemoryError:
        raise
    except Exception as fault:
        return [type(fault).__name__, *map(str, fault.args)]


def keep_limits() -> None:
    """From now on."""
    signal.alarm(PATIENCE)
    for what, most in ((resource.RLIMIT_CPU, processor_seconds() + SECONDS), (resource.RLIMIT_AS, memory() + MEMORY),
                       (resource.RLIMIT_CORE, 0)):
        set_limit(what, most)


def set_limit(what: int, most: int) -> None:
    """At most so much, and no more than before."""
    hard = resource.getrlimit(what)[1]
    resource.setrlimit(what, (most if hard == resource.RLIM_INFINITY else min(most, hard), hard))


def processor_seconds() -> int:
    """Whole ones of a processor that this process has taken."""
    return int(sum(os.times()[:2]))


def memory() -> int:
    """The bytes of addresses that this process has."""
    with open("/proc/self/statm") as file:
        return int(file.read().split()[0]) * resource.getpagesize()
