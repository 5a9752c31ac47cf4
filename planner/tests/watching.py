"""A run of `plan watch`, and what its page is told."""
import http.client
import json
import pathlib
import signal
import subprocess
import time
from collections.abc import Callable
from types import TracebackType
from typing import Any, Self
from urllib.parse import urlsplit

from .helpers import PSPROVE, started

State = dict[str, Any]
Begin = Callable[..., subprocess.Popen[str]]  # starts the command by its words
SECONDS = 60.0  # that something may take on a machine that does other work too


class Watching:
    """The command as a process of its own, which Ctrl-C ends."""

    def __init__(self, table: pathlib.Path, *words: object, psprove: str = PSPROVE, begin: Begin = started) -> None:
        self.table = table
        self.child = begin("watch", table, "--jobs", "1", *words, psprove=psprove)
        assert self.child.stdout is not None
        self.address = self.child.stdout.readline().strip()
        self.version = 0

    def __enter__(self) -> Self:
        return self

    def __exit__(self, kind: type[BaseException] | None, fault: BaseException | None,
                 trace: TracebackType | None) -> None:
        if self.child.poll() is None:
            self.end()

    def end(self) -> tuple[int, str, str]:
        """By Ctrl-C: the exit status, and what it told."""
        self.child.send_signal(signal.SIGINT)
        out, told = self.child.communicate(timeout=SECONDS)
        return self.child.returncode, out, told

    def ask(self, method: str, path: str, body: str | None = None, **heads: str) -> tuple[int, bytes]:
        """The answer to a request, as a browser sends it; a head without text is left out."""
        place = urlsplit(self.address)
        connection = http.client.HTTPConnection(place.hostname or "", place.port, timeout=SECONDS)
        told = {"Host": place.netloc, "Origin": f"http://{place.netloc}"} | heads
        connection.putrequest(method, path, skip_host=True)
        for name, text in told.items():
            if text:
                connection.putheader(name, text)
        connection.putheader("Content-Length", f"{len(body or '')}")
        connection.endheaders((body or "").encode())
        answer = connection.getresponse()
        data = answer.read()
        connection.close()
        return answer.status, data

    def order(self, name: str, number: int = 0) -> tuple[int, str]:
        status, data = self.ask("POST", f"{urlsplit(self.address).path}{name}", json.dumps(number))
        return status, data.decode()

    def state(self, after: int = 0, zoom: float = 1) -> State | None:
        status, data = self.ask("GET", f"{urlsplit(self.address).path}state?after={after}&zoom={zoom}")
        assert status in (200, 204), (status, data)
        told: State | None = json.loads(data) if data else None
        return told

    def until(self, is_so: Callable[[State], object]) -> State:
        """The first state of which something is so."""
        end = time.monotonic() + SECONDS
        state = self.state()
        assert state is not None
        while not is_so(state):
            assert time.monotonic() < end, {name: state[name] for name in ("line", "faults", "why", "notes", "heads")}
            state = self.state(state["version"]) or state
        return state

    def saved(self, text: str, is_so: Callable[[State], object]) -> State:
        self.table.write_text(text)
        return self.until(is_so)


def done(*texts: str) -> Callable[[State], bool]:
    """Whether nothing is searched any more, and the line has these texts."""
    return lambda state: not state["busy"] and all(text in state["line"] for text in texts)
