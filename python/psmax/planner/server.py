"""The server of `plan watch`: the page and its data, for a browser of this machine alone. Whoever doesn't know the
token, names another host, or comes from another page, gets nothing."""
import hmac
import json
import math
import re
import secrets
import sys
from collections.abc import Callable
from functools import lru_cache
from http.server import BaseHTTPRequestHandler, ThreadingHTTPServer
from socketserver import TCPServer
from typing import Any
from urllib.parse import parse_qs

from .faults import explained
from .page import Page
from .headline import headline
from .plans import Plan
from .screen import Screen

HOST = "127.0.0.1"
NUMBER = re.compile(rb"\s*([0-9]{1,9})\s*")  # the body of an order
PATIENCE = 20.0  # seconds that a browser waits for a change
ZOOMS = (0.25, 16.0)
HEADS = {
    "Cache-Control": "no-store", "Content-Security-Policy": "frame-ancestors 'none'", "Referrer-Policy": "no-referrer",
    "X-Content-Type-Options": "nosniff", "Cross-Origin-Resource-Policy": "same-origin",
    "Cross-Origin-Opener-Policy": "same-origin",
}
Order = Callable[[str, int], str]  # what is done at a word and a number, and what is said of it
Try = Callable[[str], str]  # what is said of a change of the plan, which is tried beside all else
LONGEST = 200  # signs of a change
KINDS = ("later", "earlier", "new", "gone")  # of moves, as the page lists them


def state(screen: Screen, zoom: float) -> bytes:
    """All that the page shows, as it is now."""
    with screen.changed:
        plan, latest, faults = screen.plans.get(screen.shown), screen.plans.get(screen.latest), screen.faults
        told: dict[str, Any] = {"version": screen.version, "open": screen.is_open, "shown": screen.shown}
        plans = [[number, f"{one.at}  {line_of(one)}"] for number, one in screen.plans.items() if one.is_known()]
    told |= {
        "plans": plans[::-1], "line": said(plan, latest), "busy": latest is not None and latest.stage != "",
        "faults": [*faults, *(() if latest is None else latest.trouble)],
        "notes": () if latest is None else latest.notes, "why": () if plan is None else plan.why}
    if plan is not None:
        told |= drawn(plan, zoom)
        told["line"] = " ".join([told["line"], *told["heads"][:1]])
    return json.dumps(told).encode()


def said(plan: Plan | None, latest: Plan | None) -> str:
    """What `plan watch` does, in a line."""
    if latest is None:
        return "Nothing is planned yet."
    does = {"searching": ". The search goes on.", "floats": ". Total floats are being proved.", "": "."}[latest.stage]
    stays = "" if plan is None or latest is plan else f" The plan of {plan.at} stays until there is one."
    return f"{latest.at}  {line_of(latest)}{does}{stays}"


def line_of(plan: Plan) -> str:
    return headline(plan.opened, plan.known)[0]


@lru_cache(4)
def drawn(plan: Plan, zoom: float) -> dict[str, Any]:
    page, (heads, moves) = Page(plan.view(), zoom=zoom), plan.moved()
    lists = [[kind, [[one.name, one.text] for one in moves if one.kind == kind]] for kind in KINDS]
    return {"parts": page.parts(), "tables": page.tables(), "told": page.told(), "heads": heads,
            "moved": [one for one in lists if one[1]], "shortest": plan.known.settled and not plan.known.none}


def change_in(body: bytes) -> str:
    """The text of a body in JSON; empty where it is none."""
    try:
        told = json.loads(body)
    except (ValueError, RecursionError):
        return ""
    return told.strip() if isinstance(told, str) and told.isprintable() and len(told) <= LONGEST else ""


class Server(ThreadingHTTPServer):
    daemon_threads, block_on_close = True, False

    def __init__(self, port: int, screen: Screen, page: bytes, order: Order, change: Try) -> None:
        super().__init__((HOST, port), Handler)
        self.screen, self.page, self.order, self.change = screen, page, order, change
        self.token = secrets.token_urlsafe(24)
        self.host = f"{HOST}:{self.server_address[1]}"
        self.address = f"http://{self.host}/{self.token}/"

    def server_bind(self) -> None:
        """Without a look-up of the machine's name, which may take long."""
        TCPServer.server_bind(self)

    def handle_error(self, request: object, client_address: object) -> None:
        """A browser that goes away is no fault; any other one is a line."""
        fault = sys.exception()
        if fault is not None and not isinstance(fault, OSError):
            print(f"plan: a request failed: {'; '.join(explained(fault)[1])}", file=sys.stderr)


class Handler(BaseHTTPRequestHandler):
    protocol_version, timeout = "HTTP/1.1", 60
    server: Server

    def do_GET(self) -> None:
        name, words = self.asked()
        if name == "" and not words:
            self.reply(200, self.server.page, "text/html; charset=utf-8")
        elif name == "state":
            self.follow(words)
        else:
            self.refuse()

    def do_POST(self) -> None:
        name, _ = self.asked()
        if name not in ("keep", "stop", "back", "whatif") or "Origin" not in self.headers:
            return self.refuse()
        body = self.body()
        number, change = NUMBER.fullmatch(body), change_in(body)
        if not change if name == "whatif" else number is None:
            return self.refuse()
        try:
            said = self.server.order(name, int(number[1])) if number is not None else self.server.change(change)
        except Exception as fault:
            return self.reply(409, "; ".join(explained(fault)[1]).encode("utf-8", "replace"))
        self.reply(200, said.encode("utf-8", "replace"))

    def body(self) -> bytes:
        """All of it; empty where it is too long, or doesn't say first how long it is."""
        length = self.headers.get_all("Content-Length") or []
        if len(length) != 1 or not re.fullmatch("[0-9]{1,3}", length[0]) or "Transfer-Encoding" in self.headers:
            return b""
        return self.rfile.read(int(length[0]))

    def asked(self) -> tuple[str | None, dict[str, str]]:
        """The name behind the token, and the words behind that; none for who may not ask."""
        path, _, query = self.path.partition("?")
        _, token, name = [*path.split("/", 2), "", ""][:3]
        origin = self.headers.get("Origin", f"http://{self.server.host}")
        is_known = hmac.compare_digest(token.encode("utf-8", "replace"), self.server.token.encode())
        if not is_known or self.headers.get_all("Host") != [self.server.host] or origin != f"http://{self.server.host}":
            return None, {}
        return name, {word: texts[-1] for word, texts in parse_qs(query).items()}

    def follow(self, words: dict[str, str]) -> None:
        """The screen, once it has changed; nothing where it doesn't for a while."""
        try:
            after, zoom = int(words.get("after", "0")), float(words.get("zoom", "1"))
        except ValueError:
            return self.refuse()
        if math.isnan(zoom):
            return self.refuse()
        if not self.server.screen.wait(after, PATIENCE):
            return self.reply(204, b"")
        try:
            self.reply(200, state(self.server.screen, min(max(zoom, ZOOMS[0]), ZOOMS[1])), "application/json")
        except OSError:
            raise
        except Exception as fault:
            self.reply(500, "; ".join(explained(fault)[1]).encode())

    def refuse(self) -> None:
        self.close_connection = True
        self.reply(403, b"refused")

    def reply(self, status: int, data: bytes, kind: str = "text/plain; charset=utf-8") -> None:
        self.send_response(status)
        about = {"Content-Type": kind, "Content-Length": f"{len(data)}"} if status != 204 else {}
        for name, text in {**HEADS, **about}.items():
            self.send_header(name, text)
        self.end_headers()
        self.wfile.write(data)

    def version_string(self) -> str:
        return "plan"

    def log_message(self, *_: Any) -> None:
        """Nobody reads it."""
