"""Who may ask. The server is for one person on one machine: each request needs the key, by a cookie that only this server gets; it has to
name this server as its host, so that no other name leads here; and a change has to come from this server's own page.

The words below stand on a page of their own or in a dialog, so they say what to do.
"""
import hmac
import secrets
import threading
import time
import typing

from desk_lib.serve.asked import Refused

# How many bytes of chance a key has, and for how many seconds the link is good that the browser is opened with.
LENGTH, OPENING = 32, 120.0
CHANGING = ("POST", "DELETE")
# What a browser says of where a request comes from, if it is the page itself or the address line.
OWN_SITES = ("same-origin", "none")
# What a page of this server may load and do, and what other pages may not do with it.
POLICY = {
    "default-src": "'none'",
    "script-src": "'self'",
    "style-src": "'self'",
    "connect-src": "'self'",
    "img-src": "'self'",
    "manifest-src": "'self'",
    "base-uri": "'none'",
    "form-action": "'none'",
    "frame-ancestors": "'none'",
}
HEADERS = {
    "Content-Security-Policy": "; ".join(f"{name} {value}" for name, value in POLICY.items()),
    "X-Content-Type-Options": "nosniff",
    "X-Frame-Options": "DENY",
    "Referrer-Policy": "no-referrer",
    "Cross-Origin-Opener-Policy": "same-origin",
    "Cross-Origin-Resource-Policy": "same-origin",
    "Cross-Origin-Embedder-Policy": "require-corp",
    "Permissions-Policy": "camera=(), geolocation=(), microphone=()",
}
# A page that the desk has made to be saved has its style in it, and nothing else.
OF_FILE = "default-src 'none'; style-src 'unsafe-inline'; base-uri 'none'; form-action 'none'; frame-ancestors 'none'; sandbox allow-modals"


class Asked(typing.NamedTuple):
    """What the guard looks at of a request."""

    method: str
    host: str
    origin: str
    site: str
    cookie: str
    token: str


class Guard:
    """The guard of a server at this port."""

    def __init__(self, port: int, is_read_only: bool):
        self.host, self.is_read_only = f"127.0.0.1:{port}", is_read_only
        self.origin, self.cookie_name = f"http://{self.host}", f"desk-{port}"
        self.key, self.cookie, self.token = (secrets.token_urlsafe(LENGTH) for _ in range(3))
        self.opening, self.lock = dict[str, float](), threading.Lock()

    # ---- links

    def link(self) -> str:
        """The link by which a browser gets the cookie. It is good until the server ends."""
        return f"{self.origin}/?key={self.key}"

    def opening_link(self) -> str:
        """A link that is good once, and for a short time: others of this machine can read the words that a browser is started with."""
        key = secrets.token_urlsafe(LENGTH)
        with self.lock:
            self.opening[key] = time.monotonic() + OPENING
        return f"{self.origin}/?key={key}"

    def admits(self, key: str) -> bool:
        """Whether a key of a link is good."""
        if is_same(key, self.key):
            return True
        with self.lock:
            known = next((opening for opening in self.opening if is_same(key, opening)), None)
            return known is not None and time.monotonic() < self.opening.pop(known)

    # ---- requests

    def check_host(self, asked: Asked) -> None:
        """Stops a request that names another host: another name that leads here is no name of this server."""
        if not is_same(asked.host, self.host):
            raise Refused(
                403,
                "host",
                f"This server is {self.origin}/ and no other name leads to it. Open the link that the desk has printed.",
            )
        if asked.site and asked.site not in OWN_SITES:
            raise Refused(403, "origin", "This request comes from another page, and was refused.")

    def check_key(self, asked: Asked) -> None:
        """Stops a request without the key."""
        if not is_same(asked.cookie, self.cookie):
            raise Refused(
                403,
                "key",
                "This browser hasn't the key of this server. Open the link that the desk has printed, or start the desk again.",
            )

    def check_change(self, asked: Asked) -> None:
        """Stops a change that doesn't come from this server's own page."""
        if asked.method not in CHANGING:
            return
        if not is_same(asked.origin, self.origin):
            raise Refused(403, "origin", "This change comes from another page, and was refused.")
        if not is_same(asked.token, self.token):
            raise Refused(403, "token", "This page is older than the server. Load it again; nothing was changed.")

    def check_writable(self) -> None:
        """Stops each change if the screen is for looking at."""
        if self.is_read_only:
            raise Refused(403, "read-only", "Read-only. This screen shows the ward and changes nothing.")


def is_same(said: str, due: str) -> bool:
    """Whether two texts are the same, in a time that doesn't show how much of them is."""
    return hmac.compare_digest(said.encode("utf-8", "replace"), due.encode())
