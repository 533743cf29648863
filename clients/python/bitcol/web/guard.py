"""Decides which requests are answered: only those of the page itself.

Other programs and other people's pages can reach the loopback address too. They don't know the word in the address.
A request through another host name, which leads a browser here, is recognized by the header Host; one that another page
makes a browser send, by Origin and Sec-Fetch-Site.
"""

from __future__ import annotations

import hmac
from collections.abc import Mapping
from dataclasses import dataclass
from email.message import Message
from urllib.parse import urlsplit

LOOPBACK = "127.0.0.1"
HTTP_PORT = 80
# What a browser says about a request that the page itself makes, or whose address the user typed.
_OWN_SITES = ("same-origin", "none")

# Sent with each response. The page may load only its own parts, and nothing may store its address or its parts.
HEADERS: Mapping[str, str] = {
    "Content-Security-Policy": (
        "default-src 'none'; script-src 'self'; style-src 'self'; img-src 'self'; connect-src 'self'; "
        "base-uri 'none'; form-action 'none'; frame-ancestors 'none'"
    ),
    "Cross-Origin-Opener-Policy": "same-origin",
    "Cross-Origin-Resource-Policy": "same-origin",
    "Referrer-Policy": "no-referrer",
    "X-Content-Type-Options": "nosniff",
    "X-Frame-Options": "DENY",
    "Cache-Control": "no-store",
}


@dataclass(frozen=True)
class Guard:
    """Checks requests, by the word in the address and the port."""

    word: str
    port: int

    @property
    def address(self) -> str:
        """The address of the page."""
        return f"http://{self._hosts()[0]}/{self.word}/"

    def fault(self, target: str, headers: Message) -> str | None:
        """Returns why a request isn't answered, or None if it is. `target` is the path and the query."""
        hosts: list[str] = headers.get_all("Host", [])
        if len(hosts) != 1 or hosts[0].lower() not in self._hosts():
            return "the header Host names another server"
        if any(origin != f"http://{hosts[0].lower()}" for origin in headers.get_all("Origin", [])):
            return "another page sent this request"
        if any(site not in _OWN_SITES for site in headers.get_all("Sec-Fetch-Site", [])):
            return "another page sent this request"
        between = target.split("?")[0].split("/")[1:-1]
        if not between or not hmac.compare_digest(between[0].encode("utf-8", "replace"), self.word.encode()):
            return "the address lacks its word: take the whole address that the program wrote"
        return None

    def rest(self, target: str) -> tuple[str, str]:
        """Returns what follows the word in the path of a valid request, and the query."""
        split = urlsplit(target)
        return split.path[len(self.word) + 2 :], split.query

    def _hosts(self) -> tuple[str, ...]:
        """Returns the allowed values of the header Host. A browser omits the port if it is that of HTTP."""
        port = "" if self.port == HTTP_PORT else f":{self.port}"
        return f"{LOOPBACK}{port}", f"localhost{port}"
