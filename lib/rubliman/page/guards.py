"""Who may ask: the page itself, and no other page of the browser, nor another program of this machine."""
from __future__ import annotations

import hmac
from collections.abc import Mapping
from http import HTTPStatus
from urllib.parse import urlsplit

TOKEN = "X-Token"
# Nothing is run, shown or fetched but the page's own files, no text becomes markup, and nothing may frame the page.
POLICY = "; ".join(
    [
        "default-src 'none'",
        "script-src 'self'",
        "style-src 'self'",
        "img-src 'self'",
        "connect-src 'self'",
        "base-uri 'none'",
        "form-action 'none'",
        "frame-ancestors 'none'",
        "require-trusted-types-for 'script'",
        "trusted-types 'none'",
    ]
)
HEADERS = {
    "Content-Security-Policy": POLICY,
    "X-Content-Type-Options": "nosniff",
    "Referrer-Policy": "no-referrer",
    "Cross-Origin-Opener-Policy": "same-origin",
    "Cross-Origin-Resource-Policy": "same-origin",
    "Cache-Control": "no-store",
}


class Denied(Exception):
    """A request is not answered: the status, and why."""

    def __init__(self, status: HTTPStatus, why: str) -> None:
        super().__init__(why)
        self.status = status


def check_place(headers: Mapping[str, str], port: int) -> None:
    """Raises `Denied` where the request names another host, which a rebound name does, or comes from another origin."""
    hosts = (f"127.0.0.1:{port}", f"localhost:{port}")
    if headers.get("Host") not in hosts:
        raise Denied(HTTPStatus.FORBIDDEN, "not this host")
    origin = headers.get("Origin")
    if origin is not None and origin != f"http://{headers['Host']}":
        raise Denied(HTTPStatus.FORBIDDEN, "not from this page")
    if headers.get("Sec-Fetch-Site", "none") not in ("none", "same-origin"):
        raise Denied(HTTPStatus.FORBIDDEN, "not from this page")


def check_token(given: str | None, token: str) -> None:
    """Raises `Denied` where the token is another one."""
    if not hmac.compare_digest((given or "").encode("utf-8", "replace"), token.encode()):
        raise Denied(HTTPStatus.FORBIDDEN, "open the address that ./sparc8 --page printed")


def path_and_query(target: str) -> tuple[str, str]:
    """The path of a request and what stands behind its `?`."""
    parts = urlsplit(target)
    return parts.path, parts.query
