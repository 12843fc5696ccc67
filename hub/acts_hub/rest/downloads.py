"""Addresses that hold for a minute and need no token, to which downloads are redirected as GitHub's are."""
from __future__ import annotations

import hashlib
import hmac
import time
from urllib.parse import quote

SECONDS = 60


class Downloads:
    """Signs addresses, and tells whether they hold."""

    def __init__(self, secret: bytes) -> None:
        self._key = hashlib.sha256(b'downloads\0' + secret).digest()

    def address(self, path: str, at: float | None = None) -> str:
        """A path with what makes it hold for a minute."""
        until = int(time.time() if at is None else at) + SECONDS
        return f'{quote(path)}?until={until}&signature={self._signature(path, until)}'

    def holds(self, path: str, until: str, signature: str, at: float | None = None) -> bool:
        """Whether this path was signed here, less than a minute ago."""
        if not (until.isascii() and until.isdigit() and len(until) <= 12 and signature.isascii()):
            return False
        is_signed = hmac.compare_digest(self._signature(path, int(until)), signature)
        return is_signed and int(until) >= (time.time() if at is None else at)

    def _signature(self, path: str, until: int) -> str:
        return hmac.new(self._key, f'{until} {path}'.encode(), hashlib.sha256).hexdigest()
