"""What is known of a leg besides its body: the number and the attempt of its run, how the jobs before it ended, and
what of the context `github` the hub sets."""
from __future__ import annotations

import http.client
from typing import Any, Protocol

from .state import Held


class Facts(Protocol):
    """Where facts are had."""

    def of(self, leg: Held) -> dict[str, Any]:
        """`github`: members of the context; `results`: of jobs; `environment`: whether that of the job is free to
        use."""


class NoFacts:
    """Nothing is known."""

    def of(self, leg: Held) -> dict[str, Any]:
        """Nothing."""
        return {}


class LookFacts:
    """The hook port of the service, or what passes on its `GET /runs/N`."""

    def __init__(self, place: str) -> None:
        self.place = place

    def of(self, leg: Held) -> dict[str, Any]:
        """Number and attempt of the run, and the results of jobs; nothing if it does not answer."""
        try:
            client = http.client.HTTPConnection(self.place, timeout=20)
            client.request('GET', f'/runs/{leg.run}')
            words = client.getresponse().read(1 << 20).decode().split()
            client.close()
            number, _, attempt = words[2].partition('.')
            results = dict(word.split('(')[0].split(':') for word in words[5:])
        except (OSError, http.client.HTTPException, ValueError, IndexError):
            return {}
        return {'github': {'run_number': number, 'run_attempt': attempt or '1'}, 'results': results}
