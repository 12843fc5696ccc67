"""Errors as GitHub's API answers them."""
from __future__ import annotations

from collections.abc import Mapping

DOCUMENTATION = 'https://docs.github.com/rest'


class Fault(Exception):
    """A request that is not carried out: a status and a sentence."""

    def __init__(self, status: int, message: str = 'Not Found', errors: list[Mapping[str, object]] | None = None,
                 headers: Mapping[str, str] | None = None) -> None:
        super().__init__(message)
        self.status = status
        self.message = message
        self.errors = errors
        self.headers = dict(headers or {})

    def body(self) -> dict[str, object]:
        """The object that GitHub sends."""
        body: dict[str, object] = {'message': self.message}
        if self.errors is not None:
            body['errors'] = self.errors
        return {**body, 'documentation_url': DOCUMENTATION, 'status': str(self.status)}


def invalid(resource: str, field: str, message: str) -> Fault:
    """422 for a member of a request that has a value which can't be."""
    return Fault(422, 'Validation Failed',
                 [{'resource': resource, 'field': field, 'code': 'invalid', 'message': message}])
