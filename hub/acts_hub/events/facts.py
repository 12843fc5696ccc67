"""What webhooks have said of each repository, for events that come without one."""
from __future__ import annotations

from typing import Any, Mapping

from ..ledger.notes import NoteStore
from .occasions import at

KIND = 'repository'
NAMES = 'id', 'name', 'full_name', 'html_url', 'clone_url', 'default_branch', 'private'
LONGEST = 1000


def texts_of(value: Any, names: tuple[str, ...]) -> dict[str, Any]:
    """The members of an object that are short texts, numbers or truth values."""
    found = {name: at(value, name) for name in names}
    return {name: item for name, item in found.items() if isinstance(item, (str, int)) and len(str(item)) <= LONGEST}


class RepositoryFacts:
    """The object `repository` of payloads, as far as it is known."""

    def __init__(self, notes: NoteStore) -> None:
        self.notes, self.known = notes, dict[str, Any]()

    def begin(self) -> None:
        """Takes up what was kept."""
        self.known = self.notes.list(0, 0, KIND)

    def note(self, name: str, payload: Mapping[str, Any]) -> None:
        """Notes what a payload says."""
        repository = payload.get('repository')
        found = texts_of(repository, NAMES)
        if 'id' not in found:
            return  # made here, from what is known
        found['owner'] = texts_of(at(repository, 'owner'), ('id', 'login'))
        if self.known.get(name.lower()) != found:
            self.known[name.lower()] = found
            self.notes.set(0, 0, KIND, name.lower(), found)

    def of(self, name: str) -> dict[str, Any]:
        """The object for a payload."""
        owner, _, own = name.partition('/')
        found = dict(self.known.get(name.lower()) or {})
        found['owner'] = {'login': owner, **(found.get('owner') or {})}
        return {**found, 'name': own, 'full_name': name}
