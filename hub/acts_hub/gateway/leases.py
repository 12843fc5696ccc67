"""Which runner has which lease: from the claims that passed here, and after a restart from the view of runners. What a
lease was for stays with the notes of its run, since logs may come after the report."""
from __future__ import annotations

from collections import OrderedDict
from dataclasses import asdict, dataclass
from typing import Any

from ..ledger.logs import LogStore
from ..ledger.notes import NoteStore
from ..service.models import Whole
from ..service.view import ViewPort
from .lines import Claim

MAX_KNOWN = 20_000
KIND = 'lease'


@dataclass(frozen=True, slots=True)
class Lease:
    """A lease, the leg that it is for, and the claim that got it, as the runner sent it."""

    lease: int
    run: int
    attempt: int
    job: str
    leg: int
    repository: str
    runner: str
    claim: str

    @property
    def place(self) -> tuple[int, int, str, int, int]:
        """Run, attempt, job, leg and lease, as the store of logs takes them."""
        return self.run, self.attempt, self.job, self.leg, self.lease


class Leases:
    """What is known of leases."""

    def __init__(self, view: ViewPort, notes: NoteStore, logs: LogStore) -> None:
        self.view, self.notes, self.logs = view, notes, logs
        self.known: OrderedDict[tuple[int, int], Lease] = OrderedDict()
        self.held: dict[str, Lease | None] = {}

    def keep(self, lease: Lease) -> None:
        """Keeps a lease that a claim has got. One that stands for something else by now, as after a restore of the
        service's file, is forgotten with its log."""
        before = self.get(lease.run, lease.lease)
        if before is not None and before != lease:
            self.logs.forget(*before.place)
            self.notes.set(before.run, before.attempt, 'marks', f'{before.job}/{before.leg}', None)
        self.held[lease.runner] = lease
        self.known[lease.run, lease.lease] = lease
        if len(self.known) > MAX_KNOWN:
            self.known.popitem(last=False)
        if before != lease:
            self.notes.set(lease.run, 0, KIND, str(lease.lease), asdict(lease))

    def get(self, run: int, lease: int) -> Lease | None:
        """A lease that passed here once."""
        found = self.known.get((run, lease))
        if found is None:
            kept: Any = self.notes.get(run, 0, KIND, str(lease))
            found = Lease(**kept) if isinstance(kept, dict) else None
            if found is not None:
                self.known[run, lease] = found
        return found

    def ended(self, runner: str) -> None:
        """A runner holds nothing any more."""
        self.held[runner] = None

    async def of_runner(self, runner: str) -> tuple[int, int] | None:
        """The run and the lease that a runner holds, as the service shows it."""
        found = await self.view.runners(runner)
        held = found[0].lease if found else None
        return None if held is None else (held.run, held.lease)

    async def holds(self, runner: str, lease: int | None = None, run: int | None = None) -> bool:
        """Whether a runner holds this lease, or one of this run."""
        known = self.held.get(runner)
        if known is not None and (known.lease == lease or known.run == run):
            return True
        shown = await self.of_runner(runner)
        return shown is not None and (shown[1] == lease or shown[0] == run)

    async def taken_up(self, run: int, lease: int, claim: Claim) -> Lease | None:
        """A lease that passed here before this hub, or its ledger, began: as the service shows it."""
        whole = await self.view.run(run)
        for job in whole.jobs if whole else ():
            for leg in job.legs:
                if leg.lease == lease and leg.runner == claim.runner and whole:
                    return lease_of(whole, lease, job.id, leg.index, claim)
        return None


def lease_of(whole: Whole, lease: int, job: str, leg: int, claim: Claim) -> Lease:
    """A lease of a leg of a run."""
    return Lease(lease, whole.row.run, whole.row.attempt, job, leg, whole.row.repository, claim.runner, str(claim))
