"""`acts-runner`."""
from __future__ import annotations

import os
import sys
from typing import IO, Callable

from . import job
from .facts import Facts, LookFacts, NoFacts
from .files import lock
from .legs import be_leg
from .lines import Port, StreamPort
from .options import Options, read_options
from .runner import Runner
from .state import Unusable


def main() -> None:
    """Runs the steps of a leg, where the runner has asked for it, or the runner."""
    if sys.argv[1:] == ['--leg']:
        be_leg(job.run)
    else:
        run(read_options(sys.argv[1:]))


def run(options: Options) -> None:
    """Runs the runner in its own folder."""
    folder = os.path.join(options.state, options.name)
    os.makedirs(folder, mode=0o700, exist_ok=True)
    os.chdir(folder)
    if not lock_of_folder():
        sys.exit(f'{options.name}: it runs already')
    try:
        if options.hub:
            run_with_hub(options)
        else:
            port: Port = StreamPort(options.port or 0)
            Runner(options, port, facts_of(options)).run()
    except Unusable as why:
        sys.exit(f'{options.name}: {why}')


def run_with_hub(options: Options) -> None:
    """Runs the runner over a hub, and sends it the logs of legs meanwhile."""
    from .hub import Hub, HubFacts, HubPort  # a runner without a hub needs no aiohttp
    from .sender import Sender
    hub = Hub.of(options)
    sender = Sender(options, Hub.of(options))
    runner = Runner(options, HubPort(hub, options.ephemeral), HubFacts(hub, tell_of(options)))
    sender.begin(runner.state.name)
    try:
        runner.run()
    finally:
        sender.finish()
        hub.close()


def tell_of(options: Options) -> Callable[[str], None]:
    """Says something on standard error."""
    return lambda words: print(f'{options.name}: {words}', file=sys.stderr, flush=True)


def facts_of(options: Options) -> Facts:
    """Where facts are had without a hub."""
    if options.look:
        return LookFacts(options.look)
    return NoFacts()


held: list[IO[str] | None] = []


def lock_of_folder() -> bool:
    """Whether this is the only runner in the folder; it stays so until the process ends."""
    found = lock('lock', seconds=5)
    held.append(found)
    return found is not None


if __name__ == '__main__':
    main()
