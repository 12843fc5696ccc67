"""acts-hub serve: starts the hub, and serves till it is asked to end."""
from __future__ import annotations

import argparse
import asyncio
import os
import pathlib
import signal
import ssl
import sys
from typing import Any

from aiohttp import web

from ..app import make_app
from ..config import Config, ConfigError, address_of, read_config
from ..connections import Connections, raise_limit
from ..doors.exposure import check_exposure
from ..hub import make_hub
from ..log import say, take_over


def add(parsers: Any) -> None:
    """Adds the command."""
    parser = parsers.add_parser('serve', help='serve pages, the API and runners')
    parser.add_argument('--config', type=pathlib.Path, default=pathlib.Path('/etc/acts/hub.toml'), metavar='FILE')
    parser.set_defaults(run=run)


def run(given: argparse.Namespace) -> int:
    """Serves."""
    take_over()
    try:
        config = read_config(given.config)
        check_exposure(config)
        context = tls_of(config)
        asyncio.run(serve(config, context))
    except (ConfigError, OSError, ssl.SSLError) as fault:
        print(f'acts-hub: {fault}', file=sys.stderr)
        return 1
    return 0


def tls_of(config: Config) -> ssl.SSLContext | None:
    """TLS with the certificate of the configuration."""
    if config.hub.certificate is None or config.hub.key is None:
        return None
    context = ssl.create_default_context(ssl.Purpose.CLIENT_AUTH)
    context.minimum_version = ssl.TLSVersion.TLSv1_2
    context.load_cert_chain(config.hub.certificate, config.hub.key)
    return context


async def serve(config: Config, context: ssl.SSLContext | None) -> None:
    """Serves till SIGTERM or SIGINT."""
    ended = asyncio.Event()
    for number in signal.SIGTERM, signal.SIGINT:
        asyncio.get_running_loop().add_signal_handler(number, ended.set)
    hub = make_hub(config)
    runner = web.AppRunner(make_app(hub), access_log=None, keepalive_timeout=75)
    raise_limit()
    await runner.setup()
    await hub.start()
    watch = asyncio.create_task(Connections(runner, max(1, config.access.silence_seconds)).watch())
    try:
        address = address_of(config.hub.listen)
        if isinstance(address, pathlib.Path):
            await listen_unix(runner, address)
        else:
            await web.TCPSite(runner, *address, ssl_context=context, shutdown_timeout=2).start()
        if config.hub.unix is not None:
            await listen_unix(runner, config.hub.unix)
        say(f'serves {config.url}')
        print('ready', flush=True)
        await ended.wait()
    finally:
        watch.cancel()
        await runner.cleanup()
        await hub.stop()


async def listen_unix(runner: web.AppRunner, path: pathlib.Path) -> None:
    """Listens on a socket of the file system that only the user and the group reach."""
    path.unlink(missing_ok=True)
    before = os.umask(0o117)
    try:
        await web.UnixSite(runner, str(path), shutdown_timeout=2).start()
    finally:
        os.umask(before)
