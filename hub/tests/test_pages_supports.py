"""Commands that not every version of the service has: their buttons are shown where it has them."""
from __future__ import annotations

import asyncio

import pytest
from aiohttp import web
from harness import Service

from acts_hub.service.hooks import HookPort

pytestmark = pytest.mark.quick


def test_a_service_that_knows_the_paths_supports_the_commands() -> None:
    asked: list[str] = []

    async def answer(request: web.Request) -> web.Response:
        asked.append(f'{request.method} {request.path}')
        known = request.path.endswith('/force-cancel')
        return web.Response(status=405 if known else 404, text='refused 73' if known else 'refused 72')

    async def trial() -> list[bool]:
        app = web.Application()
        app.router.add_route('*', '/{path:.*}', answer)
        runner = web.AppRunner(app)
        await runner.setup()
        site = web.TCPSite(runner, '127.0.0.1', 0)
        await site.start()
        port = runner.addresses[0][1]
        hooks = HookPort(f'127.0.0.1:{port}')
        found = [await hooks.supports(command) for command in ('force', 'retry', 'force', 'retry')]
        await hooks.close()
        await runner.cleanup()
        return found
    assert asyncio.run(trial()) == [True, False, True, False]
    assert asked == ['GET /runs/1/force-cancel',
                     'GET /runs/1/attempts/2/failed-jobs']     # asked once, and never what would be an entry


def test_the_real_service_is_asked_without_an_entry(service: Service) -> None:
    async def trial() -> list[bool]:
        hooks = HookPort(f'127.0.0.1:{service.hook}')
        try:
            return [await hooks.supports('force'), await hooks.supports('retry')]
        finally:
            await hooks.close()
    run = service.admit()
    found = asyncio.run(trial())
    posted = [service.post(f'/runs/{run}/force-cancel').status,
              service.post(f'/runs/{run}/attempts/2/failed-jobs').status]
    assert found == [status not in (404, 405) for status in posted]
