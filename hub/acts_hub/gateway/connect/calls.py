"""Calls of Connect's protocol: a message each way, in its binary form or as JSON."""
from __future__ import annotations

import json
from collections.abc import Awaitable, Callable
from typing import Any

from aiohttp import web
from google.protobuf import json_format
from google.protobuf.message import DecodeError

from ...service.http import Away
from ..passing import Forbidden, TryAgain
from .messages import MESSAGES

MAX_MESSAGE = 8 << 20  # bytes
MAX_OPEN_MESSAGE = 64 << 10  # of a call that anybody may make: its token is in the message, or it needs none
STATUSES = {'invalid_argument': 400, 'unauthenticated': 401, 'permission_denied': 403, 'not_found': 404,
            'resource_exhausted': 429, 'unavailable': 503}
Method = Callable[[web.Request, Any], Awaitable[Any]]  # of a message to a message
Check = Callable[[web.Request], object]  # refuses a request before its message is read
Handler = Callable[[web.Request], Awaitable[web.StreamResponse]]


class Refused(Exception):
    """Why a call is not carried out: a code of Connect's, and words."""

    def __init__(self, code: str, words: str) -> None:
        super().__init__(words)
        self.code = code


def refused(code: str, words: str) -> web.Response:
    """An answer that is an error."""
    return web.json_response({'code': code, 'message': words}, status=STATUSES[code])


async def message_of(request: web.Request, name: str, most: int) -> Any:
    """The message that a request has, of so many bytes at most."""
    data = b''
    async for part in request.content.iter_chunked(1 << 16):
        data += part
        if len(data) > most:
            raise Refused('resource_exhausted', f'a message has {most} bytes at most')
    try:
        if request.content_type == 'application/proto':
            return MESSAGES[name].FromString(data)
        said = json.loads(data or b'{}')
        if not isinstance(said, dict):
            raise ValueError('it is no object')
        return json_format.ParseDict(said, MESSAGES[name](), ignore_unknown_fields=True)
    except (DecodeError, json_format.ParseError, ValueError, RecursionError) as fault:
        raise Refused('invalid_argument', f'the message is not read: {fault}') from None


def handler(name: str, method: Method, check: Check | None = None) -> Handler:
    """What answers the requests of a method, which take a message `NAMERequest`: a short one, if nothing is checked before."""
    async def handle(request: web.Request) -> web.StreamResponse:
        if request.content_type not in ('application/proto', 'application/json'):
            raise web.HTTPUnsupportedMediaType(headers={'Accept-Post': 'application/proto, application/json'})
        if request.headers.get('Connect-Protocol-Version', '1') != '1':
            return refused('invalid_argument', 'Connect-Protocol-Version is 1')
        try:
            if check:
                check(request)
            given = await message_of(request, f'{name}Request', MAX_MESSAGE if check else MAX_OPEN_MESSAGE)
            answer = await method(request, given)
        except Refused as why:
            return refused(why.code, str(why))
        except Forbidden as why:
            return refused('permission_denied', str(why))
        except (Away, TryAgain, web.HTTPServiceUnavailable) as why:
            return refused('unavailable', getattr(why, 'text', None) or str(why))
        if request.content_type == 'application/proto':
            return web.Response(body=answer.SerializeToString(), content_type='application/proto')
        return web.Response(text=json_format.MessageToJson(answer), content_type='application/json')
    return handle
