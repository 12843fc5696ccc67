"""Where a request comes from."""
from __future__ import annotations

import functools
import ipaddress
import socket

from aiohttp import web

Network = ipaddress.IPv4Network | ipaddress.IPv6Network


def peer_of(request: web.Request) -> str:
    """The address of the other end of the connection; `unix` for a socket of the file system; nothing once it is gone."""
    transport = request.transport
    if transport is None:
        return ''
    peer, own = transport.get_extra_info('peername'), transport.get_extra_info('socket')
    if own is not None and own.family == socket.AF_UNIX:
        return 'unix'
    return str(peer[0]) if isinstance(peer, tuple) and peer else ''


@functools.lru_cache(maxsize=4096)
def is_among(address: str, peers: tuple[str, ...]) -> bool:
    """Whether an address is one of these addresses and networks, or `unix` is among them."""
    if address == 'unix':
        return 'unix' in peers
    try:
        found = ipaddress.ip_address(address.partition('%')[0])
    except ValueError:
        return False
    mapped = found.ipv4_mapped if isinstance(found, ipaddress.IPv6Address) else None
    return any((mapped or found) in network for network in map(_network, peers) if network is not None)


@functools.lru_cache(maxsize=256)
def _network(text: str) -> Network | None:
    return None if text == 'unix' else ipaddress.ip_network(text, strict=False)


def client_of(request: web.Request, forwarders: tuple[str, ...]) -> str:
    """Who counts as the client of a request: its peer, or behind a forwarder that is trusted whom that one names last. Of IPv6 the network of 64 bits."""
    found = peer_of(request)
    if forwarders and is_among(found, forwarders):
        named = request.headers.get('X-Forwarded-For', '').rpartition(',')[2].strip()
        try:
            found = str(ipaddress.ip_address(named))
        except ValueError:
            pass
    if ':' in found:
        address = ipaddress.ip_address(found.partition('%')[0])
        return str(address.ipv4_mapped) if address.ipv4_mapped else str(ipaddress.ip_network((int(address) >> 64 << 64, 64)))  # type: ignore[union-attr]
    return found
