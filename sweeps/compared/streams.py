"""What the comparisons over `acts serve` with made-up sessions share."""

import socket
import threading

SECONDS = 60
MAX_LINE_BYTES = 512


def free_ports():
    """Two free ports of this machine."""
    with socket.socket() as one, socket.socket() as other:
        one.bind(('127.0.0.1', 0))
        other.bind(('127.0.0.1', 0))
        return one.getsockname()[1], other.getsockname()[1]


def taken(given):
    """What a session reads of its bytes: 512 without a line feed end the session."""
    at = 0
    while (end := given.find(b'\n', at, at + MAX_LINE_BYTES) + 1) > 0:
        at = end
    return given[: at + MAX_LINE_BYTES]


def pieces(given, dice):
    """Pieces of 1 to 8 bytes, and one in four of 1 to 4,096."""
    at = 0
    while at < len(given):
        size = dice.randint(1, dice.choice((8, 8, 8, 4096)))
        yield given[at : at + size]
        at += size


def send(stream, given, dice):
    """Sends the pieces, and then the end; a service that has closed the session takes no more."""
    try:
        for piece in pieces(given, dice):
            stream.sendall(piece)
        stream.shutdown(socket.SHUT_WR)
    except OSError:
        pass


def said(port, given, dice):
    """What a session writes for these bytes and then the end of its input, and whether its stream ended without a reset."""
    with socket.create_connection(('127.0.0.1', port), timeout=SECONDS) as stream:
        stream.setsockopt(socket.IPPROTO_TCP, socket.TCP_NODELAY, 1)
        sender = threading.Thread(target=send, args=(stream, given, dice))
        sender.start()
        answer = b''
        try:
            while more := stream.recv(65536):
                answer += more
            whole = True
        except ConnectionResetError:
            whole = False
        sender.join()
        return answer, whole
