"""The words of `picklestep dap`."""

from __future__ import annotations

import argparse
import contextlib
import socket
import sys
from typing import BinaryIO, List

from .adapter import Adapter
from .wire import Inbox, Malformed, Wire

__all__ = ['converse', 'main']

_HERE = '127.0.0.1'


def _port(text: str) -> int:
    if not text.isdecimal() or int(text) > 65535:
        raise argparse.ArgumentTypeError(f'{text!r} is no port')
    return int(text)


def _parser() -> argparse.ArgumentParser:
    parser = argparse.ArgumentParser(
        prog='picklestep dap', description='Lets an editor step through a pickle by the Debug Adapter Protocol. The editor names the pickle, and nothing of it is run.',
        epilog='Status: 0 once the editor has left; 2 if what it sends is not framed as the protocol says, or the port cannot be had; 130 after Ctrl-C.')
    parser.add_argument('--port', metavar='N', type=_port,
                        help='let one editor of this machine connect to 127.0.0.1:N, in place of standard input and output (0: to a free port, which is printed)')
    return parser


def main(arguments: List[str]) -> int:
    """Answers an editor until it leaves."""
    options = _parser().parse_args(arguments)
    try:
        if options.port is None:
            # (A reader of its own: a thread may still wait for it when Python ends, which then could not close that of sys.stdin.)
            return converse(open(sys.stdin.fileno(), 'rb', closefd=False), sys.stdout.buffer)
        return _listen(options.port)
    except KeyboardInterrupt:
        return 130


def _listen(port: int) -> int:
    """Answers the first that connects."""
    try:
        server = socket.create_server((_HERE, port))
    except OSError as error:
        print(f'picklestep: cannot listen on {_HERE}:{port}: {error.strerror}', file=sys.stderr)
        return 2
    with server:
        print('{}:{}'.format(*server.getsockname()), flush=True)
        connection, _ = server.accept()
    with connection, connection.makefile('rb') as reader, connection.makefile('wb') as writer:
        try:
            return converse(reader, writer)
        finally:
            with contextlib.suppress(OSError):
                connection.shutdown(socket.SHUT_RD)  # (whoever waits for a message gets the end)


def converse(reader: BinaryIO, writer: BinaryIO) -> int:
    """Answers messages until the editor leaves, or the input ends."""
    wire = Wire(reader, writer)
    inbox = Inbox(wire)
    adapter = Adapter(wire.write, inbox.is_ending)
    try:
        while not adapter.is_over:
            message = inbox.next()
            if message is None:
                break
            adapter.take(message)
    except Malformed as error:
        adapter.complain(str(error))
        print(f'picklestep: {error}', file=sys.stderr)
        return 2
    except ConnectionError:  # (the editor has left)
        return 0
    finally:
        inbox.close()
        adapter.close()
    return 0
