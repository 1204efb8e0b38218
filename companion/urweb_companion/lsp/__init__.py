"""`lsp`: a language server on standard input and output, for editors: refusals where they stand, and what to do about each."""
import argparse
import os
import select
import signal
import sys
from collections.abc import Sequence
from types import FrameType

from urweb_companion.lsp import wire
from urweb_companion.lsp.server import Server

PIECE = 65536


def stop(number: int, frame: FrameType | None) -> None:
    """Ends by a signal as by an error, so that no copy of a project stays behind."""
    sys.exit(128 + number)


def serve(server: Server, source: int) -> None:
    """Hands messages to the server until it is over or nothing more can be read, and has it look at projects in the pauses."""
    inbox = wire.Inbox()
    while not server.is_over:
        message = inbox.take()
        if message is not None:
            server.take(message)
            if isinstance(message, wire.Broken) and message.is_last:
                return
        elif not select.select([source], [], [], server.pause())[0]:
            server.check_due()
        elif piece := os.read(source, PIECE):
            inbox.data += piece
        else:
            return


def main(words: Sequence[str]) -> int:
    """Serves one editor until it says `exit` or its output ends; the status is 0 where it said `shutdown` before."""
    parser = argparse.ArgumentParser(prog="urweb lsp", description=__doc__)
    parser.parse_args(words)
    signal.signal(signal.SIGTERM, stop)
    server = Server(lambda message: wire.write(sys.stdout.buffer, message))
    serve(server, sys.stdin.fileno())
    return 0 if server.is_shut else 1
