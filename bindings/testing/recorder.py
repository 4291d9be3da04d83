"""A recorder of one connection: it is between a client and a server, and keeps what each sends.

`bindings/test --server` records clients with it, whose connections are then replayed.
"""

import contextlib
import os
import socket
import threading

SECONDS = 60


def pass_on(source, target, kept):
    """Passes all bytes of a side on, and keeps them, until its end or the other's."""
    with contextlib.suppress(OSError):
        while True:
            piece = source.recv(1 << 16)
            if not piece:
                break
            kept.write(piece)
            target.sendall(piece)
    with contextlib.suppress(OSError):
        target.shutdown(socket.SHUT_WR)


class Recorder:
    """Records the first connection to its own port, within a `with`. What the client and the
    server at the port `upstream` send are the files NAME.client and NAME.server."""

    def __init__(self, upstream, name):
        self.upstream, self.client, self.server = upstream, name + ".client", name + ".server"
        self.listening = socket.create_server(("127.0.0.1", 0))
        self.listening.settimeout(SECONDS)
        self.port = self.listening.getsockname()[1]
        self.thread = threading.Thread(target=self.record)

    def record(self):
        """Records a connection to the end of both of its sides."""
        with contextlib.suppress(TimeoutError), contextlib.ExitStack() as stack:
            client = stack.enter_context(self.listening.accept()[0])
            server = stack.enter_context(socket.create_connection(("127.0.0.1", self.upstream)))
            said = stack.enter_context(open(self.client, "wb"))
            replied = stack.enter_context(open(self.server, "wb"))
            back = threading.Thread(target=pass_on, args=(server, client, replied))
            back.start()
            pass_on(client, server, said)
            back.join(SECONDS)

    def __enter__(self):
        self.thread.start()
        return self

    def __exit__(self, *_):
        self.thread.join(SECONDS)
        self.listening.close()
        if not os.path.exists(self.server):
            raise OSError("no connection was recorded")
