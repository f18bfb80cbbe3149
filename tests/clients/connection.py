"""One connection to the server, and how it ends."""
import itertools
import socket
import struct

LONGEST_WAIT = 10.0  # seconds for anything that the server is to do

# Each closed connection keeps its port for a minute, and there are not enough of them at one address. The server does not look at where one comes from.
_addresses = itertools.cycle([f"127.0.0.{last}" for last in range(2, 252)])
_ADDRESS_WITHOUT_PORT = 24  # IP_BIND_ADDRESS_NO_PORT, which has no name in Python


class Wrong(Exception):
    """The server did not do what it is to do."""


class Connection:
    def __init__(self, port, room=None):
        """`room` is how many bytes the connection takes that are not read yet, where it is to be small."""
        self.socket = socket.socket()
        if room is not None:
            self.socket.setsockopt(socket.SOL_SOCKET, socket.SO_RCVBUF, room)
        self.socket.setsockopt(socket.IPPROTO_TCP, socket.TCP_NODELAY, 1)
        self.socket.setsockopt(socket.IPPROTO_IP, _ADDRESS_WITHOUT_PORT, 1)
        self.socket.bind((next(_addresses), 0))
        self.socket.settimeout(LONGEST_WAIT)
        self.socket.connect(("127.0.0.1", port))

    def send(self, data):
        self.socket.sendall(data)

    def send_what_goes(self, data):
        """The server may close the connection before it has all of this."""
        try:
            self.socket.sendall(data)
        except ConnectionError:
            pass

    def read(self, length):
        parts = []
        while length:
            try:
                part = self.socket.recv(length)
            except socket.timeout:
                raise Wrong(f"nothing came for {LONGEST_WAIT:.0f} seconds, and {length} bytes were missing") from None
            except ConnectionError:
                raise Wrong(f"the connection was reset with {length} bytes missing") from None
            if not part:
                raise Wrong(f"the connection was closed with {length} bytes missing")
            parts.append(part)
            length -= len(part)
        return b"".join(parts)

    def expect(self, data, what):
        came = self.read(len(data))
        if came != data:
            at = next(at for at in range(len(data)) if came[at] != data[at])
            raise Wrong(f"{what}: {shown(data, at)} was expected, and {shown(came, at)} came")

    def expect_end(self, what):
        """The server closes the connection, and nothing comes before that. Where it has not read all that was sent, that is a reset."""
        try:
            came = self.socket.recv(1000)
        except socket.timeout:
            raise Wrong(f"{what}: the server does not close the connection") from None
        except ConnectionError:
            return
        if came:
            raise Wrong(f"{what}: no more was expected, and {shown(came)} came")

    def say_end(self):
        """Nothing more is sent; what comes can still be read."""
        try:
            self.socket.shutdown(socket.SHUT_WR)
        except OSError:
            pass

    def close(self):
        self.socket.close()

    def reset(self):
        """Closes at once: what is on its way is thrown away, and the server is told so."""
        self.socket.setsockopt(socket.SOL_SOCKET, socket.SO_LINGER, struct.pack("ii", 1, 0))
        self.socket.close()


def shown(data, at=0):
    """Some of the bytes, from the 16 on in which the one at `at` is."""
    at -= at % 16
    return f"{'..' if at else ''}{data[at : at + 48].hex()}{'..' if len(data) > at + 48 else ''} ({len(data)} bytes)"
