"""A connection as a web page makes it, of which each message is a line."""
import base64
import os
import struct

TEXT, PING, CLOSED = 1, 9, 8
ASKS = (
    "GET / HTTP/1.1\r\nHost: 127.0.0.1:{port}\r\nUpgrade: websocket\r\nConnection: Upgrade\r\n"
    "Sec-WebSocket-Key: {key}\r\nSec-WebSocket-Version: 13\r\n\r\n"
)


class WebSocket:
    """Lines over a connection to a web server, which is asked for a WebSocket first."""

    def __init__(self, connection, port: int):
        self.connection = connection
        key = base64.b64encode(os.urandom(16)).decode()
        self.connection.write(ASKS.format(port=port, key=key).encode())
        self.connection.flush()
        head = [*iter(self.connection.readline, b"\r\n")]
        if b" 101 " not in head[0]:
            raise ConnectionError(head[0].decode().strip())

    def __enter__(self):
        return self

    def __exit__(self, *_):
        self.connection.close()

    def write(self, line: bytes) -> None:
        """A line, as one message. What a client sends is masked."""
        text, mask = line.rstrip(b"\n"), os.urandom(4)
        head = struct.pack("!BBQ", 0x80 | TEXT, 0x80 | 127, len(text))
        masked = bytes(byte ^ mask[place % 4] for place, byte in enumerate(text))
        self.connection.write(head + mask + masked)

    def flush(self) -> None:
        self.connection.flush()

    def __iter__(self):
        """The lines that come, each with its newline."""
        while head := self.connection.read(2):
            kind, length = head[0] & 15, head[1] & 127
            if length > 125:
                form = "!H" if length == 126 else "!Q"
                (length,) = struct.unpack(form, self.connection.read(struct.calcsize(form)))
            message = self.connection.read(length)
            if kind == CLOSED:
                return
            if kind == TEXT:
                yield message + b"\n"
