"""GDB's remote protocol as packets: $text#checksum, answered by + or -, and Ctrl-C as a byte of its own."""
import os
import select

INTERRUPT = b"\3"


class Closed(Exception):
    """The debugger has gone."""


def checksum(text: bytes) -> bytes:
    return b"%02x" % (sum(text) % 256)


class Wire:
    """Packets over two descriptors, which may be one."""

    def __init__(self, reads: int, writes: int):
        self.reads, self.writes, self.buffer = reads, writes, b""
        self.acknowledges = True

    def byte(self) -> bytes:
        if not self.buffer:
            self.buffer = self.read()
        first, self.buffer = self.buffer[:1], self.buffer[1:]
        return first

    def read(self) -> bytes:
        try:
            got = os.read(self.reads, 65536)
        except OSError as error:
            raise Closed from error
        if not got:
            raise Closed
        return got

    def write(self, data: bytes):
        try:
            while data:
                data = data[os.write(self.writes, data):]
        except OSError as error:
            raise Closed from error

    def receive(self) -> str:
        """The next packet's text; what stands between packets is left out."""
        while True:
            while self.byte() != b"$":
                pass
            text = b""
            while (byte := self.byte()) != b"#":
                text += byte
            is_whole = self.byte() + self.byte() == checksum(text)
            if self.acknowledges:
                self.write(b"+" if is_whole else b"-")
            if is_whole:
                return text.decode("latin-1")

    def send(self, text: str):
        data = text.encode("latin-1")
        packet = b"$" + data + b"#" + checksum(data)
        self.write(packet)
        while self.acknowledges and (answer := self.byte()) != b"+":
            if answer == b"-":
                self.write(packet)

    def is_interrupted(self) -> bool:
        """Whether Ctrl-C came; nothing else comes while the program runs."""
        if not self.buffer and not select.select([self.reads], [], [], 0)[0]:
            return False
        if not self.buffer:
            self.buffer = self.read()
        is_one, self.buffer = INTERRUPT in self.buffer, self.buffer.replace(INTERRUPT, b"", 1)
        return is_one
