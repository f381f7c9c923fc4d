"""The socket of a daemon over which vtysh asks: a command ended by a zero byte, an answer ended by three and a status
byte."""
from __future__ import annotations

import json
import socket
from pathlib import Path

END = b"\0\0\0"
SECONDS = 60.0


class Vty:
    """A connection to one daemon."""

    def __init__(self, path: Path) -> None:
        self.path = path
        self.socket = socket.socket(socket.AF_UNIX, socket.SOCK_STREAM)
        self.socket.settimeout(SECONDS)
        self.socket.connect(str(path))
        self.ask("enable")

    def ask(self, command: str) -> str:
        """The answer to a command. ConnectionError where the daemon ends."""
        self.socket.sendall(command.encode() + b"\0")
        parts = bytearray()
        while not (len(parts) >= 4 and parts[-4:-1] == END):
            got = self.socket.recv(1 << 16)
            if not got:
                raise ConnectionError(f"{self.path}: the daemon ended")
            parts += got
        return parts[:-4].decode("utf-8", "replace")

    def json(self, command: str) -> dict:
        """The answer to a command that writes JSON; words without JSON, as where there is no table yet, are an empty
        one."""
        told = self.ask(f"{command} json").strip()
        return json.loads(told) if told.startswith(("{", "[")) else {}

    def close(self) -> None:
        """Ends the connection."""
        self.socket.close()
