"""A connection whose bytes go in the clear, or by TLS."""

from __future__ import annotations

import socket
import ssl
from typing import Optional

from .bus import BusError
from .sockets import Server, give_up_after

_READ = 1 << 16


class Wire:
    """A connection to a server. TLS begins when it is told to, with whatever comes next."""

    def __init__(self, server: Server, patience: float) -> None:
        """Connects. The server may take so many seconds for each step. Raises `OSError`."""
        self._server = server
        self._socket = socket.create_connection(server, patience)
        self._tls: Optional[ssl.SSLObject] = None
        #: Sealed bytes that have come, and that are to go.
        self._come, self._go = ssl.MemoryBIO(), ssl.MemoryBIO()
        try:
            give_up_after(self._socket, patience)
        except OSError:
            self.close()
            raise

    def secure(self, context: ssl.SSLContext) -> None:
        """Goes on by TLS. Raises `BusError` if the server or its certificate is refused.

        Nothing else may be sent then.
        """
        tls = context.wrap_bio(self._come, self._go, server_hostname=self._server[0])
        while True:
            try:
                tls.do_handshake()
                break
            except ssl.SSLWantReadError:
                self._flush()
                self._come.write(self._fetch())
            except ssl.SSLError as error:
                raise BusError(self._refused(error)) from error
        self._tls = tls
        self._flush()

    def _refused(self, error: ssl.SSLError) -> str:
        """Why TLS did not begin. The server is told too, if it still listens."""
        try:
            self._flush()
        except BusError:
            pass
        return _why(error)

    def fileno(self) -> int:
        """What can be waited for."""
        return self._socket.fileno()

    def close(self) -> None:
        """Ends the connection."""
        self._socket.close()

    def read(self) -> bytes:
        """What has come. By TLS it may be nothing. Raises `BusError`."""
        data = self._fetch()
        if self._tls is None:
            return data
        self._come.write(data)
        heard = []
        try:
            while True:
                piece = self._tls.read(_READ)
                if not piece:
                    break
                heard.append(piece)
        except ssl.SSLWantReadError:
            pass
        except ssl.SSLError as error:
            raise BusError(_why(error)) from error
        self._flush()
        return b"".join(heard)

    def write(self, data: bytes) -> None:
        """Sends bytes. Raises `BusError`."""
        if self._tls is None:
            self._send(data)
            return
        rest = memoryview(data)
        try:
            while rest:
                rest = rest[self._tls.write(rest) :]
        except ssl.SSLError as error:
            raise BusError(_why(error)) from error
        self._flush()

    def _fetch(self) -> bytes:
        try:
            data = self._socket.recv(_READ)
        except OSError as error:
            raise BusError(str(error)) from error
        if not data:
            raise BusError("the server has ended the connection")
        return data

    def _flush(self) -> None:
        """Sends what was sealed."""
        self._send(self._go.read())

    def _send(self, data: bytes) -> None:
        try:
            self._socket.sendall(data)
        except OSError as error:
            raise BusError(str(error)) from error


def _why(error: ssl.SSLError) -> str:
    if isinstance(error, ssl.SSLCertVerificationError):
        return f"TLS: the certificate is refused: {error.verify_message}"
    return f"TLS: {error.reason.replace('_', ' ').lower() if error.reason else error}"
