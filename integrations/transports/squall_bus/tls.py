"""How nodes connect to servers by TLS."""

from __future__ import annotations

import ssl
from pathlib import Path
from typing import NamedTuple, Optional


class Tls(NamedTuple):
    """Whether TLS is asked for, and files of certificates and keys, as PEM."""

    #: Whether nothing may go in the clear, also if the server would take it.
    is_wanted: bool = False
    #: Who has signed the certificates of servers. Without it those count that the system trusts.
    ca: Optional[Path] = None
    #: The certificate that servers are shown, if they ask for one, and its key.
    cert: Optional[Path] = None
    key: Optional[Path] = None

    def context(self) -> ssl.SSLContext:
        """What makes connections. Raises `ValueError` if a file can't be used."""
        if (self.cert is None) != (self.key is None):
            raise ValueError("a certificate needs its key, and a key its certificate")
        try:
            context = ssl.create_default_context(cafile=self.ca)
        except OSError as error:
            raise ValueError(f"{self.ca}: {_why(error)}") from error
        context.minimum_version = ssl.TLSVersion.TLSv1_2
        if self.cert is not None:
            try:
                context.load_cert_chain(self.cert, self.key)
            except OSError as error:
                raise ValueError(f"{self.cert}, {self.key}: {_why(error)}") from error
        return context


def _why(error: OSError) -> str:
    return error.strerror or str(error)
