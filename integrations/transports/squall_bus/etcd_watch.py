"""The answers of a watch of etcd."""

from __future__ import annotations

import json
import socket
from http.client import HTTPConnection, HTTPException
from queue import Empty, SimpleQueue
from threading import Thread
from typing import Any, Dict, Optional, Union

from .bus import BusError
from .sockets import Server, give_up_after

Json = Dict[str, Any]

#: Asks for an end of the watch if the member has lost its leader.
_HEADERS = {"Grpc-Metadata-hasleader": "true"}


class Watch:
    """Hears of changes of keys, in a thread that waits for the server."""

    def __init__(
        self, server: Server, patience: float, keys: Json, headers: Dict[str, str]
    ) -> None:
        """Watches these keys from a revision on, which `keys` has too. Raises `BusError`."""
        self._answers: SimpleQueue[Union[Json, BusError]] = SimpleQueue()
        self._connection = HTTPConnection(*server, timeout=patience)
        try:
            self._connection.connect()
            self._socket: socket.socket = self._connection.sock
            self._socket.settimeout(None)
            give_up_after(self._socket, patience)
            body = {"create_request": keys}
            self._connection.request("POST", "/v3/watch", json.dumps(body), {**_HEADERS, **headers})
        except (OSError, HTTPException) as error:
            self._connection.close()
            raise BusError(f"{server[0]}:{server[1]}: {error}") from error
        self._thread = Thread(target=self._hear, daemon=True)
        self._thread.start()

    def next(self, seconds: float) -> Optional[Json]:
        """The next answer, or None if there is none within the time. Raises `BusError`."""
        try:
            found = self._answers.get(timeout=seconds)
        except Empty:
            return None
        if isinstance(found, BusError):
            self._answers.put(found)
            raise found
        return found

    def close(self) -> None:
        """Ends the watch and its thread."""
        try:
            self._socket.shutdown(socket.SHUT_RDWR)
        except OSError:
            pass
        self._thread.join()
        self._connection.close()

    def _hear(self) -> None:
        """Puts each answer into the queue, and at last the fault that ends the watch."""
        try:
            for line in self._connection.getresponse():
                answer = json.loads(line)
                if "result" not in answer:
                    raise BusError(_fault(answer))
                self._answers.put(answer["result"])
            self._answers.put(BusError("the server has ended the watch"))
        except BusError as error:
            self._answers.put(error)
        except (OSError, HTTPException, ValueError, AttributeError) as error:
            self._answers.put(BusError(f"the watch: {error}"))


def _fault(answer: Json) -> str:
    """What the server says is wrong."""
    error = answer.get("error", answer)
    return str(error.get("message", error) if isinstance(error, dict) else error)
