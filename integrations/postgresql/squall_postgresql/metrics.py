"""What a mover counts, as Prometheus reads it. Names are those of the mover over Redis."""

from __future__ import annotations

import threading
from http.server import BaseHTTPRequestHandler, ThreadingHTTPServer
from typing import Callable, List, Optional, Tuple, Type

from squall import Course

from .feeder import Job
from .reports import Reports

#: How long a client may take for its request, in seconds.
_PATIENCE = 2.0

#: A number: its name, its help and its value.
_Number = Tuple[str, str, int]


class Metrics:
    """The numbers of a course that a mover does."""

    def __init__(self, course: Course, job: Job, reports: Optional[Reports]) -> None:
        self._number, self._job, self._reports = course.number, job, reports
        self._moves = [(it.lo, it.hi) for it in course.moves()]

    def page(self) -> str:
        """All of them."""
        counters = [(f"{name}_total", about, value) for name, about, value in self._counters()]
        return _lines("counter", counters) + _lines("gauge", self._gauges())

    def _counters(self) -> List[_Number]:
        progress = self._job.progress
        numbers = [
            ("moved_rows", "rows that this mover has loaded", progress.rows),
            ("moved_chunks", "chunks that this mover has loaded", progress.chunks),
            ("lost_connections", "times that this mover has begun again", progress.lost),
        ]
        if self._reports is not None:
            taken, refused, repairs = self._reports.counts()
            numbers += [
                ("frames_taken", "frames of the bus that were taken", taken),
                ("frames_refused", "messages of the bus that are no frame", refused),
                ("repairs_sent", "frames of repairs that were sent", repairs),
            ]
        return numbers

    def _gauges(self) -> List[_Number]:
        progress, rate = self._job.progress, self._job.pace.rate
        loaded = progress.loaded()
        waiting = 0 if self._reports is None else self._reports.waiting()
        return [
            ("course", "the number of the course", self._number),
            ("moves", "moves of the course", len(self._moves)),
            ("moving_keys", "keys that the course moves", sum(hi - lo for lo, hi in self._moves)),
            ("loaded_keys", "keys among them that this mover knows to be loaded", loaded),
            ("reports_waiting", "reports that the bus has not taken yet", waiting),
            (
                "rate_limit_rows",
                "rows that may leave a source in a second; 0 is no limit",
                int(rate),
            ),
            ("uptime_seconds", "seconds since the program began", int(progress.took())),
        ]


def _lines(kind: str, numbers: List[_Number]) -> str:
    return "".join(
        f"# HELP squall_{name} {about}\n# TYPE squall_{name} {kind}\nsquall_{name} {value}\n"
        for name, about, value in numbers
    )


def serve(address: str, page: Callable[[], str]) -> ThreadingHTTPServer:
    """Shows the page at `/metrics` of a `HOST:PORT`, in a thread.

    Raises `ValueError` or `OSError`.
    """
    host, _, port = address.rpartition(":")
    if not host or not port.isdigit():
        raise ValueError(f"--metrics {address}: not of the form HOST:PORT")
    server = ThreadingHTTPServer((host.strip("[]"), int(port)), _handler(page))
    server.daemon_threads = True
    threading.Thread(target=server.serve_forever, daemon=True, name="metrics").start()
    return server


def _handler(page: Callable[[], str]) -> Type[BaseHTTPRequestHandler]:
    class Handler(BaseHTTPRequestHandler):
        """Answers one client."""

        timeout = _PATIENCE

        def do_GET(self) -> None:  # pylint: disable=invalid-name
            """Answers with the page, or that there is no other one."""
            is_there = self.path.split("?")[0] == "/metrics"
            body = (page() if is_there else "/metrics\n").encode()
            self.send_response(200 if is_there else 404)
            self.send_header("Content-Type", "text/plain; version=0.0.4")
            self.send_header("Content-Length", str(len(body)))
            self.end_headers()
            self.wfile.write(body)

        def log_message(self, format: str, *args: object) -> None:
            # pylint: disable=redefined-builtin
            """Requests are not logged."""

    return Handler
