"""Passes on what comes to a port, until it is stopped or ended: forward.py HOST:PORT prints the port on which it listens."""

import socket
import sys
import threading


def copy(source: socket.socket, dest: socket.socket) -> None:
    try:
        while block := source.recv(1 << 16):
            dest.sendall(block)
    except OSError:
        pass
    for end in (source, dest):
        try:
            end.shutdown(socket.SHUT_RDWR)
        except OSError:
            pass


def main() -> None:
    host, port = sys.argv[1].split(":")
    listener = socket.create_server(("127.0.0.1", 0))
    print(listener.getsockname()[1], flush=True)
    while True:
        one, _ = listener.accept()
        try:
            other = socket.create_connection((host, int(port)))
        except OSError:
            one.close()
            continue
        for ends in ((one, other), (other, one)):
            threading.Thread(target=copy, args=ends, daemon=True).start()


if __name__ == "__main__":
    main()
