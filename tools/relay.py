"""A listener that runs a program for each connection: standard input and output of the program are the connection.

usage: python3 tools/relay.py PORT PROGRAM [WORD..]

It stands in for `socat TCP-LISTEN:PORT,bind=127.0.0.1,reuseaddr,fork EXEC:PROGRAM` where there is no socat. It listens on
127.0.0.1 alone, until it is interrupted. Where the program has ended, it closes as RFC 7230, section 6.6, has it: the
sending side, then it reads on for a while, then all; so the client gets the last reply. A connection is ended after five
minutes, and no more than 64 are open at once: later ones wait."""
import shutil
import socket
import subprocess
import sys
import threading
import time

SECONDS = 300
MOST_OPEN = 64
# How long it reads on behind the last reply, and at most how much.
LINGER = 2
LINGER_BYTES = 16 * 1024 * 1024


def linger(connection):
    """Reads what the client still sends, for a while, so that it does not lose what was written."""
    try:
        connection.shutdown(socket.SHUT_WR)
        end, left = time.monotonic() + LINGER, LINGER_BYTES
        while left > 0 and time.monotonic() < end:
            connection.settimeout(max(end - time.monotonic(), 0.01))
            piece = connection.recv(65536)
            if not piece:
                return
            left -= len(piece)
    except OSError:
        pass


def serve(connection, words, seconds, stderr):
    """Runs the program over a connection."""
    with connection:
        # A program reads and writes what is not ready by waiting, not by failing.
        connection.setblocking(True)
        with subprocess.Popen(words, stdin=connection.fileno(), stdout=connection.fileno(), stderr=stderr) as program:
            try:
                program.wait(seconds)
            except subprocess.TimeoutExpired:
                program.kill()
        linger(connection)


class Relay:
    """A listener on a port of 127.0.0.1, one that is free where the port is 0."""

    def __init__(self, port, words, seconds=SECONDS, stderr=None):
        self.words, self.seconds, self.stderr = words, seconds, stderr
        self.room = threading.Semaphore(MOST_OPEN)
        self.listener = socket.create_server(("127.0.0.1", port), backlog=MOST_OPEN)
        self.port = self.listener.getsockname()[1]

    def serve_and_leave(self, connection):
        try:
            serve(connection, self.words, self.seconds, self.stderr)
        finally:
            self.room.release()

    def run(self):
        """Takes connections until the listener is closed."""
        while True:
            self.room.acquire()
            try:
                connection, _ = self.listener.accept()
            except OSError:
                return
            connection.setsockopt(socket.IPPROTO_TCP, socket.TCP_NODELAY, 1)
            threading.Thread(target=self.serve_and_leave, args=(connection,), daemon=True).start()

    def start(self):
        threading.Thread(target=self.run, daemon=True).start()

    def close(self):
        self.listener.close()


def main():
    if len(sys.argv) < 3 or not sys.argv[1].isdigit():
        print("usage: python3 tools/relay.py PORT PROGRAM [WORD..]", file=sys.stderr)
        return 64
    if shutil.which(sys.argv[2]) is None:
        print(f"relay: there is no program {sys.argv[2]}", file=sys.stderr)
        return 64
    relay = Relay(int(sys.argv[1]), sys.argv[2:])
    print(f"http://127.0.0.1:{relay.port}/", flush=True)
    try:
        relay.run()
    except KeyboardInterrupt:
        relay.close()
    return 0


if __name__ == "__main__":
    sys.exit(main())
