"""What the programs beside it share: the program under test, the samples, a clock, and an archive that is served."""
import atexit
import json
import os
import re
import socket
import subprocess
import time
from pathlib import Path

ROOT = Path(__file__).resolve().parents[2]
PROGRAM = os.environ.get("PROGRAM", str(ROOT / "crates/pcielink/out/pcielink"))
SAMPLES = {file.stem: file.read_bytes() for file in sorted((ROOT / "samples").glob("*.cap"))}
NO_REPLY = (0, None)


def load():
    return f"load {os.getloadavg()[0]:.1f}"


def run(*words, seconds=60, **how):
    """The status and the output of one run, which a clock ends. A status below 0 is a signal's."""
    how = {"stdout": subprocess.PIPE, "stderr": subprocess.PIPE, "stdin": subprocess.DEVNULL, "close_fds": False, **how}
    ended = subprocess.run([PROGRAM, *words], timeout=seconds, **how)
    return ended.returncode, ended.stdout


def records(capture):
    """The header of a capture, and its records: heads of 12 bytes with their bodies."""
    parts, place = [capture[:16]], 16
    while place < len(capture):
        end = place + 12 + int.from_bytes(capture[place + 2:place + 4], "big")
        parts.append(capture[place:end])
        place = end
    return parts


def ended(items):
    """A capture of these records, the header first, with the end record that counts them."""
    return b"".join(items) + bytes([3, 0, 0, 8]) + bytes(8) + (len(items) - 1).to_bytes(8, "big")


def put(path, body):
    return f"PUT {path} HTTP/1.1\r\nHost: lab\r\nContent-Length: {len(body)}\r\n\r\n".encode() + body


def get(path):
    return f"GET {path} HTTP/1.1\r\nHost: lab\r\n\r\n".encode()


def reply_of(text):
    """The status and the body of a reply, with JSON read. One that was cut off is none."""
    head, _, body = text.partition(b"\r\n\r\n")
    length = re.search(rb"Content-Length: (\d+)", head)
    if length is None or len(body) < int(length[1]):
        return NO_REPLY
    return int(head.split()[1]), json.loads(body) if b"application/json" in head else body


def receive(link):
    reply = b""
    try:
        while part := link.recv(65536):
            reply += part
    except ConnectionResetError:
        pass  # it was answered before the whole request was read
    return reply_of(reply)


class Served:
    """The program as it serves an archive at a port of the loopback."""

    def __init__(self, port, store, turns, **how):
        self.port = port
        words = [PROGRAM, "serve", f"127.0.0.1:{port}", str(store), str(turns)]
        self.process = subprocess.Popen(words, **{"stdout": subprocess.PIPE, "stderr": subprocess.PIPE, **how})
        atexit.register(self.process.kill)

    def link(self, seconds=60):
        """A link to it, once it listens. None where the program has ended."""
        for _ in range(200 * seconds):
            if self.process.poll() is not None:
                return None
            try:
                return socket.create_connection(("127.0.0.1", self.port), timeout=150)
            except (ConnectionRefusedError, ConnectionResetError):
                time.sleep(0.005)
        raise SystemExit("it doesn't listen")

    def ask(self, request):
        """The reply to a request that is sent at once. None where the program has ended."""
        link = self.link()
        if link is None:
            return None
        with link:
            try:
                link.sendall(request)
                link.shutdown(socket.SHUT_WR)
            except OSError:
                pass  # it has closed the link already
            return receive(link)

    def resident(self):
        """Its resident bytes, in KB."""
        lines = Path(f"/proc/{self.process.pid}/status").read_text().splitlines()
        return next(int(line.split()[1]) for line in lines if line.startswith("VmRSS"))

    def kill(self):
        self.process.kill()
        self.process.communicate()
