"""What the benchmarks of `run` share: a program that is given its input in parts, and what each part took."""
import pathlib
import subprocess
import sys
import threading
import time

from nodes import RING, program


class Run:
    """The program, which is given its input in parts."""

    def __init__(self, sink):
        self.sink = sink
        with sink.open("wb") as given:
            self.process = subprocess.Popen([program(), "run", str(RING)], stdin=subprocess.PIPE, stdout=given)
        self.answers = sink.open("rb")

    def used(self):
        """Its processor seconds so far."""
        return int(pathlib.Path(f"/proc/{self.process.pid}/schedstat").read_text().split()[0]) / 1e9

    def memory(self):
        """The most memory that it had, in bytes."""
        status = pathlib.Path(f"/proc/{self.process.pid}/status").read_text()
        return int(next(line for line in status.splitlines() if line.startswith("VmHWM")).split()[1]) * 1024

    def give(self, requests):
        """Gives it requests, waits until all are answered, and tells the processor seconds that this took, and the answers."""
        begun, text, answers, left = self.used(), "".join(requests).encode(), [], b""
        giving = threading.Thread(target=lambda: (self.process.stdin.write(text), self.process.stdin.flush()))
        giving.start()
        idle, before = 0, None
        while len(answers) < len(requests) and idle < 100:
            time.sleep(0.1)
            more, left = whole(left + self.answers.read())
            answers += more
            now = (self.used(), len(answers), len(left))
            idle, before = (idle + 1 if now == before else 0), now
        giving.join()
        if len(answers) != len(requests):
            sys.exit(f"{len(requests)} requests had {len(answers)} answers")
        return self.used() - begun, answers

    def end(self):
        self.process.stdin.close()
        if self.process.wait():
            sys.exit(f"the program ended with {self.process.returncode}")


def whole(replies):
    """The status and the body of each whole reply, one behind the other, and what stands behind them."""
    found, at = [], 0
    while (end := replies.find(b"\r\n\r\n", at)) >= 0:
        head = replies[at:end]
        length = next((int(line.partition(b":")[2]) for line in head.lower().split(b"\r\n") if line.startswith(b"content-length:")), 0)
        if end + 4 + length > len(replies):
            break
        found.append((head[9:12], replies[end + 4 : end + 4 + length]))
        at = end + 4 + length
    return found, replies[at:]
