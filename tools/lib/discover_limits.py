"""Limits against floods: how often something may happen, and how many lines a log gets."""
import sys
import threading
import time
from collections import Counter, deque

LINES_A_SECOND = 16


class Window:
    """What happened in the last `seconds`: of one key at most `each` times, of all together at most `most`."""

    def __init__(self, seconds, each, most):
        self.seconds, self.each, self.most = seconds, each, most
        self.events, self.counts = deque(), Counter()

    def has_room(self, key):
        now = time.monotonic()
        while self.events and self.events[0][0] <= now - self.seconds:
            _, old = self.events.popleft()
            self.counts[old] -= 1
            if not self.counts[old]:
                del self.counts[old]
        return len(self.events) < self.most and self.counts[key] < self.each

    def add(self, key):
        self.events.append((time.monotonic(), key))
        self.counts[key] += 1

    def take(self, key):
        """Whether it may happen once more; then it is counted."""
        room = self.has_room(key)
        if room:
            self.add(key)
        return room


class Log:
    """Lines on standard error, at most 16 a second; how many more there were is told in the next second.

    A log that can't be written is no reason to end.
    """

    def __init__(self):
        self.lock, self.second, self.count, self.left_out = threading.Lock(), 0, 0, 0

    def say(self, line):
        with self.lock:
            self.turn()
            self.count += 1
            if self.count > LINES_A_SECOND:
                self.left_out += 1
            else:
                self.write(line)

    def tick(self):
        """Tells what was left out, if its second is over."""
        with self.lock:
            self.turn()

    def turn(self):
        second = int(time.monotonic())
        if second == self.second:
            return
        left_out, self.second, self.count, self.left_out = self.left_out, second, 0, 0
        if left_out:
            self.count = 1
            self.write(f"{left_out} more lines left out")

    @staticmethod
    def write(line):
        try:
            print(line, file=sys.stderr, flush=True)
        except OSError:
            pass
