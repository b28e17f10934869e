"""A session of lab that gets one call after another; its time and memory are measured."""
import re
import subprocess
import sys
from pathlib import Path

# A number that no answer has: it ends the answer to the call before.
MARK = "3141592653"


class Session:
    """A running lab: it gets calls, and is asked for a number after each."""

    def __init__(self, lab):
        self.process = subprocess.Popen([lab], stdin=subprocess.PIPE, stdout=subprocess.PIPE, text=True)

    def ask(self, call):
        """The lines of the answer to a call, which must have one."""
        self.process.stdin.write(f"{call}\nnumber {MARK}\n")
        self.process.stdin.flush()
        lines = []
        for line in self.process.stdout:
            if line.strip() == MARK:
                break
            lines.append(line.removesuffix("\n"))
        if lines and re.match(r"refused|fault|memory|there is no such call|the call is wanted", lines[0]):
            sys.exit(f"{call[:100]}: {lines[0]}")
        return lines

    def ask_below(self, call, lines):
        """The lines of the answer to a call that reads a text."""
        return self.ask("\n".join([call, *lines, ">>"]))

    def number(self, call):
        """The number that a call answers."""
        return int(self.ask(call)[0].split()[0])

    def time(self, times, call):
        """How long a call takes, in microseconds, if it is made this many times."""
        return int(self.ask(f"time {times} {call}")[0].split()[-2]) / times

    def peak(self):
        """The peak of its memory, in bytes."""
        return self.memory("VmHWM")

    def resident(self):
        """The memory that it has, in bytes."""
        return self.memory("VmRSS")

    def memory(self, name):
        """A figure that Linux reports about its memory, in bytes."""
        status = Path(f"/proc/{self.process.pid}/status").read_text()
        return 1024 * int(re.search(rf"^{name}:\s+(\d+) kB", status, re.MULTILINE)[1])

    def end(self):
        self.process.stdin.close()
        self.process.wait()
