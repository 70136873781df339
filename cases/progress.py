#!/usr/bin/env python3
"""Says how far something is that takes long: on a terminal in one line that is written anew, else in a line now and then.

usage: progress.py LOG COMMAND..

Runs a command of rt that proves crates, with its output in the file LOG, and says which crate it is at. Where the command fails, it
shows the end of the log. It ends with the command's status.
"""
import os
import re
import shutil
import subprocess
import sys
import threading
import time

TOP = os.path.dirname(os.path.dirname(os.path.abspath(__file__)))
PATIENCE = 3  # seconds of which nothing is said
PAUSE = 30  # seconds between lines that are not on a terminal
ENDING = 15  # lines of a log that are shown where a command failed

# Lines of rt, and what they tell of: a crate that it is at, or has proved, or how many functions it has checked.
AT = re.compile(r"rt: chose --jobs \d+ for (\w+)|== (\w+)|(?:fn|checked|struct|enum|impl|trait) (\w+)::")
DONE = re.compile(r"crate (\w+): modules |rt: (\w+) proved|rt: (\w+): begins with what a check kept")
SO_FAR = re.compile(r"(?:so far: |checked \S+, )(\d+ of \d+)")


class Progress:
    """A line that says how far something is. It is quiet at first, so what takes a few seconds says nothing."""

    def __init__(self, out, pause):
        """Where it isn't on a terminal, so many seconds lie between its lines; none at all is said where `pause` is nothing."""
        self.out = out
        self.pause = 0.2 if out.isatty() else pause
        self.begun = time.monotonic()
        self.next = self.begun + PATIENCE
        self.is_shown = False

    def says(self, text):
        now = time.monotonic()
        if self.pause is None or now < self.next:
            return
        self.next = now + self.pause
        line = f"{int(now - self.begun)} seconds: {text}"
        if self.out.isatty():
            width = shutil.get_terminal_size().columns - 1
            self.out.write("\r\033[K" + line[:width])
            self.is_shown = True
        else:
            self.out.write(line + "\n")
        self.out.flush()

    def clear(self):
        """Takes the line away, before something else is printed."""
        if self.is_shown:
            self.out.write("\r\033[K")
            self.out.flush()
            self.is_shown = False


class Proving:
    """What the lines of rt tell of the crates."""

    def __init__(self, crates):
        self.crates = crates
        self.done = set()
        self.at = self.functions = None

    def reads(self, line):
        done, at, functions = DONE.match(line), AT.match(line), SO_FAR.match(line)
        if done:
            self.done.add(next(filter(None, done.groups())))
        if at and next(filter(None, at.groups())) in self.crates:
            name = next(filter(None, at.groups()))
            if name != self.at:
                self.at, self.functions = name, None
        if functions:
            self.functions = functions[1]

    def words(self):
        proved = len(self.done & set(self.crates))
        if self.at is None:
            return "beginning"
        place = f"{self.at} (crate {self.crates.index(self.at) + 1} of {len(self.crates)})"
        functions = f", {self.functions} functions" if self.functions else ""
        return f"proving {place}{functions}, {proved} proved so far"


def crates_of(path):
    """The crates that crates.txt names, in its order."""
    with open(path, encoding="utf-8") as file:
        return re.findall(r"^(\w+)[^#\n]*:", file.read(), re.MULTILINE)


def run_logged(command, log):
    """Runs a command with its output in a file, and says how far it is."""
    proving = Proving(crates_of(os.path.join(TOP, "crates.txt")))
    progress = Progress(sys.stderr, PAUSE)
    process = subprocess.Popen(command, stdin=subprocess.DEVNULL, stdout=subprocess.PIPE, stderr=subprocess.STDOUT)

    def read():
        with open(log, "wb") as file:
            for line in process.stdout:
                file.write(line)
                file.flush()
                proving.reads(line.decode(errors="replace"))

    reader = threading.Thread(target=read)
    reader.start()
    while reader.is_alive():
        reader.join(0.2)
        progress.says(proving.words())
    progress.clear()
    return process.wait()


def ending_of(log):
    with open(log, encoding="utf-8", errors="replace") as file:
        return file.read().splitlines()[-ENDING:]


def main():
    if len(sys.argv) < 3:
        print("usage: progress.py LOG COMMAND..", file=sys.stderr)
        return 1
    log, command = sys.argv[1], sys.argv[2:]
    if not shutil.which(command[0]):
        print(f"there is no {command[0]} here", file=sys.stderr)
        return 127
    status = run_logged(command, log)
    if status:
        print(*ending_of(log), sep="\n", file=sys.stderr)
        print(f"{' '.join(command)} ended with status {status}; all that it printed is in {log}", file=sys.stderr)
    return status


if __name__ == "__main__":
    try:
        sys.exit(main())
    except KeyboardInterrupt:
        sys.exit(130)
