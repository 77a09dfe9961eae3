"""What the measurements of lines per second share: syntect as a yardstick, and the program over a text with a grammar.

Both are told in seconds of the processor, since other programs that run on the machine make these longer by little.
"""
import json
import os
import shutil
import subprocess
import sys
import tempfile
from pathlib import Path

from measure import expect, here, once, replies

SYNTECT = here / "syntect"
ROOM = here / "out" / "syntect"
DEBIAN = Path("/usr/share/cargo/registry")
TURNS = int(os.environ.get("TURNS", "5"))
# Each question for tokens runs all lines before it, so a few lines stand for all.
SAMPLE = 50
# The characters of the text of one line, whose time is that of starting and of reading the grammar.
ONE_LINE = 80


def syntect():
    """The yardstick, built where that is missing; None, and a word why, where it can't be had."""
    name = Path(sys.argv[0]).name
    if not shutil.which("cargo"):
        print(f"{name}: skipped, since there is no cargo to build the yardstick with")
        return None
    if not list(DEBIAN.glob("syntect-5*")):
        print(f"{name}: skipped, since there is no syntect to compare with (Debian: librust-syntect-dev and libonig-dev)")
        return None
    words = ["cargo", "build", "--release", "--offline", "--quiet"]
    done = subprocess.run(words, cwd=SYNTECT, env={**os.environ, "CARGO_TARGET_DIR": str(ROOM)}, capture_output=True)
    if done.returncode:
        print(f"{name}: skipped, since the yardstick can't be built: {done.stderr.decode()[-300:]}")
        return None
    return ROOM / "release/syntect_lines"


def count_lines(text):
    return text.count("\n") + 1


def sample_of(lines):
    """The numbers of the lines whose tokens are counted: each k-th."""
    return range(0, lines, max(1, lines // SAMPLE))


class Ours:
    """The program over a text: the seconds of opening it and asking one question, less those of a text of one line."""

    def __init__(self, program, grammar, text):
        self.room = tempfile.TemporaryDirectory()
        self.words = [program, Path(self.room.name, "text"), "--grammar", grammar]
        self.short = [program, Path(self.room.name, "line"), "--grammar", grammar]
        self.lines = count_lines(text)
        self.words[1].write_text(text)
        self.short[1].write_text(text.split("\n")[0][:ONE_LINE])
        self.whole = self.line = self.memory = None

    def measure(self):
        """One turn more; the least of all turns counts."""
        whole = once([str(word) for word in self.words], level(self.lines - 1))
        line = once([str(word) for word in self.short], level(0))
        told = json.loads(replies(whole)[0])
        expect(told["opened"] == self.lines and "level" in replies(whole)[1], "the program answered otherwise")
        self.whole = min(whole.used, self.whole or whole.used)
        self.line = min(line.used, self.line or line.used)
        self.memory = min(whole.memory, self.memory or whole.memory)
        self.unread = told["unread"]

    def seconds(self):
        return max(self.whole - self.line, 1e-9)

    def tokens(self):
        """The number of tokens of the lines of the sample."""
        asked = "".join(f'{{"tokens":{line}}}\n' for line in sample_of(self.lines))
        told = replies(once([str(word) for word in self.words], asked.encode()))
        return sum(len(json.loads(line)["tokens"]) for line in told[1:])


def level(line):
    return f'{{"level":[{line},0]}}\n'.encode()


class Theirs:
    """Syntect over the same text: the seconds of the fastest pass."""

    def __init__(self, program, extension, text):
        self.room = tempfile.TemporaryDirectory()
        self.file = Path(self.room.name, "text")
        self.file.write_text(text)
        self.lines = count_lines(text)
        self.words = [str(program), str(self.file), extension]
        self.best = None

    def measure(self):
        step = sample_of(self.lines).step
        told = once([*self.words, "1", str(step)], b"").wrote.strip()
        if told == "none":
            return False
        figures = dict(part.split("=", 1) for part in told.split("\t"))
        expect(int(figures["lines"]) == self.lines, "syntect counted other lines")
        seconds = int(figures["ns"]) / 1e9
        self.best = min(seconds, self.best or seconds)
        self.tokens, self.name = int(figures["tokens"]), figures["name"]
        return True


class Told:
    """What one text gives: how many times as many lines per second, and the tokens of some lines by each."""

    def __init__(self, ours, theirs):
        self.ratio = theirs.best / ours.seconds()
        self.ours_seconds, self.theirs_seconds = ours.seconds(), theirs.best
        self.lines, self.step = ours.lines, sample_of(ours.lines).step
        self.ours, self.theirs = ours.tokens(), theirs.tokens
        self.name, self.unread = theirs.name, ours.unread


def compare(program, yardstick, grammar, text, extension):
    """Both in turns; None where syntect has no grammar for that extension."""
    ours, theirs = Ours(program, grammar, text), Theirs(yardstick, extension, text)
    for _ in range(TURNS):
        if not theirs.measure():
            return None
        ours.measure()
    return Told(ours, theirs)
