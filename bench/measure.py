"""What the scripts of this folder share: the built program, and the best time of three runs of a command.

Only ratios are printed, each against a yardstick that is measured in the same run: a bare time says more of
the machine than of the program.
"""
import os
import subprocess
import sys
import tempfile
import time
from pathlib import Path

sys.dont_write_bytecode = True
here = Path(__file__).resolve().parent
built = here.parent / "crates/bracket_program/out/bracket_program"


class Best:
    """The best of three runs: seconds, those of the processor, what was written, and the most memory in kilobytes."""

    def __init__(self, seconds, used, wrote, memory):
        self.seconds, self.used, self.wrote, self.memory = seconds, used, wrote, memory


def program(words=None):
    """The built program: the first of these words, which are those behind the script's name, or what demo/run builds."""
    words = sys.argv[1:] if words is None else words
    path = Path(words[0]).resolve() if words else built
    if not os.access(path, os.X_OK):
        sys.exit(f"{Path(sys.argv[0]).name}: there is no program {path}: build it by demo/run first")
    return path


def best_of_three(words, script=b""):
    """Runs a command three times over this standard input."""
    runs = [once([str(word) for word in words], script) for _ in range(3)]
    return min(runs, key=lambda run: run.seconds)


def once(words, script):
    with tempfile.TemporaryFile() as given, tempfile.TemporaryFile() as wrote:
        given.write(script)
        given.seek(0)
        begun = time.perf_counter()
        started = subprocess.Popen(words, stdin=given, stdout=wrote, env={**os.environ, "LC_ALL": "C.UTF-8"})
        _, status, used = os.wait4(started.pid, 0)
        seconds = time.perf_counter() - begun
        if status != 0:
            sys.exit(f"{words[0]} ended with status {os.waitstatus_to_exitcode(status)}")
        wrote.seek(0)
        return Best(seconds, used.ru_utime + used.ru_stime, wrote.read().decode(), used.ru_maxrss)


def replies(best):
    return best.wrote.splitlines()


def expect(is_so, why):
    if not is_so:
        sys.exit(f"{Path(sys.argv[0]).name}: {why}, so the times say nothing")
