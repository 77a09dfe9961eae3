"""Real grammars from Debian, and what is told of them: their pattern texts, and of which form one is that isn't read."""
import json
import os
import re
import subprocess
import sys
from pathlib import Path

sys.dont_write_bytecode = True
here = Path(__file__).resolve().parent
built = here.parent.parent / "crates/graph_bench/out/graph_bench"
PACKAGE = "ruby-github-linguist"


def fetched(package, folder):
    """The package's files under the folder, or None where it can't be had."""
    for words in (["apt-get", "download", package], ["sh", "-c", "dpkg -x *.deb files"]):
        try:
            done = subprocess.run(words, cwd=folder, capture_output=True)
        except OSError:
            return None
        if done.returncode:
            return None
    return Path(folder) / "files"


def program(words):
    """The program that the words name first, or the built one; and the other words."""
    path = Path(words[0]).resolve() if words else built
    if not os.access(path, os.X_OK):
        sys.exit(f"{Path(sys.argv[0]).name}: there is no program {path}: build it by rt run in crates/graph_bench first")
    return path


def field(text):
    return text.replace("\\", "\\\\").replace("\t", "\\t").replace("\n", "\\n").replace("\r", "\\r")


def answers(path, commands, words=()):
    """What the program writes to these commands."""
    text = "".join(command + "\n" for command in commands)
    done = subprocess.run([str(path), *words], input=text.encode(), capture_output=True)
    if done.returncode:
        sys.exit(f"{path} ended with status {done.returncode}: {done.stderr.decode()[:300]}")
    return done.stdout.decode().splitlines()


def pattern_texts(rule):
    """The texts of a rule and of those in it: those that are read at once, and those that are read later."""
    for key in ("match", "begin", "end", "while"):
        text = rule.get(key)
        if isinstance(text, str) and (text or key == "begin"):
            later = key in ("end", "while") and re.search(r"\\[0-9]", text) is not None
            yield text, later
    for key in ("captures", "beginCaptures", "endCaptures", "whileCaptures"):
        for number, capture in (rule.get(key) or {}).items():
            if re.fullmatch(r"0|[1-9][0-9]{0,4}", number) and capture is not None:
                yield from texts_of_list(capture.get("patterns"))
    yield from texts_of_list(rule.get("patterns"))


def texts_of_list(rules):
    for rule in rules or []:
        if not isinstance(rule.get("include"), str):
            yield from pattern_texts(rule)


def texts_of(grammar):
    yield from texts_of_list(grammar.get("patterns"))
    for key in ("repository", "injections"):
        for rule in (grammar.get(key) or {}).values():
            if rule is not None:
                yield from pattern_texts(rule)


LEFT_OUT = [
    (r"\(\?<[=!]", "a lookbehind of open length"),
    (r"\(\?~", "an absent operator"),
    (r"\(\?\(", "a conditional"),
    (r"\(\?P[<>=]", "a named group or a call of Python's syntax"),
    (r"\(\?(R|[0-9]+|&)", "a subexpression call of Perl's syntax"),
    (r"\(\?['<]", "a second group of one name"),
    (r"\(\?", "another form behind `(?`"),
    (r"\\g", "`\\g`, a subexpression call"),
    (r"\\R", "`\\R`, any line ending"),
    (r"\\X", "`\\X`, a grapheme cluster"),
    (r"\\K", "`\\K`, a match that begins later"),
    (r"\\k", "a back reference to a name that isn't there"),
    (r"\\[1-9]", "a back reference to a group that isn't there"),
    (r"\\0", "an octal escape"),
    (r"\\[cCM]", "a control escape"),
    (r"\\[yYNO]", "`\\y`, `\\Y`, `\\N` or `\\O`"),
    (r"\\[pP]\{", "another name in `\\p`, as that of a script"),
    (r"\\[pP]", "`\\p` without braces"),
    (r"\\x[89A-Fa-f]", "a hexadecimal escape of two digits above 7F"),
    (r"\\[xu]", "a hexadecimal escape of another length"),
    (r"\\[A-Za-z0-9]", "another escape by a letter or digit"),
    (r"\[:", "another name in `[:name:]`"),
    (r"\{", "an interval whose end is below its start"),
]
SYNTAX = [
    (r"\)", "a `)` without a group"),
    (r"[*+?{]", "a repeat with nothing before it"),
    (r"\\[xu]", "a hexadecimal escape without a digit, or of no character"),
    (r"\\k", "a bad name"),
    (r"\(\?", "a bad name"),
    (r"\[", "a class"),
]


def form(text, answer):
    """Of which form a text is that isn't read."""
    *words, number = answer.split()
    why = " ".join(words)
    if why not in ("left out", "syntax"):
        return answer
    at = int(number)
    if why == "syntax" and at >= len(text):
        return "syntax: something that isn't closed, or a backslash at the end"
    for sign, name in LEFT_OUT if why == "left out" else SYNTAX:
        if re.match(sign, text[at:]):
            return f"{why}: {name}"
    return f"{why}: a range whose end is below its start" if why == "syntax" else f"{why}: other"
