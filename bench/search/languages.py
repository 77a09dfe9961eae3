"""Which grammars are measured, each over which texts: the grammar's file, and the texts' extensions. There is no text in
Java among those that are fetched, so its grammar goes over C#."""

LANGUAGES = {
    "C": ("source.c", ["c", "h"]),
    "C++": ("source.c++", ["hpp"]),
    "C#": ("source.cs", ["cs"]),
    "CSS": ("source.css", ["css"]),
    "Go": ("source.go", ["go"]),
    "HTML": ("text.html.basic", ["html"]),
    "Java": ("source.java", ["cs"]),
    "JavaScript": ("source.js", ["js"]),
    "PowerShell": ("source.powershell", ["ps1"]),
    "Python": ("source.python", ["py"]),
    "Ruby": ("source.ruby", ["rb"]),
    "Rust": ("source.rust", ["rs"]),
    "Shell": ("source.shell", ["sh"]),
    "TypeScript": ("source.ts", ["ts"]),
    "XML": ("text.xml", ["xml"]),
    "YAML": ("source.yaml", ["yml", "yaml"]),
}

MOST_LINES = 2000
LINES_OF_A_FILE = 400


def rules_of(grammar, patterns, seen):
    """The first patterns of these rules, and of the groups that they include, each group once."""
    for rule in patterns:
        if "match" in rule:
            yield rule["match"]
        elif "begin" in rule:
            yield rule["begin"]
        elif "include" in rule:
            name = rule["include"]
            if name == "$self":
                yield from group(grammar, name, grammar.get("patterns", []), seen)
            elif name.startswith("#"):
                found = grammar.get("repository", {}).get(name[1:])
                if found:
                    yield from group(grammar, name, [found], seen)
        elif "patterns" in rule:
            yield from rules_of(grammar, rule["patterns"], seen)


def group(grammar, name, patterns, seen):
    if name not in seen:
        seen.add(name)
        yield from rules_of(grammar, patterns, seen)


def top_patterns(grammar):
    """The patterns that are searched for where no rule is open."""
    return [text for text in rules_of(grammar, grammar["patterns"], set()) if text]


def all_patterns(part):
    """All patterns of a grammar."""
    if isinstance(part, dict):
        for key, value in part.items():
            if key in ("match", "begin", "end", "while") and isinstance(value, str):
                yield value
            else:
                yield from all_patterns(value)
    elif isinstance(part, list):
        for value in part:
            yield from all_patterns(value)


def lines_of(folder, extensions):
    """The first lines of texts, each with its line feed."""
    lines = []
    files = sorted(path for path in folder.rglob("*") if path.suffix[1:] in extensions and path.is_file())
    files = [path for path in files if path.stat().st_size > 4000]
    for path in files[:: max(1, len(files) // 20)]:
        text = path.read_bytes().decode(errors="ignore").replace("\r", "").replace("\0", "")
        lines += [line + "\n" for line in text.split("\n")[:LINES_OF_A_FILE] if len(line) < 1000]
        if len(lines) >= MOST_LINES:
            break
    return lines[:MOST_LINES]


def field(text):
    return text.replace("\\", "\\\\").replace("\t", "\\t").replace("\n", "\\n").replace("\r", "\\r")


def pattern_commands(patterns):
    return [f"p {number}\t{field(text)}" for number, text in enumerate(patterns)]


def line_commands(lines):
    return [f"t {field(line)}" for line in lines]
