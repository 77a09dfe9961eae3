"""Real grammars and real texts of the languages that are measured, from Debian's packages; none of them is kept here."""
import shutil
import subprocess
import sys
import zipfile
from pathlib import Path

GRAMMARS = "ruby-github-linguist"


class Language:
    """A grammar's file, the package of a text, the end of the text's path, and the extension by which syntect knows it."""

    def __init__(self, grammar, package, text, extension, goal):
        self.grammar, self.package, self.text, self.extension, self.goal = grammar, package, text, extension, goal


# Syntect has no grammar of TypeScript among its own, so its JavaScript reads the same text.
LANGUAGES = {
    "C": Language("source.c", "libstb-dev", "stb_image.h", "c", 1.5),
    "Python": Language("source.python", "libpython3.11-stdlib", "_pydecimal.py", "py", 1.5),
    "JavaScript": Language("source.js", "node-lodash", "lodash/lodash.js", "js", 1.5),
    "Rust": Language("source.rust", "rust-src", "alloc/tests/vec.rs", "rs", 1.5),
    "JSON": Language("source.json", "iso-codes", "json/iso_3166-2.json", "json", 1.5),
    "CSS": Language("source.css", "libjs-bootstrap4", "css/bootstrap.css", "css", 1.5),
    "Go": Language("source.go", "golang-1.19-src", "net/http/server.go", "go", 1.0),
    "Java": Language("source.java", "openjdk-17-source", "java.base/java/util/regex/Pattern.java", "java", 1.0),
    "Shell": Language("source.shell", "testssl.sh", "bin/testssl", "sh", 1.0),
    "Ruby": Language("source.ruby", "libruby3.1", "3.1.0/csv.rb", "rb", 1.0),
    "Markdown": Language("source.gfm", "rust-src", "RELEASES.md", "md", 1.0),
    "YAML": Language("source.yaml", "ansible", "community/general/meta/runtime.yml", "yaml", 1.0),
    "TypeScript": Language("source.ts", "node-typescript", "lib/lib.es5.d.ts", "js", 1.0),
    "C++": Language("source.c++", "nlohmann-json3-dev", "nlohmann/json.hpp", "cpp", 1.0),
}
MOST_LINES = 20_000


def taken(package, folder):
    """The package's files, fetched where the folder hasn't them yet; None where it can't be had."""
    into = Path(folder) / package
    if into.is_dir():
        return into
    part = Path(folder) / (package + ".part")
    part.mkdir(parents=True, exist_ok=True)
    for words in (["apt-get", "download", "-qq", "-o", "APT::Sandbox::User=root", package], ["sh", "-c", "dpkg -x *.deb files"]):
        try:
            if subprocess.run(words, cwd=part, capture_output=True).returncode:
                return None
        except OSError:
            return None
    (part / "files").rename(into)
    shutil.rmtree(part)
    for archive in into.rglob("src.zip"):
        with zipfile.ZipFile(archive) as held:
            held.extractall(into / "src", [name for name in held.namelist() if name.startswith("java.base/java/util/")])
    return into


def grammar_of(language, folder):
    files = taken(GRAMMARS, folder)
    return files and next(files.rglob(f"grammars/{language.grammar}.json"), None)


def text_of(language, folder):
    """The text's first lines, each ended by a line feed alone; None where it can't be had."""
    files = taken(language.package, folder)
    if files is None:
        return None
    found = sorted(path for path in files.rglob(Path(language.text).name) if str(path).endswith(language.text))
    if not found:
        return None
    lines = found[0].read_text(encoding="utf-8").replace("\r", "").split("\n")
    return "\n".join(lines[:MOST_LINES])


def chosen(words):
    """The languages that these words name, or all."""
    unknown = [word for word in words if word not in LANGUAGES]
    if unknown:
        sys.exit(f"{Path(sys.argv[0]).name}: no language {unknown[0]}")
    return words or list(LANGUAGES)
