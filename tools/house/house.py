"""What the tools that look at the repository share: files, crates, functions, definitions."""

from __future__ import annotations

import os
import re
import signal
import subprocess
import sys
from typing import Callable, Iterable, Iterator, NoReturn, Optional, Sequence

HERE = os.path.dirname(os.path.realpath(__file__))
TOOLS = os.path.dirname(HERE)
ROOT = os.path.dirname(TOOLS)
sys.path.insert(1, TOOLS)

from desync_tools.command import Parser as Parser  # noqa: E402, F401, for the tools
from desync_tools.command import number_word as number_word  # noqa: E402, F401, for the tools
from desync_tools.command import parser as parser  # noqa: E402, F401, for the tools
from desync_tools.text import in_words  # noqa: E402

# (first place, last place) of a part of a text. The crates of crates.txt, each with those below.
Range = tuple[int, int]
Listed = dict[str, list[str]]
# Crates on which nothing but tests stands.
FOR_TESTS = {"ds_trial"}
PLACED = re.compile(r"crates/(\w+)/(src|specs|proofs)/(.+)\.(rt|antt)$")
SKIPPED = re.compile(
    r"//[^\n]*|/\*.*?\*/|b?\"(?:[^\"\\]|\\.)*\""
    r"|b?'(?:[^'\\\n]|\\(?:x[0-9a-fA-F]{2}|u\{[^}]*\}|.))'",
    re.S,
)
FUNCTION = re.compile(r"^([ \t]*)(pub(?:\([a-z]+\))? )?(?:(?:const|unsafe|final) )*fn (\w+)", re.M)
CLAUSE = re.compile(r"\b(requires|ensures)\b\s*(\w*)\s*$")
DEFINITION = re.compile(
    r"^(?:(?:unfoldable|abbrev|pub|record|data) )*pub (?:(?:abbrev|record|data) )*([^\s:(){}]+)"
)
IMPORT = re.compile(
    r"^[ \t]*(?:pub )?(?:ghost )?use ((?:Rattle|mathlib|lib)\.[^\s;{]+?)\.?"
    r"(?:\{([^}]*)\}| as (\S+?))?;?$",
    re.M,
)


def files() -> list[str]:
    """The paths of the repository's files, in order, without links and what `rt` makes."""
    command = ["git", "ls-files", "-co", "--exclude-standard"]
    try:
        ended = subprocess.run(command, cwd=ROOT, capture_output=True, text=True, check=True)
        names = ended.stdout.split("\n")
    except (OSError, subprocess.CalledProcessError):
        names = list(walked())
    return sorted(name for name in set(names) if is_ours(name))


def walked() -> Iterator[str]:
    """The paths of all files, where there is no git to ask."""
    for folder, below, names in os.walk(ROOT):
        below[:] = [name for name in below if name not in (".git", "out", "__pycache__")]
        for name in names:
            yield os.path.relpath(os.path.join(folder, name), ROOT)


def is_ours(name: str) -> bool:
    path = os.path.join(ROOT, name)
    return bool(name) and "/out/" not in name and os.path.isfile(path) and not os.path.islink(path)


def read(name: str) -> str:
    """The text of a file of the repository."""
    with open(os.path.join(ROOT, name), encoding="utf-8", errors="replace") as file:
        return file.read()


def write(path: str, lines: Iterable[str]) -> None:
    """Writes a file of some lines."""
    with open(path, "w", encoding="utf-8") as file:
        file.writelines(line + "\n" for line in lines)


def placed(
    names: Iterable[str],
    kinds: Sequence[str] = ("src", "specs", "proofs"),
    ends: Sequence[str] = ("rt", "antt"),
) -> Iterator[tuple[str, str]]:
    """(path, crate) of each file that lies in these parts of a crate and has such an ending."""
    for name in names:
        found = PLACED.match(name)
        if found and found[2] in kinds and found[4] in ends:
            yield name, found[1]


def crates() -> Listed:
    """The crates of crates.txt in its order, each with the names that it stands on."""
    found: dict[str, list[str]] = {}
    for line in read("crates.txt").splitlines():
        head, colon, below = line.split("#")[0].partition(":")
        if colon:
            found[head.split()[0]] = below.split()
    return found


def all_below(listed: Listed, crate: str) -> set[str]:
    """All crates of the repository on which one stands, itself too."""
    seen: set[str] = set()
    waiting = [crate]
    while waiting:
        one = waiting.pop()
        if one in listed and one not in seen:
            seen.add(one)
            waiting += listed[one]
    return seen


def blanked(text: str) -> str:
    """A text of code with blanks in place of comments, texts and characters."""
    return SKIPPED.sub(lambda found: re.sub(r"[^\n]", " ", found[0]), text)


def closing(code: str, at: int) -> int:
    """The place behind the bracket that closes the one at a place."""
    depth = 0
    for here in range(at, len(code)):
        if code[here] in "([{":
            depth += 1
        elif code[here] in ")]}":
            depth -= 1
            if depth == 0:
                return here + 1
    return len(code)


def line_of(text: str, at: int) -> int:
    """The number of the line of a place."""
    return text.count("\n", 0, at) + 1


class Function:
    """A function of a file: where it stands, its parameters, its clauses and its body."""

    def __init__(self, path: str, file: "File", found: re.Match[str]) -> None:
        code = file.code
        self.path, self.name, self.is_public = path, found[3], found[2] == "pub "
        self.start, self.line = found.start(), line_of(code, found.start(3))
        around = [name for low, high, name in file.blocks if low <= self.start < high]
        self.owner: Optional[str] = around[-1] if around else None
        self.is_test = any(low <= self.start < high for low, high in file.testing)
        self.parameters, at = parameters(code, found.end())
        # The kind, the name and the range of each clause.
        self.clauses: list[tuple[str, str, Range]] = []
        self.body: Optional[Range] = None
        self.result, self.end = "()", at
        self.read_rest(code, at)

    def read_rest(self, code: str, at: int) -> None:
        """What stands behind the parameters: the answer's type, the clauses, the body."""
        begin, is_told = at, False
        while at < len(code):
            if code[at] in "([":
                at = closing(code, at)
            elif code[at] == ";":
                self.result = self.result if is_told else self.result_in(code[begin:at])
                self.end = at
                return
            elif code[at] == "{":
                clause, end = CLAUSE.search(code[begin:at]), closing(code, at)
                if not is_told:
                    self.result, is_told = self.result_in(code[begin:at]), True
                if not clause:
                    self.body, self.end = (at + 1, end - 1), end
                    return
                self.clauses.append((clause[1], clause[2], (at + 1, end - 1)))
                begin = at = end
            else:
                at += 1
        self.end = at

    @staticmethod
    def result_in(text: str) -> str:
        """The type of the answer."""
        behind = r"(?:\bwhere\b.*|\brequires\b.*|\bensures\b.*)?$"
        found = re.match(r"\s*->\s*(.*?)\s*" + behind, text, re.S)
        return " ".join(found[1].split()) if found else "()"

    def size(self, code: str) -> int:
        """The number of lines between the brackets of the body."""
        return max(0, code.count("\n", *self.body) - 1) if self.body else 0


def parameters(code: str, at: int) -> tuple[list[str], int]:
    """The parameters behind a function's name, without `self`, and the place behind them."""
    if code[at : at + 1] == "<":
        depth = 0
        while at < len(code):
            depth += (code[at] == "<") - (code[at] == ">" and code[at - 1] not in "-=")
            at += 1
            if depth == 0:
                break
    end = closing(code, at)
    parts: list[str] = []
    depth, begin = 0, at + 1
    for here in range(at + 1, end):
        c = code[here]
        depth += (c in "([{<") - (c in ")]}" or c == ">" and code[here - 1] not in "-=")
        if c == "," and depth == 0 or here == end - 1:
            parts.append(" ".join(code[begin:here].split()))
            begin = here + 1
    receiver = re.compile(r"(&\s*)?('\w+ )?(mut )?self\b")
    return [part for part in parts if part and not receiver.match(part)], end


def owners(code: str) -> list[tuple[int, int, str]]:
    """(first place, last place, type or trait) of each block of methods."""
    found: list[tuple[int, int, str]] = []
    for block in re.finditer(r"^(?:pub )?(?:unsafe )?(?:impl|trait)\b([^{;]*)\{", code, re.M):
        head = re.sub(r"<[^<>]*(?:<[^<>]*(?:<[^<>]*>[^<>]*)*>[^<>]*)*>", "", block[1])
        words = re.findall(r"\w+", head.split(" for ")[-1].split(" where ")[0].split(":")[0])
        found.append((block.start(), closing(code, block.end() - 1), words[0]))
    return found


def testing_ranges(code: str) -> list[Range]:
    """The ranges of a file that are there for tests alone."""
    ranges: list[Range] = []
    for found in re.finditer(r"#\[cfg\(test\)\]\s*(?:pub )?mod \w+ \{", code):
        ranges.append((found.start(), closing(code, found.end() - 1)))
    for found in re.finditer(r"#\[test\]", code):
        ranges.append((found.start(), code.find("\n}", found.start())))
    return ranges


def testing_files(names: Iterable[str]) -> set[str]:
    """The paths of the modules that stand behind `#[cfg(test)]` in their crate."""
    found: set[str] = set()
    for name, crate in placed(names, ("src",), ("rt",)):
        for module in re.findall(r"#\[cfg\(test\)\]\s*(?:pub )?mod (\w+);", read(name)):
            folder = os.path.dirname(name)
            found |= {"%s/%s.rt" % (folder, module), "%s/%s/mod.rt" % (folder, module)}
    return found


class File:
    """What the functions of a file are found by: its text without comments, the blocks of methods
    and the ranges that are there for tests."""

    def __init__(self, text: str, is_test: bool) -> None:
        self.code = blanked(text)
        self.blocks = owners(self.code)
        self.testing = [(0, len(self.code))] if is_test else testing_ranges(self.code)


class Source:
    """A file of code: its text, its text without comments, and its functions."""

    def __init__(self, path: str, crate: str, is_test: bool) -> None:
        self.path, self.crate, self.is_test = path, crate, is_test
        self.text = read(path)
        self.lines = self.text.split("\n")
        file = File(self.text, is_test)
        self.code, self.testing = file.code, file.testing
        heads = FUNCTION.finditer(self.code)
        self.functions = [Function(path, file, one) for one in heads]

    def is_testing(self, at: int) -> bool:
        """Whether a place is there for tests."""
        return any(low <= at < high for low, high in self.testing)


def sources(names: Sequence[str]) -> list[Source]:
    """Each file of code."""
    tests = testing_files(names)
    tests |= {name for name, crate in placed(names, ("src",), ("rt",)) if crate in FOR_TESTS}
    return [Source(name, crate, name in tests) for name, crate in placed(names, ("src",), ("rt",))]


def definitions(text: str) -> list[tuple[str, int, int]]:
    """(name, first line, last line), counted from 0, of each public definition of a specs file."""
    lines = text.split("\n")
    found: list[tuple[str, int, int]] = []
    heads = [at for at, line in enumerate(lines) if is_head(line)]
    for at in heads:
        end = at + 1
        name = DEFINITION.match(lines[at])
        while end < len(lines) and not is_head(lines[end]) and not lines[end].startswith("--"):
            end += 1
        while not lines[end - 1].strip():
            end -= 1
        found.append((name[1].rstrip(":") if name else "", at, end))
    return found


def is_head(line: str) -> bool:
    """Whether a line of a specs file begins a definition."""
    return bool(DEFINITION.match(line)) and not re.match(r"pub (mod|use)\b", line)


def imports(text: str) -> dict[str, tuple[str, Optional[str]]]:
    """name -> the module and the name there, of each `use` and `ghost use` of a text."""
    found: dict[str, tuple[str, Optional[str]]] = {}
    for path, names, other in IMPORT.findall(text):
        if not names:
            found[other or path.split(".")[-1]] = (path, None)
        parts: list[str] = [part.strip() for part in names.split(",") if part.strip()]
        for part in parts:
            name, _, new = part.partition(" as ")
            found[new or name] = (path, name)
    return found


def start(name: str, main: Callable[[], object]) -> None:
    """Runs a tool. Where its output is closed or cannot be written, it says so, and ends with 1."""
    signal.signal(signal.SIGPIPE, signal.SIG_DFL)
    if sys.stdout is None:
        sys.exit("%s: the standard output is closed" % name)
    status: Optional[SystemExit] = None
    try:
        try:
            main()
        except SystemExit as ended:
            status = ended
        sys.stdout.flush()
    except OSError as error:
        sys.stderr.write("%s: %s\n" % (name, said(error)))
        sys.stderr.flush()
        os._exit(1)
    if status is not None:
        raise status


def said(error: OSError) -> str:
    """What the system says, in words."""
    about = "%s: " % error.filename if error.filename else ""
    return about + in_words(error)


def told(name: str, why: str) -> NoReturn:
    """Ends a tool with one line that says why it cannot go on."""
    sys.exit("%s: %s" % (name, why))
