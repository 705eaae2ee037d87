"""Runs commands at the top of the repository, and compares what they print with a transcript.

A transcript has commands, each behind `$ `, and behind each what it prints. `desync` is a program
that is given, `desync-NAME` the tool of that name, `echo $?` prints the status of the command
before, and `> FILE` puts the output into a file.
"""

from __future__ import annotations

import os
import shlex
import subprocess
from typing import IO, Any, Optional, Union

from house import ROOT

BAD_WORDS = 2


def read(path: str) -> str:
    with open(path, encoding="latin-1", newline="") as file:
        return file.read()


class Runner:
    """Runs commands, and counts what differs."""

    def __init__(self, program: str, verbose: bool) -> None:
        self.program, self.verbose = program, verbose
        self.done = self.wrong = 0
        # Where commands run.
        self.folder = ROOT
        self.status: Optional[int] = 0
        self.around = dict(os.environ, DESYNC=program)
        for name in ("MAKEFLAGS", "MFLAGS"):
            self.around.pop(name, None)

    def compare(self, what: str, wanted: object, got: object) -> None:
        """Says where what a command printed is not what is wanted."""
        self.done += 1
        if wanted == got:
            if self.verbose:
                print("ok: %s" % what)
            return
        self.wrong += 1
        print("differs: %s" % what)
        shown = tuple(str(text).rstrip("\n") for text in (wanted, got))
        print("--- wanted\n%s\n--- got\n%s" % shown)

    def run(self, words: list[str], output: Optional[str] = None) -> str:
        """What a command prints, errors too; its status is kept."""
        if words[0] == "desync":
            words = [self.program] + words[1:]
        elif words[0].startswith("desync-"):
            words = ["tools/" + words[0][len("desync-") :]] + words[1:]
        if output:
            path = os.path.join(self.folder, output)
            os.makedirs(os.path.dirname(path), exist_ok=True)
            with open(path, "wb") as file:
                return self.ended(words, file)
        return self.ended(words, subprocess.PIPE)

    def ended(self, words: list[str], out: Union[int, IO[bytes]]) -> str:
        """What a command prints, but for what goes into a file."""
        none, pipe = subprocess.DEVNULL, subprocess.PIPE
        how: dict[str, Any] = {"cwd": self.folder, "timeout": 600, "env": self.around}
        try:
            ended = subprocess.run(words, stdin=none, stdout=out, stderr=pipe, **how)
        except (OSError, subprocess.TimeoutExpired) as error:
            self.status = None
            return "%s\n" % error
        self.status = ended.returncode
        said: bytes = (ended.stdout or b"") + ended.stderr
        return said.decode("latin-1")

    def command(self, line: str) -> str:
        """What a command line of a document prints."""
        words, output = words_of(line)
        if words == ["echo", "$?"]:
            return "%s\n" % self.status
        return self.run(words, output)

    def transcript(self, path: str, lines: list[str]) -> None:
        """A block of a document: commands, each with what it prints behind it."""
        for command, wanted in commands_of(lines):
            name = "%s: %s" % (os.path.relpath(path, ROOT), command)
            self.compare(name, wanted, self.command(command))

    def knows(self, lines: list[str]) -> bool:
        """Whether the program knows the first command of a transcript, where it is one of its."""
        words, _ = words_of(lines[0][2:])
        if words[0] != "desync":
            return True
        self.run(words)
        return self.status != BAD_WORDS


def words_of(line: str) -> tuple[list[str], Optional[str]]:
    """The words of a command line, and the file that takes what it prints, where one does."""
    words = [os.fsdecode(word.encode("latin-1")) for word in shlex.split(line)]
    if len(words) > 2 and words[-2] == ">":
        return words[:-2], words[-1]
    return words, None


def commands_of(lines: list[str]) -> list[tuple[str, str]]:
    """The commands of a transcript, each with what it prints."""
    found: list[tuple[str, str]] = []
    for line in lines:
        if line.startswith("$ "):
            found.append((line[2:], ""))
        else:
            command, printed = found[-1]
            found[-1] = (command, printed + line + "\n")
    return found
