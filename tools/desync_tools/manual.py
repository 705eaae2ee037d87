"""What a tool says of its files, and its examples, for its help and for its page of the manual."""

from __future__ import annotations

from typing import Iterator, NamedTuple, Sequence

WHERE = "The folder examples lies in the repository, and in share/doc/desync of an installed tree."


class File(NamedTuple):
    """A file that a tool reads or writes: its word on the command line, and what it is."""

    word: str
    says: str


class Example(NamedTuple):
    """What an example does, and its lines: commands behind `$ `, each with what it prints."""

    does: str
    shown: str

    def lines(self) -> list[str]:
        """The lines of it."""
        return self.shown.strip("\n").split("\n")


class Manual(NamedTuple):
    """The files of a tool, and its examples."""

    files: Sequence[File] = ()
    examples: Sequence[Example] = ()

    def epilog(self) -> str:
        """What stands of them behind the options in the help."""
        return "\n".join([*self.file_lines(), *self.example_lines()])

    def file_lines(self) -> Iterator[str]:
        """The files, one below another."""
        if self.files:
            width = max(len(file.word) for file in self.files)
            yield "files (FORMATS is docs/FORMATS.md):"
            yield from ("  %s  %s" % (file.word.ljust(width), file.says) for file in self.files)

    def example_lines(self) -> Iterator[str]:
        """The examples, each behind a sentence."""
        if self.examples:
            yield "\nexamples:"
        for number, example in enumerate(self.examples):
            yield from [""] * (number > 0)
            yield "  " + example.does
            yield from ("    " + line for line in example.lines())


def read(word: str, what: str, section: str) -> File:
    """A file that is read, whose form a section of FORMATS has."""
    return File(word, "%s, read; FORMATS, %s" % (what, section))


NETLIST = read("netlist", "BLIF", "Netlists")
GROUPS = read("--groups FILE", "groups", "Groups of registers")
VECTORS = read("--vectors FILE", "vectors", "Vectors")
TIMES = (
    read("--times FILE", "times", "Times"),
    read("--delays FILE", "delays", "Delays"),
)
