"""What the commands share: their words, what they print, and how they end."""

from __future__ import annotations

import argparse
import os
import re
import signal
import sys
from typing import IO, Any, Callable, Iterable, NoReturn, Optional, Sequence

from desync_tools.manual import Manual
from desync_tools.text import BadText, as_bytes, in_words, told, visible

HERE = os.path.dirname(os.path.realpath(__file__))
INSTALLED = "desync-"
# The most digits of a number: a seed may be a long one.
DIGITS = 100
MAIN = Callable[[list[str]], int]
# What a tool has done, by its status; a command may say in FAILS what else gives 1.
STATUSES = {
    0: "Done.",
    1: "A file has a fault or was not read, or the output was not written whole.\n"
    "The error output says which.",
    2: "The words are no command line. The error output says which one is wrong.",
}


class CannotWrite(Exception):
    """What is printed does not get out."""


def version() -> str:
    """The version of Desync: its file lies in the package where this is installed, else above."""
    for folder in (HERE, os.path.join(HERE, "..", "..")):
        try:
            with open(os.path.join(folder, "VERSION"), encoding="utf-8") as file:
                return file.read().strip()
        except OSError:
            continue
    return "of no known version"


class Version(argparse.Action):
    """Prints the name of the tool and the version, and ends it."""

    def __call__(
        self,
        parser: argparse.ArgumentParser,
        namespace: argparse.Namespace,
        values: Any,
        option_string: Optional[str] = None,
    ) -> None:
        put("utf-8", ["%s %s" % (parser.prog, version())])
        parser.exit()


class Parser(argparse.ArgumentParser):
    """Words of a command line, with refusals of one line."""

    def error(self, message: str) -> NoReturn:
        self.exit(2, "%s: %s\n" % (self.prog, visible(message)))

    def print_help(self, file: Optional[IO[str]] = None) -> None:
        put("utf-8", [self.format_help().rstrip("\n")])


def as_installed(name: str, text: str) -> str:
    """A text with the names of the tools as they are installed, where this one is."""
    return (
        re.sub(r"\btools/(\w+)(?![\w/])", r"desync-\1", text)
        if name.startswith(INSTALLED)
        else text
    )


def parser(name: str, description: Optional[str], manual: Manual = Manual()) -> Parser:
    """The words of a tool that is called by a name; its texts name tools as `tools/NAME`."""
    form = argparse.RawDescriptionHelpFormatter
    text, more = (as_installed(name, one) for one in (description or "", manual.epilog()))
    words = Parser(prog=name, description=text, epilog=more, formatter_class=form)
    says = "print the version, and end"
    words.add_argument("--version", action=Version, nargs=0, help=says)
    return words


def number_word(word: str) -> int:
    """A whole number of the command line."""
    if not re.fullmatch("[+-]?[0-9]+", word):
        raise argparse.ArgumentTypeError("this is no whole number: %s" % word)
    if len(word) > DIGITS:
        raise argparse.ArgumentTypeError("this number has more than %d digits: %s" % (DIGITS, word))
    return int(word)


def put(encoding: str, lines: Iterable[str]) -> None:
    """Prints some lines."""
    if sys.stdout is None:
        raise CannotWrite("the standard output is closed")
    try:
        out = sys.stdout.buffer
        for line in lines:
            out.write(line.encode(encoding) + b"\n")
        out.flush()
    except OSError as error:
        raise CannotWrite("cannot write the standard output: %s" % in_words(error)) from None


def say(name: str, what: str) -> None:
    """Says something of a text on the error output, under the name of a tool."""
    if sys.stderr is not None:
        sys.stderr.write("%s: %s\n" % (name, told(what)))
        sys.stderr.flush()


def status_of(name: str, main: MAIN, words: Sequence[str]) -> int:
    """Runs a command under a name. What it cannot do it says in one line, and gives 1."""
    try:
        return main([name, *words])
    except (BadText, CannotWrite) as error:
        say(name, str(error))
    except OSError as error:
        about = "%s: " % as_bytes(str(error.filename)) if error.filename else ""
        say(name, about + in_words(error))
    return 1


def start(main: MAIN) -> NoReturn:
    """Runs a command under the name by which it was called, and ends with its status."""
    signal.signal(signal.SIGPIPE, signal.SIG_DFL)
    if signal.getsignal(signal.SIGINT) == signal.default_int_handler:
        signal.signal(signal.SIGINT, signal.SIG_DFL)
    status = status_of(os.path.basename(sys.argv[0]), main, sys.argv[1:])
    # What could not be written is not written again at the end.
    if status and sys.stdout is not None:
        try:
            sys.stdout.flush()
        except OSError:
            os._exit(status)
    sys.exit(status)
