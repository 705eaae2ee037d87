"""The commands: each module has `words`, its command line, MANUAL, its files and examples, and
`main`, which runs it."""

from __future__ import annotations

import importlib
import os
from typing import Any

from desync_tools.command import STATUSES, Parser
from desync_tools.manual import Manual

HERE = os.path.dirname(os.path.realpath(__file__))


def names() -> list[str]:
    """The names of the commands, in order."""
    found = [name[: -len(".py")] for name in os.listdir(HERE) if name.endswith(".py")]
    return sorted(name for name in found if name != "__init__")


def module_of(command: str) -> Any:
    """The module of a command."""
    return importlib.import_module("desync_tools.commands." + command)


def words_of(command: str, name: str) -> Parser:
    """The command line of a command that is called by a name."""
    words: Parser = module_of(command).words(name)
    return words


def manual_of(command: str) -> Manual:
    """The files of a command, and its examples."""
    manual: Manual = module_of(command).MANUAL
    return manual


def statuses_of(command: str) -> dict[int, str]:
    """What each status of a command says."""
    fails: str = getattr(module_of(command), "FAILS", "")
    says = STATUSES[1]
    return {**STATUSES, 1: "%s;\nor %s" % (fails, says[:1].lower() + says[1:]) if fails else says}
