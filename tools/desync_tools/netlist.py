"""Reads a netlist that `desync check` accepts: columns, outputs, registers and tables by name.

Where the program is there, it is asked, and a netlist that it refuses is refused by its line. Where
it is not, one that it would refuse may give anything, or `NotAccepted`.
"""

from __future__ import annotations

from typing import Iterator, Optional

from desync_tools import program
from desync_tools.text import BadText, file_text, joined

MOST_COPIES, MOST_REGISTERS = 65536, 16384
COMMANDS = (".latch", ".subckt")
STARTS = {"0": "0", "1": "1", "2": "0"}
TOP_COMMANDS = (".inputs", ".outputs", ".clock") + COMMANDS

# A net: the number of a copy, and a name. A row of a table: the values of its inputs, and its own.
Net = tuple[int, str]
Row = list[str]


class NotAccepted(BadText):
    """The netlist is one that `desync check` refuses."""

    def __init__(self, why: str = "desync check refuses it") -> None:
        super().__init__(why)


class Table:
    """A table: its rows, its inputs and its output."""

    def __init__(self, rows: list[Row], nets: list[Net]) -> None:
        self.rows, self.inputs, self.output = rows, nets[:-1], nets[-1]


class Command:
    """A line of a model: its words and, of a table, its rows."""

    def __init__(self, words: list[str]) -> None:
        self.words = words
        self.rows: list[Row] = []


# A model: its name and its lines.
Model = tuple[str, list[Command]]


def models_of(text: str, has_tables: bool) -> list[Model]:
    """The models in order. Of all but the first one only registers, uses and tables matter; tables
    are left out where they are not asked for."""
    models: list[Model] = []
    size, rows = 0, []
    for _, words in joined(text.split("\n")):
        if words and words[0] == ".model":
            models.append((words[1], []))
        elif words and words[0] == ".names" and has_tables:
            table = Command(words)
            rows, size = table.rows, 1 + (len(words) > 2)
            models[-1][1].append(table)
        elif words and words[0][0] != "." and has_tables:
            if len(words) != size:
                raise NotAccepted()
            rows.append(words)
        elif words and words[0] in (TOP_COMMANDS if len(models) == 1 else COMMANDS):
            models[-1][1].append(Command(words))
    return models


class Copy:
    """A use of a model: its number, what the names of its ports stand for, and its lines."""

    def __init__(self, number: int, bound: dict[str, Net], commands: list[Command]) -> None:
        self.number, self.bound = number, bound
        self.commands: Iterator[Command] = iter(commands)

    def net(self, name: str) -> Net:
        return self.bound.get(name, (self.number, name))

    def nets(self, words: list[str]) -> list[Net]:
        return [self.net(word) for word in words]


class Netlist:
    """A flat design. Beside the registers stand their data nets and their first values."""

    def __init__(self, path: str, text: str, has_tables: bool = False) -> None:
        self.path, self.name, self.edge = path, "", "re"
        self.registers: list[Net] = []
        self.data: list[Net] = []
        self.starts: list[str] = []
        self.tables: list[Table] = []
        # The ports and controls, each once, in their order.
        self._lists: dict[str, dict[Net, None]] = {".inputs": {}, ".outputs": {}, ".clock": {}}
        try:
            models = models_of(text, has_tables)
            self.name = models[0][0]
            self._take_all(dict(models))
        except (IndexError, KeyError):
            raise NotAccepted() from None
        self.controls = list(self._lists[".clock"])
        if len(self.controls) > 1:
            told = (printed(self.controls[0]), printed(self.controls[1]))
            raise NotAccepted("several clocks: %s and %s" % told)
        clocks = self._lists[".clock"]
        self.columns = [net for net in self._lists[".inputs"] if net not in clocks]
        self.outputs = list(self._lists[".outputs"])

    def _take_all(self, models: dict[str, list[Command]]) -> None:
        copies = 0
        open_copies = [Copy(0, {}, models[self.name])]
        while open_copies:
            copy = open_copies[-1]
            command = next(copy.commands, None)
            if command is None:
                open_copies.pop()
            elif command.words[0] == ".subckt":
                pairs = [word.partition("=") for word in command.words[2:]]
                actuals = {a: copy.net(b) for a, _, b in pairs if b}
                copies += 1
                if copies > MOST_COPIES:
                    raise NotAccepted()
                open_copies.append(Copy(copies, actuals, models[command.words[1]]))
            else:
                self._take(command, copy)

    def _take(self, command: Command, copy: Copy) -> None:
        words = command.words
        nets = copy.nets(words[1:])
        if words[0] == ".names":
            self.tables.append(Table(command.rows, nets))
        elif words[0] == ".latch":
            self._take_register(words, nets)
        elif copy.number == 0:
            self._lists[words[0]].update(dict.fromkeys(nets))

    def _take_register(self, words: list[str], nets: list[Net]) -> None:
        if len(self.registers) == MOST_REGISTERS:
            raise NotAccepted()
        self.data.append(nets[0])
        self.registers.append(nets[1])
        self.starts.append(STARTS.get(words[-1], "x") if len(words) in (4, 6) else "x")
        if len(words) > 4:
            self.edge = words[3]
        if len(words) > 4 and words[4] != "NIL":
            self._lists[".clock"][nets[3]] = None


def printed(net: Net) -> str:
    """A net as Desync prints it: one of copy k is `k/name`."""
    copy, name = net
    return name if copy == 0 else "%d/%s" % (copy, name)


def read_netlist(path: str, has_tables: bool = False) -> Netlist:
    """The netlist of a file, if `desync check` accepts it."""
    file = file_text(path)
    refusal: Optional[str] = program.refusal(path, file.text)
    if refusal is not None:
        raise NotAccepted(refusal)
    try:
        return Netlist(file.name, file.text, has_tables)
    except NotAccepted as error:
        raise NotAccepted("%s: %s" % (file.name, error)) from None
