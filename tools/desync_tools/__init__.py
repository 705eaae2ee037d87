"""The tools of Desync for users.

Each kind of file has one reader: `netlist` (BLIF), `graphs` (`.g`), `traces`, `vectors`, `logs` and
`delays`. Each command is a module of `commands`, with its words and a `main`.
"""
