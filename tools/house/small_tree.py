"""A small tree of two crates, laid out as this repository is, for the house's tests."""

from __future__ import annotations

TREE: dict[str, str] = {}

TREE[
    "crates.txt"
] = """\
ds_latch:
ds_app: ds_latch
ds_trial: ds_app
"""

TREE[
    "crates/ds_latch/specs/Headline.antt"
] = """\
-- What the latches give.
use Rattle.std.specs.Prelude.{ℕ}
use Rattle.ds_latch.specs.declared.latch.Latch.{Latch}

-- the number of the latches is doubled
abbrev pub Doubled : ℕ → ℕ → Set
Doubled n m = m = n + n

-- each latch counts twice
abbrev pub Headline : ℕ → ℕ → Set
Headline n m =
  Doubled n m
"""

TREE[
    "crates/ds_latch/src/lib.rt"
] = """\
//! Latches.
#![tactic(auto)]

mod latch;

pub use latch::headline;
pub use latch::Latch;
"""

TREE[
    "crates/ds_latch/src/latch.rt"
] = """\
ghost use Rattle.ds_latch.specs.Headline.{Headline};

/// A latch.
pub struct Latch {
    number: usize,
}

/// Each latch counts twice.
pub fn headline(latch: &Latch) -> usize
    ensures twice { Headline latch.number result }
{
    latch.number + latch.number
}
"""

TREE[
    "crates/ds_latch/must-fail/counts_once.edit"
] = """\
file: src/latch.rt
old:     latch.number + latch.number
new:     latch.number
"""

TREE[
    "crates/ds_app/specs/Status.antt"
] = """\
-- What the program answers.
use Rattle.std.specs.Prelude.{ℕ}
use Rattle.ds_latch.specs.Headline.{Headline}

-- the answer is twice the number
abbrev pub IsAnswered : ℕ → ℕ → Set
IsAnswered n m = Headline n m
"""

TREE[
    "crates/ds_app/src/lib.rt"
] = """\
//! The program.
#![tactic(auto)]
use ds_latch::{headline, Latch};
ghost use Rattle.ds_app.specs.Status.{IsAnswered};

/// Answers what `headline` gives.
pub fn desync_main(latch: &Latch) -> usize
    ensures answered { IsAnswered latch.number result }
{
    headline(latch)
}
"""

TREE[
    "crates/ds_app/must-fail/answers_nothing.edit"
] = """\
file: src/lib.rt
old:     headline(latch)
new:     0
"""

TREE[
    "crates/ds_trial/src/lib.rt"
] = """\
//! Tests.
#![tactic(auto)]
use ds_app::desync_main;

#[test]
fn it_answers() {
    desync_main(&latch());
}
"""

TREE[
    "README.md"
] = """\
# A small tree

It has closure of `ds_latch::headline`: 9 lines.
It has closure of `ds_app::desync_main` `answered`: 11 lines.
"""

TREE["docs/TUTORIAL.md"] = "# A tutorial\n"
TREE["docs/desync.1"] = '.TH DESYNC 1 "" "Desync 0" "User Commands"\n'
TREE["docs/BENCHMARKS.md"] = "# Benchmarks\n"
TREE["docs/DECISIONS.md"] = "# Decisions\n"
TREE["bench/report.py"] = "#!/usr/bin/env python3\n"

TREE[
    "docs/READING_PROOFS.md"
] = """\
# Reading proofs

`crates/ds_latch/specs/Headline.antt` has

```
abbrev pub Doubled : ℕ → ℕ → Set
Doubled n m = m = n + n
```
"""

TREE[
    "docs/crates.svg"
] = """\
<svg>
<text>ds_latch</text>
<text>ds_app</text>
<text>ds_trial</text>
</svg>
"""

TREE[
    "CONTRIBUTING.md"
] = """\
# Contributing

## Wrong bodies that always stand

| Crate | Edit | What it does |
|---|---|---|
| `ds_latch` | `counts_once` | counts a latch once |
"""

TREE[
    "docs/MAP.md"
] = """\
| Crate | Stands on | Has |
|---|---|---|
| `ds_latch` | | latches |
| `ds_app` | `ds_latch` | the program |
| `ds_trial` | `ds_app` | tests |
"""

TREE[
    "docs/WORDS.md"
] = """\
| Word | Meaning | Type | Definition |
|---|---|---|---|
| latch | what holds a value | `ds_latch::Latch` | `Headline` |
"""

TREE[
    "docs/PROVED.md"
] = """\
# What is proved

closure of `ds_latch::headline`: 9 lines; closure of `ds_app::desync_main` `answered`: 11 lines.

| Promise | Call and clause | Definition | Wrong body refused | Test |
|---|---|---|---|---|
| twice | `ds_latch::headline`: `twice` | `Headline` | `counts_once` | `it_answers` |
| the answer | `ds_app::desync_main`: `answered` | `Status` | `answers_nothing` | `it_answers` |
"""

TREE[
    "tools/house/lint.limits"
] = """\
# What is measured is at most this.
     3 must-fail edits
"""

# A log of `rt ci`, with the second of each line.
TREE[
    "out/gate.log"
] = """\
0.5 rt: ds_latch proved
2.0 rt: ds_app proved
2.5 rt: ds_app: its tests are proved
3.0 rt: ds_app: trying its must-fail edits (1)
9.0 cost ds_latch proof 4
9.0 cost ds_app proof 200
9.0 cost ds_app edits 7
9.0 the command ended
"""

SIX_LINES = """
/// Counts.
fn %s() -> usize {
    let mut sum = 0;
    sum = sum + 1;
    sum = sum + 2;
    sum = sum + 3;
    sum = sum + 4;
    sum
}
"""
