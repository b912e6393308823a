"""Basis files in MPS: what solvers write, and what `lpd basis` reads.

`lpd basis` reads the cards XU, XL, UL and LL and no others, with exactly their words. A column has an upper bound
where it is to be at one, and as many columns are basic as rows are not. Solvers write more: a value behind the names,
BS for a column that is basic with no row beside it (clp and cbc write it for a free column that is not basic), UL for
a column without an upper bound (lp_solve).
"""
from __future__ import annotations

from typing import List, Optional, Sequence, Tuple

from .exact import BASIC, LOWER, UPPER, Basis, Simplex
from .model import Model, words_of
from .records import replace

PAIRS = {"XU": UPPER, "XL": LOWER}
ALONE = {"UL": UPPER, "LL": LOWER, "BS": BASIC}


def read_bas(text: str) -> Optional[Basis]:
    """A basis in MPS: XU and XL exchange a column and a row, which is then at its upper or its lower limit. What stands
    behind the names is skipped. There is no basis in an empty text."""
    if not text:
        return None
    basis = Basis()
    for line in text.splitlines():
        words = words_of(line)
        if line[:1] not in (" ", "\t") or not words:
            continue
        if words[0] in PAIRS and len(words) >= 3:
            basis.columns[words[1]], basis.rows[words[2]] = BASIC, PAIRS[words[0]]
        elif words[0] in ALONE and len(words) >= 2:
            basis.columns[words[1]] = ALONE[words[0]]
            if words[0] == "BS":
                basis.alone.append(words[1])
        else:
            basis.unread.append(line.strip())
    return basis


def told(names: Sequence[str], why: str) -> List[str]:
    """One note of some names, if there are any."""
    listed = ", ".join(names[:6]) + (", .." if len(names) > 6 else "")
    return [f"{listed}: {why}"] if names else []


def unknown_names(model: Model, basis: Basis) -> List[str]:
    columns = [name for name in basis.columns if name not in model.columns]
    rows = [name for name in basis.rows if name not in model.rows]
    return told(columns, "no such column in the model") + told(rows, "no such row in the model")


def exchanged(model: Model, basis: Basis) -> Tuple[List[str], List[str], List[str]]:
    """The basic columns and as many rows that are not basic, and what is not kept of the basis."""
    columns = [name for name in model.columns if basis.columns.get(name) == BASIC]
    rows = [name for name in model.rows if basis.rows.get(name, BASIC) != BASIC]
    alone = set(basis.alone)
    left = [name for name in columns if name in alone] + [name for name in columns if name not in alone]
    left = left[: max(0, len(columns) - len(rows))]
    why = f"as many columns are basic as rows are not, and here {len(columns)} and {len(rows)}"
    notes = told(left, f"at the bound, or at 0 without one, and not basic, since {why}")
    kept = set(columns) - set(left)
    columns = [name for name in columns if name in kept]
    notes += told(rows[len(columns) :], f"the rows are basic, since {why}")
    return columns, rows[: len(columns)], notes


def basis_lines(model: Model, basis: Basis) -> Tuple[List[str], List[str]]:
    """The lines of a file that `lpd basis` reads, and what of the basis they do not say."""
    notes = told(basis.unread, "no card of a basis") + unknown_names(model, basis)
    columns, rows, left = exchanged(model, basis)
    cards = [f" {'XU' if basis.rows[row] == UPPER else 'XL'} {column} {row}" for column, row in zip(columns, rows)]
    upper = [name for name in model.columns if basis.columns.get(name) == UPPER]
    open_above = [name for name in upper if model.columns[name].upper is None]
    cards += [f" UL {name}" for name in upper if model.columns[name].upper is not None]
    left += told(open_above, "at the lower bound, or at 0 without one, since there is no upper bound")
    return ["NAME", *cards, "ENDATA"], notes + left


def reordered(model: Model, basis: Basis) -> Model:
    """The model with those rows and columns first that an elimination of the basis pivots on, which takes the sparsest
    row each time, from its last pivot back. `lpd basis` pivots on a basis column by column in the order of the model,
    each time in the first row that is left, and in this order the numbers on the way are often shorter."""
    simplex = Simplex(model, basis)
    pivots = list(reversed(simplex.factors.pivots))
    rows = list(dict.fromkeys([simplex.row_names[i] for i, _ in pivots] + simplex.row_names))
    columns = list(dict.fromkeys([simplex.names[j] for _, j in pivots] + simplex.names))
    return replace(
        model,
        rows={name: model.rows[name] for name in rows},
        columns={name: model.columns[name] for name in columns},
    )
