"""A certificate of a lower bound: a tree of cases, with prices for each case that is not split. Its
bound is that of its worst leaf."""

from dataclasses import dataclass
from typing import Dict, Iterator, List, Sequence, Tuple, Union

from ..week.facts import Claim, Fact, fact_text
from ..week.records import WEEK_DAYS, Place
from .pricing import Prices

# The most leaves of a file.
MOST_LEAVES = 9999

# The facts from the root of a tree to a node.
Case = Tuple[Claim, ...]


@dataclass(frozen=True)
class Leaf:
    """A case with prices of the plan's places, and a surcharge for each fact of the case, in
    thousandths."""

    prices: Prices
    surcharges: Tuple[int, ...] = ()


@dataclass(frozen=True)
class Split:
    """A case that is split: the case in which a fact holds, and the case in which it does not
    hold."""

    fact: Fact
    holds: "Node"
    fails: "Node"


Node = Union[Leaf, Split]


@dataclass(frozen=True)
class Certificate:
    """A tree of cases of a plan of some weeks. Its prices are those of the places, in their
    order."""

    weeks: int
    places: Sequence[Place]
    root: Node

    def leaves(self) -> List[Tuple[Case, Leaf]]:
        """The leaves in their order, with their cases."""
        return list(_leaves(self.root, ()))

    def text(self, name: str) -> str:
        """The text of a file with this name in its first line."""
        tables: Dict[Tuple[int, ...], int] = {}
        nodes = list(_lines(self.root, tables))
        lines = [f"CERTIFICATE {name}", f"WEEKS = {self.weeks}", f"PRICES = {len(tables)}"]
        for prices in tables:
            for week in range(self.weeks):
                lines += self._table(week, prices)
        return "\n".join([*lines, f"LEAVES = {(len(nodes) + 1) // 2}", *nodes]) + "\n"

    def _table(self, week: int, prices: Sequence[int]) -> List[str]:
        """The table of the prices of a week."""
        of_week = [
            (place, price)
            for place, price in zip(self.places, prices)
            if place.day // WEEK_DAYS == week
        ]
        return table_lines(
            [place._replace(day=place.day % WEEK_DAYS) for place, _ in of_week],
            [price for _, price in of_week],
        )


def table_lines(places: Sequence[Place], prices: Sequence[int]) -> List[str]:
    """The lines of a table of prices of one week, in thousandths."""
    rows: Dict[Tuple[str, str], List[int]] = {}
    for place, price in zip(places, prices):
        if price:
            rows.setdefault((place.shift, place.skill), [0] * WEEK_DAYS)[place.day] = price
    return [
        f"ROWS = {len(rows)}",
        *(" ".join([shift, skill, *map(str, row)]) for (shift, skill), row in rows.items()),
    ]


def _leaves(node: Node, case: Case) -> Iterator[Tuple[Case, Leaf]]:
    if isinstance(node, Leaf):
        yield case, node
    else:
        yield from _leaves(node.holds, (*case, Claim(node.fact, True)))
        yield from _leaves(node.fails, (*case, Claim(node.fact, False)))


def _lines(node: Node, tables: Dict[Tuple[int, ...], int]) -> Iterator[str]:
    """The lines of a tree in preorder. Leaves with the same prices share a table."""
    if isinstance(node, Leaf):
        number = tables.setdefault(tuple(node.prices), len(tables))
        yield " ".join(
            [
                "LEAF",
                str(number),
                "SURCHARGES",
                "=",
                str(len(node.surcharges)),
                *map(str, node.surcharges),
            ]
        )
    else:
        yield f"SPLIT {fact_text(node.fact)}"
        yield from _lines(node.holds, tables)
        yield from _lines(node.fails, tables)
