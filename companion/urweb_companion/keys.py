"""Whether the rows of a table may stand together: keys that repeat, and more rows than a table has."""
from collections.abc import Iterable, Iterator

from urweb_companion.clear import clear
from urweb_companion.layout import Refused, Table
from urweb_companion.store import MOST_ROWS, Numbered
from urweb_companion.values import text_of


class Keys:
    """The keys of the rows of a table that were seen so far."""

    def __init__(self, table: Table) -> None:
        self._table = table
        self._places = [table.places(key) for key in table.keys]
        self._seen: list[dict[tuple[object, ...], int]] = [{} for _ in table.keys]
        self._count = 0

    def passed(self, rows: Iterable[Numbered]) -> Iterator[Numbered]:
        """Returns the rows as they come; Refused at the first that may not stand with those before it."""
        for number, row in rows:
            self._count += 1
            if self._count > MOST_ROWS:
                raise Refused(f"{self._table.name} would have more than {MOST_ROWS} rows")
            for key, places, seen in zip(self._table.keys, self._places, self._seen, strict=True):
                values = tuple(row[at] for at in places)
                other = seen.setdefault(values, number)
                if other != number:
                    what = ", ".join(f"{name} = {clear(text_of(row[at]))}" for name, at in zip(key, places, strict=True))
                    raise Refused(f"{self._table.name} would have two rows with the key {what}")
            yield number, row
