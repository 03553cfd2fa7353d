"""A finding: where an input is refused or looks wrong, what was found there, and what is expected."""
from dataclasses import dataclass

TextPlace = tuple[int, int]  # a line and a column of a text, each from 1


@dataclass(frozen=True)
class Finding:
    """A fault of an input, or a doubt about one that is accepted.

    `line` counts the lines of the input from 1, and is None where the fault has none. `column` is that of the data
    part's text, from 1; of a record it is the field, from 1, the kind being 1. `where` is the path of a key, or the
    record with its column. `found` and `expected` have units; `hint` is the likely mistake, or empty. Where a finding
    stands for many of its kind, `count` is how many, and `lines` are the first ones with them.
    """

    line: int | None
    column: int | None
    where: str
    found: str
    expected: str
    hint: str = ""
    is_refusal: bool = True
    count: int = 1
    lines: tuple[int, ...] = ()

    def __str__(self) -> str:
        places = [f"{name} {at}" for name, at in (("line", self.line), ("column", self.column)) if at is not None]
        place = (", ".join(places) + ": ") if places else ""
        warning = "" if self.is_refusal else "looks wrong: "
        more = ""
        if self.count > 1:
            more = f"{self.count:,} times, first on the lines {', '.join(map(str, self.lines))}"
        hint = f" ({'; '.join(filter(None, (self.hint, more)))})" if self.hint or more else ""
        return f"{place}{self.where}: {warning}found {self.found}; expected {self.expected}{hint}"


def doubt(line: int | None, where: str, found: str, expected: str, hint: str) -> Finding:
    """What looks wrong and is accepted."""
    return Finding(line, None, where, found, expected, hint, is_refusal=False)
