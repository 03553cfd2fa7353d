"""Faults (FORMATS "How a run ends")."""


class Outcome(Exception):
    """The end of a run by another code than 0: the code, and its line behind `sdm: `."""

    def __init__(self, code: int, line: str) -> None:
        super().__init__(code, line)
        self.code, self.line = code, line


class Refused(Exception):
    """The refusal of a record or of an opening, by its text in FORMATS "Fault lines"."""


def bad_data(text: str) -> Outcome:
    return Outcome(5, f"bad data: {text}")
