"""What this package raises: `Error` is the base of all of it."""


class Error(Exception):
    """The base of what this package raises."""


class KindError(Error, TypeError):
    """Another type than expected: a record of another kind, a number that isn't whole, an array of another dtype."""


class FormError(Error, ValueError):
    """A text, a table or a name that hasn't the form that is expected."""


class Fault(Error):
    """Why a tool of the laboratory can't go on, in a sentence."""
