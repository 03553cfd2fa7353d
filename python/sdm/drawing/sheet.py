"""The layout and the colours of a picture, and the forms of gnuplot's language that both panels use."""

from dataclasses import dataclass

# In pixels, from the lower left corner: the sides of both panels, the foot of the lower one, the height of a strip, the
# room between the panels and above them; the heights of a title and of a note below the panels.
WIDTH, HEIGHT = 900, 660
LEFT, BESIDE = 116, 180
FOOT, STRIP, BETWEEN, ABOVE, TITLE, NOTE = 62, 18, 58, 14, 18, 14

# So wide is a letter of the small font on average, so high a level of labels.
LETTER, LEVEL = 5.8, 15
SMALL = "font ',11'"

BLACK, GREY, PALE, WHITE = "#000000", "#777777", "#DDDDDD", "#FFFFFF"


@dataclass(frozen=True)
class Shade:
    """How a value is shown in a strip, and on a mark of the train."""

    colour: str
    ink: str = BLACK
    name: str = ""


# The bright colours are of Okabe and Ito's palette, which colour-blind readers tell apart; states and statuses go from
# light to dark, so that they are told apart in grey too.
STATES = {
    "C": Shade("#DCE9F5", name="ceiling speed"),
    "T": Shade("#56B4E9", name="target speed"),
    "R": Shade("#0072B2", WHITE, "release speed"),
}
STATUSES = {
    "N": Shade("#EEEEEE", name="normal"),
    "I": Shade("#F0E442", name="indication"),
    "O": Shade("#E69F00", name="overspeed"),
    "W": Shade("#D55E00", WHITE, "warning"),
    "X": Shade("#6B0000", WHITE, "intervention"),
}
TARGETS = {"EOA": "#E5D3EA", "SvL": "#F2D9C4", "LOA": "#D5E6C8", "fall": "#F6EFC1"}
COMMAND, COVERED = {"1": Shade("#444444")}, {"1": Shade("#009E73")}


def rgb(colour: str) -> str:
    """A colour as the number that gnuplot reads from data."""
    return "0x" + colour[1:]


def seconds(time: float) -> str:
    """A time as a text."""
    return f"{time:.1f}".removesuffix(".0")


def block(name: str, lines: list[str]) -> list[str]:
    """Data of a script, under a name; an empty line breaks a series."""
    return [f"${name} << END", *lines, "END"]


def quoted(text: str) -> str:
    """A text as gnuplot reads it."""
    shown = "".join(each if each.isprintable() else " " for each in text)
    return '"' + shown.replace("\\", "\\\\").replace('"', '\\"') + '"'


@dataclass(frozen=True)
class Sheet:
    """What a picture is drawn on: its size in pixels, a title above the panels, and notes below them."""

    width: int = WIDTH
    height: int = HEIGHT
    title: str = ""
    notes: tuple[str, ...] = ()

    @property
    def right(self) -> int:
        """The right side of both panels."""
        return self.width - BESIDE

    @property
    def foot(self) -> int:
        """The foot of the lower panel."""
        return FOOT + NOTE * len(self.notes)

    @property
    def top(self) -> int:
        """Where the upper panel ends with its labels."""
        return self.height - ABOVE - TITLE * bool(self.title)

    def across(self, x: float) -> str:
        """A pixel as a part of the picture's width."""
        return f"{x / self.width:.5f}"

    def up(self, y: float) -> str:
        """A pixel as a part of the picture's height."""
        return f"{y / self.height:.5f}"

    def spot(self, x: float, y: float) -> str:
        """A pixel as gnuplot's place on the sheet."""
        return f"screen {self.across(x)},{self.up(y)}"

    def label(self, words: str, x: float, y: float, rest: str) -> str:
        """A text that stands by itself, at a pixel."""
        return f'set label "{words}" at {self.spot(x, y)} {rest}'

    def frame(self, low: int, high: int) -> list[str]:
        """The room of a panel between two heights."""
        return [
            f"set lmargin at screen {self.across(LEFT)}; set rmargin at screen {self.across(self.right)}",
            f"set bmargin at screen {self.up(low)}; set tmargin at screen {self.up(high)}",
        ]

    def words(self) -> list[str]:
        """The title and the notes."""
        lines = []
        if self.title:
            lines.append(f"set label {quoted(self.title)} at {self.spot(12, self.height - 14)} left {SMALL}")
        for k, note in enumerate(reversed(self.notes)):
            place = self.spot(12, 10 + NOTE * k)
            lines.append(f"set label {quoted(note)} at {place} left {SMALL} tc rgb '#CC0000'")
        return lines
