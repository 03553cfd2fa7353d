"""A sheet of SVG: lines, arrows, boxes and text, in colours that follow the reader's scheme."""

from dataclasses import dataclass, field
from html import escape

Point = tuple[float, float]

STYLE = """
svg { --ink: #1b1f24; --faint: #8a939d; --paper: #ffffff; --box: #eef2f6;
  --red: #c4261d; --orange: #b35900; --yellow: #7d6400; --green: #1a7f37; --blue: #0b5cad; --violet: #7a3fb0 }
@media (prefers-color-scheme: dark) {
  svg { --ink: #e6e9ec; --faint: #8a939d; --paper: #14181d; --box: #252c35;
    --red: #ff7b72; --orange: #ffa657; --yellow: #e3c34d; --green: #56d364; --blue: #79b8ff; --violet: #c9a0ff }
}
text { font: 17px sans-serif; fill: var(--ink) }
text.small { font-size: 15px }
text.strong { font-weight: bold }
text.faint { fill: var(--faint) }
""".strip()

COLOURS = ("ink", "faint", "red", "orange", "yellow", "green", "blue", "violet")


@dataclass
class Sheet:
    """A picture of a width and a height in pixels, with what a reader who can't see it is told."""

    width: int
    height: int
    told: str
    parts: list[str] = field(default_factory=list)

    def line(self, points: list[Point], colour: str = "ink", width: float = 2, dashed: bool = False) -> None:
        """A line through points."""
        at = " ".join(f"{x:.1f},{y:.1f}" for x, y in points)
        dashes = ' stroke-dasharray="6 5"' if dashed else ""
        self.parts.append(
            f'<polyline points="{at}" fill="none" stroke="var(--{colour})" stroke-width="{width:g}"{dashes}/>'
        )

    def arrow(self, begin: Point, end: Point, colour: str = "ink", both: bool = False) -> None:
        """An arrow that points at its end, or at both."""
        ends = f' marker-start="url(#{colour})"' if both else ""
        (x1, y1), (x2, y2) = begin, end
        self.parts.append(
            f'<line x1="{x1:.1f}" y1="{y1:.1f}" x2="{x2:.1f}" y2="{y2:.1f}" stroke="var(--{colour})" stroke-width="2"'
            f' marker-end="url(#{colour})"{ends}/>'
        )

    def box(self, corner: Point, size: Point, colour: str = "faint") -> None:
        """A filled box from its upper left corner."""
        (x, y), (width, height) = corner, size
        self.parts.append(
            f'<rect x="{x:.1f}" y="{y:.1f}" width="{width:.1f}" height="{height:.1f}" rx="5" fill="var(--box)"'
            f' stroke="var(--{colour})" stroke-width="1.5"/>'
        )

    def dot(self, at: Point, colour: str = "ink") -> None:
        """A point."""
        self.parts.append(f'<circle cx="{at[0]:.1f}" cy="{at[1]:.1f}" r="4.5" fill="var(--{colour})"/>')

    def text(self, at: Point, words: str, colour: str = "ink", anchor: str = "start", kind: str = "") -> None:
        """Words, whose start, middle or end is at a point."""
        classes = f' class="{kind}"' if kind else ""
        self.parts.append(
            f'<text x="{at[0]:.1f}" y="{at[1]:.1f}" text-anchor="{anchor}" style="fill: var(--{colour})"{classes}>'
            f"{escape(words)}</text>"
        )

    def lines(self, at: Point, words: list[str], step: float = 21, colour: str = "ink", kind: str = "") -> None:
        """Words line by line, from the first one's start."""
        for number, each in enumerate(words):
            self.text((at[0], at[1] + number * step), each, colour=colour, kind=kind)

    def svg(self) -> str:
        """The picture's text."""
        heads = "".join(
            f'<marker id="{colour}" viewBox="0 0 10 10" refX="9" refY="5" markerWidth="8" markerHeight="8"'
            f' orient="auto-start-reverse"><path d="M0 1 L10 5 L0 9 z" fill="var(--{colour})"/></marker>'
            for colour in COLOURS
        )
        return "\n".join(
            [
                f'<svg xmlns="http://www.w3.org/2000/svg" viewBox="0 0 {self.width} {self.height}" role="img"'
                f' aria-label="{escape(self.told, quote=True)}">',
                f"<style>\n{STYLE}\n</style>",
                f"<defs>{heads}</defs>",
                f'<rect width="{self.width}" height="{self.height}" fill="var(--paper)"/>',
                *self.parts,
                "</svg>",
                "",
            ]
        )
