"""Findings that are alike: from a number on, one that says how many there are and where the first ones stand."""
from collections.abc import Hashable
from dataclasses import dataclass, replace

from sdm.findings.finding import Finding

MOST_ALIKE = 8  # that are told one by one
MOST_LINES = 8  # that are named


@dataclass
class Alike:
    """The first findings of a kind, how many there are, and their first lines."""

    findings: list[Finding]
    count: int
    lines: list[int]


class AlikeFindings:
    """Findings by their kind, in the order in which they come."""

    def __init__(self) -> None:
        self.kinds: dict[Hashable, Alike] = {}

    def add(self, kind: Hashable, finding: Finding) -> None:
        alike = self.kinds.setdefault(kind, Alike([], 0, []))
        alike.count += 1
        if len(alike.findings) < MOST_ALIKE:
            alike.findings.append(finding)
        if finding.line is not None and finding.line not in alike.lines and len(alike.lines) < MOST_LINES:
            alike.lines.append(finding.line)

    def told(self) -> list[Finding]:
        """All of them; of a kind with too many the first one, which stands for the others."""
        found: list[Finding] = []
        for alike in self.kinds.values():
            if alike.count <= MOST_ALIKE:
                found += alike.findings
            else:
                found.append(replace(alike.findings[0], count=alike.count, lines=tuple(alike.lines)))
        return found
