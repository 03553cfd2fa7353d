"""Why an input of `run` is refused, and what looks wrong in one that isn't."""
from sdm.findings.finding import Finding
from sdm.findings.whole import Explanation, explain, explanation

__all__ = ["Explanation", "Finding", "explain", "explanation"]
