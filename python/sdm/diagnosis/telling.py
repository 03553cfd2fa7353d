"""A diagnosis as lines of text."""

from sdm.laboratory.texts import number

from sdm.diagnosis.diagnosing import Diagnosis, OfRun, ToldExplanation, ToldFault


def lines_of(found: Diagnosis, most: int) -> list[str]:
    """All that is told of a diagnosis; of runs at most so many."""
    if not found.runs:
        return [f"{found.compared} rows compared; nothing differs by more than the tolerances"]
    rules, numbers = found.tried
    runs = "1 run" if len(found.runs) == 1 else f"{len(found.runs)} runs"
    head = f"{found.compared} rows compared, {runs} of differences; "
    head += f"{rules} misreadings and {numbers} numbers were tried"
    lines = [head, "", *explanation_lines(found), "", "runs:"]
    for i, (text, facts) in enumerate(found.lines[:most]):
        lines += [f"  {text}", f"    {facts}"]
        lines += [f"    {run_text(found.explanations[0], found.of_runs[i])}"] if found.of_runs else []
    return lines + ([f"  and {len(found.lines) - most} more"] if found.lines[most:] else [])


def explanation_lines(found: Diagnosis) -> list[str]:
    """The explanations, the best first."""
    if not found.explanations:
        return ["nothing fits: no misreading and no number explains what differs"]
    lines = [f"what explains them, the best first, by {found.checked} rows of which {found.differing} differ:"]
    for n, told in enumerate(found.explanations, 1):
        for i, fault in enumerate(told.faults):
            lines += fault_lines(f"{f'  {n}.' if i == 0 else '    '} {letter(i)}", fault)
        lines.append(f"     {worth_text(told, found.differing)}")
    if any(len(fault.cases) > 1 for told in found.explanations for fault in told.faults):
        lines.append("  What stands with `or` makes the same of all these rows: this recording can't say which it is.")
    return lines


def fault_lines(head: str, fault: ToldFault) -> list[str]:
    """A hypothesis, and those that the recording doesn't tell apart from it."""
    first, *others = fault.sentences
    return [f"{head} {first}"] + [f"{'':{len(head) - 2}}or {other}" for other in others]


def worth_text(told: ToldExplanation, differing: int) -> str:
    """What an explanation is worth, in words."""
    broken = f"breaks {told.broken} that agree" if told.broken else "breaks none"
    left = f", leaves {number(told.left_mm, 1)} mm" if told.rows else ""
    return f"explains {told.rows} of {differing} rows wholly, {broken}{left}"


def letter(i: int) -> str:
    """What a hypothesis of an explanation is called."""
    return f"({'abcdefgh'[i]})"


def run_text(told: ToldExplanation, of: OfRun) -> str:
    """What explains a run."""
    if of.rows == 0:
        return "nothing that was found explains it"
    which = " and ".join(f"{letter(i)} {told.faults[i].sentence}" for i in of.hypotheses)
    rows = "" if of.rows == of.judged else f" in {of.rows} of {of.judged} rows that were looked at"
    return f"explained{rows} by: {which} ({number(of.left_mm, 1)} mm left)"
