"""Why rows of `sdm run` are as they are, by tools/model: tools/why INPUT N, or tools/why INPUT N..M

N and M count the rows from 1, and INPUT is what `sdm run` reads, `-` for standard input. The answer has the targets in
order with each step of their curves and limits, exact and as they are printed, the triggers that hold with their
causes, and for each command by which rule it was set, held or released. It says so where the row of the program is
another.
"""

import argparse
import re
import sys
from collections.abc import Iterator
from fractions import Fraction
from pathlib import Path

from sdm.arithmetic import bec_lines, curve_lines, foot_line, limit_formula, release_lines, times_lines
from sdm.laboratory.program import Fault, add_program, built, run
from sdm.laboratory.texts import metres, number, seconds, short, speed, target
from sdm.laboratory.walk import at_rows, read
from sdm.exact import (
    Cause,
    Commands,
    Cycle,
    GRAINS_PER_CM,
    MOST_RECORDS,
    NOTCHES_PER_KM_H,
    Reading,
    Situation,
    Stop,
    Supervisor,
    TargetLimits,
    dV_ebi,
    dV_sbi,
    dV_warning,
    no_margin,
    printed,
)

LIMITS = {"EBI": "d_EBI", "SBI": "d_SBI", "W": "d_W", "P": "d_P", "I": "d_I"}
TRIGGERS = {  # name: the limit that a target is passed by, the margin over it and its name
    "over": ("P", no_margin, "no margin"),
    "warn": ("W", dV_warning, "dV_warning"),
    "serv": ("SBI", dV_sbi, "dV_sbi"),
    "emer": ("EBI", dV_ebi, "dV_ebi"),
}
SETS = {"tco": ("warn", "serv", "emer"), "sb": ("serv",), "eb": ("emer",)}  # the triggers that set a command


def section(title: str, lines: list[str]) -> list[str]:
    """A title at the margin, and lines beside and below it."""
    return [f"{title if i == 0 else '':12}{line}" for i, line in enumerate(lines)]


def reading_lines(reading: Reading) -> list[str]:
    ends = ", ".join(
        f"{name} {metres(reading.front_end(which))}"
        for name, which in (("min safe", "min"), ("estimated", "est"), ("max safe", "max"))
    )
    return [
        f"at {seconds(reading.time)}, front ends: {ends}",
        f"V_est {speed(reading.V_est)}, A_est {number(Fraction(reading.accel, 100))} m/s², "
        f"under-reading {reading.under} mm/s",
    ]


def force_lines(supervisor: Supervisor) -> list[str]:
    """The authority and the restrictions."""
    authority = supervisor.authority
    if isinstance(authority, Stop):
        release = f"V_rel {authority.release} km/h" if authority.release else "no release speed"
        lines = [f"EOA {metres(authority.eoa * GRAINS_PER_CM)}, SvL {metres(authority.svl * GRAINS_PER_CM)}, {release}"]
    else:
        lines = [f"LOA {metres(authority.loa * GRAINS_PER_CM)}, {authority.speed} km/h"]
    return lines + [
        f"restriction {each.identity}: {each.speed} km/h from {metres(each.start * GRAINS_PER_CM)} to "
        f"{metres(each.end * GRAINS_PER_CM)}{', for the rear end' if each.delayed else ''}"
        for each in supervisor.restrictions.values()
    ]


def situation_lines(situation: Situation) -> list[str]:
    times = situation.times
    lines = [
        f"T_traction {seconds(times.T_traction)}, T_berem {seconds(times.T_berem)}, "
        f"T_bs {seconds(times.T_bs)} (the service "
        f"brake is {'' if times.in_use else 'not '}in use), T_indication {seconds(times.T_indication)}",
        f"ceiling M {situation.M} km/h",
    ]
    if situation.release_start is not None:
        side = "past it: release speed monitoring" if situation.in_release else "not past it"
        lines.append(
            f"release speed monitoring starts at {metres(situation.release_start)}; the max safe front end is {side}"
        )
    return lines


def target_lines(supervisor: Supervisor, reading: Reading, each: TargetLimits, exact: TargetLimits) -> list[str]:
    """A target: what its limits are made of, step by step, and each limit exact and as it is printed."""
    V, times = reading.V_est, supervisor.times
    compared = "estimated" if each.target.compared == "est" else "max safe"
    lines = [f"{target(each.target)}; compared: the {compared} front end, {metres(each.x)}"]
    if each.target.V_target * NOTCHES_PER_KM_H > V:
        lines.append("  faster than the train: nothing is passed, and it is in no column")
    lines.append(foot_line(each.target))
    if each.V_bec is None:
        lines += curve_lines(supervisor, "expected", each.target, V, each.target.foot_speed)
        lines.append(f"  d_SBD(V_est) {metres(exact.curve)}")
    else:
        lines += bec_lines(supervisor.data, times, reading, each.target, each)
        lines += curve_lines(supervisor, "safe", each.target, each.V_bec, each.target.foot_speed)
        lines.append(f"  V_bec {speed(each.V_bec)}, D_bec {metres(each.D_bec)}, d_EBD(V_bec) {metres(exact.curve)}")
    if each.guide is not None:
        lines += curve_lines(supervisor, "normal", each.target, V, each.target.V_target * NOTCHES_PER_KM_H)
        lines.append(f"  d_guide(V_est) {metres(exact.guide)}: P is {'there' if each.guide == each.d_P else 'earlier'}")
    for name, field in LIMITS.items():
        stepped, true = getattr(each, field), getattr(exact, field)
        if stepped is not None:
            grains = number(true - stepped, 2)
            early = "" if stepped == true else f", computed {grains} grain{'s' if grains != '1' else ''} earlier"
            side = "past it" if each.x > stepped else "at it" if each.x == stepped else "before it"
            lines.append(f"  {name:4}= {limit_formula(name, each.target, exact, times, V)}")
            lines.append(f"  {name:4}{metres(true)}, printed {printed(stepped)}{early}; the front end is {side}")
    return lines


def cause_text(name: str, cause: Cause, cycle: Cycle) -> str:
    """Why a trigger holds, by one of its causes."""
    limit, margin, told = TRIGGERS[name]
    situation = cycle.situation
    if cause.rule == "ceiling":
        return f"V_est is above M and {told}, {speed(situation.M * NOTCHES_PER_KM_H + margin(situation.M))}"
    if cause.by is not None:
        over = "0"
        if not cause.by.target.is_stop:
            V = cause.by.target.V_target
            over = f"{V} km/h and {told}, {speed(V * NOTCHES_PER_KM_H + margin(V))}"
        return f"{target(cause.by.target)}: past {limit}, and V_est is above {over}"
    return {
        "release speed": "V_est is above V_rel in release speed monitoring",
        "end of authority": "the min safe front end is past the EOA",
        "no service brake": "serv holds, and the service brake isn't in use",
    }[cause.rule]


def trigger_lines(cycle: Cycle) -> list[str]:
    lines = []
    for name, causes in cycle.triggers._asdict().items():
        texts = [cause_text(name, cause, cycle) for cause in causes] or ["doesn't hold"]
        lines += [f"{name if i == 0 else '':6}{text}" for i, text in enumerate(texts)]
    return lines


def command_lines(cycle: Cycle, before: Commands) -> list[str]:
    """Each command before and now, and the rule; then state, status and covered with theirs."""
    now, lines = cycle.decision.commands, []
    for name, why in cycle.decision.why.items():
        if why == "set":
            why = "set by " + ", ".join(trigger for trigger in SETS[name] if getattr(cycle.triggers, trigger))
        elif why == "held":
            why = "held: " + ("the train moves, and isn't released early" if name == "eb" else "over holds")
        lines.append(f"{name:4}{getattr(before, name):d} before, {getattr(now, name):d} now: {why}")
    return lines + [
        f"state {cycle.decision.state}: {state_text(cycle)}",
        f"status {now.status}, before {before.status}: {status_text(cycle, before)}",
        f"covered {cycle.row.covered:d}: {covered_text(cycle)}",
    ]


def state_text(cycle: Cycle) -> str:
    situation = cycle.situation
    if cycle.decision.state == "R":
        return "release speed monitoring"
    V = situation.reading.V_est
    past = [
        short(each.target)
        for each in situation.targets
        if each.x > each.d_I and V > (0 if each.target.is_stop else each.target.V_target * NOTCHES_PER_KM_H)
    ]
    return "past I: " + ", ".join(past) if past else "no slower target is past its I"


def status_text(cycle: Cycle, before: Commands) -> str:
    triggers, now = cycle.triggers, cycle.decision.commands
    if now.eb or now.sb:
        return "a brake is commanded"
    if triggers.warn or triggers.over and before.status in "WX":
        return "warn holds" if triggers.warn else "over holds, and the status was W or X"
    return (
        "over holds"
        if triggers.over
        else "the state is T or R"
        if cycle.decision.state != "C"
        else "nothing holds, in state C"
    )


def covered_text(cycle: Cycle) -> str:
    situation = cycle.situation
    if situation.in_release:
        return "nothing is promised in release speed monitoring"
    past = [
        short(each.target)
        for each in situation.targets
        if each.d_EBI is not None
        and each.x > each.d_EBI
        and (each.target.is_stop or each.V_bec > each.target.foot_speed)
    ]
    return "past the EBI of " + ", ".join(past) if past else "no target is past its EBI with V_bec above the foot speed"


def row_lines(cycle: Cycle, theirs: str) -> list[str]:
    """The row with the targets that its places are of, and what is told of the program's."""
    V, lines = cycle.situation.reading.V_est, [cycle.row.text().rstrip("\n")]
    slower = [each for each in cycle.situation.targets if each.target.V_target * NOTCHES_PER_KM_H <= V]
    for name, field in LIMITS.items():
        places = [getattr(each, field) for each in slower if getattr(each, field) is not None]
        of = [short(each.target) for each in slower if places and getattr(each, field) == min(places)]
        lines.append(f"{name:4}{printed(min(places)) if places else '-'}" + (f" of {', '.join(of)}" if of else ""))
    return lines + ["The program's row is the same." if theirs == lines[0] else theirs]


class ProgramRows:
    """The rows of the program for an input, where there is a program."""

    def __init__(self, program: Path | None, source: bytes) -> None:
        self.rows: list[str] = []
        self.absent = ""
        try:
            self.rows = run(built(program), ["run"], source).rows.splitlines()
        except Fault as why:
            self.absent = f"This row is the model's alone. {why}"

    def told(self, number: int, due: str) -> str:
        """What is told of a row beside the model's."""
        theirs = self.rows[number - 1] if number <= len(self.rows) else "(no such row)"
        return self.absent or (theirs if theirs == due else f"The program's row differs: {theirs}")


def row_answer(supervisor: Supervisor, cycle: Cycle, before: Commands, theirs: str) -> list[str]:
    """Why one row is as it is."""
    reading = cycle.situation.reading
    exact = supervisor.situation(reading, exact=True).targets
    lines = section("reading", reading_lines(reading)) + section("in force", force_lines(supervisor))
    lines += section("decided on", situation_lines(cycle.situation))
    lines += section("times", times_lines(supervisor.data, cycle.situation.times))
    lines += section("release", release_lines(supervisor))
    pairs = sorted(zip(cycle.situation.targets, exact), key=lambda pair: pair[0].target.place)
    for i, (each, true) in enumerate(pairs, 1):
        lines += section(f"target {i}", target_lines(supervisor, reading, each, true))
    lines += section("triggers", trigger_lines(cycle)) + section("commands", command_lines(cycle, before))
    return lines + section("row", row_lines(cycle, theirs))


def answers(source: bytes, numbers: range, program: Path | None) -> Iterator[str]:
    """Why some rows are as they are, each with its number where they are several."""
    theirs = ProgramRows(program, source)
    for row, (supervisor, cycle, before) in zip(numbers, at_rows(source, numbers)):
        lines = [f"row {row}"] if len(numbers) > 1 else []
        lines += row_answer(supervisor, cycle, before, theirs.told(row, cycle.row.text().rstrip("\n")))
        yield "\n".join(lines + [""] * (row < numbers[-1]))


def some_rows(text: str) -> range:
    """The numbers that a word tells: N, or N..M with both."""
    found = re.fullmatch(r"(\d{1,6})(?:\.\.(\d{1,6}))?", text, re.ASCII)
    numbers = range(int(found[1]), int(found[2] or found[1]) + 1) if found else range(0)
    if numbers.start < 1 or not numbers or numbers.stop > MOST_RECORDS + 1:
        raise argparse.ArgumentTypeError(f"{text!r} is no row: rows are N or N..M, from 1 to {MOST_RECORDS:,}")
    return numbers


def main(args: list[str]) -> int:
    parser = argparse.ArgumentParser(prog="tools/why", description=__doc__.split("\n\n")[0])
    parser.add_argument("input", metavar="INPUT", help="the input of sdm run, - for standard input")
    parser.add_argument(
        "rows", metavar="N", type=some_rows, help="which row, counted from 1, or N..M for the rows from N to M"
    )
    add_program(parser)
    words = parser.parse_args(args)
    try:
        for text in answers(read(words.input), words.rows, words.program):
            print(text)
    except Fault as why:
        print(f"why: {why}", file=sys.stderr)
        return 1
    return 0
