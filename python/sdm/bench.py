"""A closed loop over two pipes: a train, its driver and its odometer on a bench, supervised by `sdm live`.

    tools/bench-live SCENARIO INTO

The train moves in ticks of 0.1 s. Each period the bench hands a reading to the program and waits for its row; its
commands stand at the train some latency later. The train brakes once the brake has built up, and a brake that is no
longer commanded is released at once. Gradients of the track aren't simulated. Into the folder go the journey, as an
input of `run`, and its rows; with --picture a picture. It ends with 0, with 1 where no message comes and the front end
passes the SvL of the data part, with 2 where it can't run.
"""

from __future__ import annotations

import argparse
import subprocess
import sys
import time
import tomllib
from dataclasses import dataclass, field, fields
from pathlib import Path
from random import Random
from statistics import median, quantiles
from typing import Any, NamedTuple, TypeVar

from sdm.laboratory.program import Fault, add_program, built
from sdm.exact import Outcome, Stop, open_run

DIVIDING_LINE = "%%\n"
SWAYS_MM = 200  # how far the odometer's error sways within a reading


@dataclass(frozen=True)
class Train:
    """The train as it is: its front end in mm, mm/s, cm/s² and ds."""

    place: int
    speed: int
    cut_off: int = 0
    service: int = 0
    service_build_up: int = 0
    emergency: int = 0
    emergency_build_up: int = 0


@dataclass(frozen=True)
class Driver:
    """What the driver asks for from a time in ds on: cm/s², below 0 by a brake of his own."""

    start: int
    accel: int


@dataclass(frozen=True)
class Odometer:
    """How wrong readings may be: the front end ahead of and behind the estimated one in mm, the speed above the reading
    in mm/s; what they are follows from the seed."""

    seed: int = 0
    ahead: int = 0
    behind: int = 0
    under: int = 0


@dataclass(frozen=True)
class Message:
    """A record that comes from the trackside at a time in ds."""

    time: int
    record: str


@dataclass(frozen=True)
class Scenario:
    """What is ridden: the path of a data part from the scenario's folder, and times in ds."""

    data: str
    duration: int
    period: int
    latency: int
    train: Train
    driver: list[Driver]
    odometer: Odometer = field(default_factory=Odometer)
    message: list[Message] = field(default_factory=list)


ScenarioPart = TypeVar("ScenarioPart", Train, Driver, Odometer, Message, Scenario)
PARTS = {"train": Train, "driver": Driver, "odometer": Odometer, "message": Message}


def part_of(kind: type[ScenarioPart], table: object, where: str) -> ScenarioPart:
    """A part of a scenario from its table."""
    if not isinstance(table, dict):
        raise Fault(f"{where} is no table.")
    known = {each.name for each in fields(kind)}
    if strange := sorted(set(table) - known):
        raise Fault(f"{where} has the key {strange[0]}, and knows only {', '.join(sorted(known))}.")
    values: dict[str, Any] = {name: value_of(name, value, where) for name, value in table.items()}
    try:
        return kind(**values)
    except TypeError as why:
        raise Fault(f"{where}: {str(why).split('() ', 1)[-1]}.") from None


def value_of(name: str, value: object, where: str) -> object:
    """A value of a scenario: a part, a list of parts, a whole number or a text."""
    if name in PARTS:
        kind = PARTS[name]
        if isinstance(value, list):
            return [part_of(kind, each, f"{name} {number}") for number, each in enumerate(value, 1)]
        return part_of(kind, value, name)
    wanted = str if name in ("data", "record") else int
    if not isinstance(value, wanted) or isinstance(value, bool):
        raise Fault(f"{where}: {name} is {value!r}, and must be {'a text' if wanted is str else 'a whole number'}.")
    return value


def scenario_in(path: Path) -> tuple[Scenario, str]:
    """A scenario, and the text of its data part with its dividing line."""
    try:
        scenario = part_of(Scenario, tomllib.loads(path.read_text()), str(path))
        data = (path.parent / scenario.data).read_text().partition(DIVIDING_LINE)[0] + DIVIDING_LINE
    except (OSError, tomllib.TOMLDecodeError) as why:
        raise Fault(f"{path} can't be read: {why}.") from None
    if scenario.period < 1 or scenario.latency < 0:
        raise Fault(f"{path}: a period is 1 ds or more, and a latency 0 or more.")
    return scenario, data


class BenchRow(NamedTuple):
    """What a row commands, and whether it is covered."""

    tco: bool
    sb: bool
    eb: bool
    covered: bool


def row_of(text: str) -> BenchRow | None:
    """What a row commands; none where an answer is no row."""
    columns = text.rstrip("\n").split(",")
    return BenchRow._make(column == "1" for column in columns[3:7]) if len(columns) == 13 else None


class Program:
    """The program `sdm live` over two pipes, with what was sent, what came back, and how long each reading took."""

    def __init__(self, program: Path, data: str) -> None:
        self.live = subprocess.Popen([program, "live"], stdin=subprocess.PIPE, stdout=subprocess.PIPE, text=True)
        self.sent, self.answers, self.seconds = [data], list[str](), list[float]()
        self.write(data)

    def write(self, text: str) -> None:
        """Hands a text to the program."""
        assert self.live.stdin
        try:
            self.live.stdin.write(text)
            self.live.stdin.flush()
        except BrokenPipeError:
            raise Fault(f"The program ended with {self.live.wait()}.") from None

    def ask(self, record: str) -> str:
        """The answer to a record."""
        assert self.live.stdout
        began = time.perf_counter()
        self.write(record + "\n")
        answer = self.live.stdout.readline()
        self.seconds.append(time.perf_counter() - began)
        if not answer:
            raise Fault(f"The program gave no answer to {record}, and ended with {self.live.wait()}.")
        self.sent.append(record + "\n")
        self.answers.append(answer)
        return answer

    def close(self) -> None:
        """Ends the input, and waits for the program's end."""
        assert self.live.stdin and self.live.stdout
        self.live.stdin.close()
        self.live.stdout.close()
        if code := self.live.wait():
            raise Fault(f"The program ended with {code}.")


class Ride:
    """A train on the bench, tick by tick; places in tenths of a mm, so that each tick is exact."""

    def __init__(self, scenario: Scenario) -> None:
        self.scenario = scenario
        self.place, self.speed = 10 * scenario.train.place, scenario.train.speed
        self.read_at = self.speed
        self.standing = BenchRow(False, False, False, False)
        self.coming: list[tuple[int, BenchRow]] = []
        self.since = {"tco": 0, "sb": 0, "eb": 0}
        self.rng, self.error = Random(scenario.odometer.seed), 0

    def accel(self, now: int) -> int:
        """The train's acceleration at a time in cm/s²."""
        train, standing = self.scenario.train, self.standing
        asked = [each.accel for each in self.scenario.driver if each.start <= now]
        accel = asked[-1] if asked else 0
        if standing.tco and now >= self.since["tco"] + train.cut_off:
            accel = min(accel, 0)
        if standing.sb and now >= self.since["sb"] + train.service_build_up:
            accel = min(accel, -train.service)
        if standing.eb and now >= self.since["eb"] + train.emergency_build_up:
            accel = min(accel, -train.emergency)
        return accel

    def tick(self, now: int) -> None:
        """A tenth of a second: commands that came in time stand, and the train moves by the mean of its speeds."""
        while self.coming and self.coming[0][0] <= now:
            row = self.coming.pop(0)[1]
            for name in self.since:
                if getattr(row, name) and not getattr(self.standing, name):
                    self.since[name] = now
            self.standing = row
        after = max(0, self.speed + self.accel(now))
        self.place += (self.speed + after) // 2
        self.speed = after

    def reading(self, now: int) -> str:
        """The odometer's reading; a speed of 0 is read of a train that stands, and of no other."""
        odometer = self.scenario.odometer
        self.error += self.rng.randint(-SWAYS_MM, SWAYS_MM)
        self.error = max(-odometer.behind, min(odometer.ahead, self.error))
        estimated = self.place // 10 - self.error
        speed = max(1, self.speed - self.rng.randint(0, odometer.under)) if self.speed else 0
        gained = -(-(self.speed - self.read_at) // self.scenario.period)
        self.read_at = self.speed
        accel = max(-300, min(300, gained))
        front = f"{estimated},{estimated - odometer.behind},{estimated + odometer.ahead}"
        return f"read,{now},{front},{speed},{accel},{odometer.under}"


def ridden(scenario: Scenario, program: Program) -> Ride:
    """The ride at its end: a record that has come goes before the next reading."""
    ride, messages = Ride(scenario), sorted(scenario.message, key=lambda each: each.time)
    for now in range(scenario.duration + 1):
        if now % scenario.period == 0:
            while messages and messages[0].time <= now:
                program.ask(messages.pop(0).record)
            row = row_of(program.ask(ride.reading(now)))
            if row:
                ride.coming.append((now + scenario.latency, row))
        if now < scenario.duration:
            ride.tick(now)
    return ride


def svl_mm(data: str) -> int | None:
    """The SvL of a data part, where its authority is to an end."""
    try:
        supervisor, _ = open_run(data.encode())
    except Outcome as why:
        raise Fault(f"The data part is refused: {why}.") from None
    authority = supervisor.authority
    return 10 * authority.svl if isinstance(authority, Stop) else None


def told(ride: Ride, program: Program, left: int | None) -> str:
    """What the ride shows, with how far the front end, which never goes back, is before the SvL."""
    rows = [row for row in map(row_of, program.answers) if row]
    refused = sum(answer.startswith("refused: ") for answer in program.answers)
    times = [1e6 * seconds for seconds in program.seconds]
    slowest = quantiles(times, n=100)[-1] if len(times) > 1 else times[0]
    return "\n".join(
        [
            f"{len(rows)} readings, {sum(row.covered for row in rows)} of them covered; "
            f"service brake at {sum(row.sb for row in rows)}, emergency brake at {sum(row.eb for row in rows)}; "
            f"{refused} records refused",
            f"front end at {ride.place // 10} mm with {ride.speed} mm/s"
            + ("" if left is None else f", {left} mm before the SvL"),
            f"an answer came after {median(times):.0f} µs (median), {slowest:.0f} µs (99 of 100)",
        ]
    )


def words_of(args: list[str]) -> argparse.Namespace:
    parser = argparse.ArgumentParser(prog="tools/bench-live", description=__doc__.split("\n\n")[0])
    parser.add_argument("scenario", type=Path, metavar="SCENARIO", help="what is ridden, as TOML")
    parser.add_argument("into", type=Path, metavar="INTO", help="the folder for input, rows and the picture")
    parser.add_argument("--picture", action="store_true", help="draw the journey; it needs gnuplot")
    add_program(parser)
    return parser.parse_args(args)


def keep(into: Path, program: Program, picture: bool) -> None:
    """Writes the journey and its rows into a folder."""
    into.mkdir(parents=True, exist_ok=True)
    (into / "input").write_text("".join(program.sent))
    (into / "rows").write_text("".join(answer for answer in program.answers if row_of(answer)))
    if picture:
        from sdm.picture import main as plot

        if plot([str(into / "input"), str(into / "rows"), str(into / "picture.svg"), "--title", ""]):
            raise Fault("No picture is drawn.")


def main(args: list[str]) -> int:
    words = words_of(args)
    try:
        path = built(words.program)
        scenario, data = scenario_in(words.scenario)
        svl = svl_mm(data) if not scenario.message else None
        program = Program(path, data)
        ride = ridden(scenario, program)
        program.close()
        keep(words.into, program, words.picture)
        left = None if svl is None else svl - ride.place // 10
        print(told(ride, program, left))
    except (Fault, OSError) as why:
        print(f"bench-live: {why}", file=sys.stderr)
        return 2
    return int(left is not None and left < 0)
