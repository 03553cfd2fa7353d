"""Trials of wrong definitions: what counts as a refusal by what the prover says, and which trial says nothing."""
from pathlib import Path

import pytest

from scripts.editing.edits import Edit, Unfit
from scripts.pages.specs import CRATES
from scripts.tries import definitions
from scripts.tries.definitions import Case, between, case_of, judged, leave, needed, plant, trials

CASE = Case("sdm_cases", "StopCases", "start_without_interface")
LAW = Case("sdm_service_ride", "", "law_of_cut_offs")
ENDED = "only=1 proved=0\n"


def error(name: str, why: str, file: str = "StopCases") -> str:
    return f"./proofs/{file}.antt:85:27: error: `{name}`: {why}\n"


@pytest.mark.parametrize(
    "said, is_refused",
    [
        (error(CASE.name, "as printed, the two types differ only where one has `50`") + ENDED, True),
        (error("another_case", "as printed, the two types differ") + ENDED, False),
        (error(CASE.name, "as printed, the two types differ", file="PromiseCases") + ENDED, False),
        (error(CASE.name, "`gaining_reading` is not in scope") + ENDED, False),
        (error(CASE.name, "record `Prim.Unit` has no field `1`") + ENDED, True),  # a text that says nothing has no part
        (error(CASE.name, "as printed, the two types differ"), False),  # with no verdict
        ("only=1 proved=1\n", False),
        ("specs/Reaction.antt:136:16: error: parse error\n", False),
        (
            "../sdm_rules/specs/Reaction.antt:9:1: error: `b`: no\n" + error(CASE.name, "the types differ") + ENDED,
            False,
        ),
    ],
)
def test_a_case_is_refused_by_its_own_error(said: str, is_refused: bool) -> None:
    assert judged(CASE, said)[0] is is_refused


@pytest.mark.parametrize(
    "state, is_refused", [("not proved", True), ("no proof: expected answers", True), ("proved", False)]
)
def test_a_law_is_refused_by_its_state(state: str, is_refused: bool) -> None:
    assert judged(LAW, f"fn sdm_service_ride::laws::law_of_cut_offs: {state}\n{ENDED}")[0] is is_refused


def test_of_another_law_nothing_is_known() -> None:
    assert not judged(LAW, f"fn sdm_service_ride::laws::law_of_service_rides: not proved\n{ENDED}")[0]


def trial(folder: Path, text: str) -> Edit:
    path = folder / "wrong.trial"
    path.write_text(text)
    return Edit("sdm_rules", path)


@pytest.mark.parametrize("marked", ["", "sdm_cases", "sdm_cases NoCases::a", "nowhere law_of_stop", "a b c"])
def test_a_trial_that_names_nothing_is_told(tmp_path: Path, marked: str) -> None:
    with pytest.raises(Unfit):
        case_of(trial(tmp_path, f"# refused-by: {marked}\n"))


@pytest.mark.parametrize(
    "change",
    [
        "file: src/lib.rt\nold: a\nnew: b\n",
        "file: specs/Reaction.antt\nold: no such text\nnew: b\n",
        "file: specs/Reaction.antt\nold:       front = r.max;\nnew:       front = r.max;\n",
    ],
)
def test_a_trial_that_cannot_be_planted_is_told(tmp_path: Path, change: str) -> None:
    specs = tmp_path / "sdm_rules" / "specs"
    specs.mkdir(parents=True)
    (specs / "Reaction.antt").write_text("      front = r.max;\n")
    with pytest.raises(Unfit):
        plant(trial(tmp_path, change), tmp_path / "sdm_rules")


def test_a_case_is_left_with_the_files_that_it_needs(tmp_path: Path) -> None:
    proofs = tmp_path / "some" / "proofs"
    (proofs / "a_function").mkdir(parents=True)
    (proofs / "Lib.antt").write_text("mod One\nmod Two\nmod Three\n")
    (proofs / "One.antt").write_text("use Rattle.some.proofs.Two.{two}\n")
    (proofs / "Two.antt").write_text("use Rattle.other.specs.Three.{three}\n")
    (proofs / "Three.antt").write_text("")
    (proofs / "a_function" / "Answers.antt").write_text("")
    assert needed(tmp_path / "some", "One") == {"One", "Two"}
    leave(tmp_path / "some", "One")
    assert sorted(path.name for path in proofs.rglob("*.antt")) == ["Lib.antt", "One.antt", "Two.antt"]
    assert (proofs / "Lib.antt").read_text() == "mod One\nmod Two\n"


def test_the_crates_between_come_as_sources(tmp_path: Path) -> None:
    """The cases of starts import the definitions of sdm_rules, and those of units below, alone."""
    assert between(trial(tmp_path, ""), CASE) == ["sdm_rules"]


def test_each_trial_can_be_planted() -> None:
    for each in trials():
        assert (CRATES / case_of(each).crate).is_dir()
        assert each.applied(CRATES / each.crate)


def test_what_is_recorded_are_trials_that_were_refused() -> None:
    rows = definitions.recorded()
    assert {row[0] for row in rows} <= {each.name for each in trials()}
    assert all(row[1] == "yes" for row in rows)


def test_a_run_of_some_keeps_what_is_recorded_of_others(tmp_path: Path, monkeypatch: pytest.MonkeyPatch) -> None:
    monkeypatch.setattr(definitions, "RECORD", tmp_path / "trials.csv")
    first, second = trials()[:2]
    for each in (first, second):
        definitions.record([definitions.Verdict(each, each is first, "", 1.0)])
    assert [row[:2] for row in definitions.recorded()] == [[first.name, "yes"], [second.name, "no"]]
