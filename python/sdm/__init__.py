"""The speed and distance monitoring of ETCS in Python: its supervisor, an exact model of it, and tools of a laboratory.

What stands here is imported when it is asked for, so that the tools start soon and the model needs nothing but Python.
"""
from importlib import import_module
from typing import TYPE_CHECKING, Any

if TYPE_CHECKING:  # for mypy and editors; _HOMES says the same where it runs
    from sdm import campaign
    from sdm.arrays import CAUSES, DISPLAY, READING, ROW, Array, array, frame, readings, text
    from sdm.calls import command
    from sdm.comparing import compare
    from sdm.diagnosis import diagnose
    from sdm.diagnosis.diagnosing import Diagnosis
    from sdm.errors import Error, Fault, FormError, KindError
    from sdm.findings import Explanation, Finding, explain, explanation
    from sdm.importing import ImportFault, Journey, import_recording
    from sdm.library import Supervisor
    from sdm.picture import Picture, plot
    from sdm.records import Allowance, End, EndCalculated, Limit, Reading, Record, Restriction, Revocation, records_of
    from sdm.reporting import Report, report
    from sdm.rows import Cause, Causes, Display, Row, Rule, SdmError, Standing, State, Status, Supervision, Target
    from sdm.runs import causes, display, run
    from sdm.sweeps import summary, sweep, sweep_as_completed

__version__ = "0.11.1"
# fmt: off
__all__ = [
    "Allowance", "Array", "CAUSES", "Cause", "Causes", "DISPLAY", "Diagnosis", "Display", "End", "EndCalculated",
    "Error", "Explanation", "Fault", "Finding", "FormError", "ImportFault", "Journey", "KindError", "Limit",
    "Picture", "READING", "ROW", "Reading", "Record", "Report", "Restriction", "Revocation", "Row", "Rule",
    "SdmError", "Standing", "State", "Status", "Supervision", "Supervisor", "Target", "array", "campaign", "causes",
    "command", "compare", "diagnose", "display", "explain", "explanation", "frame", "import_recording", "plot",
    "readings", "records_of", "report", "run", "summary", "sweep", "sweep_as_completed", "text",
]
_HOMES = {
    "arrays": "Array CAUSES DISPLAY READING ROW array frame readings text",
    "calls": "command",
    "comparing": "compare",
    "diagnosis": "diagnose",
    "diagnosis.diagnosing": "Diagnosis",
    "errors": "Error Fault FormError KindError",
    "findings": "Explanation Finding explain explanation",
    "importing": "ImportFault Journey import_recording",
    "library": "Supervisor",
    "picture": "Picture plot",
    "records": "Allowance End EndCalculated Limit Reading Record Restriction Revocation records_of",
    "reporting": "Report report",
    "rows": "Cause Causes Display Row Rule SdmError Standing State Status Supervision Target",
    "runs": "causes display run",
    "sweeps": "summary sweep sweep_as_completed",
}
# fmt: on
_HOME = {name: home for home, names in _HOMES.items() for name in names.split()}


def __getattr__(name: str) -> Any:
    if name == "campaign":
        return import_module("sdm.campaign")
    if name not in _HOME:
        raise AttributeError(f"module 'sdm' has no attribute {name!r}")
    globals()[name] = found = getattr(import_module(f"sdm.{_HOME[name]}"), name)
    return found


def __dir__() -> list[str]:
    return [*__all__, "__version__"]
