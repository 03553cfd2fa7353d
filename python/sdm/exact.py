"""The one door of this package to the exact model, `sdm_evidence.model`: all that its tools ask the model for.

The tools of a laboratory need exact limits, curves and causes, and why an input is refused. What a caller of the
supervisor uses (`library`, `records`, `rows`, `arrays`, `runs`, `sweeps`) needs no model and doesn't pass this door;
`scripts/house check imports` holds both. Names are the model's: a `Reading` from here is the model's reading, in its
units.

A diagnosis has rules of the model read otherwise, so it takes the modules too, in which these rules stand.
"""
from sdm_evidence.model import (
    curves,
    data,
    decelerations,
    journey,
    limits,
    outcome,
    records,
    release,
    rows,
    speeds,
    triggers,
    units,
    words,
)
from sdm_evidence.model.certificates import Claim, Mark, until_it_works
from sdm_evidence.model.checker import Lines, hold, is_accepted, read_claim, read_map
from sdm_evidence.model.curves import BrakeCurve, Leg
from sdm_evidence.model.data import (
    DIVIDING_LINE,
    KIND,
    MOST_CM,
    MOST_DEEP,
    REFUSED,
    Area,
    Authority,
    Band,
    Data,
    Key,
    Limit,
    National,
    Root,
    Stop,
    Table,
    Track,
    Train,
    data_of,
    is_in_bounds,
    is_of,
    keys_of,
    known_keys,
    read_document,
    split,
)
from sdm_evidence.model.decelerations import A_brake_safe, A_em, A_gradient, Brake, brakes_of, under_the_train
from sdm_evidence.model.display import display_of
from sdm_evidence.model.drive import STEP_TIME, Drive, TrueTrain, drive_lines
from sdm_evidence.model.flat import numbers_of
from sdm_evidence.model.journey import MOST_RECORDS, MOST_RESTRICTIONS, Cycle, Supervisor
from sdm_evidence.model.limits import A_EST2_MOST, Situation, T_driver, T_warning, Target, TargetLimits, Times
from sdm_evidence.model.outcome import Outcome, Refused
from sdm_evidence.model.records import (
    EST,
    EVENTS,
    HIGH,
    LOW,
    PLACE,
    SPEED,
    TIME,
    Calculated,
    Event,
    Reading,
    Restriction,
    Revocation,
    event_of,
    placed_records,
    read_int,
)
from sdm_evidence.model.release import release_start
from sdm_evidence.model.speeds import (
    Zone,
    ceiling,
    dV_ebi,
    dV_sbi,
    dV_warning,
    falls,
    no_margin,
    restriction_zone,
    static_zones,
)
from sdm_evidence.model.triggers import Cause, Commands
from sdm_evidence.model.units import (
    GRAINS_PER_CM,
    GRAINS_PER_MM,
    NOTCHES_PER_KM_H,
    NOTCHES_PER_MM_S,
    Number,
    Steps,
    printed,
)
from sdm_evidence.model.words import MOST_BYTES, main, number_word, open_run, opened
