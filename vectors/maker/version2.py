"""Data of version 2 in data/, openings/, decelerations/ and curves/: gradients in tenths of a per mille, special
brakes, and what each version knows."""
import copy

from sdm_evidence.model.data import REFUSED
from sdm_evidence.makers.toml_text import Raw

from .curves import AREAS, BANDS as FOUR_BANDS, STEEP, before_the_track, journey_over, through_bands
from .plain import KM, Journey, limit, plain, stop
from .refusals import changed, full, text

AREA = {"no_special": [{"start": 3, "end": 9}]}
WEAKER = {"emergency_reduced": 80}


def in_tenths(track):
    """A track of version 1 in the units of version 2."""
    return track | {"gradient": [entry | {"grad": 10 * entry["grad"]} for entry in track["gradient"]]}


TENTHS = {"gradient": [{"start": 0, "grad": -3}, {"start": 4 * KM, "grad": -207},
                       {"start": 4 * KM + 3_000, "grad": 95}, {"start": 48 * KM // 10, "grad": 301},
                       {"start": 5 * KM, "grad": -149}]}
UNUSED = {"no_special": AREAS["adhesion"]}


def full_2():
    """A data part in which every key of version 2 stands."""
    document = full()
    document["version"] = 2
    document["train"]["band"][1]["emergency_reduced"] = 90
    document["track"] |= copy.deepcopy(AREA)
    return document


BAND, NO_SPECIAL, GRADIENT = ("train", "band", 1), ("track", "no_special"), ("track", "gradient")


def new_keys():
    """Each key of version 2 refused in each way, and what is just accepted."""
    for name, shows, changes in [
        ("reduced-above", "`emergency_reduced` is above `emergency`", [((*BAND, "emergency_reduced"), 101)]),
        ("reduced-below", "`emergency_reduced` is 0", [((*BAND, "emergency_reduced"), 0)]),
        ("reduced-kind", "`emergency_reduced` is of another kind", [((*BAND, "emergency_reduced"), Raw("90.0"))]),
        ("reduced-of-its-own-band", "`emergency_reduced` is above `emergency` of its band, and not of the one before",
         [((*BAND, "emergency"), 89)]),
        ("reduced-as-great", "`emergency_reduced` may be `emergency`", [((*BAND, "emergency_reduced"), 100)]),
        ("reduced-least-unused", "`emergency_reduced` may be 1 where no area asks for it",
         [((*BAND, "emergency_reduced"), 1), (NO_SPECIAL, REFUSED)]),
        ("grad-above", "`grad` is above its range in tenths", [((*GRADIENT, 1, "grad"), 801)]),
        ("grad-below", "`grad` is below its range in tenths", [((*GRADIENT, 1, "grad"), -801)]),
        ("no_special-kind", "`no_special` is a table", [(NO_SPECIAL, Raw("{}"))]),
        ("no_special-of-numbers", "`no_special` holds numbers", [(NO_SPECIAL, Raw("[1]"))]),
        ("no_special-start-missing", "`start` is missing", [((*NO_SPECIAL, 0, "start"), REFUSED)]),
        ("no_special-end-missing", "`end` is missing", [((*NO_SPECIAL, 0, "end"), REFUSED)]),
        ("no_special-end-kind", "`end` is of another kind", [((*NO_SPECIAL, 0, "end"), True)]),
        ("no_special-start-kind", "`start` is of another kind", [((*NO_SPECIAL, 0, "start"), Raw("3.0"))]),
        ("no_special-start-below", "`start` is below its range", [((*NO_SPECIAL, 0, "start"), -1)]),
        ("no_special-start-above", "`start` is above its range",
         [(NO_SPECIAL, [{"start": 10 * KM, "end": 10 * KM + 1}])]),
        ("no_special-end-above", "`end` is above its range", [((*NO_SPECIAL, 0, "end"), 10 * KM + 1)]),
        ("no_special-empty", "an area that ends where it begins", [((*NO_SPECIAL, 0, "end"), 3)]),
        ("no_special-order", "an area that begins before the end of the one before",
         [(NO_SPECIAL, [{"start": 3, "end": 9}, {"start": 8, "end": 12}])]),
        ("no_special-too-many", "65 areas", [(NO_SPECIAL, [{"start": 2 * i, "end": 2 * i + 1} for i in range(65)])]),
        ("no_special-as-many", "64 areas, one beginning where another ends, from 5 on and over an area of adhesion",
         [(NO_SPECIAL, [{"start": i, "end": i + 1} for i in range(5, 69)])]),
        ("no_special-none", "an empty list of areas", [(NO_SPECIAL, [])]),
        ("version-2-unknown-key", "a key that isn't listed, in the root", [(("more",), 1)]),
        ("track-unknown-key-2", "a key that isn't listed, in the track", [(("track", "more"), 1)]),
        ("band-unknown-key-2", "a key that isn't listed, in a band", [((*BAND, "more"), 1)]),
        ("no_special-unknown-key", "a key that isn't listed, in an area", [((*NO_SPECIAL, 0, "more"), 1)]),
        ("all-keys-of-version-2", "every key of version 2 stands", []),
    ]:
        yield name, shows, text(changed(full_2(), changes))


def versions():
    """The keys and ranges of each version."""
    for name, shows, document in [
        ("version-3", "a `version` that isn't known", changed(full_2(), [(("version",), 3)])),
        ("version-0", "a `version` that isn't known", changed(full_2(), [(("version",), 0)])),
        ("reduced-in-version-1", "`emergency_reduced` in data of version 1", changed(full_2(), [(("version",), 1)])),
        ("no_special-in-version-1", "`no_special` in data of version 1",
         changed(full(), [(NO_SPECIAL, AREA["no_special"])])),
        ("no_special-empty-in-version-1", "an empty `no_special` in data of version 1",
         changed(full(), [(NO_SPECIAL, [])])),
        ("grad-above-in-version-1", "81 per mille", changed(full(), [((*GRADIENT, 1, "grad"), 81)])),
        ("grad-below-in-version-1", "-81 per mille", changed(full(), [((*GRADIENT, 1, "grad"), -81)])),
        ("grad-as-great-in-version-1", "80 per mille and -80", changed(full(), [
            ((*GRADIENT, 1, "grad"), 80), ((*GRADIENT, 0, "grad"), -80), (("national", "adhesion_max"), 400)])),
        ("grad-as-great-in-version-2", "the same in tenths", changed(full_2(), [
            ((*GRADIENT, 1, "grad"), 800), ((*GRADIENT, 0, "grad"), -800), (("national", "adhesion_max"), 400)])),
        ("grad-greatest-in-version-1", "the greatest integer", changed(full(), [((*GRADIENT, 1, "grad"), 2**63 - 1)])),
        ("grad-least-in-version-1", "the least integer", changed(full(), [((*GRADIENT, 1, "grad"), -2**63)])),
        # ten times this is 2^64 + 4
        ("grad-that-wraps-in-version-1", "a gradient whose tenfold is in range where it is cut to 64 bits",
         changed(full(), [((*GRADIENT, 1, "grad"), 1_844_674_407_370_955_162)])),
    ]:
        yield name, shows, text(document)


def orders():
    """Two rules broken at once: which of them is named."""
    for name, shows, changes in [
        ("no_special-after-adhesion", "adhesion whole, before the count of no_special",
         [(("track", "adhesion", 0, "end"), 3),
          (NO_SPECIAL, [{"start": 2 * i, "end": 2 * i + 1} for i in range(65)])]),
        ("no_special-read-after-adhesion", "each adhesion is read before each no_special",
         [(("track", "adhesion", 0, "end"), REFUSED), ((*NO_SPECIAL, 0, "more"), 1)]),
        ("no_special-read-before-authority", "each no_special is read before the authority",
         [(("authority", "kind"), 1), ((*NO_SPECIAL, 0, "start"), REFUSED)]),
        ("adhesion-kind-before-no_special-kind", "of the track's keys no_special is the last",
         [(("track", "adhesion"), 1), (NO_SPECIAL, 1)]),
        ("reduced-after-kn_down", "`emergency_reduced` comes after `kn_down` of its band",
         [((*BAND, "kn_down"), 1001), ((*BAND, "emergency_reduced"), 101)]),
        ("reduced-before-the-next-band", "and before `upper` of the next",
         [((*BAND, "emergency_reduced"), 101), (("train", "band", 2, "upper"), 501)]),
        ("reduced-after-emergency", "an `emergency` out of its range comes before what is above it",
         [((*BAND, "emergency"), 0), ((*BAND, "emergency_reduced"), 1)]),
        ("reduced-before-band-order", "the numbers of all bands come before their order",
         [(("train", "band", 0, "upper"), 100), (("train", "band", 2, "emergency_reduced"), 101)]),
    ]:
        yield name, shows, text(changed(full_2(), changes))
    per_mille = [((*GRADIENT, 1, "grad"), 81)]
    yield "grad-of-version-1-after-train", "a gradient of version 1 is refused after the train's numbers", \
        text(changed(full(), per_mille + [(("train", "length"), 0)]))
    yield "grad-of-version-1-before-gap", "and before a gap", \
        text(changed(full(), per_mille + [((*GRADIENT, 0, "start"), 1)]))


def extremes():
    """Data of version 2 whose numbers are all the least, or all the most, that is accepted."""
    weak = {"emergency": 5, "service": 5, "normal": 5}
    least = plain({"length": 1, "max_speed": 1, "rotating_mass": 0},
                  [weak | {"upper": 1, "emergency_reduced": 5}, weak | {"emergency_reduced": 1}],
                  {"avadh": 0, "adhesion_max": 5}, {
                      "length": 1, "speed": [{"start": 0, "speed": 1}], "gradient": [{"start": 0, "grad": 0}]},
                  stop(0, 0, 0), 2)
    yield "all-least-2", "every number of version 2 is the least that is accepted", \
        Journey(least, home_mm=-1_000).read(0).read(100)
    bands = [{"upper": upper} for upper in (10, 20, 30, 40, 50, 60, 70, 80, 499)] + [{}]
    strong = [band | {"emergency": 400, "service": 400, "normal": 400, "emergency_reduced": 400} for band in bands]
    areas = [{"start": 2 * i, "end": 2 * i + 2} for i in range(64)]
    track = {"length": 100 * KM, "speed": [{"start": 100 * i, "speed": 500} for i in range(128)], "adhesion": areas,
             "gradient": [{"start": 0, "grad": -800}] + [{"start": i, "grad": 800} for i in range(1, 512)],
             "no_special": areas}
    most = plain({"length": 150_000, "max_speed": 500, "rotating_mass": 50}, strong, {"adhesion_max": 400}, track,
                 stop(100 * KM, 0, 500), 2)
    yield "all-most-2", "every number and every count of version 2 is the most that is accepted", \
        Journey(most).read(138_888, a=300, u=10_000)


def data():
    yield from new_keys()
    yield from versions()
    yield from orders()
    for name, shows, journey in extremes():
        yield name, shows, journey.input()


def openings():
    """Slopes by special brakes and by tenths, on both sides of what is refused."""
    short, area = {"length": 1}, {"no_special": [{"start": 700, "end": 701}]}
    by_tenths = lambda grad: plain({"length": 1, "rotating_mass": 9}, [{"emergency": 7}], track={
        "gradient": [{"start": 0, "grad": grad}]}, version=2)
    for name, shows, document in [
        ("weak-without-special-brake", "too weak where the special brake isn't used", plain(
            short, [{"emergency_reduced": 4}], track=area, version=2)),
        ("least-without-special-brake", "exactly 0.05 m/s² is accepted there", plain(
            short, [{"emergency": 50, "emergency_reduced": 5}], track=area, version=2)),
        ("weak-without-an-area", "no area: what is left without the special brake isn't asked", plain(
            short, [{"emergency_reduced": 4}], version=2)),
        ("varied-by-special-brake", "more than sixteenfold by the special brake", plain(
            short, [{"emergency": 161, "emergency_reduced": 10}], track=area, version=2)),
        ("sixteenfold-by-special-brake", "exactly sixteenfold is accepted", plain(
            short, [{"emergency": 160, "emergency_reduced": 10}], track=area, version=2)),
        ("weak-by-a-tenth", "0.07 m/s² less 0.0009 · 23", by_tenths(-23)),
        ("strong-by-a-tenth", "0.07 m/s² less 0.0009 · 22 is accepted", by_tenths(-22)),
    ]:
        yield name, shows, text(document)


def tenths():
    """Gradients in tenths, and what both versions have alike."""
    mass = {"rotating_mass": 12}
    yield "known-mass-in-version-2", "`known-mass` in tenths: the same rows", journey_over(
        mass, track=in_tenths(STEEP), version=2)
    yield "adhesion-in-version-2", "`adhesion` in version 2: the same rows", journey_over(
        {"length": 20_000}, track=AREAS, version=2)
    yield "tenths", "gradients that are no whole per mille, a mass of 12 percent", journey_over(
        mass, track=TENTHS, version=2)
    document = plain(track=TENTHS, version=2)
    del document["train"]["rotating_mass"]
    journey = Journey(document)
    for v in (8_000, 20_000, 40_000):
        journey.rest().read(v).at("Svl", "d_EBI", v, 0).at("Svl", "d_EBI", v, 1)
    yield "tenths-unknown-mass", "the same with no mass given", journey
    yield "tenths-kn", "the same with a guidance curve and Kn", journey_over(
        mass, [{"service": 90, "normal": 80, "kn_up": 700, "kn_down": 300}], {"guidance": True}, TENTHS,
        limit(5 * KM, 30), (12_000, 20_000, 40_000), 2)


def special_brakes():
    """Areas without the special brake."""
    bands = [{"upper": 60} | WEAKER, {}]
    yield "special-brake", "areas without the special brake, which count until the rear end has left", \
        journey_over({"length": 20_000}, [WEAKER], track=UNUSED, version=2)
    yield "special-brake-sbd", "the SBD of an EOA far before the SvL is as it was", journey_over(
        {"length": 20_000}, [WEAKER], track=UNUSED, authority=stop(5 * KM, KM), version=2)
    yield "special-brake-not-told", "no `emergency_reduced`: `emergency` counts in the areas too", \
        journey_over({"length": 20_000}, track=UNUSED, version=2)
    yield "special-brake-in-a-band", "a band up to 60 km/h has one, the band above has none", \
        journey_over({"length": 20_000}, bands, track=UNUSED, version=2)
    both = UNUSED | {"adhesion": [{"start": 45 * KM // 10, "end": 48 * KM // 10}]}
    for reduced in (60, 80):
        yield f"special-brake-{reduced}-on-reduced-adhesion", \
            f"an `emergency_reduced` of {reduced} where at most 70 count", \
            journey_over({"length": 20_000}, [{"emergency_reduced": reduced}], track=both, version=2)
    yield "special-brake-no-adhesion", "an area of reduced adhesion alone asks for no `emergency_reduced`", \
        journey_over({"length": 20_000}, [{"emergency_reduced": 60}], track=AREAS, version=2)
    yield "special-brake-wet", "Kdry 0.85, Kwet 0.6 and an M_NVAVADH of 7/20 over `emergency_reduced`", journey_over(
        bands=[WEAKER | {"kdry": 850, "kwet": 600}], national={"avadh": 7}, track=UNUSED, version=2)
    yield "special-brake-before-the-track", "an area at 0 counts before cell 0", before_the_track(
        {"gradient": [{"start": 0, "grad": 183}, {"start": 20_000, "grad": -92}],
         "no_special": [{"start": 0, "end": 1_000}, {"start": 15_000, "end": 20_000}]}, [WEAKER], 2)
    yield "special-brake-after-cell-0", "an area from cell 1 on doesn't count before it", before_the_track(
        {"no_special": [{"start": 1, "end": 1_000}]}, [WEAKER], 2)
    past = {"length": 5 * KM, "no_special": [{"start": 5 * KM - 1, "end": 5 * KM}]}
    yield "special-brake-past-the-track", "an area counts past the track's end, as long as the train stands in it", \
        journey_over({"length": 30_000}, [WEAKER], track=past, version=2)


def decelerations():
    yield from tenths()
    yield from special_brakes()


def curves():
    bands = [band | {"emergency_reduced": less} for band, less in zip(FOUR_BANDS, (50, 90, 45))] + FOUR_BANDS[3:]
    track = TENTHS | {"no_special": [{"start": 42 * KM // 10, "end": 44 * KM // 10},
                                     {"start": 49 * KM // 10, "end": 499 * KM // 100}]}
    yield "back-through-bands-and-special-brakes", "an EBD through four bands, three with an `emergency_reduced`", \
        through_bands(stop(5 * KM), (4_999, 5_000, 5_001, 16_667, 27_778, 40_000, 69_444), track=track, bands=bands,
                      version=2)
