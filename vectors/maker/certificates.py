"""certify/ and check/: certificates of readings, and texts of certificates at the edges of what holds and of what is read."""
from sdm_evidence.model.words import collect

from .curves import AREAS, STEEP, before_the_track
from .plain import KM, Journey, limit, plain, stop
from .refusals import text
from .ten_bands import TEN_BANDS
from .version2 import TENTHS, UNUSED, WEAKER

TIMES = {"emergency_time": 20, "traction_cutoff_time": 15}
TWO_BANDS = [{"upper": 36, "emergency": 60}, {"emergency": 110}]
# Of these bands an area with 0.7 m/s² at most takes from the upper one alone.
UPPER_ALONE = {"adhesion": [{"start": 470_000, "end": 480_000}, {"start": 499_000, "end": 499_400}]}


def at(mm, v, a=0, u=0, time=0):
    """A reading whose three front ends lie at one place."""
    return f"read,{time},{mm},{mm},{mm},{v},{a},{u}"


def slowing(journey, speeds, a=0, u=0):
    """At each speed a reading at the EBI of the SvL, and one a millimetre past it, each after a rest."""
    for v in speeds:
        journey.rest().at("Svl", "d_EBI", v, 0, a, u).rest().at("Svl", "d_EBI", v, 1, a, u)
    return journey


def certified():
    """Journeys, each with how many certificates are asked for."""
    plainly = plain(track={"length": 2 * KM}, authority=stop(KM))
    yield "one", "a train at 20 m/s before an SvL at 1000 m, worked by hand", 1, text(plainly, [at(799_990, 20_000)])
    yield "at-the-ebi", "at the EBI is covered, a millimetre past it isn't", 5, text(
        plainly, [at(800_000, 20_000), at(800_001, 20_000), at(800_002, 0)])
    yield "standing", "a train that stands has one mark", 3, text(
        plainly, [at(5_000, 0), at(1_000_000, 0), at(1_000_000, 0, u=1)])
    yield "standing-inhibited", "an under-reading amount that is inhibited counts nothing", 3, text(
        plain(TIMES, national={"inhibit_under_reading": True}), [at(5_000, 0, u=10_000), at(5_000, 1, u=10_000)])
    yield "times", "both times, and accelerations: the second is 0.4 m/s² at most, none is below 0", 20, slowing(
        Journey(plain(TIMES)), (0, 20_000, 40_000), a=100, u=700).read(20_000, a=41).read(20_000, a=40).read(20_000, a=-1)
    yield "fewer-than-covered", "more covered readings than are asked for", 2, text(
        plainly, [at(100 * i, 1_000 * i, time=i) for i in range(6)])
    yield "as-many-as-there-are", "fewer covered readings than are asked for", 1_000, text(
        plainly, [at(100 * i, 1_000 * i, time=i) for i in range(6)])
    yield "no-readings", "the map alone", 1, text(plainly, [])
    yield "a-limit", "none under an authority to a limit, and again one under the next to an end", 5, \
        Journey(plain(authority=limit(5 * KM, 40))).read(20_000).record("end", 5 * KM, 5 * KM + 100, 0).read(20_000) \
        .record("limit", 5 * KM, 40).read(20_000).record("end", 4 * KM, 4 * KM, 0).read(20_000)
    yield "release-speed", "none in release speed monitoring", 5, \
        Journey(plain(authority=stop(5 * KM, 2_000, 30))).read(8_000).read(8_000, est=4_990_000).read(8_000, est=4_900_000)
    yield "falls", "none past the EBI of a fall, whatever the SvL allows", 9, Journey(plain(track={
        "speed": [{"start": 0, "speed": 160}, {"start": 4 * KM, "speed": 60}]})).at("Mrsp", "d_EBI", 30_000).at(
            "Mrsp", "d_EBI", 30_000, 1).read(16_000, est=4_100_000)
    yield "early", "the commands of a reading say nothing of its certificate", 5, \
        Journey(plain()).read(60_000, est=0).read(60_000, est=0).read(1, min=5_000_001).read(1, est=4_000_000)


def of_curves():
    """Marks by bands and by cells."""
    yield "two-bands", "a knot at the border of two bands, and none at a V_bec of just its speed", 9, \
        Journey(plain(bands=TWO_BANDS)).read(9_999).read(10_000).read(10_001).read(40_000)
    yield "slopes-of-another-band", "the slope of the upper band alone changes: no mark in the lower one, but a line of the map", 9, \
        Journey(plain({"length": 100}, TWO_BANDS, track=UPPER_ALONE)).read(5_000).read(10_001).read(20_000).read(30_000).read(40_000)
    yield "slopes-of-the-present-band", "the slope of the lower band alone changes", 9, Journey(plain(
        {"length": 100}, [{"upper": 36, "emergency": 110}, {"emergency": 60}], track=UPPER_ALONE)) \
        .read(5_000).read(10_001).read(20_000).read(30_000)
    yield "equal-slopes", "areas that change no slope: one line of the map", 9, Journey(plain(
        {"length": 100}, [{"emergency": 65}], track=UPPER_ALONE)).read(5_000).read(30_000)
    yield "equal-again", "slopes that come again stand again", 9, Journey(plain(
        {"length": 100}, track=UPPER_ALONE)).read(5_000).read(30_000)
    yield "knot-at-a-change", "a knot just where the slope changes stands once", 9, Journey(plain(
        {"length": 1}, [{"upper": 36}, {}], track={"gradient": [{"start": 0, "grad": 9}, {"start": 495_000, "grad": 0}]})) \
        .read(10_000).read(20_000)
    yield "first-at-a-change", "and so does the first mark", 9, Journey(plain(
        {"length": 1}, track={"gradient": [{"start": 0, "grad": 9}, {"start": 480_000, "grad": 0}]})) \
        .read(19_999).read(20_000).read(20_001)
    yield "last-at-a-change", "the slope changes at the SvL itself", 9, Journey(plain(
        {"length": 1}, track={"gradient": [{"start": 0, "grad": 9}, {"start": 5 * KM, "grad": 0}]})).read(20_000)
    yield "ten-bands", "ten bands with gradients and areas", 9, slowing(
        Journey(plain({"max_speed": 250}, TEN_BANDS, track=STEEP | AREAS)), (1, 12_000, 25_000, 60_000))
    yield "thirds", "places that are rounded down, knot by knot", 9, slowing(
        Journey(plain(TIMES, [{"upper": 18, "emergency": 70}, {"upper": 50, "emergency": 70}, {"emergency": 90, "kdry": 900}])),
        (4_999, 14_000, 30_000), u=3)
    document = plain(track=STEEP)
    del document["train"]["rotating_mass"]
    yield "unknown-mass", "a q of 11,730", 9, slowing(Journey(document), (8_000, 40_000))
    yield "version-2", "tenths, and areas without the special brake", 9, slowing(Journey(plain(
        TIMES, [{"upper": 60, "emergency": 90}, WEAKER], track=TENTHS | UNUSED, version=2)), (8_000, 40_000))
    yield "before-the-track", "marks before cell 0, and a train that is there", 9, before_the_track(
        {"gradient": [{"start": 0, "grad": 18}, {"start": 20_000, "grad": -9}]})


def refused():
    """How `certify` ends where `run` doesn't end with 0."""
    lines = [at(5_000, 20_000), at(6_000, 20_000)]
    yield "refused-midway", "a record that is refused", 9, text(plain(), [*lines, "read,x", at(7_000, 20_000)])
    yield "refused-when-all-are-given", "the same, once all that were asked for are given", 1, text(plain(), [*lines, "revoke,1"])
    yield "refused-opening", "a slope that is too weak", 9, text(plain(bands=[{"emergency": 4}]), lines)
    yield "no-line", "no line divides the parts", 9, b"version = 1\n"
    yield "bad-data", "a train without a length", 9, text(plain({"length": 0}), lines)


def certificates():
    for make in (certified, of_curves, refused):
        for name, shows, count, made in make():
            yield name, shows, ["certify", str(count)], made


# ---- check

ONE = """map,100,1,1
seg,0,200000000000
claim,0,431994600000000,1080000,0,0,0,0,540000000000000,2
mark,432000000000000,583200000000000000000000000
mark,540000000000000,0
"""
# 0.7 m/s² below 36 km/h and above it 1.1, from 600 m on 0.9: 20 m/s, 10 m/s and 0.
KNOT = """map,100,2,2
uppers,540000
seg,0,140000000000,220000000000
seg,60000,140000000000,180000000000
claim,7,405000000000000,1080000,0,0,0,0,540000000000000,3
mark,411428571428571,583200000000000000000000000
mark,501428571428571,145800000000000000000000000
mark,540000000000000,0
"""


def changed(certificate, *changes):
    """A certificate with parts of its text changed, each the first of its kind."""
    for old, new in changes:
        assert old in certificate, old
        certificate = certificate.replace(old, new, 1)
    return certificate


def of_one():
    """The worked certificate with one number or line changed."""
    for name, shows, *changes in [
        ("one", "the worked certificate"),
        ("svl-a-grain-before", "the last place is past the SvL", ("540000000000000,2", "539999999999999,2")),
        ("svl-a-grain-past", "the last place is before the SvL", ("540000000000000,2", "540000000000001,2")),
        ("first-place-later", "the way takes a grain too little", ("mark,432000000000000", "mark,432000000000001")),
        ("first-place-earlier", "the way takes more than it must", ("mark,432000000000000", "mark,431999999999999")),
        ("front-at-the-first-place", "the front end is at the first place", ("431994600000000", "432000000000000")),
        ("front-past-the-first-place", "the front end is a grain past it", ("431994600000000", "432000000000001")),
        ("first-energy-less", "the first energy is one less than that of V_bec", ("583200000000000000000000000", "583199999999999999999999999")),
        ("first-energy-more", "and one more, than which the way takes less", ("583200000000000000000000000", "583200000000000000000000001")),
        ("first-energy-more-earlier", "one more, with a place that is a grain earlier",
         ("mark,432000000000000,583200000000000000000000000", "mark,431999999999999,583200000000000000000000001")),
        ("faster-by-a-notch", "the speed is a notch higher", (",1080000,", ",1080001,")),
        ("last-energy", "the last energy isn't 0", ("mark,540000000000000,0", "mark,540000000000000,1")),
        ("weaker", "a slope that is weaker", ("seg,0,200000000000", "seg,0,199999999999")),
        ("stronger", "and stronger", ("seg,0,200000000000", "seg,0,200000000001")),
        ("q", "another q", ("map,100", "map,101")),
        ("too-weak", "a map that is too weak, though the marks hold on it",
         ("seg,0,200000000000", "seg,0,9999999999"), ("431994600000000", "-60000000000000000"),
         ("mark,432000000000000", "mark,-50000000000000000")),
        ("just-as-weak", "the weakest that isn't", ("seg,0,200000000000", "seg,0,10000000000"),
         ("431994600000000", "-60000000000000000"), ("mark,432000000000000", "mark,-50000000000000000")),
        ("too-weak-elsewhere", "too weak where no train comes", ("1,1\n", "1,2\n"), ("claim", "seg,10200000,9999999999\nclaim")),
        ("negative-elsewhere", "a slope below 0", ("1,1\n", "1,2\n"), ("claim", "seg,10200000,-1000000000000000\nclaim")),
        ("sixteenfold", "sixteenfold is accepted", ("1,1\n", "1,2\n"), ("claim", "seg,10200000,3200000000000\nclaim")),
        ("too-varied", "more than sixteenfold", ("1,1\n", "1,2\n"), ("claim", "seg,10200000,3200000000001\nclaim")),
        ("middle-mark", "a mark on the way, where the curve is",
         (",2\nmark", ",3\nmark"), ("mark,54", "mark,513000000000000,145800000000000000000000000\nmark,54")),
        ("middle-mark-past-the-curve", "a grain past the curve",
         (",2\nmark", ",3\nmark"), ("mark,54", "mark,513000000000001,145800000000000000000000000\nmark,54")),
        ("middle-mark-before-the-curve", "a grain before it",
         (",2\nmark", ",3\nmark"), ("mark,54", "mark,512999999999999,145800000000000000000000000\nmark,54")),
        ("twice", "a mark that stands twice", (",2\nmark", ",3\nmark"), ("mark,54", "mark,540000000000000,0\nmark,54")),
        ("falls-at-one-place", "energy that is lost at one place", (",2\nmark", ",3\nmark"), ("mark,54", "mark,540000000000000,1\nmark,54")),
        ("goes-back", "a place that goes back", (",2\nmark", ",3\nmark"), ("mark,54", "mark,540000000000001,0\nmark,54")),
        ("rises", "an energy that rises, with room for it", (",2\nmark", ",3\nmark"), ("431994600000000", "390000000000000"),
         ("mark,432000000000000", "mark,400000000000000"), ("mark,54", "mark,410000000000000,583200000000000000000000001\nmark,54")),
        ("one-mark", "one mark for a train that stands", ("1080000", "0"), (",2\nmark,432000000000000,583200000000000000000000000", ",1")),
        ("one-mark-of-a-moving-train", "and for one that moves", (",2\nmark,432000000000000,583200000000000000000000000", ",1")),
        ("no-claims", "a map alone", (ONE[ONE.index("claim"):], "")),
        ("two-claims", "a claim that holds, one that doesn't, one that does",
         (ONE[ONE.index("claim"):], 3 * ONE[ONE.index("claim"):]), ("claim,0", "claim,00"), ("claim,0,", "claim,3,"), ("583200000000000000000000000\nmark,540000000000000,0\nclaim,0,", "583200000000000000000000000\nmark,540000000000000,0\nclaim,1,"),
         ("claim,1,431994600000000,1080000", "claim,1,431994600000000,1080001")),
    ]:
        yield name, shows, changed(ONE, *changes)


def of_reaction():
    """Claims with accelerations and times: V_bec and D_bec by both accelerations as they stand."""
    for name, shows, A1, A2, T_traction, T_berem in [
        ("both-accelerations", "1 m/s² for 3 s, and then 0.4 m/s² for 2 s", 100, 40, 30, 20),
        ("second-acceleration-alone", "0 and then 0.4 m/s² for 2 s", 0, 40, 30, 20),
        ("second-above-the-first", "0.1 and then 0.4 m/s²", 10, 40, 30, 20),
    ]:
        V1 = 1_080_000 + 54 * A1 * T_traction
        V_bec = V1 + 54 * A2 * T_berem
        D_bec = 10**6 * ((1_080_000 + 27 * A1 * T_traction) * T_traction + (V1 + 27 * A2 * T_berem) * T_berem)
        energy = 5 * 10**14 * V_bec**2
        place = 540_000_000_000_000 - -(-energy // (27 * 200_000_000_000))
        claim = f"claim,0,{place - D_bec},1080000,{A1},{A2},{T_traction},{T_berem},540000000000000,2"
        certificate = changed(ONE, (ONE.splitlines()[2], claim), (ONE.splitlines()[3], f"mark,{place},{energy}"))
        yield name, shows, certificate
        yield f"{name}-less-energy", "the same with one less energy than V_bec asks for", changed(certificate, (str(energy), str(energy - 1)))
        yield f"{name}-front-later", "and with a front end that is a grain farther", changed(certificate, (f",{place - D_bec},", f",{place - D_bec + 1},"))


def of_bands():
    """A certificate of two bands with its knot, changed."""
    knot, border, four = "mark,501428571428571,145800000000000000000000000\n", "145800000000000000000000000", (",3\n", ",4\n")
    first, far, of_800_m = "mark,411428571428571", (",405000000000000,", ",100000000000000,"), ("seg,60000", "seg,80000")
    twice = (four, far, (first, "mark,108000000000000"), (knot, changed(knot, ("501428571428571", "318600000000000")) + knot))
    for name, shows, *changes in [
        ("knot", "two bands, with a knot at the border"),
        ("no-knot", "a step over the border of two bands", (",3\n", ",2\n"), (knot, "")),
        ("no-knot-with-room", "the same where the way takes more than enough in either band", (",3\n", ",2\n"), (knot, ""),
         far, (first, "mark,330000000000000")),
        ("knot-below-the-border", "a knot whose energy is one below the border's", (border, "145799999999999999999999999")),
        ("knot-above-the-border", "and one above it", (border, "145800000000000000000000001")),
        ("border-twice", "two marks of the border's energy, with one slope between them in the lower band alone", *twice),
        ("border-twice-above", "and in the upper band alone", *twice, ("seg,60000,140000000000,180000000000", "seg,60000,150000000000,220000000000")),
        ("border-twice-in-none", "and in neither", *twice, ("seg,60000,140000000000,180000000000", "seg,60000,150000000000,180000000000")),
        ("change-in-the-other-band", "slopes that change in the upper band alone, below it", ("seg,60000", "seg,93000")),
        ("change-in-the-band", "slopes that change on the way", of_800_m),
        ("change-at-the-first-mark", "slopes that change at the first mark", ("seg,60000", "seg,76000"), (first, "mark,410400000000000")),
        ("change-past-the-first-mark", "a grain past it", ("seg,60000", "seg,76000"), (first, "mark,410399999999999")),
        ("change-with-a-mark", "slopes that change at a mark", four, of_800_m, (first, "mark,410000000000000"),
         (knot, "mark,432000000000000,480000000000000000000000000\n" + knot)),
        ("change-before-a-mark", "a grain before a mark", four, of_800_m, (first, "mark,410000000000000"),
         (knot, "mark,432000000000001,480000000000000000000000000\n" + knot)),
        ("goes-back-over-a-change", "a place that goes back over a change of slopes in the other band, with the same energy", four, far,
         ("seg,60000,140000000000,180000000000", "seg,60000,150000000000,220000000000"), (first, "mark,330000000000000"),
         (knot, "mark,320000000000000,583200000000000000000000000\n" + knot)),
        ("equal-segments", "a segment whose slopes are those of the one before", ("2,2\n", "2,3\n"),
         ("claim", "seg,85000,140000000000,180000000000\nclaim")),
        ("before-cell-0", "a way that begins before cell 0", (",405000000000000,", ",-50000000000000,"),
         (first, "mark,-40000000000000"), ("180000000000\nclaim", "220000000000\nclaim")),
    ]:
        yield name, shows, changed(KNOT, *changes)
    nine = [f"map,100,{{}},1\nuppers,{','.join(str(15_000 * (500 + i)) for i in range(1, n))}\nseg,0" for n in (8, 9)]
    for name, shows, head, count, fold in [
        ("sixteenfold-of-eight-bands", "eight bands, one of them sixteenfold", nine[0], 8, 16),
        ("eightfold-of-nine-bands", "nine bands, one of them eightfold", nine[1], 9, 8),
        ("ninefold-of-nine-bands", "and one of them ninefold", nine[1], 9, 9),
    ]:
        slopes = [200_000_000_000] * count
        more = slopes[:-1] + [fold * 200_000_000_000]
        lines = f"{head.format(count).replace(',1' + chr(10), ',2' + chr(10), 1)}," + ",".join(map(str, slopes)) + "\nseg,9000000," + ",".join(map(str, more))
        yield name, shows, lines + "\n" + ONE[ONE.index("claim"):]


def forms():
    """Lines that aren't of the form due, each the first; and what is just of it."""
    claim, mark = ONE.splitlines()[2], ONE.splitlines()[3]
    for name, shows, *changes in [
        ("missing-mark", "the last line is missing", ("mark,540000000000000,0\n", "")),
        ("missing-seg", "a line of the map is missing at the end", (ONE[ONE.index("seg"):], "")),
        ("too-few-segs", "a claim where a line of the map is due", ("1,1\n", "1,2\n")),
        ("another-mark", "a mark more than the claim counts", ("mark,54", "mark,540000000000000,0\nmark,54")),
        ("no-line-end", "the last line end is missing", ("mark,540000000000000,0\n", "mark,540000000000000,0")),
        ("empty-line", "a second line end at the end", ("mark,540000000000000,0\n", "mark,540000000000000,0\n\n")),
        ("empty-line-within", "an empty line after the map", ("claim", "\nclaim")),
        ("cr", "a carriage return before a line end", ("map,100,1,1\n", "map,100,1,1\r\n")),
        ("space", "a space after a comma", ("map,100", "map, 100")),
        ("word-in-capitals", "a word in capitals", ("seg", "SEG")),
        ("byte-order-mark", "a byte order mark", ("map", "\ufeffmap")),
        ("quotes", "a field in quotes", ("map,100", 'map,"100"')),
        ("field-too-many", "a comma at the end of a line", (claim, claim + ",")),
        ("field-too-few", "a field too few", (claim, claim[:-2])),
        ("plus", "a plus sign", ("claim,0", "claim,+0")),
        ("leading-zeros", "leading zeros, and -0", ("map,100", "map,000000000000000100"), ("claim,0", "claim,-0"), (",0\n", ",0000\n")),
        ("nineteen-digits", "a number of 19 digits", ("map,100", "map,0000000000000000100")),
        ("q-below", "a q of 99", ("map,100", "map,99")), ("q-above", "a q of 11,731", ("map,100", "map,11731")),
        ("no-bands", "no bands", ("100,1,1", "100,0,1")), ("eleven-bands", "eleven bands", ("100,1,1", "100,11,1")),
        ("no-segments", "no segments", ("100,1,1", "100,1,0")), ("segments-above", "2,001 segments", ("100,1,1", "100,1,2001")),
        ("first-start", "a first segment that doesn't begin at 0", ("seg,0", "seg,1")),
        ("start-above", "a start past 10,200,000", ("1,1\n", "1,2\n"), ("claim", "seg,10200001,200000000000\nclaim")),
        ("starts-equal", "starts that don't rise", ("1,1\n", "1,3\n"), ("claim", "seg,5,200000000000\nseg,5,200000000000\nclaim")),
        ("slope-above", "a slope above 10^15", ("seg,0,200000000000", "seg,0,1000000000000001")),
        ("slope-below", "a slope below -10^15", ("seg,0,200000000000", "seg,0,-1000000000000001")),
        ("slopes-too-many", "two slopes for one band", ("seg,0,200000000000", "seg,0,200000000000,200000000000")),
        ("time-above", "a time above its range", ("claim,0", "claim,100000001")),
        ("front-above", "a front end above its range", ("431994600000000", "60000000000000001")),
        ("front-below", "a front end below its range", ("431994600000000", "-60000000000000001")),
        ("speed-above", "a speed above its range", ("1080000", "8100001")), ("speed-below", "a speed below 0", ("1080000", "-1")),
        ("a1-above", "an acceleration of 301 cm/s²", ("1080000,0,0,0,0", "1080000,301,0,0,0")),
        ("a2-above", "a second acceleration of 41 cm/s²", ("1080000,0,0,0,0", "1080000,0,41,0,0")),
        ("tt-above", "a time of 301 ds", ("1080000,0,0,0,0", "1080000,0,0,301,0")),
        ("tb-above", "the other of 301 ds", ("1080000,0,0,0,0", "1080000,0,0,0,301")),
        ("svl-above", "an SvL past 100 km", ("540000000000000,2", "54000000000000001,2")),
        ("svl-below", "an SvL before 0", ("540000000000000,2", "-1,2")),
        ("no-marks", "a claim of no marks", (",2\n", ",0\n")), ("marks-above", "a claim of 4,001 marks", (",2\n", ",4001\n")),
        ("ends", "numbers at the ends of their ranges", (claim, "claim,100000000,60000000000000000,8100000,300,40,300,300,54000000000000000,2"),
         ("mark,54", "mark,999999999999999999,100000000000000000000000000000000\nclaim,0,-60000000000000000,0,0,0,0,0,0,1\nmark,-999999999999999999,0\nclaim,0,0,0,0,0,0,0,0,1\nmark,54")),
        ("energy-above", "an energy above 10^32", ("583200000000000000000000000", "100000000000000000000000000000001")),
        ("energy-of-38-digits", "an energy of 38 digits, with leading zeros", ("583200000000000000000000000", "0" * 11 + "583200000000000000000000000")),
        ("energy-of-39-digits", "and one of 39", ("583200000000000000000000000", "0" * 12 + "583200000000000000000000000")),
        ("energy-below", "an energy of -0", ("mark,540000000000000,0", "mark,540000000000000,-0")),
        ("energy-empty", "no energy", ("mark,540000000000000,0", "mark,540000000000000,")),
        ("place-of-19-digits", "a place of 19 digits", (mark, mark.replace("mark,", "mark,0000"))),
        ("second-claim", "a line that isn't of the form due in the second claim", ("mark,540000000000000,0\n", "mark,540000000000000,0\nclaim,1,0,0\n")),
        ("second-claim-is-missing-marks", "a line that is wanting in the second claim", ("mark,540000000000000,0\n", "mark,540000000000000,0\nclaim,1,0,0,0,0,0,0,0,2\nmark,0,0\n")),
    ]:
        yield name, shows, changed(ONE, *changes)
    yield "empty", "an input of no bytes", ""
    yield "one-line-end", "an empty line alone", "\n"
    for name, shows, old, new in [
        ("no-uppers", "no line of uppers for two bands", "uppers,540000\n", ""),
        ("uppers-of-one-band", "a line of uppers for one band", "map,100,2,2\n", "map,100,1,2\n"),
        ("uppers-as-many-as-bands", "as many uppers as bands", "uppers,540000", "uppers,540000,600000"),
        ("uppers-below", "an upper of 0", "uppers,540000", "uppers,0"),
        ("uppers-above", "an upper above 20,000,000", "uppers,540000", "uppers,20000001"),
        ("uppers-equal", "uppers that don't rise", "map,100,2,2\nuppers,540000", "map,100,3,2\nuppers,540000,540000"),
        ("slopes-too-few", "a slope too few", "seg,60000,140000000000,", "seg,60000,"),
    ]:
        yield name, shows, changed(KNOT, (old, new))


def checked():
    """Certificates that `certify` writes, whose claims all hold."""
    for name, _, count, made in [*certified(), *of_curves()]:
        if name in ("times", "ten-bands", "before-the-track", "slopes-of-another-band", "version-2"):
            data = made if isinstance(made, bytes) else made.input()
            yield f"certified-{name}", f"what `certify` writes of certify/{name}", collect(["certify", str(count)], data)[0]


def checks():
    for make in (of_one, of_reaction, of_bands, forms, checked):
        for name, shows, certificate in make():
            yield name, shows, ["check"], certificate.encode()
