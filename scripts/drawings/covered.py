"""What a covered row promises, for ASSUMPTIONS: every motion within the bounds of the reading stays behind the SvL."""

from scripts.drawings.sheet import Point, Sheet

FIRST_M, LAST_M, TOP_M_S = 0, 560, 26
SVL_M, SAFE = 500, 0.8  # the SvL, and A_safe in m/s2


def at(place: float, speed: float) -> Point:
    """Where a place in metres and a speed in m/s are drawn."""
    return 40 + (place - FIRST_M) / (LAST_M - FIRST_M) * 590, 300 - speed / TOP_M_S * 240


def motion(place: float, speed: float, gain: float, time: float, brake: float) -> list[Point]:
    """A motion that gains for a time, in m/s2 and s, and then brakes to a stand."""
    points = []
    for tick in range(int(time * 10) + 1):
        s = tick / 10
        points.append(at(place + speed * s + gain * s * s / 2, speed + gain * s))
    place, speed = place + speed * time + gain * time * time / 2, speed + gain * time
    stop = speed / brake
    for tick in range(61):
        s = stop * tick / 60
        points.append(at(place + speed * s - brake * s * s / 2, speed - brake * s))
    return points


def draw() -> Sheet:
    """The picture."""
    sheet = Sheet(
        660,
        400,
        "Speed over place. From the box of where the train may be at a covered reading, motions that gain speed until"
        " their brake works and then brake with A_safe or more all stop at or before the SvL.",
    )
    sheet.line([at(0, 0), at(LAST_M, 0)])
    sheet.line([at(SVL_M, 0), at(SVL_M, 25)], "red", 2, dashed=True)
    sheet.text((at(SVL_M, 0)[0], 322), "SvL", anchor="middle", kind="strong")
    left, top = at(20, 21.5)
    right, bottom = at(88, 19)
    sheet.box((left, top), (right - left, bottom - top), "blue")
    sheet.text((left, top - 44), "at the reading the train is in here:", "blue", kind="small")
    sheet.text((left, top - 25), "up to max safe front end, V_est + V_delta0", "blue", kind="small")
    sheet.line(motion(88, 21.5, 0.3, 4, SAFE), "red", 3)
    sheet.line(motion(70, 20, 0.1, 4, 0.9), "green")
    sheet.line(motion(40, 19.5, -0.1, 3, 1.1), "green")
    sheet.text((at(330, 14)[0], at(330, 17)[1]), "gains all, then A_safe", "red", kind="small")
    sheet.text((at(40, 7)[0], at(40, 7)[1]), "other motions", "green", kind="small")
    sheet.lines(
        (40, 346),
        [
            "until the brake works (T_traction + T_berem)",
            "a motion may gain A_est1, then A_est2;",
            "from then on it brakes with at least A_safe",
        ],
        kind="small",
    )
    return sheet
