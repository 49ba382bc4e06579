"""What the examples of measuring answer, beside exact intervals that are worked out by hand."""

import re
from fractions import Fraction
from itertools import product
from math import ceil, cos, floor, radians, sin, sqrt

from examples import EXAMPLES, ran, replies, tables
from normal_equations import normal, solved
from test_measured import Ends, around, ends, parallel

SHOWN = re.compile(r"^(.+?)(?: = |  ) *(-?[\d.]+)\.\.(-?[\d.]+) (\S+)", re.M)


def shown(name: str) -> tuple[str, dict[str, list[Ends]]]:
    """What an example prints, and the intervals in it by what they are of."""
    printed = ran(f"measuring/{name}").printed
    found: dict[str, list[Ends]] = {}
    for of, low, high, _ in SHOWN.findall(printed):
        found.setdefault(of.strip(), []).append(ends(low, high))
    return printed, found


def source(name: str) -> str:
    """An example as it is written."""
    return (EXAMPLES / "measuring" / f"{name}.py").read_text(encoding="utf-8")


def is_shown(found: Ends, wanted: Ends, digit: str) -> bool:
    """Whether an interval is shown that holds one, and is wider by a digit at each end at most."""
    below, above = wanted[0] - found[0], found[1] - wanted[1]
    return 0 <= below <= Fraction(digit) and 0 <= above <= Fraction(digit)


def test_two_resistors() -> None:
    text, found = shown("resistors")
    ways = [line.split("  ")[1:3] for line in text.split("\n") if re.match(r" +\d ", line)]
    assert ways[0][0] == "1" and text.count("  meter on R2  ") == 1
    singles = [line for line in text.split("\n") if line.startswith("  1 ")]
    assert len(singles) == 1 and "meter on R2" in singles[0] and "17.7 ohm" in singles[0]
    assert re.search(r"\n  2 .*\n   +\S", text), "other ways give up more than one"
    # (each is read by itself most narrowly; no sum and no parallel tells more of the two)
    one, other = ends("465.6", "470.4"), (Fraction("331.2") - Fraction("1.2"), Fraction("332.4"))
    series = ends("797.5", "800.5")
    assert one[0] + other[0] < series[0] and series[1] < one[1] + other[1]
    assert is_shown(found["R1"][0], one, "0") and is_shown(found["R2"][0], other, "0")
    assert is_shown(found["series"][0], series, "0")
    both = parallel(one[0], other[0]), parallel(one[1], other[1])
    assert is_shown(found["parallel"][0], both, "0.1")


def test_a_point() -> None:
    """Each two distances along an edge tell a coordinate: (a^2 - b^2) / 2e + e / 2."""
    text, found = shown("point")
    tapes = {"A": "29.284", "B": "40.167", "C": "40.483", "D": "48.899"}
    far = {post: around(tape, "0.05") for post, tape in tapes.items()}

    def along(near: str, other: str, edge: int) -> Ends:
        low = (far[near][0] ** 2 - far[other][1] ** 2) / (2 * edge) + Fraction(edge, 2)
        high = (far[near][1] ** 2 - far[other][0] ** 2) / (2 * edge) + Fraction(edge, 2)
        return low, high

    for name, pairs, edge in (("x", ("AB", "CD"), 60), ("y", ("AC", "BD"), 50)):
        each = [along(pair[0], pair[1], edge) for pair in pairs]
        wanted = max(low for low, _ in each), min(high for _, high in each)
        low, high = found[name][0]
        assert low >= wanted[0] - Fraction("0.001")
        assert high <= wanted[1] + Fraction("0.001")
    assert text.count("because of tape A, tape B, tape C, tape D") == 2


def test_a_density() -> None:
    text, found = shown("density")
    mass, volume = around("100", "0.005"), around("7", "0.1")
    water, hung = ends("0.9982", "0.9984"), around("93", "0.1")
    by_volume = mass[0] / volume[1], mass[1] / volume[0]
    # (water times 1 / (1 - hung / mass), which has each once)
    lost = [1 - hung[1] / mass[0], 1 - hung[0] / mass[1]]
    by_water = water[0] / lost[1], water[1] / lost[0]
    wanted = max(by_volume[0], by_water[0]), min(by_volume[1], by_water[1])
    assert all(is_shown(each, wanted, "0.001") for each in found["density"])
    assert "has to show 6.8..7.2 cm3" in text


def test_a_barometer() -> None:
    _, found = shown("barometer")
    long, its, shadow = ends("0.300", "0.320"), ends("0.360", "0.370"), around("55", "0.1")
    by_shadow = long[0] * shadow[0] / its[1], long[1] * shadow[1] / its[0]
    gravity, time = ends("9.789", "9.832"), around("3", "0.1")
    by_fall = gravity[1] * time[1] ** 2 / 2
    assert is_shown(found["height"][0], by_shadow, "0.01")
    assert is_shown(found["height"][1], (by_shadow[0], by_fall), "0.01")
    assert is_shown(found["barometer"][0], (long[0], by_fall * its[1] / shadow[0]), "0.001")
    least = found["time"][0][0]
    assert gravity[1] * (least + Fraction("0.001")) ** 2 / 2 > by_shadow[0]
    assert gravity[1] * least**2 / 2 <= by_shadow[0]


def test_a_calibration_line() -> None:
    """Slope, offset and a reading on the line by two variables: at the corners of what fits."""
    _, found = shown("calibration")
    read = dict(zip(range(0, 101, 20), ("0.012", "0.803", "1.611", "2.409", "3.222", "4.014")))
    bands = [(x, *around(volts, "0.01")) for x, volts in read.items()]
    lines = [(low, x) for x, low, _ in bands] + [(high, x) for x, _, high in bands]
    corners = []
    for (one, left), (other, right) in product(lines, lines):
        if left < right:
            slope = (other - one) / (right - left)
            offset = one - slope * left
            if all(low <= offset + slope * x <= high for x, low, high in bands):
                corners.append((slope, offset))
    slopes, offsets = [slope for slope, _ in corners], [offset for _, offset in corners]
    assert is_shown(found["slope"][0], (min(slopes), max(slopes)), "0.00001")
    assert is_shown(found["offset"][0], (min(offsets), max(offsets)), "0.0001")
    signal = around("2", "0.01")
    unknowns = [(end - offset) / slope for slope, offset in corners for end in signal]
    wanted = min(unknowns), max(unknowns)
    table, shaved = found["unknown"]
    assert table[0] <= shaved[0] <= wanted[0] and wanted[1] <= shaved[1] <= table[1]
    assert shaved[1] - shaved[0] <= Fraction("1.15") * (wanted[1] - wanted[0])


def test_a_mean() -> None:
    _, found = shown("mean")
    assert is_shown(found["mean"][0], ends("3031/3", "3031/3"), "0.0002")


# --- a recipe, a household, a traverse ---


def times(one: Ends, other: Ends) -> Ends:
    """The product of what isn't below zero."""
    return one[0] * other[0], one[1] * other[1]


def test_a_recipe() -> None:
    """Forward each answer has each quantity once, so it is what intervals give."""
    printed, found = shown("recipe")
    moist, loss, bag = ends("0.65", "0.70"), ends("0.10", "0.14"), around("1000", "5")
    left = 1 - loss[1], 1 - loss[0]
    of_flour = 1 + moist[0] + Fraction("0.02"), 1 + moist[1] + Fraction("0.02")
    bread = times(times(bag, of_flour), left)
    assert is_shown(found["bread"][0], bread, "0.1")
    assert is_shown(found["water"][0], times(bag, moist), "0.1")
    assert is_shown(found["salt"][0], times(bag, ends("0.02", "0.02")), "0.01")
    order = ends(2250, 2400)
    assert bread[1] < order[0]
    assert [row["give up"] for row in tables(printed, *OUTLIERS)[0]] == ["bag", "order"]
    flour = order[0] / left[1] / of_flour[1], order[1] / left[0] / of_flour[0]
    # (several laws in a row tell a little less than one; shaved it is nearly that)
    assert all(is_shown(each, flour, digit) for each, digit in zip(found["flour"], ("3", "1")))
    dough = order[0] / left[1], order[1] / left[0]
    shares = [share / (share + Fraction("1.02")) for share in moist]
    assert is_shown(found["water"][1], (dough[0] * shares[0], dough[1] * shares[1]), "50")
    assert is_shown(found["salt"][1], times(flour, ends("0.02", "0.02")), "0.1")


OUTLIERS = ("way", "give up", "says", "others leave", "off by at least")


def test_a_household() -> None:
    printed, found = shown("household")
    meter = Fraction("4130.7") - Fraction("4123.4")
    day = meter - Fraction("0.1"), meter + Fraction("0.1")
    assert is_shown(found["day"][0], day, "0.01")
    power = {"oven": ends(1900, 2100), "kettle": ends(1800, 2200), "washing": ends(800, 1000)}
    hours = {"oven": around("1.5", "1/12"), "kettle": around("1/3", "1/30")}
    hours["washing"] = around("2", "0.1")
    used = [times(power[name], hours[name]) for name in power]
    rest = [1000 * end for end in day]
    low = rest[0] - sum(high for _, high in used)
    high = rest[1] - sum(low for low, _ in used)
    # (24 h is read to half an hour, and a day has no more)
    clock = Fraction("23.5"), Fraction(24)
    fridge = low / clock[1], high / clock[0]
    assert is_shown(found["fridge, power"][0], fridge, "1")
    assert fridge[0] > 30, "the label's 25 +- 5 W is less than the meter leaves"
    rows = tables(printed, *OUTLIERS)[0]
    singles = {row["give up"] for row in rows}
    assert len(rows) == 9 == len(singles) and "fridge's label" in singles
    mains = Fraction(230) * Fraction("0.95"), Fraction(230) * Fraction("1.05")
    for one, other in (("oven", "kettle"), ("oven", "washing"), ("kettle", "washing")):
        both = [x + y for x, y in zip(power[one], power[other])]
        current = both[0] / mains[1], both[1] / mains[0]
        assert is_shown(found[f"{one} and {other}"][0], current, "0.01")


def test_a_traverse() -> None:
    """The points that the legs were drawn from lie in the answers; one slip of a tape is found, and
    one of a compass that would explain as much."""
    points = {"A": (0, 0), "B": (42, 47), "C": (96, 61), "D": (118, 8), "E": (51, -22)}
    printed, found = shown("traverse")
    first, *later = tables(printed, *OUTLIERS)
    assert [row["give up"] for row in first] == ["compass DE", "tape CD"] and not later
    assert "No reading has to be given up" in printed
    for corner in "CD":
        for place, way in enumerate(("east", "north")):
            low, high = found[f"{corner} {way}"][0]
            assert low <= points[corner][place] <= high and high - low < Fraction("0.4")
    told = re.search(r"has to show (\S+)\.\.(\S+) m", printed)
    assert told
    length = (22**2 + 53**2) ** 0.5
    assert float(told[1]) < length < float(told[2])
    assert not float(told[1]) < 54.70 < float(told[2])
    # (to C one comes by two legs from A: the interval of their sum, and a little for rounding)
    legs = (("41.8", "63.05"), ("75.5", "55.80"))
    for way, share in (("east", sin), ("north", cos)):
        least = most = 0.0
        for degrees, metres in legs:
            middle, off = share(radians(float(degrees))), radians(0.05) + 2e-6
            least += (float(metres) - 0.05) * (middle - off)
            most += (float(metres) + 0.05) * (middle + off)
        answer = found[f"C {way}"][0]
        assert least - 0.02 <= answer[0] and answer[1] <= most + 0.02


def test_a_net_of_levels() -> None:
    """The bounds are those of the shortest ways from the mark, and the estimates those of the
    normal equations, both in exact fractions; the line that was misread is the first way to give
    up."""
    printed, found = shown("levels")
    lines = {
        (begin, end): Fraction(rises)
        for begin, end, rises in re.findall(r'"(\w)(\w)": "(.+)",', source("levels"))
    }
    off, names = Fraction(3, 1000), "BCDE"
    most = {name: Fraction(0 if name == "A" else 10**6) for name in "ABCDE"}
    least = dict(most)
    for _ in "ABCDE":
        for (begin, end), rises in lines.items():
            for one, other, way in ((begin, end, rises), (end, begin, -rises)):
                most[other] = min(most[other], most[one] + way + off)
                least[other] = min(least[other], least[one] - way + off)
    rows = [(begin, end, f"{float(rises):.3f}", "1") for (begin, end), rises in lines.items()]
    squares, right = normal(rows)
    units = [[Fraction(int(each == name)) for each in names] for name in names]
    spread = {name: dict(zip(names, solved(squares, unit))) for name, unit in zip(names, units)}
    for name, height in zip(names, solved(squares, right)):
        told = rf"^  {name} +(\S+) +(\S+) +(\S+) +m +(\S+)\.\.(\S+) m +(\S+ .+)$"
        row = re.search(told, printed, re.M)
        assert row and abs(Fraction(row[1]) - 100 - height) <= Fraction(1, 20000)
        u = sqrt(spread[name][name] * off**2 / 3)
        for number, other in re.findall(r"(-?\d\.\d\d) ([B-E])(?:,|$)", row[6]):
            together = spread[name][other] / sqrt(spread[name][name] * spread[other][other])
            assert abs(float(number) - together) <= 0.005, (name, other)
        assert abs(float(row[2]) - u) <= 0.00005 and abs(float(row[3]) - 2 * u) < 0.0001
        wanted = 100 - least[name], 100 + most[name]
        assert is_shown(ends(row[4], row[5]), wanted, "0.0002")
    assert printed.count("suspect, the most in front: CD ") == 1
    assert re.search(r"^  1 +CD +C to D = 1.254 \+- 0.003 m ", printed, re.M)


# --- as sessions ---


def test_sessions_in_whole_numbers() -> None:
    """What the sessions answer holds each solution in whole numbers that a plain search finds."""
    said = replies("measuring/painting")
    lengths = range(500, 551)
    costs = [400 * length * 30 // 10_000 for length in lengths]
    assert said["ask cost"] == [f"cost = {min(costs)}..{max(costs)}"]
    fit = [length for length, cost in zip(lengths, costs) if cost <= 630]
    assert said["ask length"] == [f"length = {min(fit)}..{max(fit)}"]
    # (two boards are 66 together, and 67 with an error of 1)
    assert replies("measuring/rounding")["ask error"] == ["error = 1", "contradiction: ruler"]
    low, high = Fraction(300 * 54_900, 370), Fraction(320 * 55_100, 360)
    for name, asked in (("barometer", "ask height"), ("premises", "why height")):
        answer = replies(f"measuring/{name}")[asked][0]
        assert re.findall(r"\d+", answer) == [str(ceil(low)), str(floor(high))]
