"""What the examples of planning answer, beside plain search and sums along the longest chains."""

import re
from collections.abc import Iterator
from datetime import date
from functools import partial
from itertools import combinations, product

from examples import ran, repairs_told, replies, tables
from plainly import Names, Rule, Values, differing, fits, solutions

# --- a conference ---


def test_a_conference() -> None:
    """Its figures are sums of what the tasks take and cost, along the longest chain. The sponsors
    are asked behind budget and venue, from day 4 on, and again after the leave."""
    assert ran("planning/conference").seconds < 3
    said = re.sub(" +", " ", ran("planning/conference").printed)
    cost = 4000 + 2200 + 800 + 500 + 120
    chain = 2 + 2 + 3 + 14 + 8 + 2 + 3 + 3 + 3
    assert f"The least total cost is {cost}.\nThe least end is {chain}.\n" in said
    # (the fastest ways, all of them, and the cheapest; the slower review saves the least)
    always = 900 + 800 + 500 + 120
    assert [row[:2] for row in re.findall(r"^ (\d+) (\d+) (\w+) (\w+ each)$", said, re.M)] == [
        (str(chain - 3), str(4000 + 300 + always)),
        (str(chain), str(1500 + 300 + always)),
        (str(chain + 3), str(1500 + always)),
    ]
    assert "14 conflicts, no others:" in said and "6 repairs, no others:" in said
    assert " 1.5 cheap and very cheap\n" in said
    assert "very cheap total cost <= 4500\n a hotel venue cost >= 4000\n" in said
    assert "'papers takes 14'" in said and "'sponsors takes 6'" not in said
    assert " sponsors start 4 17 13\n" in said
    assert "5 plans, no others:" in said and "premise the web site is late" in said


# --- a week of shifts ---

DAYS = ("mon", "tue", "wed", "thu", "fri", "sat", "sun")
PEOPLE = ("ana", "ben", "cleo", "dan")
SHIFTS = [f"{day} {time}" for day in DAYS for time in ("early", "late")]
WISHES = {
    "Ana works early": ("ana", [f"{day} late" for day in DAYS]),
    "Ana has her weekend": ("ana", ["sat early", "sun early"]),
    "Ben works late": ("ben", [f"{day} early" for day in DAYS]),
    "Ben sees his mother": ("ben", ["sat late", "sun late"]),
    "Cleo has choir on Wednesday": ("cleo", ["wed early", "wed late"]),
    "Dan has school on Monday": ("dan", ["mon early", "mon late"]),
    "Dan is away on Sunday": ("dan", ["sun early", "sun late"]),
}


def week(some: Names) -> tuple[dict[str, list[str]], list[Rule]]:
    """Who may work when where these wishes hold, and what holds always."""
    denied = {(WISHES[wish][0], shift) for wish in some for shift in WISHES[wish][1]}
    rooms = {shift: [who for who in PEOPLE if (who, shift) not in denied] for shift in SHIFTS}
    # (a shift and the next are never one person's: on one day, or late and then early)
    rules = [rule for pair in zip(SHIFTS, SHIFTS[1:]) for rule in differing(pair)]
    for who in PEOPLE:
        rules.append(Rule(SHIFTS, partial(is_fair, who), partial(may_be_fair, who)))
    return rooms, rules


def is_fair(who: str, *people: str) -> bool:
    return 3 <= people.count(who) <= 4


def may_be_fair(who: str, people: list[str]) -> bool:
    return people.count(who) <= 4


def test_a_week() -> None:
    printed = ran("planning/week").printed
    weight = {"Dan is away on Sunday": 5, "Ana has her weekend": 2}
    repairs = repairs_told(
        printed, WISHES, lambda some: fits(*week(some)), lambda wish: weight.get(wish, 1)
    )
    left = frozenset(WISHES) - repairs[0]
    rooms, rules = week(left)
    said = re.findall(r"^(\w{3}): (\w+) early, (\w+) late$", printed, re.M)
    plan = {
        f"{day} {time}": who for day, *pair in said for time, who in zip(("early", "late"), pair)
    }
    assert all(plan[shift] in rooms[shift] for shift in SHIFTS)
    assert all(rule.allows(plan) for rule in rules)
    [[row]] = tables(printed, "cell", "values", "room")
    may = [who for who in rooms["mon late"] if fits({**rooms, "mon late": [who]}, rules)]
    assert row == {"cell": "mon late", "values": ", ".join(may), "room": str(len(may) - 1)}


# --- a timetable ---

HOURS = ("mon9", "mon11", "tue9", "tue11", "wed9")
LESSONS = {
    "maths A": "Ott",
    "maths B": "Ott",
    "physics A": "Kay",
    "physics B": "Kay",
    "Latin A": "Liu",
    "Latin B": "Liu",
    "history A": "Roy",
    "history B": "Roy",
    "art AB": "Roy",
}
PRESENT = {
    "Ott comes on Monday": HOURS[:2],
    "Kay leaves on Tuesday noon": HOURS[:3],
    "Liu leaves on Tuesday noon": HOURS[:3],
    "Roy sleeps long on Monday": HOURS[1:],
}
LABORATORY, ART = "physics has the laboratory", "art ends the week"


def allowed(lesson: str, place: tuple[str, str], some: Names) -> bool:
    """Whether a lesson may be at an hour in a room where these wishes hold."""
    hour, room = place
    for wish in some:
        if wish == LABORATORY and lesson.startswith("physics") and room != "laboratory":
            return False
        if wish == ART and lesson == "art AB" and hour != "wed9":
            return False
        if wish[:3] == LESSONS[lesson] and hour not in PRESENT[wish]:
            return False
    return True


def timetable(some: Names) -> tuple[dict[str, list[tuple[str, str]]], list[Rule]]:
    """Where lessons may be, each an hour and a room, and what holds always."""
    places = [*product(HOURS, ("laboratory", "hall"))]
    rooms = {
        lesson: [place for place in places if allowed(lesson, place, some)] for lesson in LESSONS
    }
    rules = differing(LESSONS)
    for one, other in combinations(LESSONS, 2):
        is_class = set(one.split()[1]) & set(other.split()[1])
        if is_class or LESSONS[one] == LESSONS[other]:
            rules.append(Rule((one, other), lambda x, y: x[0] != y[0]))
    return rooms, rules


def test_a_timetable() -> None:
    printed = ran("planning/timetable").printed
    wishes = [*PRESENT, LABORATORY, ART]
    weight = {"Ott comes on Monday": 3, "Liu leaves on Tuesday noon": 2}
    repairs = repairs_told(
        printed, wishes, lambda some: fits(*timetable(some)), lambda wish: weight.get(wish, 1)
    )
    rooms, rules = timetable(frozenset(wishes) - repairs[0])
    plan: Values = {}
    for hour, lessons in re.findall(r"^(\w+): (.*)$", printed, re.M):
        for lesson, room in re.findall(r"(\w+ \w+) \((\w+)\)", lessons):
            plan[lesson] = (hour, room)
    assert plan.keys() == LESSONS.keys()
    assert all(plan[lesson] in rooms[lesson] for lesson in LESSONS)
    assert all(rule.allows(plan) for rule in rules)


# --- a tournament ---

TEAMS = ("Ants", "Bees", "Cats", "Dogs", "Elks", "Foxes")
GAMES = {f"{one}-{other}": (one, other) for one, other in combinations(TEAMS, 2)}
ASKED = {
    "the derby is last": Rule(("Ants-Bees",), lambda x: x == 5),
    "the favourites meet last": Rule(("Cats-Dogs",), lambda x: x == 5),
    "television shows Elks-Foxes in round 4": Rule(("Elks-Foxes",), lambda x: x == 4),
    "Ants meet Cats before Dogs": Rule(("Ants-Cats", "Ants-Dogs"), lambda x, y: x < y),
}


def rounds(some: Names) -> Iterator[Values]:
    """In which rounds the games may be where these wishes hold."""
    rules = [ASKED[wish] for wish in some]
    for team in TEAMS:
        rules += differing(game for game in GAMES if team in GAMES[game])
    return solutions({game: range(1, 6) for game in GAMES}, rules)


def hosts(played: Values) -> tuple[dict[str, list[str]], list[Rule]]:
    """In whose halls games may be that are in these rounds."""
    rooms = {}
    for game, teams in GAMES.items():
        rooms[game] = [
            team
            for team in teams
            if not (team == "Foxes" and played[game] <= 2)
            and not ("Bees" in teams and played[game] == 1 and team != "Bees")
        ]
    rules = [
        Rule(
            [game for game in GAMES if team in GAMES[game]],
            lambda *all, team=team: 2 <= all.count(team) <= 3,
        )
        for team in TEAMS
    ]
    return rooms, rules


def test_a_tournament() -> None:
    printed = ran("planning/tournament").printed
    repairs_told(
        printed,
        ASKED,
        lambda some: next(rounds(some), None) is not None,
        lambda wish: 3 if "derby" in wish else 1,
    )
    left = [
        each
        for each in rounds(frozenset(ASKED) - {"the favourites meet last"})
        if fits(*hosts(each))
    ]
    assert f"\n{len(left)} plans, no others:\n" in printed
    played: Values = {}
    at: Values = {}
    for number, games in re.findall(r"^(\d): (.*)$", printed, re.M):
        for game, host in re.findall(r"(\w+-\w+) at the (\w+)'", games):
            played[game], at[game] = int(number), host
    assert played in left
    rooms, rules = hosts(played)
    assert all(at[game] in rooms[game] for game in GAMES) and all(each.allows(at) for each in rules)


# --- a release ---

WAYS = {  # days and cost: of our own, and what is bought
    "engine": [(9, 0), (3, 1800)],
    "tests": [(6, 0), (2, 1200)],
    "translation": [(4, 0), (1, 700)],
}
AUDIT = 2000


def first_end(engine: int, tests: int, translation: int) -> int:
    """The day by which all can be done where these take so long. Of all orders only that of what
    Cleo does is open; the others do one thing after another by what depends on what."""
    design, found = 3, []
    screens = design + 6
    begun = design + engine
    for is_tests_first in (True, False):
        tests_from, words_from = max(begun, screens), screens
        if is_tests_first:
            words_from = max(words_from, tests_from + tests)
        else:
            tests_from = max(tests_from, words_from + translation)
        mended = max(tests_from + tests, begun + 4) + 3
        found.append(max(mended, screens + 4, words_from + translation) + 1)
    return min(found)


def ways() -> Iterator[tuple[int, int, tuple[int, ...]]]:
    """For each way to go when it is out at the earliest, what it costs, and how long things
    take."""
    for taken in product(*WAYS.values()):
        days = tuple(day for day, _ in taken)
        yield first_end(*days), AUDIT + sum(cost for _, cost in taken), days


def test_a_release() -> None:
    """Days are those of work from the second of March on, a Monday; on the 24th begins day 16."""
    printed = ran("planning/release").printed
    rows = re.findall(r"^(\d+)  +(\S+)  +(\d+)  +(\d+)  +(\d+)$", printed, re.M)
    assert [int(money) for money, *_ in rows] == [2000, 2700, 3200, 3800, 5000]
    for money, out, *days in rows:
        least = min(end for end, cost, _ in ways() if cost <= int(money))
        assert date.fromisoformat(out) == date.fromordinal(
            date(2026, 3, 2).toordinal() + least // 5 * 7 + least % 5
        )
        taken = tuple(map(int, days))
        assert any(
            end == least and cost <= int(money) for end, cost, each in ways() if each == taken
        )
    wishes = ("before the fair", "the budget", "no foreign engine")

    def fit(some: Names) -> bool:
        return any(
            (wishes[0] not in some or end <= 16)
            and (wishes[1] not in some or cost <= 3500)
            and (wishes[2] not in some or days[0] == 9)
            for end, cost, days in ways()
        )

    repairs_told(printed, wishes, fit, lambda wish: 2 if wish == wishes[1] else 1)
    least = min(end for end, cost, days in ways() if cost <= 3500 and days[0] == 9)
    assert least == 20 and "\n2026-03-30 ('design takes 3', 'engine after design'," in printed
    # (the chain of the critical path is as long as that: design, engine, audit, mending, release)
    assert 3 + 9 + 4 + 3 + 1 == least
    [[row]] = tables(printed, "cell", "least", "greatest", "room")
    # (the guide takes four days behind the screens, and is there when the release begins)
    assert row == {"cell": "guide start", "least": "9", "greatest": str(19 - 4), "room": "6"}


# --- as sessions ---


def test_talks() -> None:
    """The first list of slots that fits, where Ana's is changed last and Cleo's first."""
    slots = ["nine", "ten", "eleven"]
    who = ("ana", "ben", "cleo")

    def first(**known: list[str]) -> list[str] | None:
        rooms = {name: known.get(name, slots) for name in who}
        found = [each for each in product(slots, repeat=3) if len({*each}) == 3]
        fit = [each for each in found if all(slot in rooms[it] for slot, it in zip(each, who))]
        return [*fit[0]] if fit else None

    said = replies("planning/talks")
    nursery, lunch, bus, train = slots[:2], slots[:1], slots[:2], slots[1:]

    def listed(found: list[str] | None) -> str:
        assert found
        return " ".join(f"{name}={slots.index(slot) + 1}" for name, slot in zip(who, found))

    shown = [" ".join(re.findall(r"(?:ana|ben|cleo)=\d", each)) for each in said["worldview"]]
    assert shown == [
        listed(first()),
        listed(first(ben=lunch, ana=bus)),
        listed(first(cleo=nursery, ana=bus)),
        listed(first(cleo=nursery, ana=[slots[1]])),
    ]
    assert first(cleo=nursery, ben=lunch, ana=bus) is None
    assert said["settle"][0].startswith("contradiction: ")
    both = first(cleo=nursery, ben=lunch)
    assert both and said["ask ana"] == [f"ana = {both[0]}"]
    assert said["ask cleo"][-1] == f"cleo = {both[2]}" and train


def test_shifts_and_guests() -> None:
    works = {("ana", "early"), ("ana", "late"), ("ben", "late"), ("ben", "night")}
    works |= {("cleo", "early"), ("cleo", "night")}
    after = {("early", "late"), ("early", "night"), ("late", "night")}
    said = replies("planning/shifts")
    opens = {shift for who, shift in works if who == "ben"} & {shift for shift, _ in after}
    closes = {late for early, late in after if early in opens}
    assert said["ask opens"] == [f"opens = {opens.pop()}"]
    assert said["ask closes"] == [f"closes = {closes.pop()}"]
    guests = replies("planning/counting")
    assert guests["ask ana_comes"] == ["ana_comes = yes"] and guests["ask guests"] == [
        "guests = 0..1"
    ]
