"""Random models of lines, small enough to go through all their points."""

from hypothesis import strategies as st

PREMISES = "abcdef"


@st.composite
def model_lines(draw: st.DrawFn, conflicting: bool = False) -> list[str]:
    """The lines of a model: a few cells of each kind, what holds between them, and premises."""
    numbers = [f"n{i}" for i in range(draw(st.integers(1, 3)))]
    truths = [f"t{i}" for i in range(draw(st.integers(0, 2)))]
    days = [f"d{i}" for i in range(draw(st.integers(0, 2)))]
    lines = ["domain day mon tue wed", "relation before day day = mon tue ; mon wed ; tue wed"]
    lines += [f"cell {name} span" for name in numbers]
    lines += [f"cell {name} truth" for name in truths] + [f"cell {name} day" for name in days]
    for name in numbers:
        low = draw(st.integers(-3, 3))
        lines.append(f"fix {name} {low}..{low + draw(st.sampled_from([2, 5, 9, 11]))}")
    for _ in range(draw(st.integers(0, 4))):
        lines.append(draw(_attached(numbers, truths, days)))
    for number in range(draw(st.integers(0, 2))):
        lines.append(f"choose c{number} {draw(_chosen(numbers, days))}")
    names = PREMISES[: draw(st.integers(2 if conflicting else 0, len(PREMISES)))]
    for name in names:
        for _ in range(draw(st.integers(1, 2))):
            lines.append(f"tell {name} {draw(_stated(numbers, truths, days))}")
    lines += [f"kick {name}" for name in names if draw(st.integers(0, 5)) == 0]
    return lines


def _attached(numbers: list[str], truths: list[str], days: list[str]) -> st.SearchStrategy[str]:
    """A line that attaches a procedure."""
    number = st.sampled_from(numbers)
    forms = ["sum n n n", "product n n n", "square n n", "same n n", "product n n n by 2"]
    if truths:
        forms += ["less n n t", "alike n n t", "switch t n n", "conditional t n n n"]
        forms += ["not t t", "and t t t", "or t t t"]
    if days:
        forms += ["link d d by before", "same d d"]
    kinds = {"n": number, "t": st.sampled_from(truths or [""]), "d": st.sampled_from(days or [""])}

    @st.composite
    def line(draw: st.DrawFn) -> str:
        words = draw(st.sampled_from(forms)).split()
        cells = [draw(kinds[word]) if word in kinds else word for word in words[1:]]
        return " ".join(["attach", words[0], *cells])

    return line()


@st.composite
def _chosen(draw: st.DrawFn, numbers: list[str], days: list[str]) -> str:
    """A cell and some values of it."""
    is_of_days = bool(days) and bool(draw(st.integers(0, 1)))
    if is_of_days:
        return f"{draw(st.sampled_from(days))} {{mon tue}} or wed"
    values = draw(st.lists(st.integers(-2, 6), min_size=2, max_size=4, unique=True))
    return f"{draw(st.sampled_from(numbers))} {' or '.join(map(str, values))}"


@st.composite
def _stated(draw: st.DrawFn, numbers: list[str], truths: list[str], days: list[str]) -> str:
    """A cell and what is told of it."""
    cell = draw(st.sampled_from(numbers + truths + days))
    if cell in numbers:
        low = draw(st.integers(-3, 8))
        return f"{cell} {low}..{low + draw(st.integers(0, 4))}"
    if cell in truths:
        return f"{cell} {draw(st.sampled_from(['yes', 'no']))}"
    return f"{cell} {draw(st.sampled_from(['mon', '{tue wed}', 'wed', '{mon wed}']))}"
