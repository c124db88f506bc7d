"""Draws the crates below their headings, with a line from each crate up to those that it uses directly, as an SVG.

Each crate is in a row below those that it uses. Lines that lead to one crate from farther than the next row share a lane. The order in the
rows is found by sweeps, down and up: each crate and lane goes to the mean place of those to which it is joined, and the order with the
fewest crossings is kept."""
from collections.abc import Mapping, Sequence
from typing import NamedTuple

from lib.crates import Listed

WIDTH = 900
MARGIN = 10
PITCH = 52  # from one row to the next, where few lines are between
FEW = 8  # lines
MORE = 4  # for each line more
HEAD = 34  # from a heading's top to its first row
BOX = 26  # height of a crate's box
LETTER = 8  # width of a letter
ROOM = 16  # beside the letters in a box
APART = 9  # on both sides of a box
LANE = 16  # width of a lane
SPARE = 0.5  # how much of what a row has left is put between its boxes and lanes
STRAIGHT = 12  # how much more than other lines a lane is kept straight
ORDERS = 24  # sweeps for the order in the rows
SWEEPS = 200  # sweeps for the places

# Colours of the headings' lines and boxes, on a light ground and on a dark one.
COLOURS = [("#1f5fa8", "#79b8ff"), ("#9a5b00", "#e3a64a"), ("#1a7340", "#56d389"), ("#7440a8", "#c49bf5"), ("#5a6470", "#a3adb8")]
STYLE = ("text{fill:#1c2128}.ground{fill:#fff}.band{fill:#f3f5f7}.box{fill:#fff;stroke-width:1.5}path{fill:none;stroke-width:1.5}"
         ".name{text-anchor:middle}.heading{font-weight:bold;stroke:#f3f5f7;stroke-width:5;paint-order:stroke}")
DARK = "text{fill:#e6edf3}.ground{fill:#0d1117}.band{fill:#1b212a}.box{fill:#0d1117}.heading{stroke:#1b212a}"


class Point(NamedTuple):
    """A crate in its row, or the lane that leads to it from lower rows."""
    crate: str
    row: int


class Graph(NamedTuple):
    """Which crates and lanes are in each row, and to which ones of the row above each is joined."""
    rows: Sequence[Sequence[Point]]
    above: Mapping[Point, Sequence[Point]]
    row_of: Mapping[str, int]

    def is_lane(self, point: Point) -> bool:
        """Whether a point is a lane."""
        return self.row_of[point.crate] != point.row

    def width(self, point: Point) -> float:
        """The width that a crate or a lane takes in its row."""
        return LANE if self.is_lane(point) else box_width(point.crate) + 2 * APART

    def below(self) -> dict[Point, list[Point]]:
        """To which points of the row below each point is joined."""
        found: dict[Point, list[Point]] = {point: [] for row in self.rows for point in row}
        for point, others in self.above.items():
            for other in others:
                found[other].append(point)
        return found


def label(crate: str) -> str:
    """A crate's name, without the beginning that most have."""
    return crate.removeprefix("tacho_")


def box_width(crate: str) -> float:
    """The width of a crate's box."""
    return round(LETTER * len(label(crate)) + ROOM, 1)


def rows_within(crates: Sequence[str], direct: Mapping[str, Sequence[str]]) -> dict[str, int]:
    """A row for each crate of a heading: below those of the heading that it uses, and as near as can be to those that use it."""
    row: dict[str, int] = {}
    for crate in crates:
        row[crate] = max((row[other] + 1 for other in direct[crate] if other in row), default=0)
    for crate in reversed(crates):
        users = [row[other] for other in crates if crate in direct[other]]
        row[crate] = min(users) - 1 if users else row[crate]
    return row


def graph_of(listed: Listed) -> tuple[Graph, list[int]]:
    """The graph of the crates, and the number of rows of each heading."""
    direct = {crate: listed.directly_below(crate) for crate in listed.uses}
    row_of: dict[str, int] = {}
    heights = []
    for crates in listed.headings.values():
        within = rows_within(crates, direct)
        row_of |= {crate: sum(heights) + row for crate, row in within.items()}
        heights.append(max(within.values()) + 1)
    above: dict[Point, list[Point]] = {}
    for crate, row in row_of.items():
        above[Point(crate, row)] = []
        users = [row_of[other] for other in row_of if crate in direct[other]]
        for lane in range(row + 1, max(users, default=0)):
            above[Point(crate, lane)] = [Point(crate, lane - 1)]
    for crate, row in row_of.items():
        above[Point(crate, row)] = [Point(other, row - 1) for other in direct[crate]]
    rows = [[point for point in above if point.row == row] for row in range(sum(heights))]
    return Graph(rows, above, row_of), heights


def crossings(rows: Sequence[Sequence[Point]], above: Mapping[Point, Sequence[Point]]) -> int:
    """How many pairs of lines cross."""
    count = 0
    for upper, lower in zip(rows, rows[1:]):
        ends = [[upper.index(other) for other in above[point]] for point in lower]
        count += sum(end > other for number, mine in enumerate(ends) for others in ends[number + 1:] for end in mine for other in others)
    return count


def exchange(rows: list[list[Point]], above: Mapping[Point, Sequence[Point]]) -> None:
    """Exchanges neighbours in a row as long as that leaves fewer crossings."""
    is_better = True
    while is_better:
        is_better = False
        for number, row in enumerate(rows):
            near = rows[max(number - 1, 0):number + 2]
            for place in range(len(row) - 1):
                count = crossings(near, above)
                row[place:place + 2] = reversed(row[place:place + 2])
                if crossings(near, above) < count:
                    is_better = True
                else:
                    row[place:place + 2] = reversed(row[place:place + 2])


def in_order(graph: Graph) -> Graph:
    """The graph with its rows in an order in which few lines cross."""
    joined = [graph.above, graph.below()]
    rows = [list(row) for row in graph.rows]
    best, least = [list(row) for row in rows], crossings(rows, graph.above)
    for sweep in range(ORDERS):
        numbers = range(1, len(rows)) if sweep % 2 == 0 else range(len(rows) - 2, -1, -1)
        for number in numbers:
            beside = rows[number - 1 if sweep % 2 == 0 else number + 1]
            places = {point: place / len(beside) for place, point in enumerate(beside)}
            own = {point: place / len(rows[number]) for place, point in enumerate(rows[number])}
            others = joined[sweep % 2]
            rows[number].sort(key=lambda point: mean([places[other] for other in others[point]], own[point]))
        better = [list(row) for row in rows]
        exchange(better, graph.above)
        if (count := crossings(better, graph.above)) < least:
            best, least = better, count
    return graph._replace(rows=best)


def mean(values: Sequence[float], default: float) -> float:
    """The mean of numbers, or the default if there are none."""
    return sum(values) / len(values) if values else default


def spread(wanted: Sequence[float], widths: Sequence[float], width: float) -> list[float]:
    """Places for the middles of things in a row that are as near to the wanted ones as can be, none over another: groups of things that
    would overlap go to their mean place."""
    room = SPARE * (width - sum(widths)) / len(widths)
    offsets = [0.0]
    for one, other in zip(widths, widths[1:]):
        offsets.append(offsets[-1] + (one + other) / 2 + room)
    groups: list[list[float]] = []  # of each group the places that its first thing would have
    for place, offset in zip(wanted, offsets):
        groups.append([place - offset])
        while len(groups) > 1 and mean(groups[-2], 0) > mean(groups[-1], 0):
            groups[-2:] = [groups[-2] + groups[-1]]
    least, most = widths[0] / 2, width - widths[-1] / 2 - offsets[-1]
    firsts = [min(max(mean(group, 0), least), most) for group in groups for _ in group]
    return [first + offset for first, offset in zip(firsts, offsets)]


def places_of(graph: Graph) -> dict[Point, float]:
    """The middle of each crate and lane."""
    width = WIDTH - 4 * MARGIN
    below = graph.below()
    joined = {point: [other for other in [*others, *below[point]] for _ in range(STRAIGHT if other.crate == point.crate else 1)]
              for point, others in graph.above.items()}
    places = {point: width * (place + 1) / (len(row) + 1) for row in graph.rows for place, point in enumerate(row)}
    for sweep in range(SWEEPS):
        for row in graph.rows if sweep % 2 == 0 else reversed(graph.rows):
            wanted = [mean([places[other] for other in joined[point]], places[point]) for point in row]
            places |= zip(row, spread(wanted, [graph.width(point) for point in row], width))
    # Mirrored, since that leaves the corners of the headings free.
    return {point: round(WIDTH - 2 * MARGIN - place, 1) for point, place in places.items()}


def middles_of(graph: Graph, heights: Sequence[int]) -> tuple[list[float], list[float]]:
    """The top of each heading, with the end of the last one, and the middle of each row. Rows with many lines between them are farther
    apart."""
    tops, middles = [float(MARGIN)], []
    for height in heights:
        y = tops[-1] + HEAD
        for number in range(height):
            lines = sum(len(graph.above[point]) for point in graph.rows[len(middles)])
            y += (PITCH if number else 0) + MORE * max(0, lines - FEW)
            middles.append(y + BOX / 2)
        tops.append(y + BOX + 3 * MARGIN)
    return tops, middles


def line(x: float, y: float, other_x: float, other_y: float) -> str:
    """A line from a point up to another one, upright at both ends."""
    half = (y + other_y) / 2
    return f"M{x:g} {y:g}C{x:g} {half:g} {other_x:g} {half:g} {other_x:g} {other_y:g}"


def box(crate: str, x: float, y: float, kind: int) -> str:
    """The box of a crate, with its name."""
    width = box_width(crate)
    return (f'<rect class="box k{kind}" x="{x - width / 2:g}" y="{y - BOX / 2:g}" width="{width:g}" height="{BOX}" rx="4"/>'
            f'<text class="name" x="{x:g}" y="{y + 5:g}">{label(crate)}</text>')


def told(listed: Listed) -> str:
    """What the picture shows, in words."""
    below = {crate: listed.directly_below(crate) for crate in listed.uses}
    return " ".join(f"{crate} uses {' and '.join(others) or 'no other crate'}." for crate, others in below.items())


def style() -> str:
    """The colours, on a light ground and on a dark one."""
    light, dark = ("".join(f".k{number}{{stroke:{colours[place]}}}" for number, colours in enumerate(COLOURS)) for place in (0, 1))
    return f"<style>{STYLE}{light}@media (prefers-color-scheme:dark){{{DARK}{dark}}}</style>"


def picture(listed: Listed) -> str:
    """The SVG."""
    graph, heights = graph_of(listed)
    graph = in_order(graph)
    places = places_of(graph)
    tops, middles = middles_of(graph, heights)
    kind = {crate: number for number, crates in enumerate(listed.headings.values()) for crate in crates}
    edge = {point: 0.0 if graph.is_lane(point) else BOX / 2 for row in graph.rows for point in row}
    lines = [f'<path class="k{kind[other.crate]}" '
             f'd="{line(places[point], middles[point.row] - edge[point], places[other], middles[other.row] + edge[other])}"/>'
             for row in graph.rows for point in row for other in graph.above[point]]
    boxes = [box(point.crate, places[point], middles[point.row], kind[point.crate])
             for row in graph.rows for point in row if not graph.is_lane(point)]
    bands = [f'<rect class="band" x="{MARGIN}" y="{top:g}" width="{WIDTH - 2 * MARGIN}" height="{end - MARGIN - top:g}" rx="6"/>'
             for top, end in zip(tops, tops[1:])]
    heads = [f'<text class="heading" x="{2 * MARGIN}" y="{top + 20:g}">{heading}</text>' for top, heading in zip(tops, listed.headings)]
    return "\n".join([
        f'<svg xmlns="http://www.w3.org/2000/svg" viewBox="0 0 {WIDTH} {tops[-1]:g}" font-family="sans-serif" font-size="14" role="img"'
        ' aria-labelledby="title told">',
        '<title id="title">The crates, and which others each one uses directly</title>',
        f'<desc id="told">{told(listed)}</desc>',
        style(), '<rect class="ground" width="100%" height="100%"/>', *bands, *lines, *heads, *boxes, "</svg>", ""])
