"""Draws bench/times.svg from the table of bench/README.md: nanoseconds a record by the number of records that are drained.
It refuses a table in which a program has two rows for one load, and one that does not say when and where it was measured."""

import math
import pathlib
import sys

BENCH = pathlib.Path(__file__).resolve().parent
COLOURS = {
    "heap in memory": "#999999",
    "STXXL": "#d55e00",
    "external sort": "#56b4e9",
    "ppq, 1": "#009e73",
    "ppq, 4": "#0072b2",
    "ppq, 4, block 8192": "#cc79a7",
}
NAMES = {"ppq, 1": "ppq, 1 worker", "ppq, 4": "ppq, 4 workers", "external sort": "external sort (no queue)"}
LEFT, RIGHT, TOP, BOTTOM, WIDTH, HEIGHT = 64, 190, 52, 48, 720, 400
STEP = 100  # nanoseconds between two lines of the grid
ROOM = 16  # pixels between two names


def table():
    """The lines between `<!-- device -->` and `<!-- end -->`."""
    lines = (BENCH / "README.md").read_text().partition("<!-- device -->\n")[2].partition("<!-- end -->\n")[0].splitlines()
    return lines or sys.exit("bench/plot.py: bench/README.md has no lines <!-- device --> and <!-- end -->")


def measured(lines):
    """When and on which machine the table was measured."""
    said = [line.removeprefix("Measured on ").rstrip(".") for line in lines if line.startswith("Measured on ")]
    return said[0] if len(said) == 1 else sys.exit("bench/plot.py: the table wants one line 'Measured on DAY, MACHINE.'")


def points(lines):
    """For each program the nanoseconds a record by the millions of records."""
    found, rows = {name: {} for name in COLOURS}, set()
    heads, _, *body = [[cell.strip() for cell in line.split("|")[1:-1]] for line in lines if line.startswith("|")]
    for cells in body:
        if (row := (cells[0], cells[1])) in rows:
            sys.exit(f"bench/plot.py: two rows of {row[1]} for {row[0]}")
        rows.add(row)
        if cells[0].endswith("M drained") and cells[1] in found:
            found[cells[1]][int(cells[0].split("M")[0])] = float(cells[heads.index("ns")])
    return {name: times for name, times in found.items() if times}


def spread(places):
    """Places in ascending order, moved so that each has room."""
    moved = []
    for place in places:
        moved.append(max(place, moved[-1] + ROOM) if moved else place)
    return moved


def drawing(found, said):
    sizes = sorted({size for times in found.values() for size in times})
    most = math.ceil(max(max(times.values()) for times in found.values()) / STEP) * STEP

    def across(size):
        return LEFT + math.log(size / sizes[0]) / math.log(sizes[-1] / sizes[0]) * (WIDTH - LEFT - RIGHT)

    def up(time):
        return HEIGHT - BOTTOM - time / most * (HEIGHT - TOP - BOTTOM)

    yield f'<svg xmlns="http://www.w3.org/2000/svg" viewBox="0 0 {WIDTH} {HEIGHT}" font-family="sans-serif" font-size="13">'
    yield f'<rect width="{WIDTH}" height="{HEIGHT}" fill="white"/>'
    yield f'<text x="{LEFT}" y="22" font-weight="bold">Nanoseconds a record that is added and removed</text>'
    yield f'<text x="{LEFT}" y="36" font-size="11" fill="#666666">{said}</text>'
    for time in range(0, most + 1, STEP):
        yield f'<line x1="{LEFT}" x2="{WIDTH - RIGHT}" y1="{up(time):.1f}" y2="{up(time):.1f}" stroke="#dddddd"/>'
        yield f'<text x="{LEFT - 8}" y="{up(time) + 4:.1f}" text-anchor="end">{time}</text>'
    for size in sizes:
        yield f'<text x="{across(size):.1f}" y="{HEIGHT - BOTTOM + 20}" text-anchor="middle">{size} million</text>'
    yield f'<text x="{(LEFT + WIDTH - RIGHT) / 2}" y="{HEIGHT - 10}" text-anchor="middle">records, of 16 bytes; a budget of 16 MiB but for the heap</text>'
    ends = sorted((up(times[max(times)]), name) for name, times in found.items())
    for (end, name), place in zip(ends, spread([end for end, _ in ends])):
        dots = [(across(size), up(time)) for size, time in sorted(found[name].items())]
        path = " ".join(f"{x:.1f},{y:.1f}" for x, y in dots)
        yield f'<polyline points="{path}" fill="none" stroke="{COLOURS[name]}" stroke-width="2"/>'
        for x, y in dots:
            yield f'<circle cx="{x:.1f}" cy="{y:.1f}" r="3" fill="{COLOURS[name]}"/>'
        yield f'<text x="{WIDTH - RIGHT + 10}" y="{place + 4:.1f}" fill="{COLOURS[name]}">{NAMES.get(name, name)}</text>'
    yield "</svg>"


def main():
    lines = table()
    (BENCH / "times.svg").write_text("\n".join(drawing(points(lines), measured(lines))) + "\n")


if __name__ == "__main__":
    main()
