"""Pictures of results as SVG: bars by measure, growth by the number of keys, and times of single updates as a distribution. Each is drawn of
times where there are any, and bars of instructions where there are none."""

import math
from html import escape

from measures import DICTIONARY, LATENCIES, TITLES, WORKLOADS, sizes_of_growth, unit_of

COLOURS = {
    **{"here": "#1b6ca8", "here_c": "#7fb2d9", "cedarwood": "#d1742c", "judy": "#4f9d4f"},
    **{"libdatrie": "#8a5fb0", "marisa": "#b8495a", "map": "#7d7d7d", "unordered_map": "#b09a2e"},
}
FONT = 'font-family="sans-serif" font-size="12"'


def drawn(given):
    """Each picture's file name with its text."""
    made = {}
    for workload in WORKLOADS:
        text = bars(given, workload)
        if text:
            made[f"bench_bars_{workload}.svg"] = text
        text = latencies(given, workload)
        if text:
            made[f"bench_latency_{workload}.svg"] = text
    for measure in ("hit", "update_shuffled", "latency_most", "resident"):
        text = growth(given, measure)
        if text:
            made[f"bench_growth_{measure}.svg"] = text
    return made


def names(given):
    """The names of the pictures that there are, and what they show."""
    shown = {"bars": "bars of each measure", "latency": "times of single updates", "growth": "by the number of keys"}
    return [(name, f"{shown[name.split('_')[1]]}: {name.split('_', 2)[2][:-4].replace('_', ' ')}") for name in drawn(given)]


def svg(width, height, parts):
    opening = f'<svg xmlns="http://www.w3.org/2000/svg" width="{width}" height="{height}" viewBox="0 0 {width} {height}" {FONT}>'
    return "\n".join([opening, f'<rect width="{width}" height="{height}" fill="white"/>', *parts, "</svg>"]) + "\n"


def text_at(x, y, text, anchor="start", fill="#222"):
    return f'<text x="{x:.1f}" y="{y:.1f}" text-anchor="{anchor}" fill="{fill}">{escape(text)}</text>'


def short(value):
    return f"{value:,.0f}" if value >= 10 else f"{value:.1f}"


def legend(subjects, x, y):
    parts = []
    for place, subject in enumerate(subjects):
        parts.append(f'<rect x="{x}" y="{y + 18 * place}" width="12" height="12" fill="{COLOURS.get(subject, "#000")}"/>')
        parts.append(text_at(x + 18, y + 11 + 18 * place, subject))
    return parts


def bars(given, workload):
    """A group for each measure, in it a bar for each subject, each as long as its share of the group's longest one."""
    is_timed = any(row.workload == workload and row.measure in DICTIONARY and row.median != "-" and row.unit != "misses" for row in given)
    value_of = (lambda row: row.median) if is_timed else (lambda row: row.count)
    groups = {}
    for row in given:
        if row.workload == workload and row.measure in DICTIONARY and row.unit == unit_of(row.measure) and value_of(row) != "-":
            groups.setdefault(row.measure, []).append((row.subject, float(value_of(row))))
    if not groups:
        return None
    what = "nanoseconds of the processor" if is_timed else "instructions"
    parts, y = [text_at(10, 20, f"{workload}: {what} an operation, less is better")], 40
    for measure in (name for name in DICTIONARY if name in groups):
        parts.append(text_at(10, y + 10, TITLES[measure][0]))
        y += 16
        most = max(value for _, value in groups[measure]) or 1
        for subject, value in groups[measure]:
            parts.append(text_at(130, y + 10, subject, "end"))
            parts.append(f'<rect x="136" y="{y}" width="{max(1, 500 * value / most):.1f}" height="12" fill="{COLOURS.get(subject, "#000")}"/>')
            parts.append(text_at(142 + 500 * value / most, y + 10, short(value)))
            y += 15
        y += 10
    return svg(720, y + 10, parts)


def curves(title, below, lines, ticks):
    """Curves over places from 0 to 1 of points (place, value), on a scale of powers of ten. `ticks` are places with what stands below them."""
    values = [value for points in lines.values() for _, value in points if value > 0]
    if not values:
        return None
    low, high = math.floor(math.log10(min(values))), math.ceil(math.log10(max(values)))
    high = max(high, low + 1)
    left, top, width, height = 80, 40, 460, 300

    def at(place, value):
        return left + width * place, top + height * (high - math.log10(value)) / (high - low)

    parts = [text_at(10, 20, title), text_at(left + width / 2, top + height + 40, below, "middle")]
    for power in range(low, high + 1):
        _, y = at(0, 10.0**power)
        parts += [f'<line x1="{left}" y1="{y:.1f}" x2="{left + width}" y2="{y:.1f}" stroke="#ddd"/>', text_at(left - 6, y + 4, short(10.0**power), "end")]
    for place, text in ticks:
        parts.append(text_at(left + width * place, top + height + 18, text, "middle"))
    for subject, points in lines.items():
        path = " ".join(f"{x:.1f},{y:.1f}" for x, y in (at(*point) for point in points if point[1] > 0))
        parts.append(f'<polyline points="{path}" fill="none" stroke="{COLOURS.get(subject, "#000")}" stroke-width="2"/>')
    return svg(700, top + height + 60, parts + legend(list(lines), left + width + 20, top))


def growth(given, measure):
    sizes = sizes_of_growth(row for row in given if row.measure == measure)
    if len(sizes) < 2:
        return None
    first, last = math.log10(sizes[0]), math.log10(sizes[-1])
    places = {size: (math.log10(size) - first) / (last - first) for size in sizes}
    lines = {}
    for size in sizes:
        for row in given:
            if row.workload == f"random_{size}" and row.measure == measure and row.median != "-":
                lines.setdefault(row.subject, []).append((places[size], float(row.median)))
    title = f"{TITLES[measure][0]}, {unit_of(measure)}"
    return curves(title, "random keys", lines, [(place, f"{size:,}") for size, place in places.items()])


def latencies(given, workload):
    lines = {}
    for place, measure in enumerate(LATENCIES):
        for row in given:
            if row.workload == workload and row.measure == measure and row.median != "-":
                lines.setdefault(row.subject, []).append((place / (len(LATENCIES) - 1), float(row.median)))
    if not lines:
        return None
    below = ("1 in 2", "1 in 10", "1 in 100", "1 in 1,000", "1 in 10,000", "slowest")
    ticks = [(place / (len(LATENCIES) - 1), text) for place, text in enumerate(below)]
    return curves(f"{workload}: single updates in no order, nanoseconds", "so many updates take longer", lines, ticks)
