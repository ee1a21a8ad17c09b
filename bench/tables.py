"""Tables of results: figures of one measure, workload and subject, and how the library compares with the original crate."""

from measures import AGAINST, DICTIONARY, SCRIPTS, TITLES, unit_of

SUBJECTS = ("here", "here_c", "cedarwood", "judy", "libdatrie", "marisa", "map", "unordered_map")


def number(text):
    """A figure of a table: no more digits than it bears."""
    value = float(text)
    return f"{value:,.0f}" if value >= 100 else f"{value:.1f}" if value >= 10 else f"{value:.2f}"


class Table:
    """The rows by what they are of."""

    def __init__(self, given):
        self.by = {(row.measure, row.workload, row.subject, row.unit): row for row in given}
        self.subjects = [name for name in SUBJECTS if any(row.subject == name for row in given)]
        self.has_times = any(row.median != "-" and row.unit.startswith("ns") for row in given)
        self.has_counts = any(row.count != "-" for row in given)

    def row(self, measure, workload, subject):
        return self.by.get((measure, workload, subject, unit_of(measure)))

    def time(self, measure, workload, subject):
        row = self.row(measure, workload, subject)
        if row is None or row.median == "-":
            return "-"
        return f"{number(row.median)} ({number(row.low)} to {number(row.high)})"

    def count(self, measure, workload, subject):
        row = self.row(measure, workload, subject)
        misses = self.by.get((measure, workload, subject, "misses"))
        return "-" if row is None or row.count == "-" else f"{number(row.count)} / {misses.median}"

    def instructions(self, measure, workload, subject):
        row = self.row(measure, workload, subject)
        return number(row.count) if row and row.count != "-" else None

    def misses(self, measure, workload, subject):
        row = self.by.get((measure, workload, subject, "misses"))
        return number(row.median) if row else None

    def lines(self, workload, measures, cell):
        """A table of one workload: a line for each measure that anyone has, a column for each subject that has any."""
        able = [name for name in self.subjects if any(cell(measure, workload, name) != "-" for measure in measures)]
        if not able:
            return []
        made = [f"| measure | {' | '.join(able)} |", "|---" * (len(able) + 1) + "|"]
        for measure in measures:
            cells = [cell(measure, workload, name) for name in able]
            if any(text != "-" for text in cells):
                made.append(f"| {TITLES[measure][0]} | {' | '.join(cells)} |")
        return [*made, ""]

    def of_python(self):
        """What calls from Python take, and behind it how many times as long as the package."""
        given = [row for row in self.by.values() if row.workload == "python"]
        subjects = list(dict.fromkeys(row.subject for row in given))
        made = [f"| measure | {' | '.join(subjects)} |", "|---" * (len(subjects) + 1) + "|"] if given else []
        for measure in dict.fromkeys(row.measure for row in given):
            own = {row.subject: row for row in given if row.measure == measure}
            first = float(own["roskvidh"].median)
            cells = [f"{number(own[name].median)} {own[name].unit} ({float(own[name].median) / first:.1f})" if name in own else "-" for name in subjects]
            made.append(f"| {measure} | {' | '.join(cells)} |")
        return [*made, ""] if made else []

    def times_as_fast(self):
        """A table of how many times as fast as the original crate each measure of here is, called from Rattle and from C: by instructions, and
        by the medians of times. A measure that the original has no call for is held against the one that does the same there. A column or a
        row without any figure is left out."""
        heads = [f"{by}, {called}" for by in ("instructions", "time") for called in ("from Rattle", "from C")]
        made = {}
        for measure in (*DICTIONARY, *SCRIPTS):
            other = AGAINST.get(measure, measure)
            by = [self.ratio(measure, other, figure, subject) for figure in ("count", "median") for subject in ("here", "here_c")]
            if any(text != "-" for text in by):
                against = "" if other == measure else f"; there: {TITLES[other][0].replace('the same', 'update')}"
                made[f"{TITLES[measure][0]}{against}"] = by
        able = [place for place in range(len(heads)) if any(by[place] != "-" for by in made.values())]
        lines = [f"| {title} | {' | '.join(by[place] for place in able)} |" for title, by in made.items()]
        head = f"| measure | {' | '.join(heads[place] for place in able)} |"
        return [head, "|---" * (len(able) + 1) + "|", *lines, ""] if lines else []

    def ratio(self, measure, other, figure, subject):
        """How many times as fast as `other` of the original crate a measure of a subject is, on the words or a script: by instructions on the
        small workload, by time on the whole one, each where there is none on the other one."""
        workload = "scripts" if measure in SCRIPTS else "words"
        places = (f"{workload}_small", workload) if figure == "count" else (workload, f"{workload}_small")
        for place in places:
            here, there = self.row(measure, place, subject), self.row(other, place, "cedarwood")
            if here and there and "-" not in (getattr(here, figure), getattr(there, figure)):
                return f"{float(getattr(there, figure)) / float(getattr(here, figure)):.2f}"
        return "-"

    def called(self, workload):
        """The subject of this repository that a table of one column shows, and how it is called: from Rattle, or from C where that alone was
        measured."""
        for subject, told in (("here", "Rattle"), ("here_c", "C")):
            if any(row.workload == workload and row.subject == subject for row in self.by.values()):
                return subject, told
        return "here", "Rattle"
