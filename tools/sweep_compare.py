"""What is printed of two plans side by side, by the reports on them."""
from sweep_report import COLUMNS, aligned

NUMBERS = [place for place, (_, is_number) in enumerate(COLUMNS) if is_number]


def rows_of(report):
    """The servers of each disaster, in no order, and the name of each use, with the cells of their row."""
    return [((frozenset(report.plan.loses[disaster]), report.plan.uses[which].name), report.cells(disaster, which)) for disaster, which, _ in report.each()]


def first_like(rows, key):
    """The first row for the same servers and use; none if there isn't one."""
    return next((cells for other, cells in rows if other == key), None)


def side_by_side(named, first, second):
    """The servers and the use, and each number of both rows; dashes if there is no row."""
    return [*named[:2], *(cells[place] if cells else "-" for place in NUMBERS for cells in (first, second))]


def compared(first, second):
    """A table with the rows of the first plan and those that only the second one has, and how many findings each has."""
    ours, theirs = rows_of(first), rows_of(second)
    names = [name for name, _ in COLUMNS]
    table = [side_by_side(names, *([f"{name} {letter}" for name in names] for letter in "AB"))]
    table += [side_by_side(cells, cells, first_like(theirs, key)) for key, cells in ours]
    table += [side_by_side(cells, None, cells) for key, cells in theirs if first_like(ours, key) is None]
    last = f"findings: {first.finding_count()} of A, {second.finding_count()} of B"
    return "".join(line + "\n" for line in [*aligned(table, [place > 1 for place in range(len(table[0]))]), last])
