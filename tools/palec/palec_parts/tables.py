"""A store as lines of text: its variables, and its cells as a table. What a step changed has a star."""


def starred(value, is_changed):
    return f"{value}*" if is_changed else value


def rows_of(cells, changed):
    """The rows of the table, a head before each run of cells with the same fields."""
    rows, last = [], None
    for cell in cells:
        names = [name for name, _ in cell.values]
        if names != last:
            rows.append(["cell", "type", *names])
            last = names
        values = [starred(value, (cell.number, name) in changed) for name, value in cell.values]
        rows.append([starred(str(cell.number), cell.number in changed), cell.type, *values])
    return rows


def table_lines(rows):
    """The rows with their columns below one another."""
    count = max(map(len, rows), default=0)
    widths = [max((len(row[at]) for row in rows if at < len(row)), default=0) for at in range(count)]
    return ["  ".join(it.ljust(widths[at]) for at, it in enumerate(row)).rstrip() for row in rows]


def store_lines(store, changed=frozenset()):
    """The variables in one line, and then the cells."""
    variables = ", ".join(f"{name} = {starred(value, name in changed)}" for name, value in store.variables)
    return [variables or "no variables", *(table_lines(rows_of(store.cells, changed)) or ["no cells"])]
