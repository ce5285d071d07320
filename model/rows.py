"""The frames that plans have over tables, by the choices of the evaluator where several are allowed."""
from columns import (
    coalesces, columns, conditions, file_columns, function_of, join_naming, names, unpivoted_names, value_columns,
)
from expressions import One, compared, evaluated, groups, ordinal, spread, taken


def sources_of(told):
    """The kind and the text or number of each source."""
    (kind, several), = told["sources"].items()
    return [(kind.removesuffix("s"), it) for it in several]


def contents_of(tables):
    """The frame of each source."""
    return {
        source: (table["height"], {name: values for name, _, values in table["columns"]})
        for table in tables
        for source in table["source"].items()
    }


def frame_of(node, contents):
    if node["op"] in ("Scan", "DataFrameScan"):
        return FRAMES[node["op"]](node, contents)
    below = [frame_of(it, contents) for it in node["inputs"]]
    if node["op"] == "MapFunction":
        return function_frame(node, below[0], contents)
    return FRAMES[node["op"]](node, *below)


def chosen(frame, wanted):
    return frame[0], {name: frame[1][name] for name in wanted}


def frame_scan(scan, contents):
    if scan["frame"] is None:
        return 0, {}
    return chosen(contents["frame", scan["frame"]], names(columns(scan)))


def file_scan(scan, contents):
    values = {name: [] for name in names(file_columns(scan))}
    height = 0
    for place, source in enumerate(sources_of(scan)):
        rows, table = contents[source]
        of_source = {name: table[name] for name in names(scan["reader"])}
        if scan["path_column"] is not None:
            of_source[scan["path_column"]] = [source[1] if source[0] == "path" else "in-mem"] * rows
        if scan["hive"]:
            of_source.update({name: [value] * rows for name, _, value in scan["hive"][place]})
        if scan["row_index"]:
            name, offset = scan["row_index"]
            of_source[name] = [offset + height + row for row in range(rows)]
        for name, of in values.items():
            of.extend(of_source[name])
        height += rows
    return chosen((height, values), names(columns(scan)))


def same(_, frame):
    return frame


def sliced(node, frame):
    height = frame[0]
    start = node["offset"] if node["offset"] >= 0 else height + node["offset"]
    first, end = (min(max(it, 0), height) for it in (start, start + node["len"]))
    return taken(frame, range(first, end))


def filtered(node, frame):
    marks = spread(evaluated(node["predicate"][0], frame), frame[0])
    return taken(frame, [row for row, mark in enumerate(marks) if mark is True])


def selected(node, frame):
    values = {name: evaluated(expr, frame) for expr, _, name in node["exprs"]}
    height = 1 if all(isinstance(it, One) for it in values.values()) else frame[0]
    return height, {name: spread(it, height) for name, it in values.items()}


def added(node, frame):
    height, values = frame
    return height, values | {name: spread(evaluated(expr, frame), height) for expr, _, name in node["exprs"]}


def in_order(node, frame):
    rows = range(frame[0])
    marks = [node[key] * len(node["by"]) for key in ("descending", "nulls_last")]
    for (expr, _, _), descending, nulls_last in reversed(list(zip(node["by"], *marks))):
        key = spread(evaluated(expr, frame), frame[0])
        there = [row for row in rows if key[row] is not None]
        there.sort(key=lambda row: ordinal(key[row]), reverse=descending)
        nulls = [row for row in rows if key[row] is None]
        rows = there + nulls if nulls_last else nulls + there
    return taken(frame, rows)


def distinct(node, frame):
    subset = list(frame[1]) if node["subset"] is None else node["subset"]
    found = groups([frame[1][name] for name in subset], frame[0])
    match node["keep"]:
        case "Last":
            rows = [it[-1] for it in found]
        case "None":
            rows = [it[0] for it in found if len(it) == 1]
        case _:
            rows = [it[0] for it in found]
    return taken(frame, sorted(rows) if node["maintain_order"] else rows)


def grouped(node, frame):
    keys = [spread(evaluated(expr, frame), frame[0]) for expr, _, _ in node["keys"]]
    found = groups(keys, frame[0])
    values = {name: [key[rows[0]] for rows in found] for (_, _, name), key in zip(node["keys"], keys)}
    for expr, _, name in node["aggs"]:
        of_groups = [evaluated(expr, taken(frame, rows)) for rows in found]
        values[name] = [it.value if isinstance(it, One) else it for it in of_groups]
    return len(found), values


def in_turn(_, *frames):
    return sum(height for height, _ in frames), {name: sum((it[1][name] for it in frames), []) for name in frames[0][1]}


def side_by_side(_, *frames):
    height = max(it[0] for it in frames)
    return height, {name: of + [None] * (height - rows) for rows, values in frames for name, of in values.items()}


def function_frame(node, frame, contents):
    height, values = frame
    match function_of(node):
        case "Rename", told:
            new = dict(zip(told["existing"], told["new"]))
            return height, {new.get(name, name): of for name, of in values.items()}
        case "RowIndex", told:
            return height, {told["name"]: [(told["offset"] or 0) + row for row in range(height)]} | values
        case "FastCount", told:
            count = sum(contents[source][0] for source in sources_of(told))
            return 1, {name: [count] for name in names(columns(node))}
        case "Explode", told:
            return exploded(frame, told["columns"])
        case "Unpivot", told:
            of = value_columns(told, columns(node["inputs"][0]))
            variable, value = unpivoted_names(told)
            index = {name: values[name] * len(of) for name in told["index"]}
            listed = {variable: [name for name in of for _ in range(height)], value: sum((values[name] for name in of), [])}
            return height * len(of), index | listed


def exploded(frame, lists):
    """Each row as often as the longest of its lists has elements, and at least once."""
    height, values = frame
    times = [max([1, *(len(values[name][row] or []) for name in lists)]) for row in range(height)]

    def of_row(name, row):
        value = values[name][row]
        return (value or []) + [None] * (times[row] - len(value or [])) if name in lists else [value] * times[row]

    return sum(times), {name: sum((of_row(name, row) for row in range(height)), []) for name in values}


def joined(node, left, right):
    naming = [] if node["how"] in ("Semi", "Anti") else join_naming(node, *map(columns, node["inputs"]))
    matches = Matching(node, naming, left, right)
    pairs = [(one, other) for one in range(left[0]) for other in range(right[0]) if matches(one, other)]
    if node["how"] in ("Semi", "Anti"):
        matched = {one for one, _ in pairs}
        return taken(left, [row for row in range(left[0]) if (row in matched) == (node["how"] == "Semi")])
    return assembled(node, naming, ordered(node, pairs, left[0], right[0]), left, right)


class Matching:
    """Whether two rows match."""

    def __init__(self, join, naming, left, right):
        self.join, self.naming, self.left, self.right = join, naming, left, right
        self.keys = list(zip(keys_of(join, "left", left), keys_of(join, "right", right)))

    def __call__(self, one, other):
        if self.join["how"] == "Cross":
            return all(self.holds(it, one, other) for it in conditions(self.join))
        operators = (self.join["options"] or {}).get("ie") or ["Eq"] * len(self.keys)
        return all(self.meets(*it, one, other) for it in zip(operators, self.keys))

    def holds(self, predicate, one, other):
        rows = {"left": (self.left, one), "right": (self.right, other)}
        pair = {name: [rows[side][0][1][of][rows[side][1]]] for name, _, side, of in reversed(self.naming)}
        return spread(evaluated(predicate[0], (1, pair)), 1) == [True]

    def meets(self, operator, keys, one, other):
        left, right = keys[0][one], keys[1][other]
        if left is None or right is None:
            return left is right and self.join["join_nulls"] and operator == "Eq"
        return compared(operator, ordinal(left), ordinal(right))


def keys_of(join, side, frame):
    return [spread(evaluated(expr, frame), frame[0]) for expr, _, _ in join[f"{side}_on"]]


def ordered(join, pairs, height, other_height):
    """The pairs of rows of a join, with None for an absent side, in its order."""
    if join["how"] in ("Left", "Full"):
        matched = {one for one, _ in pairs}
        pairs = pairs + [(row, None) for row in range(height) if row not in matched]
    if join["how"] in ("Right", "Full"):
        matched = {other for _, other in pairs}
        pairs = pairs + [(None, row) for row in range(other_height) if row not in matched]
    sides = (1, 0) if join["maintain_order"] in ("Right", "RightLeft") else (0, 1)
    return sorted(pairs, key=lambda pair: [(pair[side] is None, pair[side] or 0) for side in sides])


def assembled(join, naming, pairs, left, right):
    """The columns of a join along pairs of rows. A full join that coalesces fills a left key from the right one."""
    fillers = {}
    if join["how"] == "Full" and coalesces(join):
        for (expr, _, _), key in reversed(list(zip(join["left_on"], keys_of(join, "right", right)))):
            fillers[expr["name"]] = key
    values = {}
    for name, _, side, of in naming:
        frame, place = (left, 0) if side == "left" else (right, 1)
        column = [None if pair[place] is None else frame[1][of][pair[place]] for pair in pairs]
        if side == "left" and of in fillers:
            column = [fillers[of][pair[1]] if pair[0] is None else it for it, pair in zip(column, pairs)]
        values[name] = column
    return len(pairs), values


FRAMES = {
    "Scan": file_scan, "DataFrameScan": frame_scan, "Cache": same, "Sink": same, "Slice": sliced, "Filter": filtered,
    "SimpleProjection": lambda node, frame: chosen(frame, names(columns(node))), "Select": selected, "HStack": added,
    "Sort": in_order, "Distinct": distinct, "GroupBy": grouped, "Union": in_turn, "HConcat": side_by_side, "Join": joined,
}
