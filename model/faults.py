"""What is wrong with a document's plan: the first fault, with its kind, its node and its place, or the plan's columns.

What is wrong at a node is told as pairs of what is looked at and a place; of several the least is the first.
"""
from columns import (
    coalesces, columns, conditions, expressions_of, file_columns, function_columns, function_of, hive_columns, join_columns,
    made, names, types, value_columns,
)
from documents import links_of, tree
from expressions import TypesDiffer, has_form, is_elementwise, is_list, is_scalar, leaves, operands, own_name, type_of
from rows import sources_of

FORM, NAME, TYPE, TWICE, STORED = range(5)
KINDS = ("InvalidOperation", "SchemaFieldNotFound", "SchemaMismatch", "Duplicate", "SchemaMismatch")
LEVELS, EXPRESSION_LEVELS = 256, 128


class Fault(Exception):
    """A kind, the number of a node, and a place."""


class Unfit(Exception):
    """The tables don't fit the plan."""


class TooDeep(Exception):
    """The plan or an expression has too many levels."""


def checked(document):
    """The columns of a document's plan; raises what is wrong with it first."""
    check_numbers(document)
    check_levels(document)
    root = tree(document)
    found = typed(root)
    if document["tables"] is not None and not fits(root, document["tables"]):
        raise Unfit
    return found


def check_numbers(document):
    """Each number that the root reaches is of an entry, no node is invalid, and nothing is reached twice."""
    met, met_expressions, left = set(), set(), [document["root"]]
    while left:
        number = left.pop()
        if number >= len(document["nodes"]) or number in met or document["nodes"][number]["op"] == "Invalid":
            raise Fault("ComputeError", number, 0)
        met.add(number)
        entry = document["nodes"][number]
        for place, (expr, _, _) in enumerate(expressions_of(entry), 1):
            if not reaches_new(document["exprs"], expr, met_expressions):
                raise Fault("ComputeError", number, place)
        left += reversed(links_of(entry))


def reaches_new(entries, number, met):
    """Whether what a number reaches are entries that were not met, each once. They are met then."""
    left = [number]
    while left:
        number = left.pop()
        if number >= len(entries) or number in met:
            return False
        met.add(number)
        left += operands(entries[number])
    return True


def check_levels(document):
    def levels(entries, number, below):
        left, most = [(number, 1)], 0
        while left:
            number, level = left.pop()
            most = max(most, level)
            left += [(it, level + 1) for it in below(entries[number])]
            reached.append(number)
        return most

    reached = []
    is_deep = levels(document["nodes"], document["root"], links_of) > LEVELS
    exprs = [expr for number in reached[:] for expr, _, _ in expressions_of(document["nodes"][number])]
    if is_deep or any(levels(document["exprs"], it, operands) > EXPRESSION_LEVELS for it in exprs):
        raise TooDeep


def typed(node):
    below = [typed(it) for it in node["inputs"]]
    found = min(faults(node, below), default=None)
    if found:
        raise Fault(KINDS[found[0]], node["number"], found[1])
    return columns(node)


def faults(node, below):
    """What is wrong at a node whose inputs have columns."""
    if node["op"] != "Slice" and node.get("slice") is not None:
        yield FORM, 0
    yield from FAULTS.get(node["op"], lambda *_: [])(node, *below)


def repeated(several):
    """The place, from 1 on, of the first that repeats one before it, in a list, or none."""
    return [place for place, it in enumerate(several, 1) if it in several[: place - 1]][:1]


def absent(wanted, there, first=1):
    return [(NAME, place) for place, name in enumerate(wanted, first) if name not in there]


def type_if_any(expr, there):
    """The type of an expression over columns, or None where it has no form, names an absent column, or its types differ."""
    try:
        return type_of(expr, types(there)) if has_form(expr) and not absent(leaves(expr), names(there)) else None
    except TypesDiffer:
        return None


def of_expressions(put_out, there, first=1):
    """What is wrong with expressions over columns, whatever node they stand in."""
    for place, (expr, kind, name) in enumerate(put_out, first):
        if not has_form(expr):
            yield FORM, place
            continue
        if absent(leaves(expr), names(there)):
            yield NAME, place
        elif type_if_any(expr, there) is None:
            yield TYPE, place
        own = own_name(expr)
        if own != (kind, name) and (kind != "alias" or own[0] == "alias"):
            yield STORED, place


def of_truth(put_out, there, place=1):
    """What is wrong with an expression that is to be a truth value."""
    yield from of_expressions([put_out], there, place)
    if type_if_any(put_out[0], there) not in (None, "Boolean"):
        yield TYPE, place


def of_filter(node, below):
    yield from of_truth(node["predicate"], below)


def of_made(node, below):
    """Selections, additions of columns, and groupings."""
    put_out = expressions_of(node)
    if not (node["keys"] if node["op"] == "GroupBy" else put_out or node["op"] == "HStack"):
        yield FORM, 0
    found = list(of_expressions(put_out, below))
    for place, (expr, _, _) in enumerate(node.get("aggs", []), len(node.get("keys", [])) + 1):
        if not is_scalar(expr) and is_list(type_if_any(expr, below) or ""):
            found.append((TYPE, place))
    found += [(TWICE, place) for place in repeated([name for _, _, name in put_out])]
    if all(rank == STORED for rank, _ in found) and made(node, below) != node["schema"]:
        found.append((STORED, 0))
    yield from found


def of_projection(node, below):
    if not node["columns"]:
        yield FORM, 0
    yield from of_chosen(node["columns"], below)


def of_chosen(wanted, there, first=1):
    """What is wrong with columns that are to be among others, with their types."""
    of = types(there)
    for place, (name, data_type) in enumerate(wanted, first):
        if name not in of:
            yield NAME, place
        elif of[name] != data_type:
            yield TYPE, place


def of_sort(node, below):
    marks = [len(node["descending"]), len(node["nulls_last"])]
    if not node["by"] or any(it not in (1, len(node["by"])) for it in marks):
        yield FORM, 0
    yield from of_expressions(node["by"], below)
    yield from ((TYPE, place) for place, it in enumerate(node["by"], 1) if is_list(type_if_any(it[0], below) or ""))


def of_distinct(node, below):
    if node["subset"] == []:
        yield FORM, 0
    yield from absent(node["subset"] or [], names(below))


def of_union(node, *below):
    if not below:
        yield FORM, 0
    yield from ((TYPE, place) for place, it in enumerate(below, 1) if it != below[0])


def of_concatenation(node, *below):
    found = [column for it in below for column in it]
    if not below:
        yield FORM, 0
    if repeated(names(found)):
        yield TWICE, 0
    if found != node["schema"]:
        yield STORED, 0


def of_frame_scan(node):
    if node["frame"] is None and node["schema"]:
        yield TYPE, 0
    yield from of_chosen(node["output"] or [], node["schema"])


def of_scan(node):
    hive, reader = node["hive"], node["reader"]
    is_of_each = hive is None or hive and len(hive) == len(sources_of(node))
    if node["predicate"] is not None or reader is None or not is_of_each:
        yield FORM, 0
    if reader is None:
        return
    output, read = node["output"] or [], node["columns"] or []
    yield from of_chosen(output, file_columns(node))
    yield from absent(read, names(reader), len(output) + 1)
    yield from of_read(node, output)
    if any([it[:2] for it in part] != hive_columns(node) for part in hive or []):
        yield TYPE, 0
    yield from ((TWICE, len(output) + place) for place in repeated(read))
    if node["output"] is None and repeated(names(file_columns(node))):
        yield TWICE, 0
    if file_columns(node) != node["schema"]:
        yield STORED, 0


def of_read(node, output):
    """What is wrong with the names that a scan is told to read: hive columns, or too few."""
    if node["columns"] is None:
        return
    hive = names(hive_columns(node))
    yield from ((TYPE, place) for place, name in enumerate(node["columns"], len(output) + 1) if name in hive)
    number = node["row_index"] and node["row_index"][0]
    plain = [name for name in names(node["reader"]) if name not in (*hive, *node["columns"])]
    if node["output"] is None and plain:
        yield TYPE, 0
    yield from ((TYPE, place) for place, (name, _) in enumerate(output, 1) if name in plain and name != number)


def of_join(node, left, right):
    """What is wrong at a join, but for the keys that it would drop and its condition."""
    count = len(node["left_on"])
    yield from of_join_form(node)
    yield from of_expressions(node["left_on"], left)
    yield from of_expressions(node["right_on"], right, count + 1)
    of_left = [type_if_any(expr, left) for expr, _, _ in node["left_on"]]
    of_right = [type_if_any(expr, right) for expr, _, _ in node["right_on"]]
    for place, it in enumerate(of_left + of_right, 1):
        if it and (is_list(it) or node["how"] == "IEJoin" and it != "Int64"):
            yield TYPE, place
    for place, (one, other) in enumerate(zip(of_left, of_right), count + 1):
        if one and other and one != other:
            yield TYPE, place
    dropped = dropped_keys(node)
    yield from ((FORM, place) for place, expr in dropped if expr["op"] != "Column")
    if all(expr["op"] == "Column" for _, expr in dropped):
        yield from of_joined(node, join_columns(node, left, right))


def of_join_form(node):
    counts = len(node["left_on"]), len(node["right_on"])
    operators = (node["options"] or {}).get("ie")
    is_cross, is_inequality = node["how"] == "Cross", node["how"] == "IEJoin"
    if counts != (0, 0) if is_cross else counts[0] != counts[1] or not counts[0]:
        yield FORM, 0
    if conditions(node) and not is_cross or (operators is not None) != is_inequality:
        yield FORM, 0
    if is_inequality and operators is not None and len(operators) != counts[0]:
        yield FORM, 0


def dropped_keys(node):
    """The keys that coalesce, with their places."""
    if not coalesces(node):
        return []
    count = len(node["left_on"])
    keys = list(enumerate((expr for expr, _, _ in node["left_on"] + node["right_on"]), 1))
    return {"Full": keys, "Right": keys[:count]}.get(node["how"], keys[count:])


def of_joined(node, found):
    """What is wrong with the columns of a join, and with a condition over them."""
    for it in conditions(node):
        place = len(expressions_of(node))
        yield from of_truth(it, found, place)
        if not is_elementwise(it[0]):
            yield FORM, place
    if repeated(names(found)):
        yield TWICE, 0
    if found != node["schema"]:
        yield STORED, 0


def of_function(node, below):
    """What is wrong at a function; what it makes is looked at where nothing else is wrong."""
    match function_of(node):
        case "Rename", told:
            found = list(of_rename(told))
        case "Explode", told:
            lists = [[name, is_list(data_type)] for name, data_type in below]
            found = list(of_chosen([[name, True] for name in told["columns"]], lists))
        case "Unpivot", told:
            found = list(of_unpivot(told, below))
        case _:
            found = []
    yield from found
    if not found and repeated(names(function_columns(node, below))):
        yield TWICE, 0


def of_rename(told):
    existing, new = told["existing"], told["new"]
    if len(existing) != len(new):
        yield FORM, 0
    yield from ((TWICE, place) for place in repeated(existing))
    yield from ((TWICE, len(existing) + place) for place in repeated(new))


def of_unpivot(told, below):
    values, of = value_columns(told, below), types(below)
    if not values:
        yield FORM, 0
    yield from absent(told["on"] + told["index"], of)
    for place, name in enumerate(values, 1):
        if name in of and values[0] in of and of[name] != of[values[0]]:
            yield TYPE, place if told["on"] else 0
            return


FAULTS = {
    "Filter": of_filter, "Select": of_made, "HStack": of_made, "GroupBy": of_made, "SimpleProjection": of_projection,
    "Sort": of_sort, "Distinct": of_distinct, "Union": of_union, "HConcat": of_concatenation, "DataFrameScan": of_frame_scan,
    "Scan": of_scan, "Join": of_join, "MapFunction": of_function,
}


def fits(root, tables):
    """Whether each source has a table with the columns that are wanted of it."""
    there = {source: table["columns"] for table in tables for source in table["source"].items()}
    return all(
        source in there and all([name, data_type] in [it[:2] for it in there[source]] for name, data_type in wanted)
        for source, wanted in wanted_of_sources(root)
    )


def wanted_of_sources(node):
    for it in node["inputs"]:
        yield from wanted_of_sources(it)
    if node["op"] == "Scan":
        yield from ((source, node["reader"]) for source in sources_of(node))
    elif node["op"] == "DataFrameScan" and node["frame"] is not None:
        yield ("frame", node["frame"]), node["schema"]
    elif node["op"] == "MapFunction" and function_of(node)[0] == "FastCount":
        yield from ((source, []) for source in sources_of(function_of(node)[1]))
