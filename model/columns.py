"""The columns of nodes: lists of pairs of a name and a type.

A node is the dict of its entry in a document, with its inputs as nodes in the list `inputs` (in the place of `input`, or of
`left` and `right`), and with expressions in the place of their numbers.
"""
from expressions import element, is_list, is_scalar, list_of, type_of


def names(columns):
    return [name for name, _ in columns]


def types(columns):
    """The types by name; of a name that comes twice, the first."""
    return dict(reversed([tuple(it) for it in columns]))


def expressions_of(node):
    """Each with its kind of name and its name: those that a node lists, and then the condition of a cross join."""
    match node["op"]:
        case "Filter":
            return [node["predicate"]]
        case "Scan":
            return [node["predicate"]] if node["predicate"] else []
        case "Select" | "HStack":
            return node["exprs"]
        case "Sort":
            return node["by"]
        case "GroupBy":
            return node["keys"] + node["aggs"]
        case "Join":
            return node["left_on"] + node["right_on"] + conditions(node)
    return []


def conditions(join):
    """The condition of a cross join, if it has one."""
    cross = (join["options"] or {}).get("cross")
    return [cross] if cross else []


def function_of(node):
    """The name of a function of whole frames, and what it is told."""
    return next(iter(node["function"].items()))


def columns(node):
    """The columns of a valid node: those that it stores, or that it takes over from its input."""
    match node["op"]:
        case "Scan":
            return file_columns(node) if node["output"] is None else node["output"]
        case "DataFrameScan":
            return node["schema"] if node["output"] is None else node["output"]
        case "SimpleProjection":
            return node["columns"]
        case "Select" | "HStack" | "GroupBy" | "Join" | "HConcat":
            return node["schema"]
        case "MapFunction":
            return function_columns(node, columns(node["inputs"][0]))
    return columns(node["inputs"][0])


def made(node, below):
    """The columns that a node of expressions makes over those of its input."""
    of = types(below)
    if node["op"] == "GroupBy":
        keys = [[name, type_of(expr, of)] for expr, _, name in node["keys"]]
        return keys + [[name, grouped_type(expr, of)] for expr, _, name in node["aggs"]]
    new = [[name, type_of(expr, of)] for expr, _, name in node["exprs"]]
    return new if node["op"] == "Select" else replaced(below, new)


def grouped_type(expr, of):
    return type_of(expr, of) if is_scalar(expr) else list_of(type_of(expr, of))


def replaced(below, new):
    """Columns with others in the place of those of their names, or behind them."""
    last = dict(map(tuple, new))
    there = [[name, last.get(name, data_type)] for name, data_type in below]
    return there + [it for it in new if it[0] not in names(below)]


def hive_columns(scan):
    parts = scan["hive"]
    return [[name, data_type] for name, data_type, _ in parts[0]] if parts else []


def file_columns(scan):
    """The numbers of the rows, what the reader finds, the hive columns that it lacks, and the paths."""
    hive, reader = types(hive_columns(scan)), names(scan["reader"])
    found = [[scan["row_index"][0], "Int64"]] if scan["row_index"] else []
    found += [[name, hive.get(name, data_type)] for name, data_type in scan["reader"]]
    found += [it for it in hive_columns(scan) if it[0] not in reader]
    return found if scan["path_column"] is None else found + [[scan["path_column"], "String"]]


def reads(scan):
    """The names of the columns that are read, in order."""
    if scan["op"] == "DataFrameScan":
        return names(columns(scan))
    if scan["columns"] is not None:
        return scan["columns"]
    hive = names(hive_columns(scan))
    return [name for name in names(scan["reader"]) if name not in hive]


def scans(node):
    """From left to right."""
    if node["op"] in ("Scan", "DataFrameScan"):
        yield node
    for it in node["inputs"]:
        yield from scans(it)


def coalesces(join):
    if join["how"] == "Full":
        return join["coalesce"] == "CoalesceColumns"
    return join["how"] in ("Left", "Inner", "Right") and join["coalesce"] != "KeepColumns"


def join_naming(join, left, right):
    """Of each column that a join puts out: its name, its type, its side, and how it is called there."""
    kept = [("left", name, data_type) for name, data_type in left]
    if join["how"] in ("Semi", "Anti"):
        return [(name, data_type, side, name) for side, name, data_type in kept]
    kept += [("right", name, data_type) for name, data_type in right]
    dropped = "left" if join["how"] == "Right" else "right"
    keys = [expr["name"] for expr, _, _ in join[f"{dropped}_on"]] if coalesces(join) else []
    kept = [it for it in kept if it[0] != dropped or it[1] not in keys]
    on_left = [name for side, name, _ in kept if side == "left"]
    suffix = "_right" if join["suffix"] is None else join["suffix"]
    return [
        (name + suffix if side == "right" and name in on_left else name, data_type, side, name)
        for side, name, data_type in kept
    ]


def join_columns(join, left, right):
    return [[name, data_type] for name, data_type, _, _ in join_naming(join, left, right)]


def value_columns(told, below):
    """The columns that an unpivot puts one below the other."""
    return told["on"] or [name for name in names(below) if name not in told["index"]]


def unpivoted_names(told):
    """The names of the column of names and of that of values."""
    defaults = zip(("variable_name", "value_name"), ("variable", "value"))
    return [default if told[key] is None else told[key] for key, default in defaults]


def function_columns(node, below):
    of = types(below)
    match function_of(node):
        case "Rename", told:
            new = dict(zip(told["existing"], told["new"]))
            return [[new.get(name, name), data_type] for name, data_type in below]
        case "Explode", told:
            lists = told["columns"]
            return [[name, element(it) if name in lists and is_list(it) else it] for name, it in below]
        case "Unpivot", told:
            variable, value = unpivoted_names(told)
            index = [[name, of[name]] for name in told["index"]]
            return index + [[variable, "String"], [value, of[value_columns(told, below)[0]]]]
        case "RowIndex", told:
            return [[told["name"], "Int64"], *below]
        case "FastCount", told:
            return [["len" if told["alias"] is None else told["alias"], "Int64"]]
