"""What pruning leaves of a valid plan. Asked names are a list without repeats; no names stand for all."""
from columns import (
    columns, conditions, expressions_of, file_columns, function_of, hive_columns, join_columns, join_naming, made, names,
    reads, types,
)
from expressions import is_scalar, leaves, own_name, with_operands

ALL_MARKS = [True, True, True]


def united(*lists):
    """Names in order, each once."""
    return list(dict.fromkeys(name for it in lists for name in it))


def leaves_of(put_out):
    return united(*(leaves(expr) for expr, _, _ in put_out))


def held(asked, node):
    """The asked names that a node has."""
    return [name for name in asked if name in names(columns(node))]


def is_count(node):
    """Whether a node selects the number of rows alone."""
    return node["op"] == "Select" and len(node["exprs"]) == 1 and node["exprs"][0][0]["op"] == "Len"


def projection(node, asked):
    of = types(columns(node))
    return {"op": "SimpleProjection", "inputs": [node], "columns": [[name, of[name]] for name in asked]}


class Pruning:
    """One pass. `counts` is set once a count of rows was met."""

    def __init__(self):
        self.counts = False

    def pruned(self, node, asked):
        """What is left of a node that is asked names."""
        if is_count(node):
            self.counts = True
            return self.over(node, [stand_in(node["inputs"][0])])
        return getattr(self, node["op"], self.passed_on)(node, asked)

    def over(self, node, asked):
        """A node over what is left of its inputs, each of which is asked a list of names."""
        return node | {"inputs": [self.pruned(*it) for it in zip(node["inputs"], asked)]}

    def with_columns_made(self, node, asked):
        """A node of expressions, with the columns that they make over what is left of its input."""
        node = self.over(node, [asked])
        return node | {"schema": made(node, columns(node["inputs"][0]))}

    def passed_on(self, node, asked):
        """Slices and sinks."""
        return self.over(node, [asked])

    def Select(self, node, asked):
        kept = [it for it in node["exprs"] if not asked or it[2] in asked]
        if all(is_scalar(it[0]) for it in kept):
            kept += [it for it in node["exprs"] if not is_scalar(it[0])][:1]
        return self.with_columns_made(node | {"exprs": kept}, leaves_of(kept))

    def SimpleProjection(self, node, asked):
        kept = [it for it in node["columns"] if not asked or it[0] in asked]
        return self.over(node | {"columns": kept}, [names(kept)])

    def HStack(self, node, asked):
        if not asked:
            return self.with_columns_made(node, [])
        kept = [it for it in node["exprs"] if it[2] in asked]
        if not kept:
            return self.pruned(node["inputs"][0], asked)
        return self.with_columns_made(node | {"exprs": kept}, united(held(asked, node["inputs"][0]), leaves_of(kept)))

    def GroupBy(self, node, asked):
        kept = [it for it in node["aggs"] if not asked or it[2] in asked]
        needed = united(held(asked, node["inputs"][0]), leaves_of(kept), leaves_of(node["keys"]))
        return self.with_columns_made(node | {"aggs": kept}, needed)

    def Filter(self, node, asked):
        return self.over(node, [asked and united(asked, leaves_of(expressions_of(node)))])

    Sort = Filter

    def Distinct(self, node, asked):
        subset = names(columns(node)) if node["subset"] is None else node["subset"]
        return self.over(node, [asked and united(asked, subset)])

    def MapFunction(self, node, asked):
        below = columns(node["inputs"][0])
        match function_of(node):
            case "Rename", told:
                new = dict(zip(told["existing"], told["new"]))
                former = {new.get(name, name): name for name in names(below)}
                needed = [former[name] for name in asked]
            case "Explode", told:
                needed = asked and united(asked, told["columns"])
            case "Unpivot", told:
                needed = united(told["index"], told["on"]) if asked and told["on"] else []
            case "RowIndex", _:
                needed = held(asked, node["inputs"][0])
            case "FastCount", _:
                needed = []
        return self.over(node, [needed])

    def Union(self, node, asked):
        node = self.over(node, [asked] * len(node["inputs"]))
        if asked and len(node["inputs"]) > 1:
            return node | {"inputs": [projection(it, asked) for it in node["inputs"]]}
        return node

    def HConcat(self, node, asked):
        node = self.over(node, [held(asked, it) for it in node["inputs"]])
        return node | {"schema": [column for it in node["inputs"] for column in columns(it)]}

    def Cache(self, node, asked):
        return projection(node, asked) if asked else node

    def DataFrameScan(self, node, asked):
        of = types(node["schema"])
        return node | {"output": [[name, of[name]] for name in asked]} if asked else node

    def Scan(self, node, asked):
        if not asked:
            return node
        left = left_of_files(node, asked)
        return left if self.counts else projection(left, asked)

    def Join(self, node, asked):
        return put_together(node, self.over(node, asked_of_sides(node, asked)), asked)


def stand_in(node):
    """The names that a count of the rows of a node asks of it: of one column that is there, if any."""
    if node["op"] in ("Select", "HStack"):
        of_rows = [name for expr, _, name in node["exprs"] if not is_scalar(expr)]
        if of_rows:
            return of_rows[:1]
    return names(columns(node))[-1:]


def left_of_files(scan, asked):
    """What is left of a scan of files that is asked some names, without what goes on top."""
    number = scan["row_index"] and scan["row_index"][0]
    path, hive = scan["path_column"], names(hive_columns(scan))
    read = [name for name in asked if name not in (number, path, *hive)]
    if scan["kind"] in ("Csv", "NDJson") and all(name in (number, path) for name in asked):
        read = reads(scan)[:1]
    left = scan | {"columns": read}
    if scan["hive"] is not None:
        left["hive"] = [[it for it in part if it[0] in asked] for part in scan["hive"]]
    if number not in asked:
        left["row_index"] = None
    if path not in asked:
        left["path_column"] = None
    left["schema"] = file_columns(left)
    of = types(left["schema"])
    by_file = scan["kind"] == "Csv" or scan["kind"] == "Ipc" and scan["row_index"] or scan["hive"] is not None
    order = names(left["schema"]) if by_file else sorted(asked, key=lambda name: name == path)
    return left | {"output": [[name, of[name]] for name in order if name in asked]}


def origins(join, left, right):
    """The side and the name there of each column that a join puts out; of a name that comes twice, of the first."""
    return {name: (side, of) for name, _, side, of in reversed(join_naming(join, left, right))}


def asked_of_sides(join, asked):
    left, right = map(columns, join["inputs"])
    by_keys = {"left": leaves_of(join["left_on"]), "right": leaves_of(join["right_on"])}
    if not asked:
        return [], by_keys["right"] if join["how"] in ("Semi", "Anti") else []
    found = {"left": [], "right": []}
    of = origins(join, left, right)
    for name in united(leaves_of(conditions(join)), asked):
        for side, there in (("left", left), ("right", right)):
            found[side] += [name] if name in names(there) else []
        side, former = of[name]
        found[side].append(former)
    return [united(by_keys[side], found[side]) for side in ("left", "right")]


def put_together(given, join, asked):
    """A join over what is left of its sides, with what goes on top of it."""
    of = origins(given, *map(columns, given["inputs"]))
    left, right = map(columns, join["inputs"])
    if asked and may_coalesce(given, of, asked):
        join = join | {"coalesce": "CoalesceColumns"}
    join = join | {"schema": join_columns(join, left, right)}
    now = {column: name for name, column in reversed(origins(join, left, right).items())}
    for it in conditions(join) if asked else []:
        called = {name: now[column] for name, column in of.items() if column in now}
        join = join | {"options": {"cross": renamed_condition(it, called)}}
    if not asked or join["how"] in ("Semi", "Anti"):
        return join
    called = {name: now[of[name]] for name in asked}
    if any(name != new for name, new in called.items()):
        return selection(join, called)
    return join if set(names(columns(join))) == set(asked) else projection(join, asked)


def may_coalesce(join, of, asked):
    """Whether a join that keeps all its columns may drop its right keys, as none of them is asked."""
    if join["how"] not in ("Left", "Inner") or join["coalesce"] != "KeepColumns":
        return False
    keys = [expr for expr, _, _ in join["right_on"]]
    dropped = {("right", expr["name"]) for expr in keys if expr["op"] == "Column"}
    return all(expr["op"] == "Column" for expr in keys) and not any(of[name] in dropped for name in asked)


def renamed(expr, new):
    """An expression with other names for its columns."""
    expr = with_operands(expr, lambda it: renamed(it, new))
    return expr | {"name": new.get(expr["name"], expr["name"])} if expr["op"] == "Column" else expr


def renamed_condition(put_out, new):
    expr = renamed(put_out[0], new)
    return [expr, *(put_out[1:] if put_out[1] == "alias" else own_name(expr))]


def selection(node, called):
    """A selection of columns of a node, each under another name."""
    of = types(columns(node))
    exprs = [[{"op": "Column", "name": now}, "col" if name == now else "alias", name] for name, now in called.items()]
    schema = [[name, of[now]] for name, now in called.items()]
    return {"op": "Select", "inputs": [node], "exprs": exprs, "schema": schema, "options": ALL_MARKS}
