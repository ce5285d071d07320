"""Valid plans drawn by chance, over small tables. Names are few, so that they meet often."""
import random

from columns import coalesces, columns, file_columns, function_columns, hive_columns, join_columns, made, names, types
from documents import plan
from expressions import COMPARISONS, LOGIC, PLAIN, element, is_elementwise, is_list, is_scalar, own_name, type_of
from form import AGGREGATES, COALESCE
from pruning import is_count

TABLE = {
    "a": "Int64", "b": "Int64", "c": "String", "d": "Boolean", "e": "List(Int64)", "f": "String", "g": "Int64",
    "h": "List(String)", "k": "Int64",
}
PATHS = ("t", "u", "/d/y=1/v")
SOURCES = [("path", it) for it in PATHS] + [(kind, it) for kind in ("buffer", "frame") for it in range(3)]
NAMES = (
    "a", "b", "c", "d", "x", "y", "a_right", "b_right", "i", "p", "z", "w", "k_r", "len", "literal", "value", "v",
)
NUMBERS = (0, 1, 2, 3, -1, 5, 2**63 - 1, -(2**63))
TEXTS = ("", "x", "y", "é", "xy", "_right")
HITS = (0, 1, 2, 2**31, 2**32 - 2, 2**32 - 1)
ORDERS = ("None", "None", "Left", "Right", "LeftRight", "RightLeft")
KINDS = ("Inner", "Inner", "Left", "Left", "Right", "Full", "Cross", "Semi", "Anti", "IEJoin")


class Chance:
    """Choices by one seed."""

    def __init__(self, seed):
        self.random = random.Random(seed)

    def chance(self, share):
        return self.random.random() < share

    def one_of(self, *several):
        return self.random.choice(several)

    def some(self, several, least=0, most=None):
        """Some of a list, in any order."""
        several = list(several)
        most = len(several) if most is None else min(most, len(several))
        return self.random.sample(several, self.random.randint(min(least, most), most))

    def marks(self, count):
        return [self.chance(0.5) for _ in range(count)]


class Drawing(Chance):
    """What is drawn by one seed."""

    def document(self):
        root = self.count_of_files() if self.chance(0.1) else self.node(self.random.randint(1, 5))
        if self.chance(0.15):
            root = self.orders(root)
        if self.chance(0.15):
            root = self.additions(root)
        if columns(root) and self.chance(0.05 if is_count(root) else 0.6):
            root = self.projection(root, 3)
        tables = [self.table(*it) for it in SOURCES] if self.chance(0.85) else None
        return plan(root) | {"flags": self.flags(), "shared": False, "tables": tables}

    def flags(self):
        """Pruning, clustering, checks of orders (for which plans are looked at without pruning too), fast projections, eager runs."""
        shares = ((1, 0.75), (8, 0.6), (65536, 0.6), (512, 0.3), (16384, 0.5), (4096, 0.2))
        return sum(bit for bit, share in shares if self.chance(share))

    def table(self, kind, source):
        height = self.random.randint(0, 4)
        values = [[name, it, [self.value(it) for _ in range(height)]] for name, it in TABLE.items()]
        return {"source": {kind: source}, "height": height, "columns": values}

    def value(self, data_type):
        if self.chance(0.25):
            return None
        match data_type:
            case "Int64":
                return self.one_of(*NUMBERS) if self.chance(0.9) else self.random.randrange(-(2**63), 2**63)
            case "String":
                return self.one_of(*TEXTS)
            case "Boolean":
                return self.chance(0.5)
        return [self.value(element(data_type)) for _ in range(self.random.randint(0, 2))]

    # Expressions. `there` are the columns of a frame, `levels` how deep an expression may be, and `by_rows` whether each of
    # its rows is to depend on that row alone.

    def any_type(self, there):
        return self.one_of(*(it for _, it in there)) if there and self.chance(0.8) else self.one_of(*PLAIN)

    def plain_type(self, there):
        return self.one_of(*([it for _, it in there if it in PLAIN] or ["Int64"]))

    def leaf(self, there, data_type, by_rows):
        found = [name for name, it in there if it == data_type]
        if found and (self.chance(0.8) or is_list(data_type)):
            return {"op": "Column", "name": self.one_of(*found)}
        if is_list(data_type):
            return {"op": "Agg", "kind": "Implode", "input": self.leaf(there, element(data_type), by_rows)}
        if data_type == "Int64" and not by_rows and self.chance(0.2):
            return {"op": "Len"}
        return {"op": "Literal", "type": data_type, "value": self.value(data_type)}

    def expression(self, there, data_type, levels, by_rows=False):
        """An expression of a type."""

        def below(of=data_type):
            return self.expression(there, of, levels - 1, by_rows)

        if levels == 0 or self.chance(0.35):
            return self.leaf(there, data_type, by_rows)
        match self.one_of("Alias", "Ternary", "FillNull", "Reverse", "Window", "own", "own", "own"):
            case "Alias":
                return {"op": "Alias", "input": below(), "name": self.one_of(*NAMES)}
            case "Ternary":
                return {"op": "Ternary", "predicate": below("Boolean"), "truthy": below(), "falsy": below()}
            case "FillNull":
                return {"op": "Function", "name": "FillNull", "inputs": [below(), below()]}
            case "Reverse" if not by_rows:
                return {"op": "Function", "name": "Reverse", "inputs": [below()]}
            case "Window" if not by_rows:
                return self.window(there, below(), levels)
        return self.of_type(there, data_type, below, by_rows)

    def window(self, there, function, levels):
        """A window, or, where there is nothing to tell rows apart by, one row of many."""
        if not is_scalar(function):
            function = {"op": "Agg", "kind": self.one_of("First", "Last"), "input": function}
        keys = [self.expression(there, self.any_type(there), self.one_of(0, 0, levels - 1)) for _ in range(self.one_of(1, 2))]
        return {"op": "Window", "function": function, "partition_by": keys} if there else function

    def of_type(self, there, data_type, below, by_rows):
        """What only an expression of this type can be."""
        match data_type:
            case "Int64" if by_rows or self.chance(0.4):
                operator = self.one_of("Plus", "Minus", "Multiply")
                return {"op": "BinaryExpr", "operator": operator, "left": below(), "right": below()}
            case "Int64" if self.chance(0.2):
                return {"op": "Function", "name": "CumSum", "inputs": [below()]}
            case "Int64":
                kind = self.one_of("Min", "Max", "Sum", "Count", "CountAll", "NUnique")
                of = {"NUnique": self.plain_type(there), "Count": self.any_type(there), "CountAll": self.any_type(there)}
                return {"op": "Agg", "kind": kind, "input": below(of.get(kind, "Int64"))}
            case "Boolean":
                return self.truth(there, below)
            case "String" if not by_rows:
                return {"op": "Agg", "kind": self.one_of("Min", "Max", "First", "Last"), "input": below()}
            case "String":
                return self.leaf(there, data_type, by_rows)
        if by_rows:
            return self.leaf(there, data_type, by_rows)
        return {"op": "Agg", "kind": "Implode", "input": below(element(data_type))}

    def truth(self, there, below):
        match self.one_of("compared", "compared", "combined", "Not", "IsNull", "IsNotNull"):
            case "compared":
                of = self.plain_type(there)
                return {"op": "BinaryExpr", "operator": self.one_of(*COMPARISONS), "left": below(of), "right": below(of)}
            case "combined":
                return {"op": "BinaryExpr", "operator": self.one_of(*LOGIC), "left": below(), "right": below()}
            case "Not":
                return {"op": "Function", "name": "Not", "inputs": [below()]}
            case name:
                return {"op": "Function", "name": name, "inputs": [below(self.any_type(there))]}

    def put_out(self, expr):
        """An expression with the name under which it is put out."""
        kind, name = own_name(expr)
        return [expr, "alias", self.one_of(*NAMES)] if kind != "alias" and self.chance(0.4) else [expr, kind, name]

    def several(self, there, least, most, of_groups=False):
        """Expressions of different names."""
        found = {}
        for _ in range(self.random.randint(least, most)):
            expr = self.expression(there, self.any_type(there), self.one_of(0, 0, 1, 2))
            if of_groups and not is_scalar(expr) and is_list(type_of(expr, types(there))):
                continue
            named = self.put_out(expr)
            found.setdefault(named[2], named)
        return list(found.values())

    # Nodes. `levels` is how deep a plan may be.

    def node(self, levels):
        if levels == 0 or self.chance(0.1):
            return self.scan() if self.chance(0.7) else self.frame_scan()
        kinds = (
            self.filter, self.projection, self.select, self.select, self.added, self.added, self.sort, self.group_by,
            self.group_by, self.distinct, self.union, self.concatenation, self.join, self.join, self.join, self.join,
            self.function, self.function, self.slice, self.sink, self.cache, self.count, self.needless, self.needless,
            self.orders, self.orders, self.orders, self.additions, self.additions, self.additions,
        )
        kind = self.one_of(*kinds)
        if kind in (self.union, self.concatenation, self.join):
            return kind(levels) or self.node(levels - 1)
        below = self.node(levels - 1)
        return kind(below) or below

    def scan(self):
        several = self.one_of(1, 1, 1, 2, 2, 0, 3)
        kind, found = self.one_of(("paths", PATHS), ("paths", PATHS), ("buffers", range(3)))
        node = {
            "op": "Scan", "inputs": [], "kind": self.one_of("Csv", "NDJson", "Parquet", "Ipc"),
            "sources": {kind: [self.one_of(*found) for _ in range(several)]}, "hive": None, "output": None, "columns": None,
            "reader": [[name, TABLE[name]] for name in self.some(TABLE, 0, 5)],
            "row_index": ["i", self.one_of(0, 1, 5, 2**32 - 1)] if self.chance(0.3) else None,
            "path_column": "p" if self.chance(0.3) else None, "rechunk": self.chance(0.5), "slice": None, "predicate": None,
        }
        if several and self.chance(0.4):
            hive = [(name, self.one_of(*PLAIN)) for name in self.some([*names(node["reader"]), "y", "m"], 0, 3)]
            node["hive"] = [[[name, it, self.value(it)] for name, it in hive] for _ in range(several)]
        return self.with_output(node | {"schema": file_columns(node)})

    def with_output(self, scan):
        """A scan that is perhaps told what to read and what to put out."""
        plain = [name for name in names(scan["reader"]) if name not in names(hive_columns(scan))]
        if self.chance(0.5):
            return scan
        if self.chance(0.5):
            return scan | {"output": self.some(scan["schema"])}
        read = self.some(plain, self.one_of(0, len(plain)))
        output = self.some([it for it in scan["schema"] if it[0] not in plain or it[0] in read])
        return scan | {"columns": read, "output": None if len(read) == len(plain) and self.chance(0.5) else output}

    def frame_scan(self):
        if self.chance(0.05):
            return {"op": "DataFrameScan", "inputs": [], "frame": None, "schema": [], "output": None}
        schema = [[name, TABLE[name]] for name in self.some(TABLE, 0, 5)]
        output = self.some(schema) if self.chance(0.3) else None
        return {"op": "DataFrameScan", "inputs": [], "frame": self.one_of(0, 1, 2), "schema": schema, "output": output}

    def filter(self, below):
        return self.filter_by(below, self.expression(columns(below), "Boolean", 2))

    def filter_by(self, below, predicate):
        return {"op": "Filter", "inputs": [below], "predicate": self.put_out(predicate)}

    def true_filter(self, below):
        """A filter by the literal true, or by what is nearly that."""
        predicate = {"op": "Literal", "type": "Boolean", "value": self.one_of(True, True, True, False, None)}
        return self.filter_by(below, {"op": "Alias", "input": predicate, "name": "x"} if self.chance(0.1) else predicate)

    def projection(self, below, most=None):
        if columns(below):
            return {"op": "SimpleProjection", "inputs": [below], "columns": self.some(columns(below), 1, most)}

    def same_columns(self, below):
        """A projection to all columns, most in the order that they have."""
        there = columns(below)
        if there:
            kept = there if self.chance(0.8) else self.some(there, len(there))
            return {"op": "SimpleProjection", "inputs": [below], "columns": kept}

    def columns_alone(self, below):
        """A selection of columns, seldom one under an alias, which may be its own name."""
        exprs = [[{"op": "Column", "name": it}, "col", it] for it in self.some(names(columns(below)), 1, 4)]
        if not exprs:
            return None
        if self.chance(0.2):
            exprs[0][1:] = "alias", self.one_of(exprs[0][2], "new")
        return self.of_expressions(below, {"op": "Select", "exprs": exprs, "options": self.marks(3)})

    def needless(self, below):
        """Nodes over one another, of which rules leave fewer."""
        kinds = self.one_of((self.cache,), (self.projection, self.same_columns, self.columns_alone, self.true_filter, self.cache))
        for _ in range(self.one_of(1, 2, 2, 3)):
            below = self.one_of(*kinds)(below) or below
        return below

    def of_expressions(self, below, told):
        node = {"inputs": [below]} | told
        return node | {"schema": made(node, columns(below))}

    def select(self, below):
        exprs = self.several(columns(below), 1, 4)
        return self.of_expressions(below, {"op": "Select", "exprs": exprs, "options": self.marks(3)})

    def count(self, below):
        exprs = [self.put_out({"op": "Len"})]
        return self.of_expressions(below, {"op": "Select", "exprs": exprs, "options": self.marks(3)})

    def count_of_files(self):
        """A count of the rows of files, or of what is nearly that."""
        below = self.files_like(self.scan(), self.one_of(0, 1, 2, 3))
        if self.chance(0.1):
            below = self.one_of(self.filter, self.slice, self.cache, self.sink, self.needless, self.added)(below) or below
        if self.chance(0.1):
            return self.select(below)
        if self.chance(0.1):
            expr = {"op": "Alias", "input": {"op": "Len"}, "name": "n"}
            return self.of_expressions(below, {"op": "Select", "exprs": [self.put_out(expr)], "options": self.marks(3)})
        return self.count(below)

    def files_like(self, scan, levels):
        """A scan with the columns of another, mostly of the same format, or a union of such, some of them below projections."""
        if levels == 0:
            there = len(scan["sources"].get("paths", scan["sources"].get("buffers")))
            kind, found = next((kind, range(3) if kind == "buffers" else PATHS) for kind in scan["sources"])
            if self.chance(0.05):
                kind, found = self.one_of(("paths", PATHS), ("buffers", range(3)))
            count = there if scan["hive"] is not None or self.chance(0.5) else self.one_of(0, 1, 2)
            of = {"kind": self.one_of("Csv", "Ipc", "Parquet")} if self.chance(0.05) else {}
            return scan | {"sources": {kind: [self.one_of(*found) for _ in range(count)]}} | of
        inputs = [self.files_like(scan, self.one_of(0, 0, levels - 1)) for _ in range(self.one_of(1, 1, 2, 3))]
        if columns(scan):
            inputs = [self.all_columns(it) if self.chance(0.2) else it for it in inputs]
        marks = dict(zip(("maintain_order", "parallel", "rechunk", "flattened"), self.marks(4)))
        return {"op": "Union", "inputs": inputs, "slice": None} | marks

    def all_columns(self, below):
        """A projection to all columns."""
        return {"op": "SimpleProjection", "inputs": [below], "columns": columns(below)}

    def added(self, below):
        exprs = self.several(columns(below), 0, 4)
        return self.of_expressions(below, {"op": "HStack", "exprs": exprs, "options": self.marks(3)})

    def additions(self, below):
        """Additions on one another, seldom with another node between them: of columns that are new, that were there, or that the
        addition below makes, made of these and of each other's."""
        lower = []
        for _ in range(self.one_of(2, 2, 3, 3, 4, 5)):
            there = columns(below)
            exprs = dict(self.added_column(there, lower) for _ in range(self.one_of(0, 1, 1, 2, 2, 3, 3, 4)))
            told = {"op": "HStack", "exprs": list(exprs.values()), "options": self.marks(3)}
            below, lower = self.of_expressions(below, told), list(exprs)
            if self.chance(0.05):
                below, lower = self.one_of(self.filter, self.slice, self.cache, self.same_columns)(below) or below, []
        return below

    def added_column(self, there, lower):
        """The name of an added column, and the expression, over some columns, of which the addition below makes those named."""
        near, others = ([it for it in there if (it[0] in lower) is of_lower] for of_lower in (True, False))
        read = self.one_of(near, others, others, there) or there
        expr = self.expression(read, self.any_type(read), self.one_of(0, 0, 1, 2))
        found = self.one_of(lower, names(others), names(others), NAMES, NAMES)
        kind, name = own_name(expr)
        new = [expr, kind, name] if kind == "alias" or self.chance(0.15) else [expr, "alias", self.one_of(*(found or NAMES))]
        return new[2], new

    def group_by(self, below):
        keys = self.several(columns(below), 1, self.one_of(1, 1, 2))
        aggs = [it for it in self.several(columns(below), 0, 3, True) if it[2] not in [key[2] for key in keys]]
        told = {"op": "GroupBy", "keys": keys, "aggs": aggs, "maintain_order": self.chance(0.6), "slice": None}
        return self.of_expressions(below, told)

    def sort(self, below):
        there = columns(below)
        keys = [self.expression(there, self.plain_type(there), self.one_of(0, 0, 1)) for _ in range(self.one_of(1, 2))]
        return {
            "op": "Sort", "inputs": [below], "by": [self.put_out(it) for it in keys],
            "descending": self.marks(self.one_of(1, len(keys))), "nulls_last": self.marks(self.one_of(1, len(keys))),
            "maintain_order": self.chance(0.5), "slice": None,
        }

    def distinct(self, below):
        subset = self.some(names(columns(below)), 1) or None
        return {
            "op": "Distinct", "inputs": [below], "subset": subset if self.chance(0.6) else None, "slice": None,
            "maintain_order": self.chance(0.5), "keep": self.one_of("First", "Last", "Any", "None"),
        }

    def orders(self, below):
        """Sorts over one another and over nodes that look at the order of rows, or pass it on where it isn't demanded."""
        kinds = (
            self.sort, self.sort, self.sort, self.sort_by_sum, self.distinct, self.distinct, self.row_by_row, self.row_by_row,
            self.summed, self.summed, self.sorted_inputs, self.one_of(self.filter, self.slice, self.sink, self.same_columns),
        )
        for kind in self.some(kinds, 2, 4):
            below = kind(below) or below
        return below

    def sort_by_sum(self, below):
        """A sort by a key that isn't made of each row alone."""
        key = {"op": "Agg", "kind": "Sum", "input": self.leaf(columns(below), "Int64", True)}
        return self.sort(below) | {"by": [self.put_out(key)], "descending": [False], "nulls_last": [True]}

    def row_by_row(self, below):
        """A selection or an addition, mostly of what is made of each row alone."""
        there = columns(below)
        exprs = [self.expression(there, self.any_type(there), self.one_of(0, 0, 1, 2), self.chance(0.85)) for _ in range(2)]
        found = list({named[2]: named for named in map(self.put_out, exprs)}.values())
        return self.of_expressions(below, {"op": self.one_of("Select", "HStack"), "exprs": found, "options": self.marks(3)})

    def summed(self, below):
        """A grouping, mostly in any order, by columns, with aggregates of what is made of each row alone."""
        there = columns(below)
        keys = [self.put_out(self.expression(there, self.plain_type(there), self.one_of(0, 0, 0, 1), self.chance(0.9)))]
        aggs = {}
        for kind in self.some(AGGREGATES, 0, self.one_of(1, 1, 2)):
            of = "Int64" if kind == "Sum" else self.plain_type(there)
            expr = {"op": "Agg", "kind": kind, "input": self.expression(there, of, self.one_of(0, 0, 1), self.chance(0.9))}
            named = self.put_out({"op": "Alias", "input": expr, "name": "s"} if self.chance(0.1) else expr)
            if named[2] != keys[0][2]:
                aggs[named[2]] = named
        told = {"keys": keys, "aggs": list(aggs.values()), "maintain_order": self.chance(0.2), "slice": None}
        return self.of_expressions(below, {"op": "GroupBy"} | told)

    def sorted_inputs(self, below):
        """A union of a few inputs, most of them sorted."""
        inputs = [self.sort(below) if self.chance(0.7) else below for _ in range(self.one_of(1, 2, 2, 3))]
        marks = dict(zip(("maintain_order", "parallel", "rechunk", "flattened"), self.marks(4)))
        return {"op": "Union", "inputs": inputs, "slice": None} | marks

    def slice(self, below):
        offset, count = self.one_of(0, 1, 2, -1, -2, -9, 9), self.one_of(0, 1, 2, 3, 9)
        return {"op": "Slice", "inputs": [below], "offset": offset, "len": count}

    def sink(self, below):
        return {"op": "Sink", "inputs": [below]}

    def cache(self, below):
        return {"op": "Cache", "inputs": [below], "id": self.one_of(0, 1, 2), "hits": self.one_of(*HITS)}

    def union(self, levels):
        return self.union_of(self.node(levels - 1))

    def union_of(self, below):
        """A union of inputs that have the columns of a node, some of them unions in turn."""
        kinds = (self.filter, self.slice, self.cache, self.union_of, self.same_rows, lambda it: it)
        inputs = [self.one_of(*kinds)(below) for _ in range(self.one_of(1, 2, 2, 3))]
        marks = dict(zip(("maintain_order", "parallel", "rechunk", "flattened"), self.marks(4)))
        return {"op": "Union", "inputs": inputs, "slice": None} | marks

    def same_rows(self, below):
        """A union below what rules leave out."""
        below = self.union_of(below)
        if columns(below) and self.chance(0.5):
            return {"op": "SimpleProjection", "inputs": [below], "columns": columns(below)}
        return self.true_filter(below)

    def concatenation(self, levels):
        inputs, schema = [], []
        for below in (self.node(levels - 1) for _ in range(self.one_of(1, 2, 2, 3))):
            new = [it for it in columns(below) if it[0] not in names(schema)]
            if columns(below) and not new:
                continue
            if new != columns(below):
                below = {"op": "SimpleProjection", "inputs": [below], "columns": new}
            inputs, schema = [*inputs, below], schema + new
        return {"op": "HConcat", "inputs": inputs, "schema": schema, "parallel": self.chance(0.5)} if inputs else None

    def function(self, below):
        there = columns(below)
        kinds = (self.rename, self.rename, self.unpivot, self.unpivot, self.explode, self.row_index, self.fast_count)
        kind, told = self.one_of(*kinds)(there)
        node = {"op": "MapFunction", "inputs": [below], "function": {kind: told}}
        if told is None:
            return None
        found = names(function_columns(node, there))
        return node if len(set(found)) == len(found) else None

    def rename(self, there):
        existing = self.some(dict.fromkeys([*names(there), "q", "zz"]), 0, 3)
        new = self.some(existing, len(existing)) if self.chance(0.4) else self.some(dict.fromkeys([*names(there), "r", "s", "zz"]), 0, 3)
        count = min(len(existing), len(new))
        return "Rename", {"existing": existing[:count], "new": new[:count], "swapping": self.chance(0.5)}

    def explode(self, there):
        lists = [name for name, it in there if is_list(it)]
        return "Explode", {"columns": self.some(lists * 2)} if lists else None

    def unpivot(self, there):
        if not there:
            return "Unpivot", None
        of = self.any_type(there)
        on = self.some([name for name, it in there if it == of], 1)
        others = [name for name, it in there if it != of]
        if not on or self.chance(0.3):
            on, index = [], self.some(others, len(others))
            if len(index) == len(there):
                return "Unpivot", None
        else:
            index = self.some(names(there), 0, 2)
        given = {"variable_name": self.one_of(None, None, "vn"), "value_name": self.one_of(None, None, "vv")}
        return "Unpivot", {"index": index, "on": on} | given

    def row_index(self, _):
        return "RowIndex", {"name": self.one_of("i", "n", "a", "x"), "offset": self.one_of(None, 0, 3, 2**32 - 1)}

    def fast_count(self, _):
        sources = self.one_of({"paths": ["t", "u", "t"]}, {"buffers": [0, 1]}, {"paths": []})
        return "FastCount", {"sources": sources, "kind": self.one_of("Csv", "Parquet"), "alias": self.one_of(None, "n")}

    def join(self, levels):
        left = self.node(levels - 1)
        right = left if self.chance(0.3) else self.node(levels - 1)
        node = {
            "op": "Join", "inputs": [left, right], "left_on": [], "right_on": [], "how": self.one_of(*KINDS),
            "coalesce": self.one_of(*COALESCE), "suffix": self.one_of(None, None, None, "_r", "", "_x"),
            "join_nulls": self.chance(0.4), "maintain_order": self.one_of(*ORDERS), "slice": None, "options": None,
            "parallel": [self.chance(0.5), False],
        }
        if node["how"] != "Cross" and not self.keyed(node):
            return None
        node["schema"] = join_columns(node, columns(left), columns(right))
        found = names(node["schema"])
        if len(set(found)) < len(found):
            return None
        predicate = self.expression(node["schema"], "Boolean", 2, True)
        if node["how"] == "Cross" and is_elementwise(predicate) and self.chance(0.6):
            node["options"] = {"cross": self.put_out(predicate)}
        return node

    def keyed(self, node):
        """Gives a join keys, and tells whether it can have some."""
        sides = [columns(it) for it in node["inputs"]]
        of_sides = [{it for _, it in there} for there in sides]
        common = set.intersection({"Int64"} if node["how"] == "IEJoin" else set(PLAIN), *of_sides)
        if not common:
            return False
        is_plain = {"left_on": node["how"] in ("Right", "Full"), "right_on": node["how"] != "Right"}
        for _ in range(self.one_of(1, 2)):
            of = self.one_of(*sorted(common))
            for key, there in zip(is_plain, sides):
                found = [name for name, it in there if it == of]
                is_column = coalesces(node) and is_plain[key] or self.chance(0.75)
                expr = {"op": "Column", "name": self.one_of(*found)} if is_column else self.expression(there, of, 1)
                node[key].append(self.put_out(expr))
        if node["how"] == "IEJoin":
            node["options"] = {"ie": [self.one_of("Lt", "LtEq", "Gt", "GtEq") for _ in node["left_on"]]}
        return True
