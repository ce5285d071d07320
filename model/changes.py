"""Documents with a change or two, drawn by chance, most of them with a fault."""
import copy

from columns import expressions_of
from drawing import NAMES, Chance
from expressions import OPERAND, OPERANDS, PLAIN
from form import AGGREGATES, COALESCE, FUNCTIONS, HOW, KEEP, OPERATORS, TYPES

CHOICES = {"how": HOW, "coalesce": COALESCE, "keep": KEEP}
ODD = (None, True, -1, 0, 2**32, 2**63, 1.5, "", "a", "Int64", [], {}, ["a"], [0, "col", "a"])
SCHEMAS = ("schema", "reader", "output")
TEXTS = ("subset", "existing", "new", "index", "on", "columns")


def parts(value):
    """Each array and each object within a value, and the value itself."""
    if isinstance(value, (dict, list)):
        yield value
        for it in value.values() if isinstance(value, dict) else value:
            yield from parts(it)


class Changing(Chance):
    """What is changed by one seed."""

    def changed(self, document):
        document = copy.deepcopy(document)
        for _ in range(self.one_of(1, 1, 1, 2, 3)):
            nodes, exprs = document["nodes"], document["exprs"]
            changes = (self.node, self.node, self.columns, self.columns, self.expression, self.put_out, self.twice)
            self.one_of(*changes)(self.one_of(*nodes), nodes, exprs)
        if self.chance(0.03):
            document["root"] = self.random.randint(0, len(document["nodes"]))
        if self.chance(0.05):
            document["flags"] ^= 1 << self.random.randint(0, 18)
        if document["tables"] and self.chance(0.1):
            self.one_of(document["tables"], self.one_of(*document["tables"])["columns"]).pop()
        return document

    def other_form(self, document):
        """A document with something odd at one place, mostly not a document then."""
        document = copy.deepcopy(document)
        part = self.one_of(*(it for it in parts(document) if it))
        key = self.one_of(*(part if isinstance(part, dict) else range(len(part))))
        match self.one_of("odd", "odd", "odd", "gone", "more"):
            case "odd":
                part[key] = copy.deepcopy(self.one_of(*ODD))
            case "gone":
                del part[key]
            case "more" if isinstance(part, dict):
                part[self.one_of(*NAMES, "op", "slice")] = None
            case "more":
                part.append(copy.deepcopy(part[key]))
        return document

    def link(self, entry, count):
        """Gives an entry another input."""
        keys = [key for key in OPERAND if type(entry.get(key)) is int]
        lists = [key for key in OPERANDS if entry.get(key)]
        match self.one_of(*keys, *lists) if keys or lists else None:
            case None:
                return
            case key if key in keys:
                entry[key] = self.random.randint(0, count)
            case key:
                entry[key][-1] = self.random.randint(0, count)

    def expression(self, _, nodes, exprs):
        if not exprs:
            return
        entry = self.one_of(*exprs)
        match entry["op"]:
            case _ if self.chance(0.2):
                self.link(entry, len(exprs))
            case "Column" | "Alias":
                entry["name"] = self.one_of(*NAMES)
            case "BinaryExpr":
                entry["operator"] = self.one_of(*OPERATORS)
            case "Agg":
                entry["kind"] = self.one_of(*AGGREGATES)
            case "Literal":
                entry.update({"type": self.one_of(*PLAIN), "value": None})
            case "Function" if self.chance(0.5):
                entry["name"] = self.one_of(*FUNCTIONS)
            case "Function":
                entry["inputs"] = entry["inputs"][1:]
            case "Window":
                entry["partition_by"] = []

    def put_out(self, entry, nodes, exprs):
        """Gives an expression that a node puts out another name, or another number."""
        found = expressions_of(entry)
        if found:
            named = self.one_of(*found)
            match self.one_of(0, 1, 2):
                case 0:
                    named[0] = self.random.randint(0, len(exprs))
                case 1:
                    named[1] = self.one_of("col", "lit", "alias")
                case 2:
                    named[2] = self.one_of(*NAMES)

    def twice(self, entry, *_):
        """Makes it likely that a name comes twice among the columns of a node."""
        match entry:
            case {"op": "Join"}:
                entry["suffix"] = ""
            case {"function": {"RowIndex": told}}:
                told["name"] = self.one_of(*NAMES)
            case {"function": {"Unpivot": told}}:
                told["value_name"] = self.one_of("variable", *told["index"])
            case {"function": {"Rename": told}} if told["new"]:
                told[self.one_of("existing", "new")][-1] = self.one_of(told["new"][0], *NAMES)
            case _:
                found = expressions_of(entry)
                if len(found) > 1:
                    found[-1][1:] = "alias", found[0][2]

    def columns(self, entry, *_):
        """Changes a list of columns or of names."""
        told = list(entry["function"].values())[0] if entry["op"] == "MapFunction" else entry
        schemas = (*SCHEMAS, "columns") if entry["op"] == "SimpleProjection" else SCHEMAS
        pairs = [key for key in schemas if told.get(key)]
        texts = [key for key in TEXTS if told.get(key) and key not in schemas]
        if pairs and self.chance(0.6):
            key = self.one_of(*pairs)
            told[key] = self.other_columns(told[key])
        elif texts:
            key = self.one_of(*texts)
            told[key] = self.other_names(told[key])

    def other_columns(self, schema):
        match self.one_of("fewer", "order", "type", "name"):
            case "fewer":
                return self.some(schema, 0, len(schema) - 1)
            case "order":
                return self.some(schema, len(schema))
            case "type":
                name = self.one_of(*schema)[0]
                return [[it[0], self.one_of(*TYPES)] if it[0] == name else it for it in schema]
        new = self.one_of(*NAMES)
        return [it for it in schema[:-1] if it[0] != new] + [[new, schema[-1][1]]]

    def other_names(self, texts):
        match self.one_of("fewer", "again", "other"):
            case "fewer":
                return texts[1:]
            case "again":
                return [*texts, self.one_of(*texts)]
        return [self.one_of(*NAMES), *texts[1:]]

    def node(self, entry, nodes, exprs):
        """Changes something else of a node."""
        choices = [key for key in CHOICES if key in entry]
        match entry["op"]:
            case _ if self.chance(0.1):
                nodes[self.random.randrange(len(nodes))] = {"op": "Invalid"}
            case _ if self.chance(0.2):
                self.link(entry, len(nodes))
            case _ if "slice" in entry and self.chance(0.1):
                entry["slice"] = [0, 1]
            case "Join" if self.chance(0.5):
                cross = {"cross": [len(exprs) // 2, "col", "a"]}
                entry["options"] = self.one_of(None, {"ie": ["Lt"]}, {"ie": ["Gt", "LtEq"]}, cross)
            case "Join" if self.chance(0.5):
                self.shorter(entry, "left_on", "right_on")
            case _ if choices:
                key = self.one_of(*choices)
                entry[key] = self.one_of(*CHOICES[key])
            case "Scan":
                self.scan(entry)
            case _:
                self.shorter(entry, "exprs", "by", "keys", "aggs", "descending", "nulls_last", "inputs")

    def shorter(self, entry, *keys):
        found = [key for key in keys if entry.get(key)]
        if found:
            key = self.one_of(*found)
            entry[key] = entry[key][1:] if self.chance(0.7) else [*entry[key], entry[key][0]]

    def scan(self, entry):
        match self.one_of("reader", "none", "fewer", "unlike", "unlike", "number", "path", "predicate"):
            case "reader":
                entry["reader"] = None
            case "none":
                entry["hive"] = []
            case "fewer" if entry["hive"]:
                entry["hive"] = entry["hive"][1:]
            case "unlike" if entry["hive"]:
                entry["hive"][-1] = self.one_of([], [["y", self.one_of(*TYPES), None]])
            case "number":
                entry["row_index"] = self.one_of(None, [self.one_of(*NAMES), 7])
            case "path":
                entry["path_column"] = self.one_of(None, *NAMES)
            case "predicate":
                entry["predicate"] = [0, "col", "a"]
