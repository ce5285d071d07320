"""Documents as trees, and trees as documents and as listings."""
from clusters import CLUSTER_WITH_COLUMNS, clustered
from columns import columns, conditions, reads, scans
from counts import counted
from expressions import with_operands
from orders import checks_orders, ordered
from pruning import Pruning
from rows import contents_of, frame_of
from rules import rules_of, settled

PROJECTION_PUSHDOWN = 1
PUT_OUT = ("exprs", "by", "keys", "aggs", "left_on", "right_on")


def with_put_out(node, call):
    """An entry of a node with what a call gives in the place of each expression that is put out, in their order."""
    node = dict(node)

    def named(it):
        return [call(it[0]), *it[1:]]

    node.update({key: [named(it) for it in node[key]] for key in PUT_OUT if key in node})
    if node.get("predicate"):
        node["predicate"] = named(node["predicate"])
    for it in conditions(node) if node["op"] == "Join" else []:
        node["options"] = {"cross": named(it)}
    return node


def links_of(entry):
    """The numbers of the inputs of a node."""
    if entry["op"] == "Join":
        return [entry["left"], entry["right"]]
    return entry["inputs"] if "inputs" in entry else [entry["input"]] if "input" in entry else []


def tree(document):
    """The plan at the root of a document, each node with its number under `number`."""

    def expression(number):
        return with_operands(document["exprs"][number], expression)

    def node(number):
        entry = document["nodes"][number]
        below = {"inputs": [node(it) for it in links_of(entry)], "number": number}
        entry = {key: it for key, it in entry.items() if key not in ("input", "left", "right", "inputs")}
        return with_put_out(entry, expression) | below

    return node(document["root"])


def plan(root):
    """The plan of a tree, numbered from 0 in walk order."""
    nodes, exprs = [], []

    def add_expression(expr):
        number = len(exprs)
        exprs.append(None)
        exprs[number] = with_operands(expr, add_expression)
        return number

    def add(node):
        number = len(nodes)
        nodes.append(None)
        entry = with_put_out({key: it for key, it in node.items() if key not in ("inputs", "number")}, add_expression)
        below = [add(it) for it in node["inputs"]]
        if node["op"] == "Join":
            entry["left"], entry["right"] = below
        elif node["op"] in ("Union", "HConcat"):
            entry["inputs"] = below
        elif below:
            entry["input"] = below[0]
        nodes[number] = entry
        return number

    add(root)
    return {"exprs": exprs, "nodes": nodes, "root": 0}


def optimized(document, extra=()):
    """What the passes leave of the plan of a valid document, where rules are handed in behind those of its flags."""
    root, flags = tree(document), document["flags"]
    if checks_orders(flags, root):
        root = ordered(root)
    if flags & PROJECTION_PUSHDOWN:
        pruning = Pruning()
        root = pruning.pruned(root, [])
        if pruning.counts:
            root = counted(root)
    if flags & CLUSTER_WITH_COLUMNS:
        root = clustered(root)
    return settled(root, [*rules_of(flags), *extra])


def listing(document, extra=()):
    """What `optimize` lists of a valid document whose tables fit."""
    root = optimized(document, extra)
    rows = None
    if document["tables"] is not None:
        height, values = frame_of(root, contents_of(document["tables"]))
        rows = {"columns": [[name, data_type, values[name]] for name, data_type in columns(root)], "height": height}
    return {"plan": plan(root), "reads": [reads(it) for it in scans(root)], "rows": rows}
