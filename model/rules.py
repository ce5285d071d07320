"""What the rules leave of a valid plan. They are called at each node, again and again, until none of them finds anything.

A rule gives the node that is to stand in the place of the one that it is told, or None. It may clear marks below that one.
"""
from columns import columns

EAGER, FAST_PROJECTION = 4096, 16384
MOST_HITS = 2**32 - 1


def is_own_column(put_out):
    expr, kind, _ = put_out
    return expr["op"] == "Column" and kind != "alias"


def select_to_projection(node):
    """A selection of columns, none of them under an alias, is a projection."""
    if node["op"] == "Select" and all(map(is_own_column, node["exprs"])):
        return {"op": "SimpleProjection", "inputs": node["inputs"], "columns": node["schema"]}


def collapse(node):
    """The same; and of two projections, of two caches, and of a projection that changes nothing, one node is left."""
    match node, node["inputs"]:
        case {"op": "SimpleProjection"}, [{"op": "SimpleProjection"} as below]:
            return node | {"inputs": below["inputs"]}
        case {"op": "SimpleProjection"}, [below] if node["columns"] == columns(below):
            return below
        case {"op": "Cache"}, [{"op": "Cache"} as below]:
            return below | {"hits": min(node["hits"] + below["hits"], MOST_HITS)}
    return select_to_projection(node)


def met_below(node):
    """The nodes below one, the last input first, each before those below it."""
    for it in reversed(node["inputs"]):
        yield it
        yield from met_below(it)


def delay_rechunk(node):
    """The first scan of files or union below a grouping by one key isn't rechunked, unless a join comes before it."""
    if node["op"] == "GroupBy" and len(node["keys"]) == 1:
        first = next((it for it in met_below(node) if it["op"] in ("Scan", "Union", "Join")), None)
        if first and first["op"] != "Join":
            first["rechunk"] = False


def flatten_union(node):
    """A union takes up the inputs of all unions among its inputs, if one of these isn't marked."""
    if node["op"] == "Union" and any(it["op"] == "Union" and not it["flattened"] for it in node["inputs"]):
        taken = [it["inputs"] if it["op"] == "Union" else [it] for it in node["inputs"]]
        return node | {"inputs": sum(taken, []), "flattened": True}


def drop_true_filter(node):
    """A filter by the literal true is left out."""
    if node["op"] == "Filter":
        expr = node["predicate"][0]
        if expr["op"] == "Literal" and expr["value"] is True:
            return node["inputs"][0]


def rules_of(flags):
    """The rules that flags ask for, in the order in which they are called."""
    eager = bool(flags & EAGER)
    of_projections = [select_to_projection if eager else collapse] if flags & FAST_PROJECTION else []
    return of_projections + ([] if eager else [delay_rechunk, flatten_union])


def walked(node, rules):
    """A plan after one walk, the last input first, and whether a rule gave a node."""
    given = False
    for rule in rules:
        while (new := rule(node)) is not None:
            node, given = new, True
    below = [walked(it, rules) for it in reversed(node["inputs"])][::-1]
    return node | {"inputs": [it for it, _ in below]}, given or any(it for _, it in below)


def settled(root, rules):
    """What is left once a walk gives nothing."""
    given = True
    while given:
        root, given = walked(root, rules)
    return root
