"""What clustering leaves of a valid plan: an expression of an addition of columns that stands directly on another one goes
down into that, where it has no reason to stay above it.
"""
from columns import columns, made
from pruning import leaves_of

CLUSTER_WITH_COLUMNS = 8


def outputs(exprs):
    return {name for _, _, name in exprs}


def staying(upper, lower):
    """The places of the upper expressions that stay above the lower ones."""
    there, read = outputs(lower), leaves_of(upper)
    stay = {place for place, it in enumerate(upper) if there & set(leaves_of([it])) or it[2] in there and it[2] in read}
    while True:
        awaited = leaves_of([upper[place] for place in stay])
        more = {place for place, it in enumerate(upper) if it[2] in awaited and it[2] not in there} - stay
        if not more:
            return stay
        stay |= more


def merged(upper, lower):
    """Options: what both allow, and the spreading of single values where one of them asks for it."""
    return [upper[0] and lower[0], upper[1] and lower[1], upper[2] or lower[2]]


def addition(below, exprs, options):
    node = {"op": "HStack", "inputs": [below], "exprs": exprs, "options": options}
    return node | {"schema": made(node, columns(below))}


def met(node):
    """What becomes of an addition on another, or None where that stays as it is, and of any other node."""
    below = node["inputs"][0] if node["op"] == "HStack" else node
    if below is node or below["op"] != "HStack":
        return None
    upper, lower = node["exprs"], below["exprs"]
    stay = staying(upper, lower)
    if stay == set(range(len(upper))) != set():
        return None
    going = {place: it for place, it in enumerate(upper) if place not in stay}
    behind = {place: it for place, it in going.items() if it[2] not in outputs(lower)}
    by_name = {it[2]: it for it in going.values()}
    options = merged(node["options"], below["options"])
    new = addition(below["inputs"][0], [by_name.get(it[2], it) for it in lower] + list(behind.values()), options)
    if not stay:
        return new
    new = addition(new, [it for place, it in enumerate(upper) if place in stay], options)
    if any(place > min(stay) for place in behind):
        return {"op": "SimpleProjection", "inputs": [new], "columns": node["schema"]}
    return new


def walked(node):
    """A plan after one walk from the root down. What became of an addition is looked at again at once."""
    while (new := met(node)) is not None:
        node = new
    return node | {"inputs": [walked(it) for it in node["inputs"]]}


def clustered(root):
    """What is left once a walk moves nothing."""
    while (new := walked(root)) != root:
        root = new
    return root
