"""What is left of a valid plan whose orders of rows are checked: without the sorts that nothing observes, and with the marks of
distinct rows and of unions as they are then.

The order of the rows of a node is demanded or not. That of the root is.
"""
from expressions import is_elementwise

PROJECTION_PUSHDOWN, COMM_SUBEXPR_ELIM, EAGER, CHECK_ORDER_OBSERVE = 1, 512, 4096, 65536
ORDERLESS = ("Min", "Max", "Sum", "Count", "CountAll", "NUnique")


def all_elementwise(put_out):
    return all(is_elementwise(expr) for expr, _, _ in put_out)


def is_orderless(expr):
    """Whether an expression is an aggregate that makes the same of rows in any order."""
    return expr["op"] == "Agg" and expr["kind"] in ORDERLESS and is_elementwise(expr["input"])


def demands(node, demanded):
    """Whether a node demands the order of its input, or of the last one, where its own is demanded or not."""
    match node["op"]:
        case "Sort":
            return demanded and (node["maintain_order"] or not all_elementwise(node["by"]))
        case "Distinct":
            return node["keep"] in ("First", "Last") or demanded and node["maintain_order"]
        case "Union":
            return demanded
        case "GroupBy":
            orderless = all_elementwise(node["keys"]) and all(is_orderless(expr) for expr, _, _ in node["aggs"])
            return node["maintain_order"] or not orderless
        case "HStack" | "Select":
            return demanded or not all_elementwise(node["exprs"])
    return True


def ordered(node, demanded=True):
    """What is left of a node whose order is demanded or not."""
    of_last = demands(node, demanded)
    if node["op"] == "Sort" and not demanded:
        return ordered(node["inputs"][0], of_last)
    below = [ordered(it) for it in node["inputs"][:-1]] + [ordered(it, of_last) for it in node["inputs"][-1:]]
    return node | {"inputs": below} | marks(node, demanded)


def marks(node, demanded):
    """The marks of a node that follow from a demand."""
    match node["op"]:
        case "Distinct":
            return {"maintain_order": demanded and node["maintain_order"]}
        case "Union":
            return {"maintain_order": demanded}
    return {}


def has_orders(node):
    """Whether a plan groups or sorts rows, or has distinct ones."""
    return node["op"] in ("GroupBy", "Sort", "Distinct") or any(map(has_orders, node["inputs"]))


def checks_orders(flags, root):
    """Whether orders are checked in a plan: this is asked for, and the plan is looked at, as it isn't in an eager run."""
    looked_at = not flags & EAGER and flags & (COMM_SUBEXPR_ELIM | PROJECTION_PUSHDOWN)
    return bool(looked_at and flags & CHECK_ORDER_OBSERVE) and has_orders(root)
