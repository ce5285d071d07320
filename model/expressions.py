"""Expressions: their walk, names, types and values.

An expression is the dict of its entry in a document, with the expressions themselves in the place of their numbers. A frame
is a pair: its height, and a dict from each column's name to its values. A value is None (null), an int, a str, a bool, or a
list of such.
"""
import itertools

PLAIN = ("Int64", "String", "Boolean")
COMPARISONS = ("Eq", "NotEq", "Lt", "LtEq", "Gt", "GtEq", "EqValidity", "NotEqValidity")
LOGIC = ("And", "Or", "Xor")
ROW_BY_ROW = ("Not", "IsNull", "IsNotNull", "FillNull")
# The keys under which an expression has an operand, and those under which it has a list of them, in walk order.
OPERAND = ("input", "left", "right", "truthy", "falsy", "predicate", "function")
OPERANDS = ("inputs", "partition_by")


class TypesDiffer(Exception):
    """The types of operands don't go together."""


def list_of(plain):
    return f"List({plain})"


def is_list(data_type):
    return data_type.startswith("List(")


def element(data_type):
    """The type of the elements of a list type."""
    return data_type[len("List("):-1]


def operands(expr):
    """The expressions that one is made of, in walk order."""
    return [expr[key] for key in OPERAND if key in expr] + [it for key in OPERANDS for it in expr.get(key, [])]


def with_operands(expr, call):
    """An expression with what a call gives in the place of each operand, in walk order."""
    expr = dict(expr)
    expr.update({key: call(expr[key]) for key in OPERAND if key in expr})
    expr.update({key: [call(it) for it in expr[key]] for key in OPERANDS if key in expr})
    return expr


def walk(expr):
    yield expr
    for operand in operands(expr):
        yield from walk(operand)


def leaves(expr):
    """The names of the columns, in walk order, each once."""
    return list(dict.fromkeys(it["name"] for it in walk(expr) if it["op"] == "Column"))


def own_name(expr):
    """The kind and the text of the name that an expression gives itself, or None where nothing gives one."""
    match expr["op"]:
        case "Column":
            return "col", expr["name"]
        case "Literal":
            return "lit", "literal"
        case "Len":
            return "lit", "len"
        case "Alias":
            return "alias", expr["name"]
        case "Window":
            return own_name(expr["function"])
    return next(filter(None, map(own_name, operands(expr))), None)


def is_scalar(expr):
    match expr["op"]:
        case "Column" | "Window":
            return False
        case "Literal" | "Agg" | "Len":
            return True
    return all(map(is_scalar, operands(expr)))


def is_elementwise(expr):
    kinds = ("Column", "Literal", "Alias", "BinaryExpr", "Ternary")
    return all(it["op"] in kinds or it["op"] == "Function" and it["name"] in ROW_BY_ROW for it in walk(expr))


def has_form(expr):
    """Whether windows have keys and a scalar function, and functions as many inputs as they take."""
    for it in walk(expr):
        if it["op"] == "Window" and not (it["partition_by"] and is_scalar(it["function"])):
            return False
        if it["op"] == "Function" and len(it["inputs"]) != (2 if it["name"] == "FillNull" else 1):
            return False
    return True


def type_of(expr, types):
    """The type over columns whose types are given by name; TypesDiffer where there is none."""
    if expr["op"] == "Column":
        return types[expr["name"]]
    if expr["op"] == "Literal":
        return expr["type"]
    of = [type_of(it, types) for it in operands(expr)]
    match expr["op"]:
        case "Len":
            return "Int64"
        case "Alias" | "Window":
            return of[0]
        case "BinaryExpr":
            return type_of_operator(expr["operator"], *of)
        case "Ternary":
            truthy, falsy, predicate = of
            return wanted(truthy, truthy == falsy and predicate == "Boolean")
        case "Agg":
            return type_of_aggregate(expr["kind"], of[0])
        case "Function":
            return type_of_function(expr["name"], of)


def wanted(data_type, holds):
    if not holds:
        raise TypesDiffer
    return data_type


def type_of_operator(operator, left, right):
    if operator in COMPARISONS:
        return wanted("Boolean", left == right and left in PLAIN)
    if operator in LOGIC:
        return wanted("Boolean", left == right == "Boolean")
    return wanted("Int64", left == right == "Int64")


def type_of_aggregate(kind, of):
    match kind:
        case "Min" | "Max":
            return wanted(of, of in PLAIN)
        case "Sum":
            return wanted(of, of == "Int64")
        case "NUnique":
            return wanted("Int64", of in PLAIN)
        case "Count" | "CountAll":
            return "Int64"
        case "Implode":
            return wanted(list_of(of), of in PLAIN)
    return of


def type_of_function(name, of):
    match name:
        case "Not":
            return wanted("Boolean", of == ["Boolean"])
        case "CumSum":
            return wanted("Int64", of == ["Int64"])
        case "FillNull":
            return wanted(of[0], of[0] == of[1])
        case "IsNull" | "IsNotNull":
            return "Boolean"
    return of[0]


def wrapped(number):
    """The number of 64 bits with a sign that is left of one."""
    return (number + 2**63) % 2**64 - 2**63


def ordinal(value):
    """By what values of one type are ordered: texts by their bytes."""
    return value.encode() if isinstance(value, str) else value


def identity(value):
    """Equal for two values just where they are the same, null and null too."""
    return ("List", *map(identity, value)) if isinstance(value, list) else (type(value).__name__, value)


class One:
    """The value of a scalar expression."""

    def __init__(self, value):
        self.value = value


def spread(value, height):
    """The values of an expression, one for each row."""
    return [value.value] * height if isinstance(value, One) else value


def taken(frame, rows):
    """The given rows of a frame."""
    return len(rows), {name: [values[row] for row in rows] for name, values in frame[1].items()}


def row_by_row(values, function):
    if all(isinstance(it, One) for it in values):
        return One(function(*(it.value for it in values)))
    height = next(len(it) for it in values if not isinstance(it, One))
    return [function(*row) for row in zip(*(spread(it, height) for it in values))]


def evaluated(expr, frame):
    """A list with a value for each row, or, of a scalar expression, One."""
    match expr["op"]:
        case "Column":
            return frame[1][expr["name"]]
        case "Literal":
            return One(expr["value"])
        case "Len":
            return One(frame[0])
        case "Window":
            return evaluated_window(expr, frame)
    values = [evaluated(it, frame) for it in operands(expr)]
    match expr["op"]:
        case "Alias":
            return values[0]
        case "BinaryExpr":
            return row_by_row(values, lambda left, right: combined(expr["operator"], left, right))
        case "Ternary":
            return row_by_row(values, lambda truthy, falsy, predicate: truthy if predicate is True else falsy)
        case "Agg":
            return One(aggregated(expr["kind"], [values[0].value] if isinstance(values[0], One) else values[0]))
        case "Function":
            return applied(expr["name"], values)


def combined(operator, left, right):
    """What an operator makes of two values."""
    match operator:
        case "EqValidity":
            return identity(left) == identity(right)
        case "NotEqValidity":
            return identity(left) != identity(right)
        case "And" if left is False or right is False:
            return False
        case "Or" if left is True or right is True:
            return True
    if left is None or right is None:
        return None
    match operator:
        case "And":
            return True
        case "Or":
            return False
        case "Xor":
            return left != right
        case "Plus":
            return wrapped(left + right)
        case "Minus":
            return wrapped(left - right)
        case "Multiply":
            return wrapped(left * right)
    return compared(operator, ordinal(left), ordinal(right))


def compared(operator, left, right):
    match operator:
        case "Eq":
            return left == right
        case "NotEq":
            return left != right
        case "Lt":
            return left < right
        case "LtEq":
            return left <= right
        case "Gt":
            return left > right
        case "GtEq":
            return left >= right


def aggregated(kind, values):
    there = [it for it in values if it is not None]
    match kind:
        case "Min":
            return min(there, key=ordinal, default=None)
        case "Max":
            return max(there, key=ordinal, default=None)
        case "Sum":
            return wrapped(sum(there))
        case "Count":
            return len(there)
        case "CountAll":
            return len(values)
        case "NUnique":
            return len(set(map(identity, values)))
        case "First":
            return values[0] if values else None
        case "Last":
            return values[-1] if values else None
        case "Implode":
            return list(values)


def applied(name, values):
    """What a function makes of the values of its inputs."""
    match name:
        case "Not":
            return row_by_row(values, lambda it: None if it is None else not it)
        case "IsNull":
            return row_by_row(values, lambda it: it is None)
        case "IsNotNull":
            return row_by_row(values, lambda it: it is not None)
        case "FillNull":
            return row_by_row(values, lambda it, filler: filler if it is None else it)
    if isinstance(values[0], One):
        return values[0]
    if name == "Reverse":
        return values[0][::-1]
    sums = itertools.accumulate((it or 0 for it in values[0]), lambda total, it: wrapped(total + it))
    return [None if it is None else total for it, total in zip(values[0], sums)]


def groups(keys, height):
    """The rows that are the same in each key, a list for each group, by their first rows."""
    found = {}
    for row in range(height):
        found.setdefault(tuple(identity(key[row]) for key in keys), []).append(row)
    return list(found.values())


def evaluated_window(expr, frame):
    keys = [spread(evaluated(it, frame), frame[0]) for it in expr["partition_by"]]
    values = [None] * frame[0]
    for rows in groups(keys, frame[0]):
        value = evaluated(expr["function"], taken(frame, rows)).value
        for row in rows:
            values[row] = value
    return values
