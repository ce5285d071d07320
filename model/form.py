"""Whether a JSON value is a document. A form is a function that tells whether a value has it."""
from expressions import COMPARISONS, LOGIC, PLAIN, element, is_list, list_of

TYPES = (*PLAIN, *map(list_of, PLAIN))
OPERATORS = (*COMPARISONS, *LOGIC, "Plus", "Minus", "Multiply")
AGGREGATES = ("Min", "Max", "Sum", "Count", "CountAll", "NUnique", "First", "Last", "Implode")
FUNCTIONS = ("Not", "IsNull", "IsNotNull", "FillNull", "Reverse", "CumSum")
INEQUALITIES = ("Lt", "LtEq", "Gt", "GtEq")
KINDS = ("Csv", "NDJson", "Parquet", "Ipc")
HOW = ("Inner", "Left", "Right", "Full", "Cross", "Semi", "Anti", "IEJoin")
COALESCE = ("JoinSpecific", "CoalesceColumns", "KeepColumns")
ORDERS = ("None", "Left", "Right", "LeftRight", "RightLeft")
KEEP = ("First", "Last", "Any", "None")
# The bits of flags that have a name and start no pass that isn't built.
FLAGS = 1 + 4 + 8 + 16 + 32 + 64 + 128 + 256 + 512 + 1024 + 2048 + 4096 + 8192 + 16384 + 65536 + 131072


def whole(least, most):
    return lambda it: type(it) is int and least <= it <= most


def text(it):
    return isinstance(it, str)


def truth(it):
    return isinstance(it, bool)


def one_of(*texts):
    return lambda it: text(it) and it in texts


def null_or(form):
    return lambda it: it is None or form(it)


def array(form):
    return lambda it: isinstance(it, list) and all(map(form, it))


def row(*forms):
    return lambda it: isinstance(it, list) and len(it) == len(forms) and all(form(of) for form, of in zip(forms, it))


def record(**forms):
    return lambda it: isinstance(it, dict) and it.keys() == forms.keys() and all(form(it[key]) for key, form in forms.items())


def either(*forms):
    return lambda it: any(form(it) for form in forms)


def distinct(form, by=lambda it: it[0]):
    """Entries of a form, of which no two have the same name."""
    return lambda it: array(form)(it) and all(by(one) != by(other) for at, one in enumerate(it) for other in it[:at])


def value(data_type):
    """A value of a type, or null."""
    plain = {"Int64": NUMBER, "String": text, "Boolean": truth}
    return null_or(array(value(element(data_type))) if is_list(data_type) else plain[data_type])


def literal(it):
    return record(op=text, type=one_of(*PLAIN), value=lambda _: True)(it) and value(it["type"])(it["value"])


def hive_value(it):
    return row(text, one_of(*TYPES), lambda _: True)(it) and value(it[1])(it[2])


def table(it):
    """The table of a source: of each column as many values of its type as the table has rows."""
    source = either(record(path=text), record(buffer=LINK), record(frame=LINK))
    column = row(text, one_of(*TYPES), lambda _: True)
    return record(source=source, columns=distinct(column), height=LINK)(it) and all(
        array(value(data_type))(values) and len(values) == it["height"] for _, data_type, values in it["columns"]
    )


LINK = whole(0, 2**32 - 1)
NUMBER = whole(-(2**63), 2**63 - 1)
SLICE = null_or(row(NUMBER, LINK))
SCHEMA = distinct(row(text, one_of(*TYPES)))
PUT_OUT = row(LINK, one_of("col", "lit", "alias"), text)
NAMES = array(text)
SOURCES = either(record(paths=NAMES), record(buffers=array(LINK)))
OPTIONS = row(truth, truth, truth)
COMPARED = one_of(*INEQUALITIES)
ENTRY_OF_EXPRESSION = {
    "Column": record(op=text, name=text), "Literal": literal, "Alias": record(op=text, input=LINK, name=text),
    "BinaryExpr": record(op=text, operator=one_of(*OPERATORS), left=LINK, right=LINK),
    "Ternary": record(op=text, predicate=LINK, truthy=LINK, falsy=LINK),
    "Agg": record(op=text, kind=one_of(*AGGREGATES), input=LINK),
    "Function": record(op=text, name=one_of(*FUNCTIONS), inputs=array(LINK)),
    "Window": record(op=text, function=LINK, partition_by=array(LINK)), "Len": record(op=text),
}
FUNCTION = either(
    record(Rename=record(existing=NAMES, new=NAMES, swapping=truth)), record(Explode=record(columns=NAMES)),
    record(Unpivot=record(index=NAMES, on=NAMES, variable_name=null_or(text), value_name=null_or(text))),
    record(RowIndex=record(name=text, offset=null_or(LINK))),
    record(FastCount=record(sources=SOURCES, kind=one_of(*KINDS), alias=null_or(text))),
)
ENTRY_OF_NODE = {
    "Slice": record(op=text, input=LINK, offset=NUMBER, len=LINK), "Filter": record(op=text, input=LINK, predicate=PUT_OUT),
    "Scan": record(
        op=text, kind=one_of(*KINDS), sources=SOURCES, schema=SCHEMA, reader=null_or(SCHEMA),
        hive=null_or(array(distinct(hive_value))), output=null_or(SCHEMA), columns=null_or(NAMES),
        row_index=null_or(row(text, LINK)), path_column=null_or(text), rechunk=truth, slice=SLICE, predicate=null_or(PUT_OUT),
    ),
    "DataFrameScan": record(op=text, frame=null_or(LINK), schema=SCHEMA, output=null_or(SCHEMA)),
    "SimpleProjection": record(op=text, input=LINK, columns=SCHEMA),
    "Select": record(op=text, input=LINK, exprs=array(PUT_OUT), schema=SCHEMA, options=OPTIONS),
    "HStack": record(op=text, input=LINK, exprs=array(PUT_OUT), schema=SCHEMA, options=OPTIONS),
    "Sort": record(
        op=text, input=LINK, by=array(PUT_OUT), descending=array(truth), nulls_last=array(truth), maintain_order=truth,
        slice=SLICE,
    ),
    "Cache": record(op=text, input=LINK, id=LINK, hits=LINK),
    "GroupBy": record(
        op=text, input=LINK, keys=array(PUT_OUT), aggs=array(PUT_OUT), schema=SCHEMA, maintain_order=truth, slice=SLICE,
    ),
    "Join": record(
        op=text, left=LINK, right=LINK, left_on=array(PUT_OUT), right_on=array(PUT_OUT), schema=SCHEMA, how=one_of(*HOW),
        coalesce=one_of(*COALESCE), suffix=null_or(text), join_nulls=truth, maintain_order=one_of(*ORDERS), slice=SLICE,
        options=null_or(either(record(cross=PUT_OUT), record(ie=either(row(COMPARED), row(COMPARED, COMPARED))))),
        parallel=row(truth, truth),
    ),
    "Distinct": record(
        op=text, input=LINK, subset=null_or(NAMES), maintain_order=truth, keep=one_of(*KEEP), slice=SLICE,
    ),
    "MapFunction": record(op=text, input=LINK, function=FUNCTION),
    "Union": record(
        op=text, inputs=array(LINK), maintain_order=truth, parallel=truth, rechunk=truth, flattened=truth, slice=SLICE,
    ),
    "HConcat": record(op=text, inputs=array(LINK), schema=SCHEMA, parallel=truth),
    "Sink": record(op=text, input=LINK), "Invalid": record(op=text),
}


def entry(forms):
    """An entry whose `op` says which form it has."""
    return lambda it: isinstance(it, dict) and text(it.get("op")) and it["op"] in forms and forms[it["op"]](it)


is_document = record(
    root=LINK, nodes=array(entry(ENTRY_OF_NODE)), exprs=array(entry(ENTRY_OF_EXPRESSION)),
    flags=lambda it: whole(0, 2**32 - 1)(it) and it & ~FLAGS == 0, shared=lambda it: it is False,
    tables=null_or(distinct(table, by=lambda it: it["source"])),
)
