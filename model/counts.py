"""What stands in the place of a valid plan that counts the rows of files, and does nothing else: the bare count of these."""
from pruning import is_count


def scans_counted(node):
    """The scans of a node whose rows can be counted without a run, from left to right; None where they can't."""
    if node["op"] == "Scan":
        return [node]
    if node["op"] != "Union":
        return None
    of_inputs = [scans_counted(it["inputs"][0] if it["op"] == "SimpleProjection" else it) for it in node["inputs"]]
    return None if None in of_inputs else sum(of_inputs, [])


def told_of(scans):
    """All sources of scans in order, and their format; None where these differ, or where some sources are paths and some not."""
    formats = {(scan["kind"], *scan["sources"]) for scan in scans}
    if len(formats) == 1:
        (kind, of_sources), = formats
        return {"sources": {of_sources: [it for scan in scans for it in scan["sources"][of_sources]]}, "kind": kind}


def counted(root):
    """A plan, or the count that stands in its place."""
    scans = is_count(root) and scans_counted(root["inputs"][0])
    told = scans and told_of(scans)
    if not told:
        return root
    _, kind, name = root["exprs"][0]
    told["alias"] = name if kind == "alias" else None
    frame = {"op": "DataFrameScan", "inputs": [], "frame": None, "schema": [], "output": None}
    return {"op": "MapFunction", "inputs": [frame], "function": {"FastCount": told}}
