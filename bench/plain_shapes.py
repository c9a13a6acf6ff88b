"""Queries as JSON, told from the rules alone: the first faulty node, and the canonical text. A query is a tuple: the
name of its form, and what belongs to it."""

from plain_json import Dec

STRINGS, SCALARS, RANGED, QUERY, QUERIES, OPTIONS, OPERATOR, DISTANCE, DEPTH = range(9)
CASES = ("case-sensitive", "case-insensitive")
ORDERS = ("ordered", "unordered")
# Of each form its members in the order in which they are written, with their kinds, and how many are required.
FORMS = {
    "trueQuery": ([], 0),
    "falseQuery": ([], 0),
    "andQuery": ([("queries", QUERIES)], 1),
    "orQuery": ([("queries", QUERIES)], 1),
    "notQuery": ([("query", QUERY)], 1),
    "andNotQuery": ([("positiveQuery", QUERY), ("negativeQuery", QUERY)], 2),
    "wordQuery": ([("text", STRINGS), ("options", OPTIONS)], 1),
    "jsonPropertyWordQuery": ([("property", STRINGS), ("text", STRINGS), ("options", OPTIONS)], 2),
    "jsonPropertyValueQuery": ([("property", STRINGS), ("value", SCALARS), ("options", OPTIONS)], 2),
    "jsonPropertyRangeQuery": ([("property", STRINGS), ("operator", OPERATOR), ("value", RANGED)], 3),
    "nearQuery": ([("queries", QUERIES), ("distance", DISTANCE), ("options", OPTIONS)], 1),
    "collectionQuery": ([("uris", STRINGS)], 1),
    "documentQuery": ([("uris", STRINGS)], 1),
    "directoryQuery": ([("uris", STRINGS), ("depth", DEPTH)], 1),
}


class Shape(Exception):
    def __init__(self, node):
        super().__init__(node)
        self.node = node


def size(node):
    """How many nodes a tree has."""
    if isinstance(node, list):
        return 1 + sum(size(item) for item in node)
    if isinstance(node, dict):
        return 1 + sum(size(value) for value in node.values())
    return 1


def is_scalar(node):
    return not isinstance(node, (list, dict))


def fits_one(kind, node):
    if kind == STRINGS:
        return isinstance(node, str)
    if kind == SCALARS:
        return is_scalar(node)
    return isinstance(node, (str, Dec))


def judge_list(kind, node, number):
    if not isinstance(node, list):
        if not fits_one(kind, node):
            raise Shape(number)
        return [node]
    for place, item in enumerate(node):
        if not fits_one(kind, item):
            raise Shape(number + 1 + sum(size(x) for x in node[:place]))
    return list(node)


def judge_options(form, node, number):
    if not isinstance(node, list):
        raise Shape(number)
    texts = [item for item in node if isinstance(item, str)]
    if all(case in texts for case in CASES) or all(order in texts for order in ORDERS):
        raise Shape(number)
    known = ORDERS if form == "nearQuery" else CASES
    for place, item in enumerate(node):
        language = isinstance(item, str) and item.startswith("lang=") and form != "nearQuery"
        exact = item == "exact" and form == "jsonPropertyValueQuery"
        if not (isinstance(item, str) and (item in known or language or exact)):
            raise Shape(number + 1 + sum(size(x) for x in node[:place]))
    return texts


def judge_value(form, kind, node, number):
    if kind == QUERY:
        return judge(node, number)
    if kind == QUERIES:
        if not isinstance(node, list):
            raise Shape(number)
        out, number = [], number + 1
        for item in node:
            out.append(judge(item, number))
            number += size(item)
        return out
    if kind == OPTIONS:
        return judge_options(form, node, number)
    if kind in (STRINGS, SCALARS, RANGED):
        return judge_list(kind, node, number)
    if kind == OPERATOR:
        good = isinstance(node, str) and node in ("<", "<=", ">", ">=", "=", "!=")
    elif kind == DEPTH:
        good = isinstance(node, str) and node in ("1", "infinity")
    else:
        good = isinstance(node, Dec) and node.units % 10**18 == 0 and 0 <= node.units // 10**18 < 2**32
    if not good:
        raise Shape(number)
    return node.units // 10**18 if kind == DISTANCE else node


def judge(node, number=0):
    """The query of a node with this number, or `Shape` with the first faulty node's."""
    if not isinstance(node, dict) or len(node) != 1:
        raise Shape(number)
    (form, argument), = node.items()
    if form not in FORMS:
        raise Shape(number)
    members, required = FORMS[form]
    kinds = dict(members)
    fits = isinstance(argument, dict) and all(name in kinds for name in argument)
    if not fits or not all(name in argument for name, _ in members[:required]):
        raise Shape(number + 1)
    found, at = {}, number + 2
    for name, value in argument.items():
        found[name] = judge_value(form, kinds[name], value, at)
        at += size(value)
    return (form, found)


def node_of(query):
    """The tree of a query's canonical text."""
    form, found = query
    options = found.get("options", [])
    out = {}
    for name, kind in FORMS[form][0]:
        if kind == QUERIES:
            out[name] = [node_of(child) for child in found[name]]
        elif kind == QUERY:
            out[name] = node_of(found[name])
        elif kind == DISTANCE:
            if found.get(name, 10) != 10:
                out[name] = Dec(found[name] * 10**18)
        elif kind == DEPTH:
            if found.get(name, "1") != "1":
                out[name] = found[name]
        elif kind == OPTIONS:
            kept = [o for o in CASES + ("exact", "ordered") if o in options]
            if kept:
                out[name] = kept
        else:
            out[name] = found[name]
    return {form: out}
