"""What queries say, told from the rules alone: the first rule that one breaks, and whether a document satisfies it."""

import unicodedata

from plain_json import Dec


def children(query):
    form, found = query
    if form in ("andQuery", "orQuery", "nearQuery"):
        return found["queries"]
    if form == "notQuery":
        return [found["query"]]
    return [found["positiveQuery"], found["negativeQuery"]] if form == "andNotQuery" else []


def all_of(query):
    """A query and all below it, each before its children."""
    yield query
    for child in children(query):
        yield from all_of(child)


def depth(query):
    return 1 + max((depth(child) for child in children(query)), default=0)


def parts(query):
    lists = ("text", "property", "value", "uris")
    return sum(1 + sum(len(found.get(name, [])) for name in lists) for _, found in all_of(query))


def is_near_child(query):
    if query[0] == "orQuery":
        return all(is_near_child(child) for child in children(query))
    return query[0] in ("wordQuery", "jsonPropertyWordQuery")


def broken(query, indexes=()):
    """The first rule that a query breaks, as a tuple that begins with its name, or None."""
    if depth(query) > 32:
        return ("deep",)
    if parts(query) > 10_000:
        return ("many",)
    every = list(all_of(query))
    if any(form == "directoryQuery" and not all(u.endswith("/") for u in found["uris"]) for form, found in every):
        return ("directory",)
    if any(form == "nearQuery" and not all(is_near_child(c) for c in found["queries"]) for form, found in every):
        return ("near",)
    for form, found in every:
        if form == "jsonPropertyRangeQuery":
            for name in found["property"]:
                for value in found["value"]:
                    kind = "decimal" if isinstance(value, Dec) else "string"
                    if (name, kind) not in indexes:
                        return ("norange", name, kind)
    return None


def words(text):
    """The maximal runs of letters, marks and numbers."""
    kept = "".join(c if unicodedata.category(c)[0] in "LMN" else " " for c in text)
    return [word for word in kept.split(" ") if word]


def is_blind(text, options):
    if "case-sensitive" in options:
        return False
    if "case-insensitive" in options:
        return True
    return not any(unicodedata.category(c) in ("Lu", "Lt") for c in text)


def seen(text, blind):
    return [word.casefold() if blind else word for word in words(text)]


def scalars(node, owner=None):
    """The scalars of a tree in document order, each with the name of the property whose it is."""
    if isinstance(node, dict):
        for name, value in node.items():
            yield from scalars(value, name)
    elif isinstance(node, list):
        for item in node:
            yield from scalars(item, owner)
    else:
        yield owner, node


def text_starts(root, texts, options, names):
    """The numbers of the words at which some of the texts starts, in strings of these properties or of any."""
    base = 0
    for owner, value in scalars(root):
        if not isinstance(value, str):
            continue
        for text in texts if names is None or owner in names else []:
            blind = is_blind(text, options)
            wanted, there = seen(text, blind), seen(value, blind)
            for at in range(len(there)):
                if wanted and there[at : at + len(wanted)] == wanted:
                    yield base + at
        base += len(words(value))


def starts(query, root):
    form, found = query
    if form == "orQuery":
        return sorted({start for child in found["queries"] for start in starts(child, root)})
    if form in ("wordQuery", "jsonPropertyWordQuery"):
        return sorted(set(text_starts(root, found["text"], found.get("options", []), found.get("property"))))
    return []


def is_near(lists, distance, ordered):
    """Whether one start of each child can be chosen so that they are near: each start in turn is tried as the least."""
    if not lists:
        return True
    for least in sorted({start for one in lists for start in one}):
        floor, last = least, None
        for one in lists:
            fit = [s for s in one if floor <= s <= least + distance]
            if not fit:
                break
            last = min(fit)
            floor = last + 1 if ordered else least
        else:
            return True
    return False


def equal(found, wanted, exact, options):
    if isinstance(found, str) and isinstance(wanted, str):
        blind = is_blind(wanted, options)
        return found == wanted if exact else seen(found, blind) == seen(wanted, blind)
    return type(found) is type(wanted) and found == wanted


def compares(found, op, wanted):
    if type(found) is not type(wanted) or not isinstance(found, (str, Dec)):
        return False
    a, b = (found.units, wanted.units) if isinstance(found, Dec) else (found.encode(), wanted.encode())
    return {"<": a < b, "<=": a <= b, ">": a > b, ">=": a >= b, "=": a == b, "!=": a != b}[op]


def in_directory(uri, directory, infinite):
    rest = uri[len(directory) :]
    return uri.startswith(directory) and rest != "" and (infinite or "/" not in rest)


def holds(query, uri, collections, root):
    """Whether the document satisfies the query."""
    form, found = query
    options = found.get("options", [])
    below = lambda: (holds(child, uri, collections, root) for child in children(query))
    if form in ("trueQuery", "falseQuery"):
        return form == "trueQuery"
    if form in ("andQuery", "orQuery"):
        return all(below()) if form == "andQuery" else any(below())
    if form == "notQuery":
        return not next(below())
    if form == "andNotQuery":
        positive, negative = below()
        return positive and not negative
    if form in ("wordQuery", "jsonPropertyWordQuery"):
        return bool(starts(query, root))
    if form == "nearQuery":
        return is_near([starts(c, root) for c in found["queries"]], found.get("distance", 10), "ordered" in options)
    if form in ("collectionQuery", "documentQuery"):
        return any(name in ([uri] if form == "documentQuery" else collections) for name in found["uris"])
    if form == "directoryQuery":
        return any(in_directory(uri, d, found.get("depth", "1") == "infinity") for d in found["uris"])
    own = [value for owner, value in scalars(root) if owner is not None and owner in found["property"]]
    if form == "jsonPropertyRangeQuery":
        return any(compares(v, found["operator"], g) for v in own for g in found["value"])
    return any(equal(v, g, "exact" in options, options) for v in own for g in found["value"])
