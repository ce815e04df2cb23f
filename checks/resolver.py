"""A plain resolver of imports, to judge the proved one by: `outcome` says what `wasmi_link` writes and with which status
it ends, of files by path and bytes."""
import os

from decoder import KINDS, Bad, module

TYPES = {"I32": "i32", "I64": "i64", "F32": "f32", "F64": "f64", "V128": "v128", "FuncRef": "funcref", "ExternRef": "externref"}


def named(path):
    """The name of the module in a file."""
    file = os.path.basename(path)
    return file[:-len(".wasm")] if file.endswith(".wasm") else file


# ---- texts ----


def shown_name(name):
    return "".join("\\u{%x}" % ord(c) if ord(c) < 0x20 or 0x7F <= ord(c) < 0xA0 else c for c in name)


def shown_values(types):
    return "(%s)" % " ".join(TYPES[ty] for ty in types)


def shown_limits(limits):
    low, high = limits
    return "%d..%s" % (low, "" if high is None else high)


def shown_type(kind, type_):
    if kind == "Func":
        params, results = type_
        return shown_values(params) + " -> " + (TYPES[results[0]] if len(results) == 1 else shown_values(results))
    if kind == "Table":
        return TYPES[type_[0]] + " " + shown_limits(type_[1])
    if kind == "Memory":
        return shown_limits(type_)
    return ("mut " if type_[1] == "true" else "") + TYPES[type_[0]]


# ---- what is asked and given ----


def asked_type(it, kind, type_):
    return it["types"][type_] if kind == "Func" else type_


def given_type(it, kind, index):
    """The type of an item of a module: those that it imports come first."""
    items = [asked_type(it, k, t) for _, _, k, t in it["imports"] if k == kind] + [asked_type(it, kind, t) for t in it[kind]]
    return items[index]


def within(asked, given):
    (low, high), (given_low, given_high) = asked, given
    return given_low >= low and (high is None or (given_high is not None and given_high <= high))


def matches(kind, asked, given):
    if kind == "Table":
        return asked[0] == given[0] and within(asked[1], given[1])
    return within(asked, given) if kind == "Memory" else asked == given


def report(modules):
    """The lines of a report on modules with their names, and whether all imports are found."""
    lines, counts = [], {"found": 0, "missing": 0, "differs": 0}
    for name, it in modules:
        for asked, field, kind, type_ in it["imports"]:
            type_ = asked_type(it, kind, type_)
            there = [other for other_name, other in modules if other_name == asked][:1]
            exports = [(k, given_type(other, k, index)) for other in there for n, k, index in other["exports"] if n == field]
            if not exports:
                result, answer = "missing", "missing"
            elif exports[0][0] == kind and matches(kind, type_, exports[0][1]):
                result, answer = "found", shown_name(asked)
            else:
                given_kind, given = exports[0]
                word = "" if given_kind == kind else given_kind.lower() + " "
                result, answer = "differs", "%s has %s%s" % (shown_name(asked), word, shown_type(given_kind, given))
            counts[result] += 1
            lines.append("%s: %s %s.%s %s: %s" % (
                shown_name(name), kind.lower(), shown_name(asked), shown_name(field), shown_type(kind, type_), answer))
    types = [(tuple(params), tuple(results)) for _, it in modules for params, results in it["types"]]
    names = {name for name, _ in modules}
    for _, it in modules:
        names |= {text for asked, field, _, _ in it["imports"] for text in (asked, field)}
        names |= {text for text, _, _ in it["exports"]}
    lines.append("%d modules, %d types of %d, %d names, %d imports: %d found, %d missing, %d differs" % (
        len(modules), len(set(types)), len(types), len(names), sum(counts.values()), *counts.values()))
    return lines, counts["missing"] + counts["differs"] == 0


def outcome(files):
    """What the program writes of files, each a path and its bytes, and its status."""
    modules = []
    for path, data in files:
        try:
            modules.append((named(path), module(data)))
        except Bad:
            return b"", 2
    lines, complete = report(modules)
    return "".join(line + "\n" for line in lines).encode(), 0 if complete else 1
