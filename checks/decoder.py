"""A plain decoder of modules, to judge the proved one by: `module` says what a module has, and `lines` what
`wasmi_module_dump` writes of it. Both raise `Bad` of bytes that are no module."""

VAL = {0x7F: "I32", 0x7E: "I64", 0x7D: "F32", 0x7C: "F64", 0x7B: "V128", 0x70: "FuncRef", 0x6F: "ExternRef"}
KINDS = ["Func", "Table", "Memory", "Global"]
ORDER = [1, 2, 3, 4, 5, 6, 7, 8, 9, 12, 10, 11]


class Bad(Exception):
    pass


def need(condition):
    if not condition:
        raise Bad()


class Bytes:
    def __init__(self, data):
        self.data, self.at = data, 0

    def take(self, count):
        need(self.at + count <= len(self.data))
        self.at += count
        return self.data[self.at - count:self.at]

    def byte(self):
        return self.take(1)[0]

    def leb(self, bits, signed=False):
        """All groups of seven bits as one number, then the range and the length are looked at."""
        value = count = 0
        while True:
            byte = self.byte()
            value |= (byte & 0x7F) << (7 * count)
            count += 1
            if byte < 0x80:
                break
            need(count * 7 < bits)
        if signed and byte & 0x40:
            value -= 1 << (7 * count)
        low, high = (-(1 << (bits - 1)), 1 << (bits - 1)) if signed else (0, 1 << bits)
        need(low <= value < high)
        return value

    def vector(self, item):
        return [item() for _ in range(self.leb(32))]

    def name(self):
        try:
            return self.take(self.leb(32)).decode("utf-8")
        except UnicodeDecodeError:
            raise Bad()

    def one_of(self, table):
        byte = self.byte()
        need(byte in table)
        return table[byte]

    def limits(self, top):
        flag = self.byte()
        need(flag < 2)
        low = self.leb(32)
        high = self.leb(32) if flag else None
        need(low <= top and (high is None or low <= high <= top))
        return low, high

    def table(self):
        return self.one_of({0x70: "FuncRef", 0x6F: "ExternRef"}), self.limits(2**32 - 1)

    def memory(self):
        return self.limits(65536)

    def global_type(self):
        return self.one_of(VAL), self.one_of({0: "false", 1: "true"})


def sections(data):
    need(data[:8] == b"\0asm\1\0\0\0")
    reader, last, found = Bytes(data), -1, {}
    reader.take(8)
    while reader.at < len(data):
        number = reader.byte()
        contents = reader.take(reader.leb(32))
        if number == 0:
            continue
        need(number in ORDER and ORDER.index(number) > last)
        last = ORDER.index(number)
        found[number] = contents
    return found


def module(data):
    """What a module has, by name: `types`, each with its parameters and results; `imports`, each a module's name, a field,
    a kind, and the index of a type or the type itself; `Func`, the indices of the types of its own functions; `Table`,
    `Memory` and `Global`, the types of its own; `inits`, the first values of globals; `exports`, each a name, a kind and
    an index."""
    found, counts = sections(data), dict.fromkeys(KINDS, 0)

    def section(number, item):
        if number not in found:
            return []
        reader = Bytes(found[number])
        items = reader.vector(lambda: item(reader))
        need(reader.at == len(reader.data))
        return items

    def func_type(r):
        need(r.byte() == 0x60)
        return r.vector(lambda: r.one_of(VAL)), r.vector(lambda: r.one_of(VAL))

    def type_index(r):
        index = r.leb(32)
        need(index < len(types))
        return index

    def kind(r):
        code = r.byte()
        need(code < 4)
        return KINDS[code]

    def import_(r):
        asked, field, what = r.name(), r.name(), kind(r)
        counts[what] += 1
        read = {"Func": type_index, "Table": Bytes.table, "Memory": Bytes.memory, "Global": Bytes.global_type}
        return asked, field, what, read[what](r)

    def global_(r):
        return r.global_type(), init(r)

    def init(r):
        code = r.byte()
        if code == 0x41:
            value = "I32", r.leb(32, True)
        elif code == 0x42:
            value = "I64", r.leb(64, True)
        elif code == 0x43:
            value = "F32", list(r.take(4))
        elif code == 0x44:
            value = "F64", list(r.take(8))
        elif code == 0xFD:
            need(r.leb(32) == 12)
            value = "V128", list(r.take(16))
        elif code == 0xD0:
            value = "RefNull", r.one_of(VAL)
            need(value[1] in ("FuncRef", "ExternRef"))
        elif code in (0xD2, 0x23):
            value = "RefFunc" if code == 0xD2 else "GlobalGet", r.leb(32)
        else:
            raise Bad()
        need(r.byte() == 0x0B)
        return value

    def export(r):
        name, what, index = r.name(), kind(r), r.leb(32)
        need(index < counts[what])
        return name, what, index

    types = section(1, func_type)
    it = {"types": types, "imports": section(2, import_)}
    for what, number, item in [("Func", 3, type_index), ("Table", 4, Bytes.table), ("Memory", 5, Bytes.memory), ("Global", 6, global_)]:
        it[what] = section(number, item)
        counts[what] += len(it[what])
    it["inits"] = [value for _, value in it["Global"]]
    it["Global"] = [type_ for type_, _ in it["Global"]]
    for name, index in it["inits"]:
        need(name not in ("RefFunc", "GlobalGet") or index < counts["Func" if name == "RefFunc" else "Global"])
    it["exports"] = section(7, export)
    names = [name for name, _, _ in it["exports"]]
    need(len(set(names)) == len(names))
    return it


# ---- as wasmi_module_dump writes it ----


def show_limits(limits):
    low, high = limits
    return "Limits { min: %d, max: %s }" % (low, "None" if high is None else "Some(%d)" % high)


def show(kind, type_):
    if kind == "Func":
        return str(type_)
    if kind == "Table":
        return "TableType { element: %s, limits: %s }" % (type_[0], show_limits(type_[1]))
    if kind == "Memory":
        return "MemoryType { limits: %s }" % show_limits(type_)
    return "GlobalType { value: %s, mutable: %s }" % type_


def lines(data):
    """The lines of a module."""
    it = module(data)
    out = ["type [%s] [%s]" % (", ".join(params), ", ".join(results)) for params, results in it["types"]]
    out += ["import %s %s %s(%s)" % (asked, field, kind, show(kind, type_)) for asked, field, kind, type_ in it["imports"]]
    for kind in ["Func", "Table", "Memory"]:
        out += ["%s %s" % (kind.lower(), show(kind, type_)) for type_ in it[kind]]
    out += ["global %s %s(%s)" % (show("Global", type_), *init) for type_, init in zip(it["Global"], it["inits"])]
    return out + ["export %s %s %d" % item for item in it["exports"]]
