#!/usr/bin/env python3
"""An independent reading of netlists and test logs, written from docs/FORMATS.md and docs/REFUSALS.md alone.

    inspect_reference.py FOLDER                 prints what `inspect` prints in that folder, without the sentences
    inspect_reference.py --compare PROGRAM [N]  makes N random cases, good and damaged, and compares with PROGRAM (crates/inspect/out/inspect)
"""
import os
import random
import subprocess
import sys
import tempfile

NAME = set(b"abcdefghijklmnopqrstuvwxyzABCDEFGHIJKLMNOPQRSTUVWXYZ0123456789_")
KINDS = {b"AND": (2, 8), b"OR": (2, 8), b"NAND": (2, 8), b"NOR": (2, 8), b"XOR": (2, 2), b"XNOR": (2, 2), b"NOT": (1, 1)}


class Refused(Exception):
    pass


def tokens(line):
    out, i = [], 0
    while i < len(line):
        b = line[i]
        if b == 32:
            i += 1
        elif b in NAME:
            j = i
            while j < len(line) and line[j] in NAME:
                j += 1
            out.append(line[i:j])
            i = j
        else:
            out.append(line[i:i + 1])
            i += 1
    return out


def is_word(t):
    return t[0] in NAME


def statement(ts):
    """('INPUT'|'OUTPUT', name) or ('GATE', name, kind, names); None if the line has none of the forms."""
    def names(rest):
        found = []
        while True:
            if len(rest) < 2 or not is_word(rest[0]) or len(rest[0]) > 16:
                return None
            found.append(rest[0])
            if rest[1] == b",":
                rest = rest[2:]
            elif rest[1] == b")" and len(rest) == 2:
                return found
            else:
                return None
    if len(ts) < 2 or not is_word(ts[0]):
        return None
    if ts[1] == b"(":
        found = names(ts[2:])
        if found is None or len(found) != 1 or ts[0] not in (b"INPUT", b"OUTPUT"):
            return None
        return (ts[0].decode(), found[0])
    if ts[1] == b"=":
        if len(ts) < 4 or ts[2] not in KINDS or ts[3] != b"(" or len(ts[0]) > 16:
            return None
        found = names(ts[4:])
        if found is None:
            return None
        return ("GATE", ts[0], ts[2], found)
    return None


def read(text):
    if len(text) > 60000:
        raise Refused(2, 0, 0)
    inputs, gates, outputs, defined = [], [], [], set()
    lines = text.split(b"\n")
    if lines and lines[-1] == b"":
        lines.pop()
    for number, line in enumerate(lines, 1):
        if line == b"" or line[:1] == b"#":
            continue
        for column, b in enumerate(line, 1):
            if b not in NAME and b not in b" (),=":
                raise Refused(3, number, column)
        s = statement(tokens(line))
        if s is None:
            raise Refused(4, number, 0)
        if s[0] == "GATE":
            low, high = KINDS[s[2]]
            if not low <= len(s[3]) <= high:
                raise Refused(5, number, 0)
        if s[0] != "OUTPUT" and s[1] in defined:
            raise Refused(6, number, 0)
        if s[0] == "GATE" and any(n not in defined for n in s[3]):
            raise Refused(7, number, 0)
        table, limit = {"INPUT": (inputs, 64), "OUTPUT": (outputs, 64), "GATE": (gates, 256)}[s[0]]
        if len(table) >= limit:
            raise Refused(8, number, 0)
        table.append((number,) + s[1:])
        if s[0] != "OUTPUT":
            defined.add(s[1])
    if not inputs or not outputs or not gates:
        raise Refused(9, 0, 0)
    seen = set()
    for number, name in outputs:
        if name not in defined or name in seen:
            raise Refused(10, number, 0)
        seen.add(name)
    return inputs, gates, outputs


def whole_bytes(bits):
    return (bits + 7) // 8


def bit(group, k):
    return group[k // 8] >> (k % 8) & 1 if k // 8 < len(group) else 0


def required(inputs, outputs, rest):
    measured = sum(bit(rest, k) for k in range(outputs))
    return whole_bytes(outputs) + whole_bytes(inputs) + whole_bytes(measured)


def cut(inputs, outputs, log):
    pieces = []
    while log:
        n = required(inputs, outputs, log)
        pieces.append(log[:n])
        log = log[n:]
    return pieces


def clean(group, bits):
    return all(bit(group, k) == 0 for k in range(bits, 8 * len(group)))


def decode(inputs, outputs, held, record):
    if held >= 32:
        raise Refused(11, 0, 0)
    if len(record) != required(inputs, outputs, record):
        raise Refused(12, 0, 0)
    a, b = whole_bytes(outputs), whole_bytes(outputs) + whole_bytes(inputs)
    marks, applied, values = record[:a], record[a:b], record[b:]
    places = [k for k in range(outputs) if bit(marks, k)]
    if not (clean(marks, outputs) and clean(applied, inputs) and clean(values, len(places))):
        raise Refused(13, 0, 0)
    shown = ["-"] * outputs
    for n, k in enumerate(places):
        shown[k] = str(bit(values, n))
    return "".join(str(bit(applied, k)) for k in range(inputs)), "".join(shown)


def gives(kind, bits):
    plain = {b"AND": all, b"NAND": all, b"OR": any, b"NOR": any, b"NOT": any, b"XOR": lambda b: sum(b) % 2, b"XNOR": lambda b: sum(b) % 2}[kind]
    return int(bool(plain(bits)) != (kind in (b"NAND", b"NOR", b"NOT", b"XNOR")))


def missed(inputs, gates, outputs, test):
    """The names of the outputs at which the test measured something else than the netlist gives."""
    value = {entry[1]: int(bit) for entry, bit in zip(inputs, test[0])}
    for _, name, kind, operands in gates:
        value[name] = gives(kind, [value[n] for n in operands])
    return [name.decode() for (_, name), shown in zip(outputs, test[1]) if shown not in ("-", str(value[name]))]


def answer(text, log):
    try:
        inputs, gates, outputs = read(text)
    except Refused as r:
        return ["! %d %d %d" % r.args]
    lines = ["inputs %d" % len(inputs), "outputs %d" % len(outputs), "gates %d" % len(gates)]
    for kind in (b"AND", b"OR", b"NAND", b"NOR", b"XOR", b"XNOR", b"NOT"):
        lines.append("%s %d" % (kind.decode(), sum(g[2] == kind for g in gates)))
    tests = []
    try:
        for record in cut(len(inputs), len(outputs), log):
            tests.append(decode(len(inputs), len(outputs), len(tests), record))
    except Refused as r:
        return lines + ["! %d %d %d" % r.args]
    lines.append("tests %d" % len(tests))
    lines += ["test %d inputs %s outputs %s" % ((k,) + t) for k, t in enumerate(tests)]
    for k, t in enumerate(tests):
        names = missed(inputs, gates, outputs, t)
        if names:
            lines.append(" ".join(["missed %d at" % k] + names))
    return lines


def random_log(r, text):
    """Records of the netlist in the text, if it is one, sometimes damaged."""
    try:
        inputs, gates, outputs = read(text)
    except Refused:
        return bytes(r.randrange(256) for _ in range(r.randrange(5)))
    def pack(bits):
        return bytes(sum(b << k for k, b in enumerate(bits[i:i + 8])) for i in range(0, len(bits), 8))
    log = b""
    for _ in range(r.choice([0, 1, 2, 5, 31, 32, 33])):
        marks = [r.randrange(2) for _ in outputs]
        log += pack(marks) + pack([r.randrange(2) for _ in inputs]) + pack([r.randrange(2) for _ in range(sum(marks))])
    if r.random() < 0.3 and log:
        i = r.randrange(len(log))
        log = log[:i] + r.choice([b"", bytes([r.randrange(256)])]) + log[i + 1:]
    return log


def random_text(r):
    names = [b"a", b"b", b"c", b"d", b"G10gat", b"x_1", b"INPUT", b"AND", b"n" * 16, b"m" * 17, b"_", b"9"]
    def spaces():
        return b" " * r.choice([0, 0, 0, 1, 2])
    lines = []
    for _ in range(r.randrange(0, 14)):
        kind = r.random()
        if kind < 0.3:
            line = b"INPUT" + spaces() + b"(" + spaces() + r.choice(names) + spaces() + b")" + spaces()
        elif kind < 0.5:
            line = b"OUTPUT" + spaces() + b"(" + spaces() + r.choice(names) + spaces() + b")"
        elif kind < 0.9:
            k = r.choice([b"AND", b"OR", b"NAND", b"NOR", b"XOR", b"XNOR", b"NOT", b"and", b"BUF"])
            n = r.choice([1, 2, 2, 2, 3, 8, 9])
            ops = (spaces() + b"," + spaces()).join(r.choice(names) for _ in range(n))
            line = spaces() + r.choice(names) + spaces() + b"=" + spaces() + k + spaces() + b"(" + ops + b")"
        else:
            line = r.choice([b"", b"# \x00\xff any", b" ", b" # no", b"INPUT()", b"INPUT(a)x", b"a b = NOT(c)", b"\ta", b"INPUT(a,b)", b"a = AND(b,)", b"a == NOT(b)"])
        if r.random() < 0.08 and line:
            i = r.randrange(len(line))
            line = line[:i] + bytes([r.randrange(256)]) + line[i + r.choice([0, 1]):]
        lines.append(line)
    text = b"\n".join(lines)
    return text + (b"\n" if r.random() < 0.7 else b"")


def valid_text(r):
    """A netlist that is taken, with spaces, comments and the lines in any order that is allowed; sometimes one byte of it is damaged."""
    pool = [b"n%d" % k for k in range(40)] + [b"AND", b"INPUT", b"_", b"0", b"x" * 16]
    r.shuffle(pool)
    def spaces():
        return b" " * r.choice([0, 0, 0, 1, 3])
    defined, lines = [], []
    for k in range(r.randrange(2, 20)):
        name = pool.pop()
        if not defined or r.random() < 0.3:
            lines.append(spaces() + b"INPUT" + spaces() + b"(" + spaces() + name + spaces() + b")" + spaces())
        else:
            kind = r.choice(list(KINDS))
            low, high = KINDS[kind]
            ops = (spaces() + b"," + spaces()).join(r.choice(defined) for _ in range(r.randint(low, high)))
            lines.append(spaces() + name + spaces() + b"=" + spaces() + kind + spaces() + b"(" + spaces() + ops + spaces() + b")" + spaces())
        defined.append(name)
    for name in r.sample(defined, r.randint(1, len(defined))):
        lines.insert(r.randint(0, len(lines)), b"OUTPUT(" + spaces() + name + b")")
    for _ in range(r.randrange(3)):
        lines.insert(r.randint(0, len(lines)), r.choice([b"", b"#", b"# \xff\x00\t", b"#INPUT(a)"]))
    text = b"\n".join(lines) + (b"\n" if r.random() < 0.7 else b"")
    if r.random() < 0.3:
        i = r.randrange(len(text))
        text = text[:i] + r.choice([b"", bytes([r.randrange(256)]), bytes([r.choice(b"(),= \n#")])]) + text[i + 1:]
    return text


def large_text(r):
    """A netlist near the limits, sometimes beyond one of them."""
    i, g, o = r.choice([63, 64, 65]), r.choice([255, 256, 257]), r.choice([1, 63, 64, 65])
    lines = [b"INPUT(i%d)" % k for k in range(i)]
    for k in range(g):
        lines.append(b"g%d = NAND(i%d, %s)" % (k, k % i, b"g%d" % (k - 1) if k else b"i0"))
    lines += [b"OUTPUT(g%d)" % k for k in range(o)]
    text = b"\n".join(lines) + b"\n"
    if r.random() < 0.5:
        pad = r.choice([60000, 60001]) - len(text)
        text += b"#" * pad
    return text


def compare(program, count):
    r = random.Random(1)
    wrong = taken = 0
    with tempfile.TemporaryDirectory() as folder:
        for k in range(count):
            text = large_text(r) if k % 50 == 0 else r.choice([random_text, valid_text])(r)
            log = random_log(r, text)
            for name, content in (("case.net", text), ("case.tst", log)):
                with open(os.path.join(folder, name), "wb") as f:
                    f.write(content)
            out = subprocess.run([os.path.abspath(program)], cwd=folder, stdout=subprocess.PIPE).stdout.decode().splitlines()
            want = answer(text, log)
            # the line after a refusal is its sentence
            got = out[:-1] if len(out) > 1 and out[-2].startswith("!") else out
            taken += not want[-1].startswith("!")
            if got != want:
                wrong += 1
                print("differs:", text, log, "wanted", want, "got", out)
    print("%d cases, %d of them taken, %d differ" % (count, taken, wrong))
    return wrong


def content(path):
    try:
        with open(path, "rb") as f:
            return f.read()
    except FileNotFoundError:
        return b""


if __name__ == "__main__":
    if len(sys.argv) >= 3 and sys.argv[1] == "--compare":
        sys.exit(1 if compare(sys.argv[2], int(sys.argv[3]) if len(sys.argv) > 3 else 2000) else 0)
    print("\n".join(answer(content(os.path.join(sys.argv[1], "case.net")), content(os.path.join(sys.argv[1], "case.tst")))))
