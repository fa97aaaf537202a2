#!/usr/bin/env python3
"""places.py [-l] [POINT..]: counts in crates/*/src the places of each point of docs/DESIGN-PASS.md; with -l it lists them.

It goes by text, so that it finds more than wants a change: the page says what was changed and why the rest stays.
"""
import glob, re, sys

listed = "-l" in sys.argv
points = [it for it in sys.argv[1:] if it.isdigit()] or list("12345678")
files = {path: open(path, encoding="utf-8").read() for path in sorted(glob.glob("crates/*/src/**/*.rt", recursive=True))}


class Function:
    def __init__(self, path, line, name, head, clauses, body):
        self.at, self.name, self.head, self.clauses, self.body = f"{path}:{line}", name, head, clauses, body


def functions():
    for path, text in files.items():
        lines = text.split("\n")
        i = 0
        while i < len(lines):
            begins = re.match(r"^(\s*)(?:pub(?:\([a-z]+\))? )?(?:const )?(?:extern \"C\" )?fn (\w+)", lines[i])
            if not begins or lines[i].rstrip().endswith(";"):
                i += 1
                continue
            indent, j = begins[1], i
            while lines[j] != indent + "{" and not (lines[j].endswith(" {") and not re.match(r"\s*(requires|ensures)\b", lines[j])):
                j += 1
            k = j
            while lines[k] != indent + "}":
                k += 1
            head, clauses = [], []
            for line in lines[i : j + 1]:
                if re.match(r"\s*(requires|ensures)\b", line):
                    clauses.append(re.sub(r"^\s*(requires|ensures)\s*\w*\s*", r"\1 ", line))
                elif clauses:
                    clauses[-1] += " " + line.strip() if line.strip() != "{" else ""
                else:
                    head.append(line.strip())
            yield Function(path, i + 1, begins[2], " ".join(head), clauses, "\n".join(lines[j + 1 : k]))
            i = k + 1


def structs():
    for path, text in files.items():
        for it in re.finditer(r"^(?:pub(?:\([a-z]+\))? )?(struct|enum) (\w+)[^\n;]*\{\n(.*?)\n\}", text, re.M | re.S):
            line = text[: it.start()].count("\n") + 1
            yield f"{path}:{line}", it[1], it[2], [x.strip() for x in it[3].split("\n") if x.strip() and not x.strip().startswith("//")]


def parameters(head):
    inner = head[head.index("(") + 1 :]
    depth, one, out = 0, "", []
    for c in inner:
        if c in "([<":
            depth += 1
        if c in ")]>" and not one.endswith("-"):
            depth -= 1
            if depth < 0:
                break
        if c == "," and depth == 0:
            out.append(one.strip())
            one = ""
        else:
            one += c
    return [it for it in out + [one.strip()] if it]


def point1():
    for at, kind, name, fields in structs():
        if kind == "enum":
            bare = [it for it in fields if re.fullmatch(r"\w+( = \d+)?,", it)]
            if len(fields) == 2 and (len(bare) == 1 or name in ("Next", "Verdict")):
                yield at, f"enum {name}"
        elif len(fields) > 1:
            for it in fields:
                if re.match(r"(pub )?(verdict: |(is_some|inside|rows|last|more|is_new): bool)", it):
                    yield at, f"struct {name}: {it}"
    for path, text in files.items():
        for n, line in enumerate(text.split("\n"), 1):
            if re.match(r"\s*(pub )?const \w+: (u8|u64) = \d+;", line):
                yield f"{path}:{n}", line.strip()
            if re.search(r"\bVerdict::|if let Err\(.*= .*\{$|\.is_some\b(?!\()|\.inside\b", line):
                yield f"{path}:{n}", line.strip()


def point2():
    seen = {}
    for it in functions():
        text = re.sub(r"//[^\n]*", "", it.head[it.head.index("(") :] + " " + it.body)
        text = re.sub(r"\b[A-Z]\w*\b|\b\d+\b", "T", text)
        names = {}
        text = re.sub(r"\b[a-z_]\w*\b", lambda m: names.setdefault(m[0], f"n{len(names)}"), text)
        key = re.sub(r"\s+", " ", text)
        if it.body.count("\n") >= 3:
            seen.setdefault(key, []).append(it)
    for group in seen.values():
        for it in group[1:]:
            yield it.at, f"{it.name} is as {group[0].name} ({group[0].at})"


def point3():
    for path, text in files.items():
        lines = text.split("\n")
        for n, line in enumerate(lines):
            loop = re.match(r"^(\s*)(while|loop)\b(.*)\{$", line)
            if loop:
                end = n + 1
                while lines[end] != loop[1] + "}":
                    end += 1
                body = "\n".join(lines[n + 1 : end])
                counted = [w for w in re.findall(r"\b(\w+)\b", loop[3]) if re.search(rf"^\s*{w} (\+=|-=|=) ", body, re.M)]
                yield f"{path}:{n + 1}", line.strip() + (f" (counts {counted[0]})" if counted else "")
            if re.match(r"^\s*for \w+ in [^\[\]{]*\.\.", line):
                yield f"{path}:{n + 1}", line.strip()


def point4():
    for it in functions():
        params = parameters(it.head)
        types = [p.split(":", 1)[1].strip() for p in params if ":" in p]
        result = it.head.split("->")[-1].strip(" {") if "->" in it.head else ""
        same = result == "bool" and len(types) == 2 and types[0] == types[1] and types[0] not in ("&[u64]", "&[u8]")
        code = re.search(r"_code$|_of_code$|^code_of|^bit_of$|_word$", it.name)
        copies = re.fullmatch(r"copy\w*|least|either|smaller|larger|min\w*|max\w*|compare\w*|same_\w+", it.name)
        if same or code or copies:
            yield it.at, it.head.strip(" {")


def point5():
    clauses, groups = {}, {}
    for it in functions():
        for clause in set(it.clauses):
            if clause.startswith("requires"):
                clauses.setdefault(clause, []).append(it)
        params = parameters(it.head)
        for a, b in zip(params, params[1:]):
            if ":" in a and ":" in b:
                groups.setdefault((a, b), []).append(it)
    for clause, where in clauses.items():
        if len(where) > 2:
            yield where[0].at, f"{clause} ({len(where)} functions)"
    for (a, b), where in groups.items():
        if len(where) > 2:
            yield where[0].at, f"{a}, {b} ({len(where)} functions)"


def point6():
    for at, kind, name, fields in structs():
        for a, b in zip(fields, fields[1:]):
            if re.search(r": \[.*\],", a) and re.search(r"(count|length|n): usize,", b):
                yield at, f"{name}: {a} {b}"
    for it in functions():
        params = parameters(it.head)
        for a, b in zip(params, params[1:]):
            if re.search(r": &?(mut )?\[", a) and re.search(r"(count|length|size|n): usize$", b):
                yield it.at, f"{it.name}: {a}, {b}"


def point7():
    for it in functions():
        arms = re.findall(r"^\s*[\w:]+(?:\([\w, ]*\))? => (?:return )?\w[\w:.]*\(", it.body, re.M)
        tests = re.findall(r"if (?:kind|task|case|word|what|code|number)\w* == \w+", it.body)
        if len(arms) > 2 or len(tests) > 2:
            yield it.at, it.name


def point8():
    for path in sorted(glob.glob("crates/*/proofs/*/*.antt")):
        yield path, "written for a function"


for point in points:
    found = list(globals()[f"point{point}"]())
    print(f"{point}: {len(found)}")
    if listed:
        for at, what in found:
            print(f"    {at}: {what}")
