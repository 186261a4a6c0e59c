#!/usr/bin/env python3
"""Prints the places of a point of docs/DESIGN-PASS.md, each as FILE:LINE: text, and last how many they are, by crate.

    python3 tools/design_count.py POINT        POINT is 1 to 8; run it at the top of the repository

A place is found by its form; whether it changes or stays is said on the page."""
import collections, difflib, glob, itertools, re, sys

INT = r"(?:u8|u16|u32|u64|usize)"
CODE = re.compile(r"(kind|right|fresh|mark|relation|owned|refusal|res|result|code|class|named|holder|access|origin|digit|space|newline|drop_all|back)s?$", re.I)
NONE = re.compile(r"if nowhere|k if (none|there is none)|n for a root|0 where (it is none|there is none|none is|it was)|0 past the end|0 is none|0 for a create|[36] for any other|missing is `end`|none is left|and else 0")
FACT = re.compile(r"[A-Z]\w+|length (\w+) ≡ \d+|\w+ [≤<] (\d+|length \w+)")
CONVERTS = re.compile(r"^(\w+_)?(number|number_of|word_of|words_of|bytes_of|code|words|half)$|^(asked|kind|right|fresh|new|terms|spelling|name)_in$|^(set_(row|tally|results|conflicts)|pack_refusal|packed_\w+)$|^(joined|wide|card6|spelling_(of|with)|\w*name_of|written_of|named_of|rename|digit_\w+|used_by|place_answer|tally_at|row_at|words_from|right_of|kind_of|fresh_at)$")
TOGETHER = "table k issued|table k places|table k first marks|table bits limits|table bits stored copies|stored copies t sheet limits|names keys note|text at ends|kinds names starts lengths rights|out at|actor slot|spelling actor|word numbers|seen results".split("|")
OTHER = {"k": "live", "t": "tally"}
PARALLEL = "names keys|at ends|first next|seen results|kinds names starts lengths rights|table places|relation marks|counts limits".split("|")
Fn = collections.namedtuple("Fn", "crate file line name params ret clauses body at note")

blank = lambda m: " " * len(m[0]) if m[0][0] == "/" else re.sub(r"[^b\"']", "_", m[0])
line = lambda path, at: TEXT[path][:at].count("\n") + 1

def end(text, i):
    depth = itertools.accumulate((ch in "({[") - (ch in ")}]") for ch in itertools.islice(text, i, None))
    return next(j + 1 for j, open_ in enumerate(depth, i) if open_ == 0)

def parts(text, mark=","):
    found, depth = [""], 0
    for ch in text:
        depth += (ch in "({[") - (ch in ")}]")
        found[-1] += ch if ch != mark or depth else ""
        found += [""] if ch == mark and not depth else []
    return [" ".join(p.split()) for p in found if p.strip()]

def functions(path, text):
    for m in re.finditer(r"^ *(?:pub(?:\(crate\))? )?(?:extern b?\S+ )?fn (\w+)(?:<[^\n(]*>)?\(", text, re.M):
        i = end(text, m.end() - 1)
        params = tuple(tuple(p.split(": ", 1)) for p in parts(text[m.end():i - 1]) if ": " in p)
        ret = re.compile(r"\s*->\s*([^{\n]+)").match(text, i)
        i, clauses = ret.end() if ret else i, []
        while c := re.compile(r"\s*(?:requires|ensures)[\w ]*(?=\{)").match(text, i):
            i = end(text, c.end())
            clauses += parts(text[c.end() + 1:i - 1], "×")
        i = text.index("{", i)
        note = re.search(r"(?:^ *(?://|#).*\n)*\Z", RAW[path][:m.start()], re.M)[0].replace("\n// ", " ")
        yield Fn(path.split("/")[1], path, line(path, m.start()), m[1], params, ret[1].strip() if ret else "", tuple(clauses), text[i + 1:end(text, i) - 1], i + 1, note)

def types(kind):
    for p, t in TEXT.items():
        for m in re.finditer(r"^(?:pub )?%s (\w+) \{" % kind, t, re.M):
            yield p, line(p, m.start()), m[1], [f.replace("pub ", "") for f in parts(t[m.end():end(t, m.end() - 1) - 1])]

def loops():
    for f in FNS:
        for m in re.finditer(r"\bwhile ([^{]*?) \{", f.body):
            body = f.body[m.end():end(f.body, m.end() - 1) - 1]
            by = [b[0] for b in re.finditer(r"\b(\w+) [+-]= 1;", re.sub(r"\{[^{}]*(\{[^{}]*\}[^{}]*)*\}", "", body)) if re.search(r"\b%s\b" % b[1], m[1])]
            yield f, line(f.file, f.at + m.start()), m[1], by, body

def point1():
    for p, n, name, cases in types("enum"):
        if len(cases) == 2 and (sum("(" in c for c in cases) == 1 or any("Refusal" in c for c in cases)):
            yield p, n, f"enum {name} {{ {', '.join(cases)} }}"
    for p, n, name, fields in types("struct"):
        if codes := [f for f in fields if CODE.match(f.split(":")[0]) and re.search(r"[^s]: u(8|32)", f)]:
            yield p, n, f"number: struct {name} {{ {', '.join(codes)} }}"
    for p, t in TEXT.items():
        yield from ((p, line(p, m.start()), f"number: {m[0]}") for m in re.finditer(r"^(?:pub )?const (\w+): u\d.*", t, re.M) if CODE.match(m[1]))
    for f in FNS:
        codes = [f"{a}: {b}" for a, b in f.params if CODE.match(a) and re.search(r"\bu(8|16|32)\b|^(holder|access|origin): ", f"{a}: {b}") and a != "rights"]
        if codes or re.fullmatch(INT, f.ret) and re.search(r"((access|origin|effect|result)_number|number_of|_code|class_of|by_tests|of_mark|^right_of|^kind_of|^fresh_at|^result_at)$", f.name):
            yield f.file, f.line, f"number: fn {f.name}({', '.join(codes)}) -> {f.ret}"
        if f.ret == "bool" and any(b.startswith("&mut [") for a, b in f.params) or any(a in ("has", "ended", "in_cell") for a, b in f.params):
            yield f.file, f.line, f"flag: fn {f.name}({', '.join(a for a, b in f.params if b == 'bool' or '&mut' in b)}) -> {f.ret}"
        if re.fullmatch(INT, f.ret) and NONE.search(f.note):
            yield f.file, f.line, f"none: fn {f.name} -> {f.ret}"

def shape(f):
    own = {a for a, b in f.params} | set(re.findall(r"let (?:mut )?(\w+)", f.body)) | {f.name}
    order, out = {}, []
    for t in re.findall(r"b?\"_*\"|b'_+'|\w+|[^\s\w,]", ", ".join(map(": ".join, f.params)) + "->" + f.ret + f.body):
        plain = re.fullmatch(INT + r"|Row|Entries|Words|Cap|Note|\d\w*|b?\"_*\"|b'_+'|[A-Z][A-Z_]+", t)
        out.append("#" if plain else order.setdefault(t, str(len(order))) if t in own else t)
    return out
near = lambda a, b: a == b or min(len(a), len(b)) > 45 and 2 * sum((collections.Counter(a) & collections.Counter(b)).values()) > 0.8 * (len(a) + len(b)) and difflib.SequenceMatcher(None, a, b, False).ratio() > 0.8

def point2():
    shapes, like = [(f, s) for f in FNS if len(s := shape(f)) > 9], collections.defaultdict(list)
    for (f, a), (g, b) in itertools.combinations(shapes, 2):
        for x, y in ((f, g), (g, f)) if near(a, b) else ():
            like[x].append("nearly " * (a != b) + y.crate + "::" + y.name)
    seen = collections.Counter(tuple(x.split(":")[0] for x in fields) for p, n, name, fields in types("struct"))
    yield from ((p, n, f"twin: struct {name}") for p, n, name, fields in types("struct") if seen[tuple(x.split(":")[0] for x in fields)] > 1)
    yield from ((f.file, f.line, f"twin: {f.name}: {', '.join(gs)}") for f, gs in like.items())

point3 = lambda: [(f.file, n, f"{f.name}: while {cond} .. {by[0]}") for f, n, cond, by, body in loops() if by]

def point4():
    for f in FNS:
        b, names = " ".join(f.body.split()), dict(f.params)
        kind = ["order"] if re.search(r"^if (\w+) < (\w+|2) \{ (\1|\2) \} else \{ (\1|\2) \}$", b) else []
        kind += ["equality"] if re.match(r"same_|is_empty_row", f.name) else []
        kind += ["copying"] if len(re.findall(r"\b(\w+): \w+\.\1\b|let (\w+) = \w+\.\2;", b)) > 2 or "let mut r = t;" in b else []
        kind += ["printing"] if re.match(r"(put|say|print)(_|$)|\w+_length$|width$", f.name) and ({"out", "rt"} & set(names) or re.search("length$|width$", f.name)) else []
        kind += ["conversion"] if not kind and (re.fullmatch(r"\w+ as \w+", b) or CONVERTS.search(f.name)) else []
        yield from ((f.file, f.line, f"{k}: {f.name}") for k in kind)
        yield from ((f.file, line(f.file, f.at + m.start()), f"equality: {f.name}: check::same") for m in re.finditer(r"check::same\(", f.body))

def point5():
    places = collections.defaultdict(set)
    for f in FNS:
        for m in (FACT.match(re.sub(r"\.(old|now|new)\b", "", c.strip("() "))) for c in f.clauses if "→" not in c):
            places["fact " + (m[0] if m else "")].add(f) if m else None
        for g in TOGETHER:
            if all({a, OTHER.get(a, a)} & {a for a, b in f.params} for a in g.split()):
                places["together " + g].add(f)
    return [(f.file, f.line, f"{key} ({len(fs)}): {f.name}") for key, fs in places.items() if len(fs) > 2 for f in fs]

def point6():
    yield from ((p, n, f"length: struct {name}") for p, n, name, fields in types("struct") if any("[" in x for x in fields) and any(": usize" in x for x in fields))
    for f in FNS:
        lists = [a for a, b in f.params if re.match(r"&(mut )?(\[|Entries|Note)", b)]
        counts = [a for a, b in f.params if b == "usize" and re.fullmatch(r"k|n|m|live|used|count|clients|first", a)] if lists else []
        kinds = [f"length: {', '.join(counts)} beside {', '.join(lists)}"] * bool(counts) + ["parallel: " + g for g in PARALLEL if set(g.split()) <= set(lists)]
        kinds += ["search"] * bool(lists and re.fullmatch(r"find|search|find_near|find_key|beside", f.name))
        yield from ((f.file, f.line, f"{k}: {f.name}") for k in kinds)
    yield from ((f.file, n, f"arena: {f.name}: while {cond}") for f, n, cond, by, body in loops() if re.search(r"(\w+) = (?:wide\()?\w+\[\1\]", body))

def point7():
    flags = {"bool"} | {name for p, n, name, cases in types("enum") if not any("(" in c for c in cases) and name != "Refusal"}
    for f in FNS:
        if picks := [a for a, b in f.params if b in flags and re.search(r"\b(match|if) !?%s\b" % a, f.body)]:
            yield f.file, f.line, f"switch: {f.name}: {', '.join(picks)}"

def point8():
    lets = collections.defaultdict(list)
    for p in sorted(glob.glob("crates/*/proofs/**/*.antt", recursive=True)):
        text = open(p).read()
        for m in re.finditer(r"\blet (\w+(?: : [^=\n]*?)? = [^\n]*?) in\b", text) if p.endswith("Answers.antt") else ():
            lets[m[1]].append((p, text[:m.start()].count("\n") + 1))
        if not p.endswith(("Answers.antt", "Invariants.antt")):
            yield p, 1, "lemmas"
    yield from ((p, n, f"let: {t} ({len(at)})") for t, at in lets.items() if len(at) > 2 for p, n in at)

RAW = {p: open(p).read() for p in sorted(glob.glob("crates/*/src/*.rt"))}
TEXT = {p: re.sub(r"//.*|b?\"[^\"\n]*\"|b'\\?.'", blank, t) for p, t in RAW.items()}
FNS = [f for p, t in TEXT.items() for f in functions(p, t) if not f.crate.endswith("_c")]
found = sorted(set(globals()["point" + sys.argv[1]]()))
print("\n".join("%s:%d: %s" % place for place in found))
print(len(found), "places:", ", ".join("%s %d" % c for c in collections.Counter(place[0].split("/")[1] for place in found).items()))
