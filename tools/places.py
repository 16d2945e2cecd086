#!/usr/bin/env python3
"""Counts the places that docs/DESIGN-PASS.md is about, and lists them.

usage: tools/places.py           at the top of the repository: how many places each search of each point finds
       tools/places.py N         the places of point N, a line each: file, line, function or type, what is seen there
       tools/places.py 8 FOLDER  with FOLDER the kit's libraries (KIT/rattle): also lemmas that they state in the same words

It reads crates/*/src, and for point 8 crates/*/specs and crates/*/proofs. It goes by the text alone and judges nothing: a place that stays for
a reason is found too. Functions for C (extern "C") are no places, and a program's `main` is one in point 2 alone.
"""

import collections
import difflib
import glob
import itertools
import re
import sys

# ---- reading


def blank(text):
    """The text with its comments and literals of characters and bytes blanked, so that each line stays where it is."""
    pattern = r"//[^\n]*|b?\"(?:\\.|[^\"\\])*\"|b?'(?:\\.|[^'\\])'"
    return re.sub(pattern, lambda m: " " * len(m[0]) if m[0].startswith("//") else '"' + " " * (len(m[0]) - 2) + '"', text)


def closing(text, i):
    """The place after the bracket that closes the one at i."""
    depth = 0
    while True:
        depth += (text[i] in "({[") - (text[i] in ")}]")
        i += 1
        if depth == 0:
            return i


def after_generics(text, i):
    """The place after the > that closes the < at i."""
    depth = 0
    while True:
        depth += (text[i] == "<") - (text[i] == ">" and text[i - 1] not in "-=")
        i += 1
        if depth == 0:
            return i


def parts(text, comma=",", angles=True):
    """What commas separate that stand in no bracket. In a clause < and > are no brackets."""
    out, depth, last = [], 0, ""
    for i, c in enumerate(text):
        depth += (c in "([{" or (angles and c == "<")) - (c in ")]}" or (angles and c == ">" and text[i - 1] not in "-="))
        if c == comma and depth == 0:
            out.append(last)
            last = ""
        else:
            last += c
    return [" ".join(p.split()) for p in out + [last] if p.strip()]


class Item:
    """A function, or a struct or enum, of crates/*/src."""

    def __init__(self, path, text, m, kind):
        self.path, self.kind, self.name = path, kind, m["name"]
        self.line = text.count("\n", 0, m.start()) + 1
        self.full = path.split("/")[1] + "::" + self.name
        self.at, self.clauses, self.body = m.end(), [], ""

    def line_at(self, i):
        """The line of place i of the body."""
        return self.body_line + self.body.count("\n", 0, i)


CLAUSE = re.compile(r"\s*(requires|ensures)\b[^{]*")


def read():
    functions, types = [], []
    for path in sorted(glob.glob("crates/*/src/**/*.rt", recursive=True)):
        text = blank(open(path).read())
        for m in re.finditer(r"(?P<head>(?:pub(?:\([^)]*\))? )?(?:extern \"[^\"]*\" )?)fn (?P<name>\w+)(?=[<(])", text):
            f = Item(path, text, m, "fn")
            f.exported = "extern" in m["head"]
            opens = m.end() if text[m.end()] == "(" else after_generics(text, m.end())
            i = closing(text, opens)
            f.params = [re.sub(r"'\w+ ", "", p) for p in parts(text[opens + 1 : i - 1])]
            start = i
            while text[i] not in "{;" and not CLAUSE.match(text, i):
                i = closing(text, i) if text[i] in "([" else i + 1
            f.result = text[start:i].strip().removeprefix("->").strip()
            while c := CLAUSE.match(text, i):
                i = closing(text, c.end())
                f.clauses.append((c[1], " ".join(text[c.end() + 1 : i - 1].split())))
            if b := re.compile(r"\s*\{").match(text, i):
                f.body = text[b.end() - 1 : closing(text, b.end() - 1)]
                f.body_line = text.count("\n", 0, b.end()) + 1
            functions.append(f)
        for m in re.finditer(r"(?P<kind>struct|enum) (?P<name>\w+)(?:<[^{(]*>)? *\{", text):
            t = Item(path, text, m, m["kind"])
            t.body = text[m.end() - 1 : closing(text, m.end() - 1)]
            t.members = parts(re.sub(r"#\[[^\]]*\]", "", t.body[1:-1]))
            t.names = [re.match(r"(?:pub )?(\w+)", p)[1] for p in t.members]
            types.append(t)
    return functions, types


FUNCTIONS, TYPES = read()
OWN = [f for f in FUNCTIONS if not f.exported and f.name != "main"]
PARAM = {id(f): dict(p.split(": ", 1) for p in f.params if ": " in p) for f in FUNCTIONS}

SEARCHES = []


def search(point, title):
    """A search of a point: a generator of (item or (path, line, name), what is seen)."""

    def keep(run):
        SEARCHES.append((point, title, run))
        return run

    return keep


def seen(f, pattern):
    """Where a pattern stands in a function's body."""
    for m in re.finditer(pattern, f.body):
        yield (f.path, f.line_at(m.start()), f.full), " ".join(m[0].split())


# ---- 1: enums of the shape of Option or Result, flags, numbers for kinds


def shaped():
    """Enums with a variant for a refusal, or with two variants, of which one has a value and the other none. An enum that stands as
    the error of a Result is none of them."""
    errors = {e for f in FUNCTIONS for e in re.findall(r"Result<.*, (?:\w+::)?(\w+)>", f.result)}
    for t in TYPES:
        if t.kind == "enum" and t.name not in errors:
            bare = [p for p in t.members if re.fullmatch(r"\w+", p)]
            if any("Refused" in n for n in t.names) or (len(t.members) == 2 and len(bare) == 1):
                yield t


SHAPED = {t.name for t in shaped()}


@search(1, "own enums of the shape of Option or Result")
def enums():
    for t in shaped():
        yield t, " | ".join(t.names)


@search(1, "an earlier answer handed on by hand: let X::A = e else { return e; }")
def handed_on():
    for f in OWN:
        yield from seen(f, r"let [\w:]+(?:\((?:[^()]|\(\))*\))? = (\w+) else \{\s*return \1;")
        yield from seen(f, r"if let Err\((\w+)\) = [^{]*\{\s*return Err\(\1\)")


@search(1, "functions that take the answer of the tests before them")
def earlier():
    for f in OWN:
        if "earlier" in PARAM[id(f)]:
            yield f, "earlier: " + PARAM[id(f)]["earlier"]


@search(1, "functions that hand an answer from link to link")
def chains():
    for f in OWN:
        links = re.findall(r"\bthen_\w+\(", f.body)
        if links and "earlier" not in PARAM[id(f)]:
            yield f, f"{len(links)} links"


@search(1, "arms that copy what one variant has into another")
def copies():
    group = r"(\{[^{}]*\}|\([^()]*\))"
    arm = re.compile(r"\b([A-Z]\w*(?:::\w+)*) ?" + group + r" =>\s*(?:\{[^{}]*?)?(?:return )?\b([A-Z]\w*(?:::\w+)*) ?" + group)
    for f in OWN:
        for m in arm.finditer(f.body):
            bound = set(re.findall(r"\b[a-z]\w*\b", re.sub(r"\w+: _", "", m[2])))
            if bound and bound <= set(re.findall(r"\b[a-z]\w*\b", m[4])):
                yield (f.path, f.line_at(m.start()), f.full), f"{m[1]} => {m[3]}"


NUMBERED = ("kind", "which", "tag", "pass", "row", "corner", "number")
NUMBER = re.compile(r"(?:pub )?(" + "|".join(NUMBERED) + r"): (u8|u64|usize)")


@search(1, "parameters and fields that are a number for a kind: " + ", ".join(NUMBERED))
def numbers():
    for f in OWN:
        for p in f.params:
            if NUMBER.fullmatch(p):
                yield f, p
    for t in TYPES:
        for m in NUMBER.finditer(t.body):
            yield t, m[0]


@search(1, "a match on such a number")
def matched():
    for f in OWN:
        yield from seen(f, r"match (?:" + "|".join(NUMBERED) + r") \{")


@search(1, "calls that give such a number as a literal")
def literals():
    takes = {f.name: [i for i, p in enumerate(f.params) if NUMBER.fullmatch(p)] for f in OWN}
    for f in OWN:
        for m in re.finditer(r"\b(\w+)\(", f.body):
            given = parts(f.body[m.end() : closing(f.body, m.end() - 1) - 1])
            for i in takes.get(m[1], []):
                if i < len(given) and re.fullmatch(r"\d+", given[i]):
                    yield (f.path, f.line_at(m.start()), f.full), f"{m[1]}({', '.join(given)})"


@search(1, "a flag out of which an enum is made")
def flags():
    for f in OWN:
        if f.result in {t.name for t in TYPES if t.kind == "enum"}:
            for p in f.params:
                if p.endswith(": bool"):
                    yield f, p


@search(1, "a number that stands for nothing: 0 for no count, a length for no place")
def sentinels():
    for f in OWN:
        yield from seen(f, r"\bat\[\w+\] < rec\.len\(\)|rec\.len\(\) <= (?:at\[\w+\]|k\b)")
        if f.result in ("usize", "i64") and re.search(r"\bif .*\{\s*return [^;]*;\s*\}\s*0\s*\}$", f.body):
            yield f, "0 at the end"
        yield from seen(f, r"\bif [^{]*\{\s*return 0;")
    for f in OWN:
        yield from seen(f, r"= \[\w+\.len\(\); [\w:]+\]")


# ---- 2: twins

WORDS = re.compile(r"[A-Za-z_]\w*|\d+|[^\sA-Za-z_\d]")
MATES = [m.split() for m in ("west south", "east north", "columns rows", "lower upper", "numbers bytes", "depth energy", "value edge", "u v")]
# Alike in words, and no twins: they differ in more than a type, a size or a constant.
NO_TWINS = [
    ("two directions", "grid::next grid::previous"),
    ("two directions", "grid::lower_place grid::upper_place"),
    ("cells around a corner, corners around a cell", "grid::cells_around grid::corners_around"),
    ("four formulas of the paper", "scheme::west_share scheme::east_share scheme::south_share scheme::north_share"),
    ("two formulas of the paper", "scheme_probe::momentum_u scheme_probe::momentum_v"),
    ("two formulas", "scheme::geopotential scheme_totals::potential_at"),
    ("two formulas", "scheme::flux_at scheme_totals::kinetic_at"),
    ("two formulas", "scheme::flows_at scheme_totals::energy_at"),
]


def mates(f, g):
    """Whether names say that two functions are a pair. One name twice in a crate is a trait's method in two impls, and says nothing."""
    a, b = f.name, g.name
    if a == b:
        return f.path != g.path
    swaps = [{x: y, y: x} for x, y in MATES]
    return a + "_in" == b or b + "_in" == a or any("_".join(s.get(w, w) for w in a.split("_")) == b for s in swaps)


def families(items, pairs):
    """What pairs join, as lists."""
    of = {id(x): [x] for x in items}
    for a, b in pairs:
        if of[id(a)] is not of[id(b)]:
            joined = of[id(a)] + of[id(b)]
            for x in joined:
                of[id(x)] = joined
    return [l for l in {id(l): l for l in of.values()}.values() if len(l) > 1]


@search(2, "families of functions: alike in words, or named alike and half alike")
def functions_alike():
    words = {id(f): WORDS.findall(f"({', '.join(f.params)}) -> {f.result} {f.body}") for f in OWN}
    size = {id(f): len(WORDS.findall(f.body)) for f in OWN}
    apart = [set(names.split()) for _, names in NO_TWINS]
    pairs = []
    for a, b in itertools.combinations(OWN, 2):
        told = a.path == b.path and len(a.params) == len(b.params) == 1 and a.result == b.result
        named = mates(a, b) or (told and re.sub(r"^.*_", "_", a.name) == re.sub(r"^.*_", "_", b.name))
        compare = difflib.SequenceMatcher(None, words[id(a)], words[id(b)], autojunk=False)
        least = 0.5 if named else 0.74 if min(size[id(a)], size[id(b)]) >= 60 else 0.8
        if compare.real_quick_ratio() < least or compare.quick_ratio() < least:
            continue
        if any({a.full, b.full} <= s for s in apart):
            continue
        if compare.ratio() >= least:
            pairs.append((a, b))
    for l in families(OWN, pairs):
        yield l[0], " ".join(f.full for f in l[1:])


@search(2, "families of types: the same fields, or the same variants")
def types_alike():
    types = [t for t in TYPES if len(t.names) > 2]
    pairs = [(a, b) for a, b in itertools.combinations(types, 2) if a.kind == b.kind and set(a.names) == set(b.names)]
    for l in families(types, pairs):
        yield l[0], " ".join(t.full for t in l[1:])


@search(2, "families of programs: the same main")
def programs_alike():
    mains = [f for f in FUNCTIONS if f.name == "main"]
    for l in families(mains, [(a, b) for a, b in itertools.combinations(mains, 2) if a.body.split() == b.body.split()]):
        yield l[0], " ".join(f.full for f in l[1:])


# ---- 3: loops that count an index


def loops():
    """Each loop over a range and each while, with its body, and the loop's variable."""
    for f in OWN:
        for m in re.finditer(r"\b(?:for (\w+) in ([^{;]*?)\.\.=?([^{;]*?)|while ([^{]*?)) \{", f.body):
            yield f, f.line_at(m.start()), " ".join(m[0].split())[:-2], m[1], f.body[m.end() - 1 : closing(f.body, m.end() - 1)]


def indexes(variable, body):
    """Whether a loop's variable, or a local made of it, stands in an index, or goes to a function that reads at an index."""
    if variable == "_":
        return False
    names = {variable}
    for m in re.finditer(r"let (\w+) = ([^;]*);", body):
        if re.search(r"\b(" + "|".join(names) + r")\b", m[2]):
            names.add(m[1])
    any_of = r"\b(?:" + "|".join(names) + r")\b"
    return bool(re.search(r"\w\[[^\[\]]*" + any_of, body) or re.search(r"\w_at\((?:[^()]|\([^()]*\))*" + any_of, body))


@search(3, "loops over a range whose variable is an index")
def index_loops():
    for f, line, head, variable, body in loops():
        if variable and indexes(variable, body):
            yield (f.path, line, f.full), head


@search(3, "while loops")
def while_loops():
    for f, line, head, variable, body in loops():
        if not variable:
            yield (f.path, line, f.full), head


# ---- 4: equality, order, copying, conversion, printing by hand


BY_HAND = r"""min|magnitude|index|within|same_\w+|is_newer|known|copy_\w+|clear|highest|barrier_at|part_of|\w+_or|field_number|number_of|
signed|bits|unsigned_at|four_at|put_unsigned|put_number|number_at"""


@search(4, "equality, order, least, size, copying, conversion by hand: functions of a name that says so")
def by_name():
    for f in OWN:
        if re.fullmatch(BY_HAND.replace("\n", ""), f.name):
            yield f, f"({', '.join(f.params)}) -> {f.result or '()'}"


@search(4, "a match whose arms are true and false")
def to_bool():
    for f in OWN:
        for m in re.finditer(r"\bmatch [^{]*\{", f.body):
            arms = f.body[m.end() - 1 : closing(f.body, m.end() - 1)]
            if len(re.findall(r"=> (?:true|false),", arms)) >= 2 and "match" not in arms:
                yield (f.path, f.line_at(m.start()), f.full), " ".join(m[0].split())


@search(4, "conversions by hand: a match from or to numbers or kinds that is all of a function")
def tables():
    for f in OWN:
        if re.fullmatch(r"\{\s*match \w+ \{.*\}\s*\}", f.body, re.S):
            arms = re.findall(r"=> ([^,{]*|\w+\([^)]*\)),", f.body)
            if len(arms) > 1 and all(re.fullmatch(r"\d+|[A-Z]\w+(?:::\w+)+(?:\([\w:]*\))?", a.strip()) for a in arms):
                yield f, f"{', '.join(f.params)} -> {f.result}"


@search(4, "casts with `as` from a byte, which From covers")
def casts():
    for f in OWN:
        given = PARAM[id(f)]
        for place, what in seen(f, r"\b[\w.]+(?:\((?:[^()]|\([^()]*\))*\)|\[[^\[\]]*\])* as (?:u16|u32|u64|usize|i16|i32|i64)\b"):
            name = re.match(r"[\w.]+", what)[0]
            in_bytes = f"{name}[" in what and given.get(name) == "&[u8]"
            if given.get(name) == "u8" or in_bytes or re.fullmatch(r"(?:\w+\.)*(?:kind|pass)|index", name):
                yield place, what


@search(4, "fields copied into locals before they are used")
def field_copies():
    for f in OWN:
        yield from seen(f, r"let \w+ = (?:\w+)\.\w+;")


@search(4, "printing by hand: functions that put text")
def printing():
    for f in OWN:
        if f.full.startswith("text::"):
            yield f, f"({', '.join(f.params)})"


# ---- 5: facts and parameters that come again

STATE = ("h", "b", "u", "v")


@search(5, "functions that take a state apart: p or not, and at least three of h, b, u, v")
def apart():
    for f in OWN:
        taken = [n for n in STATE if PARAM[id(f)].get(n, "").startswith("&")]
        if len(taken) >= 3:
            yield f, ", ".join(PARAM[id(f)])


def facts(clause):
    """The facts that a clause joins by ×, with each `let` put in and what stands before an arrow left out."""
    while m := re.match(r"let (\S+) = ", clause):
        depth, i = 0, m.end()
        while depth or clause[i : i + 4] != " in ":
            depth += (clause[i] in "([{") - (clause[i] in ")]}")
            i += 1
        value = clause[m.end() : i]
        clause = re.sub(r"(?<![\w.«])" + re.escape(m[1]) + r"(?![\w»])", lambda _: f"({value})" if " " in value else value, clause[i + 4 :])
    for fact in parts(clause, "×", angles=False):
        fact = parts(fact, "→", angles=False)[-1].strip()
        while fact.startswith("(") and closing(fact, 0) == len(fact):
            fact = fact[1:-1].strip()
        if "×" in fact:
            yield from facts(fact)
        else:
            yield fact


@search(5, "facts that three or more functions require")
def repeated_facts():
    where = collections.defaultdict(list)
    for f in OWN:
        for fact in {x for kind, clause in f.clauses if kind == "requires" for x in facts(clause)}:
            where[fact].append(f)
    for fact, l in sorted(where.items(), key=lambda x: -len(x[1])):
        if len(l) >= 3:
            yield l[0], f"{fact}   [{len(l)}: {' '.join(f.full for f in l)}]"


TOGETHER = """p h b u v q | p i j | kind w n | w n i j | walled w x | kind barrier | barrier edge | barriers edge | x h k l | w f head | ne nw se | f field |
dh du dv | p inflow work | work m | out at | d k | s k | rec k | rec at | rec at tag | first p second q | value size | value m"""


@search(5, "parameters that three or more functions take together")
def together():
    for names in dict.fromkeys(" ".join(g.split()) for g in TOGETHER.split("|")):
        l = [f for f in OWN if set(names.split()) <= set(PARAM[id(f)])]
        if len(l) >= 3:
            yield l[0], f"{names.replace(' ', ', ')}   [{len(l)}: {' '.join(f.full for f in l)}]"


# ---- 6: buffers with a place or a length beside, parallel arrays


@search(6, "functions that take bytes or a work space, and a place or a length beside")
def buffers():
    for f in OWN:
        given = PARAM[id(f)]
        slices = [n for n in ("out", "d", "s", "rec", "work", "value") if "[" in given.get(n, "")]
        slices += ["f"] * given.get("f", "").startswith("&mut [")
        places = [n for n in ("at", "k", "a", "m", "count") if given.get(n) == "usize"]
        if slices and places:
            yield f, ", ".join(slices + places)


@search(6, "banks of a work space by number")
def banks():
    for f in OWN:
        yield from seen(f, r"\b(?:[A-Z]+_[A-Z]+|\d) \* (?:m|cells)\b")
    for path in sorted(glob.glob("crates/*/src/*.rt")):
        for n, l in enumerate(open(path), 1):
            if m := re.match(r"(?:pub )?const ((?:BASE|NEW|FLOW)_\w+): usize", l):
                yield (path, n, path.split("/")[1] + "::" + m[1]), l.strip()


@search(6, "arrays that are read by a tag's number, and functions that do so")
def by_tag():
    for path in sorted(glob.glob("crates/*/src/*.rt")):
        for n, l in enumerate(open(path), 1):
            if m := re.match(r"(?:pub )?type (\w+) = \[usize; \w+\];", l):
                yield (path, n, path.split("/")[1] + "::" + m[1]), l.strip()
    for f in OWN:
        if found := re.search(r"\bat\[tag\]", f.body):
            yield f, found[0]


@search(6, "local arrays of which only a first part is used")
def arrays():
    for f in OWN:
        yield from seen(f, r"let (?:mut )?\w+ = \[[^\]]*; (?:\d+)\];")


# ---- 7: a switch on which step to run


@search(7, "a match on a parameter whose arms are calls")
def switches():
    for f in OWN:
        for m in re.finditer(r"\bmatch (\w+) \{", f.body):
            arms = f.body[m.end() - 1 : closing(f.body, m.end() - 1)]
            calls = re.findall(r"=> (?:\w+::)?([a-z]\w*\((?:[^()]|\([^()]*\))*\))", arms)
            kind = PARAM[id(f)].get(m[1])
            if kind and kind not in SHAPED and len(calls) >= 2 and not all(re.fullmatch(r"\w+\([-\d, ]*\)", c) for c in calls):
                yield (f.path, f.line_at(m.start()), f.full), f"match {m[1]}: " + " | ".join(calls)


@search(7, "one call in several arms, which differ in one argument")
def one_call():
    for f in OWN:
        calls = collections.defaultdict(list)
        for m in re.finditer(r"\breturn (\w+)\(|^    (\w+)\((?=[^\n]*\)\n\})", f.body, re.M):
            calls[m[1] or m[2]].append(parts(f.body[m.end() : closing(f.body, m.end() - 1) - 1]))
        for name, l in calls.items():
            if len(l) > 2 and len({len(x) for x in l}) == 1 and sum(len(set(c)) > 1 for c in zip(*l)) == 1:
                yield f, f"{name} {len(l)} times"


@search(7, "a test's answer given to say which of two steps is run")
def by_answer():
    for f in OWN:
        for p in f.params:
            if re.fullmatch(r"(?!earlier)\w+: (?:Answer|Bounds|Outcome|Found)", p) and re.search(r"\w\(.*&?\w*work\)", f.body):
                yield f, p


@search(7, "the walk over rows and columns, with another step in each")
def walks():
    for f in OWN:
        rows = [m for m in re.finditer(r"\bfor (\w+) in 0\.\.(?:p\.n|rows) \{", f.body)]
        columns = [m for m in re.finditer(r"\bfor (\w+) in 0\.\.(?:p\.w|columns) \{", f.body)]
        if rows or columns:
            yield f, " and ".join(["rows"] * bool(rows) + ["columns"] * bool(columns))


# ---- 8: proofs

TOKEN = re.compile(r"[^\s(){}.;,:@\"«»\[\]\\`⟦⟧|]+")
DEFINED = re.compile(r"(\s*)((?:pub |abbrev |unfoldable )*)([^\s(){}:]+) (?:\{[^{}]*\} |\([^()]*\) )*:(?: (.*))?$")


def antt():
    files = sorted(glob.glob("crates/*/specs/**/*.antt", recursive=True) + glob.glob("crates/*/proofs/**/*.antt", recursive=True))
    return {f: re.sub(r"--[^\n]*", "", open(f).read()) for f in files}


def is_answer(path):
    """Whether a file belongs to one function's proof, in proofs/F/."""
    return re.match(r"crates/\w+/proofs/.+/\w+\.antt$", path)


def no_use(text):
    return re.sub(r"(?m)^\s*(?:pub )?(?:ghost )?use [^\n]*", "", text)


@search(8, "functions with a walk by hand (Proof.antt)")
def by_hand():
    for path, text in antt().items():
        if is_answer(path) and path.endswith("/Proof.antt"):
            yield (path, 1, "::".join(path.split("/")[1:4:2])), f"{text.count(chr(10))} lines"


@search(8, "functions with answers (Answers.antt)")
def by_answers():
    for path, text in antt().items():
        if is_answer(path) and path.endswith("/Answers.antt"):
            yield (path, 1, "::".join(path.split("/")[1:4:2])), f"{text.count(chr(10))} lines"


@search(8, "functions with invariants (Invariants.antt)")
def by_invariants():
    for path, text in antt().items():
        if is_answer(path) and path.endswith("/Invariants.antt"):
            yield (path, 1, "::".join(path.split("/")[1:4:2])), f"{text.count(chr(10))} lines"


def definitions(text):
    """The definitions of a file that stand at its top or in a module block: line, name, type, and the lines that are its own."""
    lines, blocks = text.split("\n"), []
    for i, l in enumerate(lines):
        if not l.strip():
            continue
        indent = len(l) - len(l.lstrip())
        while blocks and indent <= blocks[-1]:
            blocks.pop()
        if re.match(r"\s*module\b", l):
            blocks.append(indent)
        m = DEFINED.match(l)
        if not m or m[3] in ("record", "data", "module", "use") or (indent and not (blocks and indent == blocks[-1] + 2)):
            continue
        end = i + 1
        while end < len(lines) and "◌" not in m[3]:
            k = lines[end]
            if k.strip() and len(k) - len(k.lstrip()) <= indent and k.split()[0] != m[3]:
                break
            end += 1
        yield i, end, m[3], lines


@search(8, "definitions and lemmas that nothing cites, and that README and docs/ (PORT and PROOFS aside) don't name")
def uncited():
    texts = antt()
    sources = {f: open(f).read() for f in glob.glob("crates/*/src/**/*.rt", recursive=True)}
    pages = "".join(open(f).read() for f in glob.glob("*.md") + glob.glob("docs/*.md") if not re.search(r"PORT|PROOFS|DESIGN-PASS|CHANGELOG", f))
    for path, text in texts.items():
        if is_answer(path):
            continue
        module = "Rattle." + path.removeprefix("crates/").removesuffix(".antt").replace("/", ".")
        for i, end, name, lines in definitions(text):
            needed = {p for p in name.split("◌") if p}
            if needed <= set(TOKEN.findall(no_use("\n".join(lines[:i] + lines[end:])))):
                continue
            listed = re.compile(re.escape(module) + r"\.\{[^}]*(?<![^\s{,])" + re.escape(name) + r"(?=\s*[,}])")
            cited = False
            for other, there in {**texts, **sources}.items():
                if other == path or module not in there:
                    continue
                if re.search(r"pub use " + listed.pattern, there) or (listed.search(there) and needed <= set(TOKEN.findall(no_use(there)))):
                    cited = True
                aliases = re.findall(re.escape(module) + r" as ([^\s;,}]+)", there) + [module.split(".")[-1]]
                cited = cited or any(re.search(r"(?<![^\s(\[{])" + re.escape(a + "." + name) + r"(?![^\s(){}.;,:\]])", there) for a in aliases)
            if not cited and f"`{name}`" not in pages:
                yield (path, i + 1, name), ""


@search(8, "lines that three or more functions' proofs have in common, of 40 characters and more")
def repeated_lines():
    where = collections.defaultdict(list)
    for path, text in antt().items():
        if is_answer(path):
            for l in sorted({" ".join(l.split()) for l in no_use(text).split("\n")}):
                if len(l) >= 40 and not re.search(r" : (?:tie|goal)\.|^let .* in$", l):
                    where[l].append(path)
    for l, paths in sorted(where.items(), key=lambda x: -len(x[1])):
        if len(paths) >= 3:
            yield (paths[0], 1, f"{len(paths)} proofs"), l


def statement(type_):
    """A statement with its bound names counted and what is implicit left out."""
    bound = [n for g in re.findall(r"[({]([^(){}:]+) : ", type_) + re.findall(r"λ ([^.]+)\.", type_) for n in g.split()]
    type_ = re.sub(r"\{[^{}]*\}\s*→?", "", type_)
    type_ = re.sub(r"\(([^(){}:]+) : ([^()]*)\)", lambda m: " ".join(f"( {n} : {m[2]} )" for n in m[1].split()), type_)
    order = {}
    return " ".join(order.setdefault(t, f"v{len(order)}") if t in bound else t for t in TOKEN.findall(type_) if t != "→")


def lemmas(files):
    for path in files:
        lines = re.sub(r"--[^\n]*", "", open(path).read()).split("\n")
        for i, l in enumerate(lines):
            m = DEFINED.match(l)
            if m and m[4] and "abbrev" not in m[2] and "unfoldable" not in m[2] and m[3] not in ("record", "data"):
                rest = itertools.takewhile(lambda k: re.match(r"\s*→", k), lines[i + 1 :])
                yield path, i + 1, m[3], statement(" ".join([m[4], *map(str.strip, rest)]))


def in_library(folder):
    library = {}
    files = [f for root in ("std", "core", "std_alloc", "std_collections") for f in glob.glob(f"{folder}/{root}/**/*.antt", recursive=True)]
    for path, line, name, said in lemmas(files + glob.glob(f"{folder}/antt/**/mathlib/**/*.antt", recursive=True)):
        library.setdefault(said, f"{path.removeprefix(folder + '/')} {name}")
    for path, line, name, said in lemmas(f for f in antt() if not is_answer(f)):
        if said in library and len(said.split()) > 3:
            yield (path, line, name), library[said]


# ---- printing


def show(place):
    path, line, name = (place.path, place.line, place.full) if isinstance(place, Item) else place
    return f"{path}:{line}: {name}"


def main():
    point = int(sys.argv[1]) if len(sys.argv) > 1 else None
    if len(sys.argv) > 2:
        search(8, "lemmas that the kit's libraries state in the same words")(lambda: in_library(sys.argv[2].rstrip("/")))
    for n in range(1, 9) if point is None else [point]:
        found = [(title, list(run())) for p, title, run in SEARCHES if p == n]
        print(f"point {n}: {sum(len(l) for _, l in found)}")
        for title, l in found:
            print(f"  {len(l):4d}  {title}")
            if point:
                for place, what in l:
                    print(f"        {show(place)}: {what}")


main()
