#!/usr/bin/env python3
"""Lists where src/ may still be written in older forms, by the points of docs/DESIGN-PASS.md.

    python3 tools/places.py          counts, a line for each point
    python3 tools/places.py 3        the lines of point 3

It goes by text: what it prints is read by a person, who says which lines are one place, and which are none.
"""
import difflib, re, subprocess, sys

files = subprocess.run(["git", "ls-files", "crates/*/src/*.rt"], capture_output=True, text=True).stdout.split()
lines = [(f, n, l) for f in files for n, l in enumerate(open(f), 1)]


def grep(pattern):
    return [f"{f}:{n}: {l.strip()}" for f, n, l in lines if re.search(pattern, l)]


# A function: its file, its name, what stands between the name and the body, and the body.
def functions():
    for f in files:
        text = open(f).read()
        for m in re.finditer(r"^( *)(?:pub(?:\([a-z]+\))? )?(?:final )?fn (\w+)(.*?)^\1\{\n(.*?)^\1\}|^( *)(?:pub(?:\([a-z]+\))? )?fn (\w+)([^\n]*) \{\n(.*?)^\5\}", text, re.S | re.M):
            yield f, m[2] or m[6], m[3] if m[2] else m[7], m[4] if m[2] else m[8]


def twins():
    known = []
    for f, name, head, body in functions():
        plain = re.sub(r"ensures.*|requires.*", "", head)
        tokens = [t if not re.match(r"[A-Za-z_]\w*|\d", t) or t in WORDS else "x" for t in re.findall(r"\w+|\S", plain + body)]
        known.append((f, name, tokens))
    found = []
    for i, (f, a, s) in enumerate(known):
        for g, b, t in known[i + 1:]:
            if f.split("/")[1] == g.split("/")[1] and min(len(s), len(t)) >= 12 and difflib.SequenceMatcher(None, s, t).ratio() >= 0.85:
                found.append(f"{f}: {a}  ~  {g}: {b}")
    return found


WORDS = set("match if else for in while let mut return self Some None Ok Err fn pub true false".split())


def repeated():
    clauses, pairs = {}, {}
    for f, name, head, _ in functions():
        for kind, clause in re.findall(r"(requires|ensures)(?: \w+)? \{ (.*) \}", head):
            # a clause with the names of the values left out is one fact
            for part in re.split(r" × ", clause):
                fact = re.sub(r"[\w.]+\.(now|old|new)\b|\bresult\b", "_", part.strip("() "))
                clauses.setdefault(fact, set()).add((f, name))
        params = sorted(set(re.findall(r"(\w+): ([^,()\n]+)", re.sub(r"(?s)(requires|ensures).*", "", head))))
        for i, p in enumerate(params):
            for q in params[i + 1:]:
                if p[0] not in ("heap", "rt", "f", "out") and q[0] not in ("heap", "rt", "f", "out"):
                    pairs.setdefault((p, q), set()).add((f, name))
    out = [f"fact in {len(w)}: {c}   ({', '.join(sorted(n for _, n in w))})" for c, w in clauses.items() if len(w) >= 3 and len(c) > 8]
    out += [f"together in {len(w)}: {p[0]}: {p[1]}, {q[0]}: {q[1]}   ({', '.join(sorted(n for _, n in w))})" for (p, q), w in pairs.items() if len(w) >= 3]
    return out


def proofs():
    answers = subprocess.run(["git", "ls-files", "crates/*/proofs/*"], capture_output=True, text=True).stdout.split()
    many = lambda fs: sum(len(open(f).readlines()) for f in fs)
    own = [f for f in answers if f.endswith(("/Answers.antt", "/Invariants.antt"))]
    lemmas = [f for f in answers if f not in own and f.endswith(".antt")]
    return [f"{len(own)} files of answers and invariants, {many(own)} lines; {len(lemmas)} files of lemmas, {many(lemmas)} lines"]


points = {
    1: lambda: grep(r"let (Ok|Some)\(.*\) = .* else|=> return Err\(|Err\([a-z]+\) => Err\(|Err\(_\) => unreachable|Err\(why\) => (why|Some)|Err\(NoRoom\)|fn (code|from_code|number|refusal)\(|^(pub(\(crate\))? )?enum (Entry|[A-Z][a-z]+Error|Failure)|^struct No|\b(\w+) < 1 \|\| \3 > "),
    2: twins,
    3: lambda: grep(r"\.enumerate\(\)|for \w+ in [\w.]+\.\.|\b\w+ \+= 1;|while \w+ <|while .*len\(\)|\[[ijkn]\]"),
    4: lambda: grep(r" as (u8|u16|u32|u64|usize)\b|fn (is_same|same|side_name|text|is_limit|higher_of|limit_ahead|write_\w+)\(|fn write_\w+<|number: order.number|\(Side::(Buy|Sell), Side::(Buy|Sell)\)|^#\[derive\((Clone, Copy|Drop)\)\]|leva:>7"),
    5: repeated,
    6: lambda: grep(r"\b(lines|len|count|size): usize|fn .* -> usize|: \[\w+; \d+\]|\[\w+\]\]"),
    7: lambda: grep(r"^(pub(\(crate\))? )?enum (Class|Range)\b|match (class|range|step|mode) |: \[?fn\("),
    8: proofs,
}
wanted = [int(a) for a in sys.argv[1:]]
for point, find in points.items():
    if not wanted:
        found = find()
        print(f"point {point}: {found[0] if point == 8 else len(found)}")
    elif point in wanted:
        print("\n".join(find()))
