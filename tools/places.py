#!/usr/bin/env python3
"""Lists the places in crates/*/src and proofs/ that docs/DESIGN-PASS.md counts, point by point.

    python3 tools/places.py [FOLDER]          the count of each point
    python3 tools/places.py POINT [FOLDER]    the places of one point, 1 to 8

FOLDER is a checkout, this one if none is given. What is listed are candidates by their shape, to be read one by one. Point 2 pairs
functions whose words are alike once names and numbers are left out.
"""
import difflib
import re
import sys
from collections import defaultdict
from pathlib import Path

ARGS = sys.argv[1:]
POINT = int(ARGS.pop(0)) if ARGS and ARGS[0].isdigit() else 0
ROOT = Path(ARGS[0] if ARGS else Path(__file__).resolve().parent.parent)
FN = re.compile(r"\bfn\s+(\w+)")
WORDS = re.compile(r"[A-Za-z_]\w*|0x[0-9a-f_]+|\d[\d_]*|b?'(?:\\.|[^'])'|b?\"(?:\\.|[^\"])*\"|[^\s\w]")
KEEP = {"fn", "let", "for", "in", "if", "else", "match", "return", "mut", "while", "loop", "Some", "None", "Ok", "Err", "pub", "impl", "self"}


def without_comments(text):
    return re.sub(r"(?m)//.*$", "", text)


def closing(text, at):
    """The place after the bracket that closes the one at `at`."""
    pairs = {"(": ")", "[": "]", "{": "}"}
    stack = []
    while at < len(text):
        c = text[at]
        m = re.match(r"b?'(\\.|[^'\\])'", text[at:])
        if m:
            at += m.end()
            continue
        if c == '"':
            at = re.compile(r'"(\\.|[^"\\])*"', re.S).match(text, at).end()
            continue
        if c in pairs:
            stack.append(pairs[c])
        elif stack and c == stack[-1]:
            stack.pop()
            if not stack:
                return at + 1
        at += 1
    return at


class Function:
    def __init__(self, file, line, name, params, head, clauses, body):
        self.file, self.line, self.name = file, line, name
        self.params, self.head, self.clauses, self.body = params, head, clauses, body

    def __str__(self):
        return f"{self.file}:{self.line} {self.name}"


def functions():
    for path in sorted(ROOT.glob("crates/*/src/**/*.rt")):
        text = without_comments(path.read_text())
        for m in FN.finditer(text):
            at = text.index("(", m.end())
            end = closing(text, at)
            params, head, clauses = text[at + 1 : end - 1], "", []
            while True:
                stop = end
                while text[stop] not in "{;":
                    stop = closing(text, stop) if text[stop] in "[(" else stop + 1
                before, body = text[end:stop], ""
                if text[stop] == ";":
                    break
                last = closing(text, stop)
                word = re.search(r"\b(requires|ensures)(\s+\w+)?\s*$", before)
                if word is None:
                    head += before
                    body = text[stop:last]
                    break
                head += before[: word.start()]
                clauses.append((word.group(1), text[stop + 1 : last - 1].strip()))
                end = last
            yield Function(path.relative_to(ROOT), text.count("\n", 0, m.start()) + 1, m.group(1), params, head, clauses, body)


def shape(text):
    """The words of a text with its own names and numbers left out."""
    out = []
    for w in WORDS.findall(text):
        if re.match(r"\d|0x|b?'|b?\"", w):
            out.append("N")
        elif re.match(r"[A-Za-z_]", w) and w not in KEEP:
            out.append("n")
        else:
            out.append(w)
    return out


def lines(pattern, where="src"):
    for path in sorted(ROOT.glob(f"crates/*/{where}/**/*.rt")):
        for i, line in enumerate(without_comments(path.read_text()).splitlines(), 1):
            if re.search(pattern, line):
                yield f"{path.relative_to(ROOT)}:{i} {line.strip()}"


def point1(fs):
    yield from lines(r"^\s*(pub(\(crate\))? )?enum ")
    yield from lines(r"Result<Option<|Option<Result<|Result<bool|\(bool,|, bool\)|is_\w+: bool|Result<u8")
    yield from lines(r"const \w+: u8 =")


def point2(fs):
    fs = [f for f in fs if len(WORDS.findall(f.body)) > 8]
    for i, f in enumerate(fs):
        for g in fs[i + 1 :]:
            a, b = shape(f.params + f.head + f.body), shape(g.params + g.head + g.body)
            if abs(len(a) - len(b)) <= 0.25 * max(len(a), len(b)):
                alike = difflib.SequenceMatcher(None, a, b, autojunk=False).ratio()
                if alike >= 0.86:
                    yield f"{alike:.2f} {f} ~ {g}"


def point3(fs):
    yield from lines(r"\bfor \w+ in [^{]*\.\.")
    yield from lines(r"\bwhile \b|\bloop\b")
    for f in fs:
        if re.search(r"\bfor [^{]*\{.*\.push\(", f.body, re.S):
            yield f"{f}: a loop that pushes"
        run = best = 1
        rows = [shape(r) for r in f.body.splitlines() if r.strip()]
        for a, b in zip(rows, rows[1:]):
            run = run + 1 if a == b and len(a) > 5 else 1
            best = max(best, run)
        if best >= 4:
            yield f"{f}: {best} rows alike"
        listed = max((len(re.findall(r"\[\d+\]", r)) for r in re.findall(r"\[[^;=]*\]", f.body, re.S)), default=0)
        if best < 4 and listed >= 4:
            yield f"{f}: {listed} entries written out"


def point4(fs):
    yield from lines(r"impl[^{]* (PartialEq|Eq|PartialOrd|Ord|Clone|Copy|Debug|Hash|Default|From<.*>|TryFrom<.*>|fmt::Display) for ")
    for f in fs:
        one = "," not in f.params.strip().rstrip(",") and "&mut" not in f.params and "self" not in f.params.replace("self)", "")
        if (one and "->" in f.head and "Result" not in f.head and not re.search(r"\bfor\b|\bwhile\b", f.body) and f.name != "from") or "self) -> u8" in f"{f.params}){f.head}":
            yield f"{f}: ({f.params.strip()}){f.head.split('requires')[0].rstrip()}"


def point5(fs):
    facts = defaultdict(list)
    for f in fs:
        for kind, text in f.clauses:
            facts[" ".join("n" if w[0].islower() and w.isidentifier() and w not in KEEP else w for w in WORDS.findall(text))].append(f)
    for text, of in sorted(facts.items()):
        if len(of) >= 3:
            yield f"{len(of)} functions: {text}: " + ", ".join(f.name for f in of)
    of_names = [(f, set(re.findall(r"(\w+)\s*:", f.params))) for f in fs]
    groups = {frozenset(a & b) for i, (_, a) in enumerate(of_names) for _, b in of_names[i + 1 :] if len(a & b) >= 3}
    for names in sorted(groups, key=sorted):
        of = [f for f, has in of_names if names <= has]
        if not any(names < more and of == [f for f, has in of_names if more <= has] for more in groups):
            yield f"{len(of)} functions: parameters {', '.join(sorted(names))}: " + ", ".join(f.name for f in of)


def point6(fs):
    yield from lines(r"^\s*(pub )?\w*(count|len|size)\w*: (u\d+|usize),")
    yield from lines(r"let mut \w+ = \[0[^;]*; \d+\]")
    for f in fs:
        slices = re.findall(r"(\w+): &\[(\w+)\]", f.params)
        for t in {t for _, t in slices}:
            of = [n for n, u in slices if u == t]
            if len(of) >= 2:
                yield f"{f}: slices {', '.join(of)} of {t}"


def point7(fs):
    yield from lines(r"\bfn\(|\bdyn\b|Box<")
    for f in fs:
        if re.search(r"\b\w+: bool", f.params) and re.search(r"\bif \w+ \{", f.body):
            yield f"{f}: a switch"


def point8(fs):
    for path in sorted(ROOT.glob("crates/*/proofs/**/*.antt")):
        text = path.read_text()
        n = len(re.findall(r"(?m)^(?:  )?(?:pub |abbrev |unfoldable |abbrev pub |unfoldable pub )*[^\s(,|]+ : ", text))
        if n:
            yield f"{path.relative_to(ROOT)}: {n}"


def main():
    fs = list(functions())
    points = [point1, point2, point3, point4, point5, point6, point7, point8]
    if POINT:
        print("\n".join(points[POINT - 1](fs)))
        return
    for i, point in enumerate(points, 1):
        found = list(point(fs))
        if i == 8:
            answers = [p for p in found if "/Answers." in p or "/Invariants." in p]
            count = lambda ps: sum(int(p.rsplit(" ", 1)[1]) for p in ps)
            print(f"8: {count(answers)} answers and invariants in {len(answers)} files, {count(found) - count(answers)} lemmas in {len(found) - len(answers)} files")
        else:
            print(f"{i}: {len(found)}")


main()
