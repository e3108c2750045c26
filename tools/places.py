#!/usr/bin/env python3
"""Lists the places that docs/DESIGN-PASS.md counts, point by point: places.py [POINT ..] in a checkout. Candidates by their text; the page says which of
them are what the point means, and what became of each."""
import collections
import difflib
import glob
import re
import sys

FILES = sorted(glob.glob("crates/*/src/**/*.rt", recursive=True))


def lines(pattern, files=None):
    for f in files or FILES:
        for n, line in enumerate(open(f), 1):
            if not line.lstrip().startswith("//") and re.search(pattern, line):
                yield f"{f}:{n}: {line.strip()}"


def functions():
    """Each function: its file, its line, its name, its head (up to the body) and its body."""
    for f in FILES:
        text = open(f).read()
        for m in re.finditer(r"^( *)((?:pub )?(?:extern \"C\" )?fn (\w+).*?\n?)^\1\}", text, re.M | re.S):
            whole = m.group(0)
            cut = re.search(r"\{\n|\) -> [^\n]*\{\n|^ *\{\n", whole, re.M)
            lead = whole.find("\n{\n") if "\n{\n" in whole else whole.find(" {\n")
            yield f, text.count("\n", 0, m.start()) + 1, m.group(3), whole[:lead], whole[lead:]


def tokens(s):
    s = re.sub(r"//[^\n]*", "", s)
    s = re.sub(r"\b\d[\w.]*\b", "0", s)
    return re.findall(r"\w+|[^\w\s]", s)


def one():
    print("enums:")
    yield from lines(r"^\s*(pub )?enum ")
    print("an answer or a flag beside a value:")
    yield from lines(r"^\s+(pub )?(answer|present|found|is_found): ")
    print("numbers for kinds, by constants:")
    yield from lines(r"^\s*(pub )?const [A-Z_0-9]+: (usize|u8|u32|u64) = \d+;")
    print("functions that give a number for a refusal, a kind or nothing:")
    for f, n, name, head, body in functions():
        if re.search(r"-> (usize|u8|u32)\b", head) and re.search(r"return (0|n|[A-Z_]+);|_ => (0|[A-Z]+)|\.number\(\)|\bn$", body, re.M):
            yield f"{f}:{n}: {name}"


def two():
    all_ = [(f, n, name, tokens(head + body)) for f, n, name, head, body in functions() if body.count("\n") > 2]
    seen = set()
    for i, a in enumerate(all_):
        for b in all_[i + 1 :]:
            if abs(len(a[3]) - len(b[3])) > 12 or len(a[3]) < 24:
                continue
            m = difflib.SequenceMatcher(None, a[3], b[3], autojunk=False)
            if m.quick_ratio() > 0.9 and m.ratio() > 0.9 and a[2] not in ("main",):
                yield f"{a[0]}:{a[1]}: {a[2]}  |  {b[0]}:{b[1]}: {b[2]}"


def three():
    yield from lines(r"^\s*while ")


def four():
    for f, n, name, head, body in functions():
        if re.match(r"(equals|same\d+|from_u\d+|into_inner|absent|default|number|refusal|wide|low|size|minimum|copy|put_word|word\d|front\d|bytes\d+|big8|swapped|flag_byte|side_of|is_server|is_present|or_zero|say_\w+|note_\w+|put_count|usage|copied)$", name):
            yield f"{f}:{n}: {name}"


def five():
    print("parameters that stand together in three functions or more:")
    groups = collections.defaultdict(list)
    for f, n, name, head, body in functions():
        args = re.search(r"\((.*?)\)(?: ->|\s|$)", head.replace("\n", " "))
        ps = [re.sub(r"^&?mut ", "", p.strip()) for p in (args.group(1).split(",") if args else []) if ":" in p]
        ps = sorted({re.sub(r"'a ", "", p) for p in ps})
        for i in range(len(ps)):
            for j in range(i + 1, len(ps)):
                for k in range(j + 1, len(ps)):
                    groups[(f, ps[i], ps[j], ps[k])].append(name)
    for (f, *ps), names in sorted(groups.items()):
        if len(names) >= 3:
            yield f"{f}: {'; '.join(ps)}: {', '.join(names)}"
    print("facts that stand in the contracts of three functions or more:")
    facts = collections.defaultdict(set)
    for f, n, name, head, body in functions():
        for clause in re.findall(r"(?:requires|ensures)(?: \w+)? \{ ?(.*?) ?\}\s*(?=\n|$)", head, re.S):
            for part in re.split(r" × ", clause):
                part = re.sub(r"\s+", " ", part.strip("() "))
                if not part.startswith(("result ≡", "out.new ≡", "(result", "result, ")):
                    facts[(f, part)].add(name)
    for (f, part), names in sorted(facts.items()):
        if len(names) >= 3:
            yield f"{f}: {part}: {', '.join(sorted(names))}"


def six():
    yield from lines(r"\[0u8; |\[u8; NAME_WIDTH|lens: |position\(|\bchoice\(|word\(b?&?[A-Za-z\"]+")


def seven():
    yield from lines(r"match (op|command|row|place|rest)\b")


def eight():
    n = collections.Counter()
    for f in glob.glob("crates/*/proofs/**/*.antt", recursive=True):
        c = f.split("/")[1]
        n[c] += sum(1 for _ in open(f))
    for c in sorted(n):
        a = len(glob.glob(f"crates/{c}/proofs/**/Answers.antt", recursive=True))
        yield f"{c}: {n[c]} lines, {a} files of answers"


POINTS = [one, two, three, four, five, six, seven, eight]
for p in [int(a) for a in sys.argv[1:]] or range(1, 9):
    found = list(POINTS[p - 1]())
    print(f"== point {p}: {len(found)}")
    print("\n".join(found))
