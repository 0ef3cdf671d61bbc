#!/usr/bin/env python3
"""Lists the places in crates/*/src of one commit that an older form of the language may have left.

    tools/places.py [COMMIT] [--list]

COMMIT is HEAD if none is given. For each kind of place it prints how many there are; with --list also which.
Comments and clauses are not code and are left out, but for the kinds that count clauses.
"""
import difflib
import re
import subprocess
import sys

args = [a for a in sys.argv[1:] if not a.startswith("--")]
commit = args[0] if args else "HEAD"
listing = "--list" in sys.argv


def git(*words):
    return subprocess.run(("git",) + words, check=True, capture_output=True, text=True).stdout


files = [f for f in git("ls-tree", "-r", "--name-only", commit, "crates").splitlines() if re.match(r"crates/\w+/src/.*\.rt$", f)]
texts = {f: git("show", f"{commit}:{f}").splitlines() for f in files}

CLAUSE = re.compile(r"^\s*(requires|ensures)\b|^\s*ghost\b")


def is_code(line):
    return line.strip() and not line.strip().startswith("//") and not CLAUSE.match(line)


def lines_of(test):
    return [(f, n + 1, line.strip()) for f, text in texts.items() for n, line in enumerate(text) if test(line)]


def code(pattern):
    found = re.compile(pattern)
    return lines_of(lambda line: is_code(line) and found.search(line))


def clauses(pattern):
    found = re.compile(pattern)
    return lines_of(lambda line: CLAUSE.match(line) and found.search(line))


HEAD = re.compile(r"^\s*(pub(\(crate\))? )?(final )?fn (\w+)")


def functions():
    """Each function: where it starts, its name, its signature, its body, without comments and clauses."""
    for f, text in texts.items():
        n = 0
        while n < len(text):
            head = HEAD.match(text[n])
            if not head or text[n].rstrip().endswith(";"):
                n += 1
                continue
            start, indent = n, len(text[n]) - len(text[n].lstrip())
            signature, body, inside = [], [], False
            while True:
                line = text[n]
                if is_code(line):
                    (body if inside else signature).append(line.strip())
                if not inside and line.rstrip().endswith("{") and is_code(line):
                    inside = True
                if (inside and line == " " * indent + "}") or (not inside and line.rstrip().endswith(";")):
                    break
                if inside and n == start and line.rstrip().endswith("}"):
                    break
                n += 1
                if n == len(text):
                    break
            if inside:
                yield f, start + 1, head.group(4), " ".join(signature), body
            n += 1


WORDS = set("fn pub crate let mut if else match for in while return self Self Some None Ok Err true false as where impl".split())


def skeleton(tokens):
    out = []
    for t in tokens:
        if t in WORDS or not re.match(r"\w|b?['\"]", t):
            out.append(t)
        elif re.match(r"b?['\"]|\d", t):
            out.append("0")
        else:
            out.append("x")
    return out


TOKEN = re.compile(r"b?\"[^\"]*\"|b?'(?:\\.|[^'\\])'|\w+|[^\s\w]")


def twins():
    fs = []
    for f, n, name, signature, body in functions():
        tokens = skeleton(TOKEN.findall(signature + " " + " ".join(body)))
        if len(TOKEN.findall(" ".join(body))) >= 12:
            fs.append((f, n, name, tokens))
    group = {}
    for i, a in enumerate(fs):
        group[i] = i
    for i, a in enumerate(fs):
        for j in range(i):
            b = fs[j]
            if min(len(a[3]), len(b[3])) < 0.85 * max(len(a[3]), len(b[3])):
                continue
            if difflib.SequenceMatcher(None, a[3], b[3], autojunk=False).ratio() >= 0.9:
                group[i] = group[j]
                break
    sets = {}
    for i, g in group.items():
        sets.setdefault(g, []).append(fs[i])
    return [s for s in sets.values() if len(s) > 1]


NUMBER = r"(501|60[1-5]|620|65[01]|70[1-9]|71[0-7]|802|805)"
kinds = [
    ("1 a number that stands for a refusal", code(rf"(?<![\w.]){NUMBER}(?![\w.])")),
    ("1 an answer or a field that is a number or a flag for a refusal", code(r"-> u32\b|-> \(u32, usize\)|Option<u32>|Option<\(u32, usize\)>|Result<[^;]*, (u32|usize)>|Option<usize>|number: u32|(add|fill|add_line|add_sender|add_carrier)\b.*-> bool")),
    ("1 an enum with a case that is None or an error", code(r"^\s*(Absent|Invalid|NotUnderstood|First\(u32\)|Missing),")),
    ("1 a struct of a flag and a value", code(r"readable: bool,")),
    ("1 a let-else or an arm that hands on None, an error or false", [p for p in code(r"else \{$|None => (None|return)|Err\(_\) => return|None => Err") if not p[2].startswith(("if", "} else"))]),
    ("3 a loop over numbers", code(r"for \w+ in 0\.\.")),
    ("3 a while", code(r"\bwhile\b")),
    ("3 a for that searches, counts or tests", [p for p in code(r"^\s*for .* in ") if any(re.search(r"return (true|false|i;|Some|row)|n = |\+= 1", line) for line in texts[p[0]][p[1]:p[1] + 4])]),
    ("4 a comparison with a name of its own", code(r"fn (is|same|same_type|same_named)\(")),
    ("4 a call of one", code(r"\bsame\(|\.is\(|same_type\(")),
    ("4 a comparison of the numbers inside", code(r"\.(value|number|letter)\(\) *(==|!=|<|<=|>)|(==|<|<=) *\w+(\.\w+)*\.(value|number)\(\)")),
    ("4 a conversion or a word by a ladder of its own", code(r"fn (new|read_type|read_control|read_mark|read_hold|condition_for|condition_word|put_type|put_number|put_mark|tagged_time|tagged_slot)\(")),
    ("5 setting_of with its three members", clauses(r"setting_of \(")),
    ("5 program_of with its three parts", clauses(r"program_of ")),
    ("5 a bound on the length of a line, an identifier or a buffer", clauses(r"length [\w.]+ ≤ (16|160|512|64)|40960 ≤ length")),
    ("5 several facts joined in one requires", [p for p in clauses(r"^\s*requires.* × ")]),
    ("5 functions of register, element, table, user", [p for p in functions() if re.search(r"register: .*element: .*(table|user): ", p[3])]),
    ("5 functions of element and days", [p for p in functions() if re.search(r"element: &E.*days: &Days", p[3])]),
    ("5 functions of a buffer and a place in it", [p for p in functions() if re.search(r"out: &mut \[u8\].*at: usize", p[3])]),
    ("5 functions of four texts that name a flight", [p for p in functions() if re.search(r"id: &.*departure: &.*arrival: &.*date: &", p[3])]),
    ("6 an array or a Vec in a type, or a length beside one", code(r"^\s*(pub(\(crate\))? )?\w+: (\[\w+; \w+\]|Vec<.*>),|(len|count): usize,")),
    ("7 a trait that stands for a function", code(r"^\s*(pub )?trait (Asks|Chooses|Amends)\b")),
    ("7 a struct that stands for a question or a step", code(r"^\s*(pub )?struct (SameFlight|SameSlot|MovesFlight|NamesFlight|Departure|UserFlights)\b")),
    ("7 a match on which step to run", code(r"match \(?(self\.condition|call|block|kind|\(self\.condition)\b")),
]

sets = twins()
proofs = [f for f in git("ls-tree", "-r", "--name-only", commit, "crates").splitlines() if re.match(r"crates/\w+/proofs/.*\.antt$", f)]
proved = {f: git("show", f"{commit}:{f}") for f in proofs}
answers = sum(len(re.findall(r": goal\.", t)) for f, t in proved.items() if f.endswith("/Answers.antt"))
own = ("/Answers.antt", "/Invariants.antt")
lemmas = sum(len(re.findall(r"^(?:pub |abbrev )*[\w-]+ : ", t, re.M)) for f, t in proved.items() if not f.endswith(own))


def show(count, name, lines):
    print(f"{count:4}  {name}")
    if listing:
        for line in lines:
            print("        " + line)


print(f"{commit}: {len(files)} files, {sum(1 for _ in functions())} functions with a body")
for name, places in [k for k in kinds if k[0] < "2"]:
    show(len(places), name, [f"{p[0]}:{p[1]}: {p[2]}" for p in places])
show(
    sum(len(s) for s in sets),
    f"2 functions that differ in names and constants from another, in {len(sets)} sets",
    ["; ".join(f"{f.split('/')[1]}/{f.split('/')[-1]}:{n} {name}" for f, n, name, _ in s) for s in sets],
)
for name, places in [k for k in kinds if k[0] > "2"]:
    show(len(places), name, [f"{p[0]}:{p[1]}: {p[2]}" for p in places])
print(f"{answers:4}  8 answers to a goal")
print(f"{lemmas:4}  8 lemmas")
print(f"{sum(t.count(chr(10)) for t in proved.values()):4}  8 lines of proofs/")
