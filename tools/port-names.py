#!/usr/bin/env python3
"""Respells the repository's own names as the kit's CONTRACT_STYLE.md has them. Run once, at the top, after the kit's port.py.

port.py respelled only the names that a library has too, so our own stood mixed: `row_of` beside `rowBit`. Here
- lower camel case becomes snake case: `rowBit` is `row_bit`, also in a part of a dashed name. No source name of Rust is in camel case;
- a dash stays only between two names, each a capitalised part, a definition of specs/ that a file declaring the name sees, or a word of
  LIBRARY: `table-length`. Every other dash becomes `_`: `passed_word`. Names bound in a lemma file have no dash;
- a lemma that would get the name of something that one file has beside it gets `_lem`, as the style says: `row_bit_lem`;
- in a Proof.antt what is declared there, and what is behind a dot, is a label: its dashes stay.
The paths of `use` lines and the strings stay. In .edit files `old:` and `new:` are respelled as the file that they change; in README.md
and docs/*.md what is in backticks. What is printed: odd spellings, each collision with what became of it, and counts.
"""
import collections
import glob
import itertools
import os
import re
import sys

TOKEN = r'[^\s(){}.;,@"«»]+'
STRING = r'(?P<s>"(?:[^"\\\n]|\\.)*")'
ANTT = re.compile(STRING + r"|(?P<c>(?:^|(?<=[\s(){}.;,]))--[^\n]*)|(?P<t>" + TOKEN + ")", re.M)
RT = re.compile(STRING + r"|(?P<c>//[^\n]*)|(?P<t>" + TOKEN + ")")
USE = re.compile(r"^(?P<head> *(?:ghost )?(?:pub )?use )(?P<path>[^\s{;]+)(?P<rest>[^\n]*)", re.M)
WORD = re.compile(r"[\w'-]*\w[\w']*")
CAMEL = re.compile(r"[a-z]\w*[A-Z]")
LIBRARY = set("""length take drop set replicate append map reverse get_or cond not and or xor eqb leb ltb concat sum min max bit_and bit_or
    bit_xor""".split())
RESERVED = set("""data record deriving module where use mod pub package open as unfoldable abbrev axiom unfold unfolding ruleset mutual
    infix infixl infixr elim let in do Type coe fcoe tcoe hcom com search grind omega rw simp cc assumption ground hlevel first_of
    result""".split())
# Spelled by hand: where a digit is a word of its own, and a `plain comparison` is one thing.
SPELLED = {"foundOr0": "found_or_0", "withKind0": "with_kind_0", "plain-comparison-same": "plain_comparison_same"}


def read(p):
    with open(p, encoding="utf-8") as f:
        return f.read()


def stop(text):
    print("port-names: " + text, file=sys.stderr)
    raise SystemExit(2)


def snake(part):
    if not CAMEL.match(part):
        return part
    return re.sub(r"(?<=[a-z0-9])(?=[A-Z])|(?<=[A-Z])(?=[A-Z][a-z])", "_", part).lower()


def camel(name):
    return SPELLED.get(name) or "-".join(snake(p) for p in name.split("-"))


def dashed(name):
    return re.search(r"[a-zA-Z]\S*-\S*[a-zA-Z0-9]", name) is not None and "◌" not in name


def hand(p):
    return p.endswith("/Proof.antt")


def lexer(p):
    return RT if p.endswith(".rt") else ANTT


def is_own(path):
    return any(path.startswith("Rattle." + c + ".") for c in own)


def source(path):
    part = path.rstrip(".").split(".")
    return "/".join(["crates", part[1]] + part[2:]) + ".antt"


def listed(rest):
    """(name, alias) of what one `use` line brings."""
    inside = re.match(r"\s*\{(.*)\}", rest)
    if not inside:
        alias = re.match(r"\s+as (\S+?);?$", rest)
        return [(None, alias[1])] if alias else []
    words = [n.split() for n in inside[1].split(",") if n.split()]
    return [(w[0], w[2] if len(w) == 3 else None) for w in words]


def imports(text):
    return [(m["path"],) + pair for m in USE.finditer(text) for pair in listed(m["rest"])]


def code(p):
    """The names of one file outside its `use` lines: (name, behind a dot)."""
    text = USE.sub("", texts[p])
    return {(m.group(), text[m.start() - 1:m.start()] == ".") for m in lexer(p).finditer(text) if m.lastgroup == "t"}


def declared(text):
    """(name, 'definition' or 'part') of each signature at the top, in a `module`, a record or a `data`."""
    scopes, opening = [(0, "definition")], None
    bare = ANTT.sub(lambda m: "" if m.lastgroup == "c" else m.group(), text)
    lines = [(len(l) - len(l.lstrip()), l) for l in bare.splitlines() if l.strip()]
    for k, (indent, line) in enumerate(lines):
        if opening is None:
            while scopes[-1][0] > indent:
                scopes.pop()
            m = re.match(r" *(?:(?:pub|abbrev|unfoldable) )*(\S+)(.*)", line)
            if indent == scopes[-1][0] and m[1] in ("module", "record", "data"):
                opening = "definition" if m[1] == "module" else "part"
                if m[1] != "module":
                    yield re.match(TOKEN, m[2].strip())[0], "definition"
            elif indent == scopes[-1][0] and m[1] not in ("use", "mod"):
                more = itertools.takewhile(lambda l: l[0] > indent, lines[k + 1:])
                if re.match(r"(\s*[({].*)?\s+:(\s|$)", " ".join([m[2]] + [l for _, l in more])):
                    yield m[1], scopes[-1][1]
        if opening and re.search(r"\bwhere\s*$", line):
            scopes.append((lines[k + 1][0] if k + 1 < len(lines) else indent + 2, opening))
            opening = None


def spell(name, names):
    """The new spelling of a declared name; the whole of it is not taken for one of `names`."""
    base, tail = re.match(r"(.*?)(['₀-₉]*)$", name).groups()
    if name in SPELLED:
        return SPELLED[name]
    parts = camel(base).split("-")
    out, before, i = "", False, 0
    while i < len(parts):
        for j in range(len(parts), i, -1):
            group = "_".join(parts[i:j])
            known = group[0].isupper() or group in LIBRARY or group in names
            if j == i + 1 or known and j - i < len(parts):
                break
        out += ("" if i == 0 else "-" if before and known else "_") + group
        before, i = known, j
    return out + tail


def file_map(p):
    """Of one file: (name, behind a dot) -> new name, and all its names."""
    brought, library, aliases = {}, set(), set()
    for path, name, alias in imports(texts[p]):
        if name and is_own(path):
            brought[name] = source(path)
        elif name:
            library.add(name)
        if alias:
            aliases.add(alias)
    seen = code(p) | {(n, False) for n in set(brought) | library | aliases}
    out = {}
    for name, dot in sorted(seen):
        if name in library and name not in aliases and not dot:
            continue
        if not p.endswith(".antt") or not dashed(name):
            new = camel(name)
            if not dot and ((p, name) in beside or (brought.get(name), name) in beside):
                new += "_lem"
        elif dot and name in parts or not dot and (not hand(p) or brought.get(name) in lemma_files):
            new = spelled.get(name) or camel(name).replace("-", "_")
            new += "_lem" if name in lemmas else ""
        else:
            new = camel(name)
        if new != name:
            out[name, dot] = new
    return out, seen


def collisions():
    """Where two names of one file fall together: a lemma of them gets `_lem`. Whether one did."""
    found = False
    for p in maps:
        out, seen = maps[p]
        together = collections.defaultdict(set)
        for name, dot in seen:
            if not dot:
                together[out.get((name, dot), name)].add(name)
        for new, olds in sorted(together.items()):
            changed = sorted(n for n in olds if (n, False) in out)
            if changed and new in RESERVED:
                stop("%s: %s would be a word of antt" % (p, changed))
            if len(olds) == 1 or not changed:
                continue
            if p.endswith(".rt"):
                if re.search(r"\blet (mut )?%s\b|[(,]\s*%s: " % (new, new), texts[p]):
                    stop("%s: %s would be hidden by a variable" % (p, new))
                said["a definition beside the function of Rust that it mirrors, as in the libraries"].add(new)
                continue
            lemma = [n for n in sorted(olds) if dashed(n)]
            plain = [(q, n) for n in sorted(olds) if n not in changed for q in [p] + [source(u) for u, m, _ in imports(texts[p]) if m == n and is_own(u)]
                     if "/proofs/" in q and n in {d for d, _ in declared(texts[q])}]
            if len(olds) == 2 and len(lemma) == 1:
                lemmas.add(lemma[0])
            elif len(olds) == 2 and len(plain) == 1 and not lemma:
                beside.add(plain[0])
                lemma = [plain[0][1]]
            else:
                stop("%s: %s all become %s; write one in SPELLED" % (p, sorted(olds), new))
            said["`%s` is `%s_lem`, beside %s" % (lemma[0], new, " ".join(sorted(olds - set(lemma))))].add(p.replace("crates/", ""))
            found = True
    return found


def in_prose(text):
    return WORD.sub(lambda m: names.get(m.group()) or camel(m.group()), text)


def turned(text, out, lex, rest=lambda name: name):
    """`text` with the names of `out`, other names by `rest`, comments by in_prose."""
    def name(m):
        return out.get((m.group(), m.string[max(m.start() - 1, 0):m.start()] == ".")) or rest(m.group())

    def other(m):
        return name(m) if m.lastgroup == "t" else in_prose(m.group()) if m.lastgroup == "c" else m.group()

    def use(m):
        fixed = set() if is_own(m["path"]) else {n for n, _ in listed(m["rest"])}
        rest = m["rest"] if "{" in m["rest"] else re.sub(r"\S+$", name, m["rest"])
        return m["head"] + m["path"] + (rest if rest != m["rest"] else re.sub(TOKEN, lambda n: n.group() if n.group() in fixed else name(n), rest))

    done, at = [], 0
    for m in USE.finditer(text):
        done += [lex.sub(other, text[at:m.start()]), use(m)]
        at = m.end()
    return "".join(done + [lex.sub(other, text[at:])])


def in_docs(m):
    old, new = m.group(), names.get(m.group()) or camel(m.group())
    return new if old in names or new in present else old


def write(p, old, new):
    counts[p.rsplit(".", 1)[1]] += new != old
    if new != old:
        with open(p, "w", encoding="utf-8") as f:
            f.write(new)


own = [l.split(":")[0].strip() for l in read("crates.txt").splitlines() if ":" in l and not l.startswith("#")]
files = sorted(p for kind in ("specs/**/*.antt", "proofs/**/*.antt", "src/**/*.rt")
               for p in glob.glob("crates/*/" + kind, recursive=True) if "/out/" not in p)
texts = {p: read(p) for p in files}
if not any(CAMEL.match(n) for p in files if "/specs/" in p for n, _ in code(p)):
    stop("specs/ has no name in camel case: these names are respelled already")

lemma_files = {p for p in files if p.endswith(".antt") and not hand(p)}
definitions = {camel(n) for p in lemma_files if "/specs/" in p for n, what in declared(texts[p]) if what == "definition"}
visible, parts = collections.defaultdict(set), set()
for p in sorted(lemma_files):
    here = list(declared(texts[p]))
    sees = {camel(a or n) for _, n, a in imports(texts[p]) if n} | {camel(n) for n, _ in here if "/specs/" in p}
    for n, what in here:
        if dashed(n):
            visible[n] |= sees & definitions
            parts |= {n} if what == "part" else set()
spelled = {n: spell(n, visible[n]) for n in sorted(visible)}
lemmas, beside, said = set(), set(), collections.defaultdict(set)
while True:
    maps = {p: file_map(p) for p in files}
    if not collisions():
        break

names = {}
for p in files:
    for (old, dot), new in maps[p][0].items():
        if not hand(p) and (p, old) not in beside and old + "_lem" != new and names.setdefault(old, new) != new:
            stop("%s: %s is %s here, and %s elsewhere" % (p, old, new, names[old]))
present = {out.get(pair, pair[0]) for out, seen in maps.values() for pair in seen}
counts, after = collections.Counter(), {}
for p in files:
    after[p] = turned(texts[p], maps[p][0], lexer(p))
    write(p, texts[p], after[p])
for p in sorted(glob.glob("crates/*/must-fail/*.edit")):
    old = read(p)
    target, lines = None, []
    for line in old.split("\n"):
        m = re.match(r"(file|old|new): ?(.*)", line)
        if m and m[1] == "file":
            target = os.path.normpath(os.path.join(p, "../..", m[2].strip()))
            lines.append(line)
        elif target in maps:
            head = line[:5] if m else ""
            lines.append(head + turned(line[len(head):], maps[target][0], lexer(target), camel))
            if m and m[1] == "old" and after[target].count(lines[-1][5:]) != 1:
                print("look: %s: `%s` is there %d times, and was %d times" % (
                    p, lines[-1], after[target].count(lines[-1][5:]), texts[target].count(line[5:])))
        else:
            lines.append(in_prose(line))
    write(p, old, "\n".join(lines))
for p in ["README.md"] + sorted(glob.glob("docs/*.md")):
    old = read(p)
    write(p, old, re.sub(r"(?<!`)`[^`\n]+`(?!`)", lambda m: re.sub(r'[^\s(){}.;,@"«»`]+(?![\w-]|\.\w)', in_docs, m.group()), old))

for n in sorted(names):
    if re.search(r"[A-Z]{2}|[0-9]", n.strip("₀'")):
        print("odd: %s is %s" % (n, names[n]))
for text in sorted(said):
    print("%s: %s" % (text, " ".join(sorted(said[text]))))
kept = sorted(n for n in spelled.values() if "-" in n)
print("dashes kept (%d): %s" % (len(kept), " ".join(kept)))
print("%d names: %d in camel case, %d with a dash (%d declared); %d lemmas got `_lem`" % (
    len(names), sum(camel(n) != n for n in names), sum(dashed(n) for n in names), len(spelled), len(lemmas) + len(beside)))
print("files: " + ", ".join("%d .%s" % (counts[k], k) for k in sorted(counts)))
if "--table" in sys.argv:
    for n in sorted(names):
        print("%s %s" % (n, names[n]))
