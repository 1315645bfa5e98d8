#!/usr/bin/env python3
"""Second half of the port: from what the kit's port.py leaves to text that this repository's crates prove from.

usage, at the top of the repository (a git checkout):

    convert.py text LANDED [CRATE..]   derives, #![tactic(auto)], names, must-fail edits; needs no rt
    rt names NAMES                     (4 to 6 minutes for 44 crates; or `rt check --generated NAMES/crates/C --old-names` in one crate)
    convert.py proofs NAMES [CRATE..]  Proof.antt -> Invariants.antt and Answers.antt
    convert.py edits LANDED [CRATE..]  the must-fail edits alone, again (after sources or specs were mended by hand)
    convert.py check                   lists the edits whose old: text does not stand exactly once, names in camel case, and parameters that hide a word

LANDED is the commit that the edits were written for. No CRATE: all crates. Files are rewritten in place: commit first.

text
  derives    #[derive(Drop)] (port.py's) on a struct or enum of plain fields becomes #[derive(Clone, Copy)]: to a fixed point over all crates.
             A field is plain if its type is a number, bool, char, a &T without mut, a tuple or array of plain types, or a plain type of the repository.
  tactic     #![tactic(auto)] below the first comment of each root file.
  names      each name declared in specs/ or proofs/ in lowerCamelCase (also with a dash, as bitsOf-length) becomes snake_case in every .antt and .rt
             below crates/: as a whole word, strings left alone. In backticks, in comments and pages, a name is not turned: that was done by hand.
             A name whose new form is declared in the same file gets the form in CLASH below. Functions of src/ keep their names: a definition and a function of one name do not meet (clauses do not name functions).
  edits      each edit's old: text is looked up in LANDED's file and followed, token by token, to today's file; what new: changes is spelled by the
             words that were seen to turn in that file and in the crates. Edits that still stand are left alone. The rest are listed.

proofs
  needs names.json, which has for each function old and new names of goals, steps and places. It writes beside each Proof.antt Invariants.antt and
  Answers.antt, and removes Proof.antt (git has it). What it could not turn is said in lines look:.
  Goals that were `search rules` are left out: #![tactic(auto)] tries them.
"""

import collections
import difflib
import glob
import json
import os
import re
import subprocess
import sys
import tempfile

NAME = r'[^\s(){}.;,@"«»\[\]]+'
WORD = re.compile(NAME)
TABLE = os.path.join(tempfile.gettempdir(), "convert-names.json")
QUIET = re.compile(r'"(?:[^"\\\n]|\\.)*"|(?<![^\s(){}.;,@"«»])--[^\n]*|\{-.*?-\}', re.S)
DECL = re.compile(r"(?m)^ *(?:(?:abbrev|pub|unfoldable|opaque|data|record) +)*(" + NAME + r") (?:\{[^\n]*?\} |\([^\n]*?\) )*:")
# A name that would meet another name of its own file, and what it becomes instead.
CLASH = {"asRead": "as_read_word"}


def read(p):
    with open(p, encoding="utf-8") as f:
        return f.read()


def write(p, t):
    os.makedirs(os.path.dirname(p), exist_ok=True)
    with open(p, "w", encoding="utf-8") as f:
        f.write(t)


def git(*a):
    return subprocess.run(["git", *a], capture_output=True, text=True)


def crates(names=()):
    every = [l.split(":")[0].split()[0] for l in read("crates.txt").split("\n") if l.strip() and not l.startswith("#")]
    return [c for c in every if not names or c in names]


def files(c, *ends):
    out = []
    for folder, dirs, fs in os.walk(f"crates/{c}"):
        dirs[:] = sorted(d for d in dirs if d != "out")
        out += [os.path.join(folder, f) for f in sorted(fs) if f.endswith(ends)]
    return out


# ---- derives

PLAIN = re.compile(r"(u|i)(8|16|32|64|128|size)|f32|f64|bool|char|\(\)")
ITEM = re.compile(r"(?ms)^((?:#\[[^\]]*\]\n)*)(pub(?:\([a-z]+\))? )?(struct|enum) (\w+)(<[^>{]*>)? ?(\{.*?^\}|\([^;]*\);|;)")


def split(text, by=","):
    out, depth, at = [], 0, 0
    for k, ch in enumerate(text):
        depth += ch in "([{<" and 1 or ch in ")]}>" and -1 or 0
        if ch == by and depth == 0:
            out.append(text[at:k])
            at = k + 1
    return [it.strip() for it in out + [text[at:]] if it.strip()]


def derives():
    items, why = {}, {}
    for c in crates():
        for p in files(c, ".rt"):
            for m in ITEM.finditer(read(p)):
                body = re.sub(r"//[^\n]*", "", m[6])
                fields = []
                for part in split(body.strip("{}();\n ")):
                    if m[3] == "struct":
                        fields += [part.split(":", 1)[1].strip()] if ":" in part and m[6][0] == "{" else [] if part.startswith("ghost") else [part]
                    else:
                        inner = re.search(r"\((.*)\)|\{(.*)\}", part, re.S)
                        if inner:
                            fields += [f.split(":", 1)[-1].strip() for f in split(inner[1] or inner[2])]
                items[m[4]] = items.get(m[4], []) + fields
    plain = set(items)

    def is_plain(t):
        t = re.sub(r"^pub(\([a-z]+\))? ", "", t).strip()
        if t.startswith("&"):
            return not re.match(r"&('\w+ )?mut\b", t)
        if t.startswith("["):
            return is_plain(t[1:-1].rsplit(";", 1)[0])
        if t.startswith("("):
            return all(is_plain(x) for x in split(t[1:-1]))
        return bool(PLAIN.fullmatch(t)) or re.sub(r"<.*", "", t).split("::")[-1] in plain

    while True:
        bad = {n for n in plain if not all(is_plain(f) for f in items[n])}
        if not bad:
            break
        plain -= bad
        why.update({n: [f for f in items[n] if not is_plain(f)] for n in bad})
    n = 0
    for c in crates():
        for p in files(c, ".rt"):
            t = read(p)

            def one(m):
                nonlocal n
                if m[4] not in plain:
                    return m[0]
                head = m[1]
                if "Copy" in head:
                    return m[0]
                n += 1
                head = head.replace("#[derive(Drop)]", "#[derive(Clone, Copy)]") if "derive(Drop)" in head else "#[derive(Clone, Copy)]\n" + head
                return head + m[0][len(m[1]) :]

            new = ITEM.sub(one, t)
            if new != t:
                write(p, new)
    print(f"derives: {n} types are Clone and Copy; not plain: {why}")


# ---- #![tactic(auto)]


def tactic():
    n = 0
    for c in crates():
        for root in ("lib.rt", "main.rt"):
            p = f"crates/{c}/src/{root}"
            if os.path.exists(p) and "#![tactic(" not in read(p):
                lines = read(p).split("\n")
                k = 0
                while k < len(lines) and lines[k].startswith("//"):
                    k += 1
                lines[k:k] = (["#![tactic(auto)]", ""] if k < len(lines) and lines[k].strip() else ["#![tactic(auto)]"])
                write(p, "\n".join(lines))
                n += 1
    print(f"tactic: {n} root files")


# ---- names


def snake(n):
    n = re.sub(r"(?<=[A-Z])([A-Z])(?=[a-z])", lambda m: "_" + m[1].lower(), n)
    return re.sub(r"(?<=[a-z0-9])([A-Z])", lambda m: "_" + m[1].lower(), n)


def declared():
    decl = collections.defaultdict(set)
    for c in crates():
        for p in files(c, ".antt"):
            if "/specs/" in p or "/proofs/" in p:
                for m in DECL.finditer(QUIET.sub(" ", read(p))):
                    decl[m[1]].add(p)
    return decl


def table():
    t = {}
    for n in declared():
        if re.search("[a-z0-9][A-Z]", n) and not n[0].isupper():
            t[n] = CLASH.get(n, snake(n))
    return t


def respell(text, t, column=True):
    def line(s):
        new = WORD.sub(lambda m: t.get(m[0]) or re.sub(r"^(.*?)('+|’s|:)$", lambda k: t[k[1]] + k[2] if k[1] in t else k[0], m[0]), s)
        if column and len(new) > len(s) and re.match(r"\s*(--|//)", s):
            # keeps the column of a list of words in a comment
            grown = len(new) - len(s)
            m = re.compile(r"(?<=\S)( {3,})(?=\S)").search(new, re.match(r"\s*(--|//)\s*", new).end())
            if m:
                keep = max(2, len(m[1]) - grown)
                new = new[: m.start()] + " " * keep + new[m.end() :]
        return new

    out = []
    for s in text.split("\n"):
        parts = re.split(r'("(?:[^"\\]|\\.)*")', s) if not re.match(r"\s*(--|//)", s) else [s]
        out.append("".join(x if k % 2 else line(x) for k, x in enumerate(parts)))
    return "\n".join(out)


def names():
    t = table()
    json.dump(t, open(TABLE, "w"), indent=1, ensure_ascii=False, sort_keys=True)
    n = 0
    for c in crates():
        for p in files(c, ".antt", ".rt"):
            old = read(p)
            new = respell(old, t)
            if new != old:
                write(p, new)
                n += 1
    for p in ["README.md"] + sorted(glob.glob("docs/**/*.md", recursive=True)):
        if os.path.exists(p):
            old = read(p)
            new = re.sub(r"`[^`\n]+`", lambda m: respell(m[0], t, False), old)
            if new != old:
                write(p, new)
                n += 1
    print(f"names: {len(t)} names in {n} files (table: {TABLE})")


def clashes():
    decl = declared()
    for n in sorted(decl):
        if re.search("[a-z0-9][A-Z]", n) and not n[0].isupper():
            print("camel:", n, sorted(decl[n]))
    fns = collections.defaultdict(set)
    for c in crates():
        for p in files(c, ".rt"):
            t = re.sub(r"//[^\n]*", "", read(p))
            uses = set(re.findall(r"\w+", " ".join(re.findall(r"ghost use [^;{]*\{([^}]*)\};", t))))
            for m in re.finditer(r"\bfn (\w+)[^({]*\(([^)]*)\)", t):
                for q in re.findall(r"(\w+):", m[2]):
                    if q in uses:
                        print(f"parameter: {p}: fn {m[1]}: the parameter {q} hides the word {q} in its clauses")


# ---- lemmas: what antt asks for in lemma files now

LEMMAS = [
    (r"to_z-of_z \(record \{ sfits", "to_z-of_z {w = w32} (record { sfits"),  # the implicit argument {w} of `to_z-of_z` was not determined
]


def lemmas():
    n = 0
    for c in crates():
        for p in files(c, ".antt"):
            if "/proofs/" in p and not p.endswith("Proof.antt"):
                old = read(p)
                new = old
                for x, y in LEMMAS:
                    new = re.sub(x, y, new)
                if new != old:
                    write(p, new)
                    n += 1
    print(f"lemmas: {n} files")


# ---- sources: clauses that an edit has to find once, but that port.py spells like another of their file

SOURCES = [
    # (file, what stands before it, old, new)
    # write out arguments 1, 2, 3, 4 at the call: the implicit arguments of a recursive lemma
    ("crates/columns/proofs/PutBack.antt", "choose-misses (suc j) d (more {a = false} {b = false} {L = R} f s)", "(choose-misses (suc j) d s (", "(choose-misses {B = B} {R = R} (suc j) d s ("),
    ("crates/columns/proofs/PutBack.antt", "choose-misses", "(more {a = false} {b = false} {L = R} f s) h g p t", "(more {a = false} {b = false} {K = B} {L = R} f s) h g p t"),
    ("crates/view/src/lib.rt", "pub fn look_at(", "ensures { result ≡ entry_of values.now rows columns row column }", "ensures { result ≡ entry_of (values.now) rows columns row column }"),
]


def sources():
    for p, before, old, new in SOURCES:
        t = read(p) if os.path.exists(p) else ""
        k = t.find(before)
        at = t.find(old, k) if k >= 0 else -1
        if at >= 0:
            write(p, t[:at] + new + t[at + len(old) :])


# ---- edits

TOKEN = re.compile(r'"(?:[^"\\]|\\.)*"|[\w′\'₀-₉]+(?:-[\w′\']+)*|\s+|[^\w\s]')


def tokens(t):
    return [m[0] for m in TOKEN.finditer(t) if not m[0].isspace()]


def spans(t):
    return [(m[0], m.start(), m.end()) for m in TOKEN.finditer(t) if not m[0].isspace()]


def pairs_of(text):
    lines, out, head = text.split("\n"), [], None
    for k, l in enumerate(lines):
        if l.startswith("old:"):
            head = k
        elif l.startswith("new:") and head is not None:
            out.append((head, k))
            head = None
    return lines, out


def norm(s):
    return s[4:].strip(" ") if False else s[4:].lstrip(" ") if not s[5:6] == " " else s[5:]


def followed(old, new):
    """(token spans of old, of new, index of new token for each old token or None, word counts)"""
    a, b = spans(old), spans(new)
    sm = difflib.SequenceMatcher(None, [x[0] for x in a], [x[0] for x in b], autojunk=False)
    at, words = [None] * len(a), collections.Counter()
    for op, i1, i2, j1, j2 in sm.get_opcodes():
        if op == "equal" or op == "replace" and i2 - i1 == j2 - j1:
            for k in range(i2 - i1):
                at[i1 + k] = j1 + k
                if op == "replace":
                    words[(a[i1 + k][0], b[j1 + k][0])] += 1
    return a, b, at, words


IMPORT = re.compile(r"((?:ghost )?use [^\s{]+\.)\{([^{}]*)\};?\s*$")
# What the text of an edit may still say of the libraries.
WORDS = {"getD": "get_or", "getD-set": "get_or-set"}
alike = lambda x, y: re.sub(r"[-_'′]", "", x).lower() == re.sub(r"[-_'′]", "", y).lower()
PATHS = [
    (r"mathlib\.Core\.Bool\._(\S+?)_(?=[\s()])", r"mathlib.Core.Bool.◌\1◌"),
    (r"Prim\.Native\.Nat\._(\S+?)_(?=[\s()])", r"Prim.Native.Nat.◌\1◌"),
    (r"Prim\.Native\.Int\._(\S+?)_(?=[\s()])", r"Prim.Native.Int.◌\1◌"),
    (r"mathlib\.Core\.List\._(\S+?)_(?=[\s()])", r"mathlib.Core.List.◌\1◌"),
]


def plain_form(t, new_o, antt):
    """An old text in today's form, as far as its own text shows: projections are tight, a clause is a plain fact."""
    t = re.sub(r"\(([\w'′₀-₉]+)((?: \.\w+)+)\)", lambda m: m[1] + m[2].replace(" ", ""), t) if antt or "{" in t else t
    if antt or re.match(r"\s*(requires|ensures|ghost)", t):
        t = re.sub(r"(?<=[\w)]) \.(?=\w)", ".", t)
    m = re.match(r"(\s*(?:requires|ensures)(?: \w+)? \{ )(?:λ (\w+)\. )?⌜ (.*) ⌝( \}.*)$", t)
    if m:
        body = re.sub(rf"(?<![\w.]){m[2]}(?![\w])", "result", m[3]) if m[2] else m[3]
        t = m[1] + body + m[4]
    if not antt:
        def now(m):
            p = m[1] or m[2]
            if p.endswith(".entry"):
                p = p[: -len(".entry")]
                return p + (".old" if p + ".old" in new_o else ".now")
            return p[: -len(".exit")] + ".new" if p.endswith(".exit") else p + ".now"

        t = re.sub(r"\(now ([\w.]+)\)|\bnow ([\w.]+)", now, t)
        t = re.sub(r"\b(\w+)\.(entry|exit)\b(?!\.)", lambda m: m[1] + {"entry": ".old", "exit": ".new"}[m[2]], t)
    return t


def edits(landed, only=()):
    cache, maps, said = {}, {}, []
    stats = collections.Counter()
    everywhere = collections.defaultdict(collections.Counter)
    todo = []
    camel = json.load(open(TABLE)) if os.path.exists(TABLE) else {}
    for c in crates(only):
        for p in sorted(glob.glob(f"crates/{c}/must-fail/*.edit")):
            was = git("show", f"{landed}:{p}").stdout
            text = was or read(p)
            lines, pairs = pairs_of(text)
            f = next((l[5:].strip() for l in lines if l.startswith("file:")), None)
            if not f:
                said.append(f"{p}: no file:")
                continue
            path = f"crates/{c}/{f}"
            if path not in cache:
                old = git("show", f"{landed}:{path}").stdout
                now = read(path) if os.path.exists(path) else ""
                cache[path] = (old, now)
                maps[path] = followed(old, now)
                for (x, y), n in maps[path][3].items():
                    if re.search(r"\w", x):
                        everywhere[x][y] += n
            todo.append((p, lines, pairs, path))
    for x, y in camel.items():
        everywhere[x] = collections.Counter({y: 1})
    for p, lines, pairs, path in todo:
        old, now = cache[path]
        a, b, at, words = maps[path]
        local = {}
        for (x, y), n in words.items():
            if n > local.get(x, ("", 0))[1]:
                local[x] = (y, n)
        word = lambda w: local[w][0] if w in local and alike(w, local[w][0]) else next((y for y, _ in everywhere[w].most_common() if alike(w, y)), WORDS.get(w, w)) if w in everywhere else WORDS.get(w, w)
        antt = path.endswith(".antt")
        out, ok, sofar, drop, imports = list(lines), True, now, [], []
        for ko, kn in pairs:
            o, n = lines[ko][5:], lines[kn][5:]
            if IMPORT.match(o) and IMPORT.match(n) and IMPORT.match(o)[1] == IMPORT.match(n)[1] and "Rattle" not in o and sofar.count(o) != 1:
                # an import line that is gone: its new names go to the line of the Prelude
                had = {i.strip() for i in IMPORT.match(o)[2].split(",")}
                imports += [i.strip() for i in IMPORT.match(n)[2].split(",") if i.strip() not in had]
                drop.append((ko, kn))
                continue
            if sofar.count(o) == 1:
                new_o = o
            elif old.count(o) == 1:
                s = old.index(o)
                idx = [i for i, t in enumerate(a) if t[1] < s + len(o) and t[2] > s]
                while idx and at[idx[0]] is None and a[idx[0]][0] in "()":
                    idx = idx[1:]
                while idx and at[idx[-1]] is None and a[idx[-1]][0] in "()":
                    idx = idx[:-1]
                if not idx or at[idx[0]] is None or at[idx[-1]] is None:
                    said.append(f"{p}: the ends of old: {o!r} are not found in {path}")
                    ok = False
                    break
                new_o = now[b[at[idx[0]]][1] : b[at[idx[-1]]][2]]
                lead = re.match(r"\s*", o)[0]
                if now.count(new_o) != 1 and now.count(lead + new_o) == 1:
                    new_o = lead + new_o
                if "\n" in new_o:
                    said.append(f"{p}: old: {o!r} is now several lines: {new_o!r}")
                    ok = False
                    break
            else:
                said.append(f"{p}: old: {o!r} stands {old.count(o)} times in LANDED's {path}")
                ok = False
                break
            if o != new_o:
                o, n = plain_form(o, new_o, antt), plain_form(n, new_o, antt)
            to, ts, pos = spans(o), spans(new_o), spans(n)
            # what stays of old follows it
            same, conv = {}, {}
            for op, i1, i2, j1, j2 in difflib.SequenceMatcher(None, [x[0] for x in to], [x[0] for x in pos], autojunk=False).get_opcodes():
                if op == "equal":
                    same.update({j1 + x: i1 + x for x in range(i2 - i1)})
            for op, i1, i2, j1, j2 in difflib.SequenceMatcher(None, [x[0] for x in to], [x[0] for x in ts], autojunk=False).get_opcodes():
                if op == "equal" or op == "replace" and i2 - i1 == j2 - j1:
                    conv.update({i1 + x: j1 + x for x in range(i2 - i1)})
            pieces, last, before = [], 0, None
            for j, (t, st, en) in enumerate(pos):
                i = same.get(j)
                gap = n[last:st]
                if i in conv and before is not None and conv[i] == before + 1:
                    gap = new_o[ts[before][2] : ts[before + 1][1]]
                pieces += [gap, ts[conv[i]][0] if i in conv else word(t)]
                before = conv.get(i)
                last = en
            new_n = "".join(pieces + [n[last:]])
            if new_o[:1] != " " and lines[ko][5:6] == " ":
                new_n = new_n.lstrip(" ")
            new_n = re.sub(r"Rattle[·.](\w+)(·specs)?\.specs", r"Rattle.\1.specs", new_n)
            for x, y in PATHS:
                new_n = re.sub(x, y, new_n)
            if antt or re.match(r"\s*(requires|ensures|ghost)", new_n):
                new_n = re.sub(r"(?<![\w'◌])_([^\w\s.,(){}]{1,2})_(?![\w'])", r"◌\1◌", new_n)
                new_n = re.sub(r"(?<=[\w)]) \.(?=[a-z])", ".", new_n)
                new_n = re.sub(r" {2,}(?=\S)", " ", new_n) if not new_n.startswith(" ") else re.match(" *", new_n)[0] + re.sub(r" {2,}", " ", new_n.lstrip(" "))
            out[ko], out[kn] = lines[ko][:5] + new_o, lines[kn][:5] + new_n
            if sofar.count(new_o) != 1:
                said.append(f"{p}: old: {new_o!r} stands {sofar.count(new_o)} times in {path}")
                ok = False
                break
            sofar = sofar.replace(new_o, new_n)
        if ok and drop:
            line = next((l for l in now.split("\n") if re.match(r"(ghost )?use Rattle\.std\.specs\.Prelude\.\{", l)), None)
            if line:
                had = {i.strip() for i in IMPORT.match(line)[2].split(",")}
                turn = lambda i: re.sub(r"^_(\S+)_$", r"◌\1◌", word(i))
                more = [turn(i) for i in imports if turn(i) not in had]
                for ko, kn in drop[1:]:
                    out[ko] = out[kn] = None
                ko, kn = drop[0]
                out[ko], out[kn] = "old: " + line, "new: " + line[: line.rindex("}")] + "".join(", " + i for i in dict.fromkeys(more)) + line[line.rindex("}") :]
                if not more:
                    out[ko] = out[kn] = None
            else:
                said.append(f"{p}: no line of the Prelude for {imports} in {path}")
                ok = False
        if not ok:
            stats["left"] += 1
            continue
        out = "\n".join(l for l in out if l is not None)
        stats["as they were" if out == "\n".join(lines) else "changed"] += 1
        if read(p) != out:
            write(p, out)
    print("edits:", dict(stats))
    for s in said:
        print("left:", s)


def check_edits():
    n = bad = 0
    for c in crates():
        for p in sorted(glob.glob(f"crates/{c}/must-fail/*.edit")):
            n += 1
            lines, pairs = pairs_of(read(p))
            f = next((l[5:].strip() for l in lines if l.startswith("file:")), "")
            path = f"crates/{c}/{f}"
            t = read(path) if os.path.isfile(path) else ""
            for ko, kn in pairs:
                o, w = lines[ko][5:], lines[kn][5:]
                if t.count(o) != 1:
                    print(f"bad: {p}: {o!r} stands {t.count(o)} times in {f}")
                    bad += 1
                    break
                t = t.replace(o, w)
    print(f"edits: {n}, of which {bad} do not fit")


# ---- proofs

from convert_proofs import proofs  # noqa: E402


def main(argv):
    if not argv or argv[0] in ("-h", "--help"):
        print(__doc__)
        return 0
    if argv[0] == "text":
        derives()
        tactic()
        names()
        sources()
        lemmas()
        edits(argv[1], argv[2:])
    elif argv[0] == "edits":
        edits(argv[1], argv[2:])
    elif argv[0] == "proofs":
        proofs(argv[1], crates(argv[2:]))
    elif argv[0] == "lemmas":
        lemmas()
    elif argv[0] == "check":
        clashes()
        check_edits()
    else:
        print(__doc__)
        return 2
    return 0


if __name__ == "__main__":
    raise SystemExit(main(sys.argv[1:]))
