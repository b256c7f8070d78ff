#!/usr/bin/env python3
"""Respells the repository's own antt names in the spelling of Rattle's CONTRACT_STYLE.md.

usage: python3 tools/respell.py            at the repository's top; a second run changes nothing
       python3 tools/respell.py check      changes nothing, and says what falls together, what is left, and which imports name nothing

Own names are those declared in crates/*/specs/ and crates/*/proofs/*.antt, and the helpers that a Proof.antt declares beside its goals.
Functions, lemmas, fields and constructors get snake_case (`sameBytes`, `turn-fits`: `same_bytes`, `turn_fits`), types UpperCamelCase.
Names of Rust code, of the library and those that the toolchain makes (goals, paths below `c.` and `tie.`) stay as they are.
The uses follow: in antt, in `ghost` items and clauses of .rt files, in must-fail edits, and in comments and pages, where a dashed name is
one only in backticks.
Edits, comments and pages may have names from before the toolchain's port.py too: those follow the same rule.
"""

import glob
import os
import re
import sys

TOKEN = re.compile(r'[^\s(){}\[\].,;@"«»\\]+')

# Names that would fall together with another own name, or that the rule does not fit. Everywhere:
TABLE = {
    # a lemma that would have its function's name
    **{n: n.replace("-", "_") + "_lem" for n in """
        line-named in-ring after-word after-member begun-x begun-y end-x end-y y-event pair-text part-row three-fields stage-after
        stage-at-end plan-held ends-rise leaf-sound cut-sound in-box number-due detail-due near-doubled crossed-once parity-on edges-from
        edge-winding reply-number is-list detail-of ring-length start-from below-zero nodes-below counted-on is-left same-crossing
        winding-by on-by meets-by x-turned y-turned rings-part edge-at next-from end-at drop-last in-range top-bit number-of put-back
        """.split()},
    # a constructor, and a field, beside a function of that name
    "at-end": "at_its_end",
    "stop-number": "leaf_number",
    "soFar": "so_far_of",
    "is_lE": "is_le",
    "isLE": "is_le",
}

# Lemmas in snake_case already that make way for the function named first, while that is declared in its older spelling.
ASIDE = {
    n: (old, n + "_lem") for old, n in [
        ("tooLarge", "too_large"), ("firstByte", "first_byte"), ("samePoint", "same_point"), ("countAt", "count_at"), ("oneField", "one_field"),
        ("twoFields", "two_fields"), ("entryIn", "entry_in"), ("tooShort", "too_short"), ("allEdges", "all_edges"), ("tooMany", "too_many"),
        ("wordEnd", "word_end"), ("bothEnds", "both_ends"),
    ]
}

# Constructors of antt's own data in upper camel case: the data's word behind them keeps them apart from functions and variables.
CONSTRUCTORS = {"Mode": "%s_mode", "Event": "%s_event", "Begun": "%s_begun", "Wanted": "wants_%s", "Meaning": "%s_meaning"}

# Variables of one file that would hide a function.
LOCAL = {("crates/grammar/proofs/Again.antt", "ring-lengths"): "lengths_of_rings"}


def snake(n):
    n = re.sub(r"(?<=[a-z0-9])([A-Z]+)", lambda m: "_" + m.group(1).lower(), n)
    return re.sub(r"(?<=.)-(?=.)", "_", n).replace("′", "'")


def camel(n):
    return "".join(p[:1].upper() + p[1:] for p in re.split(r"(?<=.)-(?=.)", n))


def old_form(n):
    """Whether a name is in an older spelling: it has a dash inside, or a capital inside a word that begins small."""
    if not re.search(r"[A-Za-z]", n):
        return False
    return bool(re.search(r"[^\s-]-[^\s-]", n)) or (not n[0].isupper() and bool(re.search(r"[a-z0-9][A-Z]", n)))


def bare(text):
    """The text of an antt file with comments and strings blanked out, every place kept."""
    out = []
    for line in text.split("\n"):
        line = re.sub(r'"[^"]*"', lambda m: '"' + " " * (len(m.group()) - 2) + '"', line)
        m = re.search(r"(^|\s)--(\s|$|-)", line)
        out.append(line if not m else line[:m.start()] + " " * (len(line) - m.start()))
    return "\n".join(out)


NAMES = r"((?:[^\s(){}\[\].,;@\"\\]+\s+)+):\s"


def declared(text):
    """What an antt file declares, in order: kind, name, type, and the record or data it belongs to."""
    lines, found, mods, owner, i = bare(text).split("\n"), [], [], None, 0
    while i < len(lines):
        line = lines[i]
        if not line.strip():
            i += 1
            continue
        indent = len(line) - len(line.lstrip())
        while mods and indent < mods[-1]:
            mods.pop()
        base = mods[-1] if mods else 0
        if owner and indent <= owner[0]:
            owner = None
        deeper = lambda j: j < len(lines) and lines[j].strip() and len(lines[j]) - len(lines[j].lstrip()) > base
        if indent == base:
            words = [w for w in line.split()]
            kind = "fun"
            while words and words[0] in ("pub", "abbrev", "unfoldable", "opaque"):
                kind = words[0] if words[0] != "pub" else kind
                words.pop(0)
            first = words[0] if words else ""
            if first == "module" and len(words) > 1:
                while "where" not in lines[i].split():
                    i += 1
                mods.append(base + 2)
                i += 1
                continue
            if first in ("record", "data") and len(words) > 1 and words[1] not in (":", "=", "{"):
                head = line
                while "where" not in head.split() and deeper(i + 1):
                    i += 1
                    head += " " + lines[i].strip()
                if re.search(r":.*Type", head):
                    name = re.match(r"[^\s({:]+", words[1]).group()
                    found.append((first, name, head, None))
                    owner = (base, first, name)
                    i += 1
                    continue
            if first == "ruleset":
                found.append(("ruleset", words[1], "", None))
                i += 1
                continue
            if first in ("use", "open", "infix", "infixl", "infixr", "mod"):
                i += 1
                continue
            m = re.match(r"^\s*(?:(?:pub|abbrev|unfoldable|opaque) )*" + NAMES, line + " ")
            if m and "=" not in m.group(1).split():
                kind_of = line[m.end():]
                while deeper(i + 1):
                    i += 1
                    kind_of += " " + lines[i].strip()
                for n in m.group(1).split():
                    found.append((kind, n, kind_of.strip(), None))
        elif owner and indent == owner[0] + 2:
            m = re.match(r"^\s*(?:pub )?" + NAMES, line + " ")
            if m:
                for n in m.group(1).split():
                    found.append(("field" if owner[1] == "record" else "con", n, line[m.end():].strip(), owner[2]))
        i += 1
    return found


USE = re.compile(r"(?m)^[ \t]*(?:pub )?(?:ghost )?use ([^\s{;]+?)(?:\.\{([^}]*)\}|\s+as\s+([^\s;{]+)|\.?\{?)[ \t]*;?[ \t]*$")


def imports(text):
    """Of each import: its path, a name (or None, of a module) and its other name (or None)."""
    for m in USE.finditer(text):
        if m.group(2) is None:
            yield m.group(1), None, m.group(3)
        else:
            for item in m.group(2).split(","):
                item = item.split()
                if item:
                    yield m.group(1), item[0], item[2] if len(item) == 3 else None


def module(path):
    """The path of an own antt file's module."""
    part = path[:-5].split("/")
    return "Rattle." + ".".join([part[1], part[2]] + part[3:])


def read(path):
    with open(path, encoding="utf-8") as f:
        return f.read()


class Tree:
    def __init__(self):
        self.modules = sorted(glob.glob("crates/*/specs/**/*.antt", recursive=True)) + sorted(glob.glob("crates/*/proofs/*.antt"))
        self.proofs = sorted(glob.glob("crates/*/proofs/*/**/*.antt", recursive=True))
        self.sources = sorted(glob.glob("crates/*/src/**/*.rt", recursive=True))
        self.edits = sorted(glob.glob("crates/*/must-fail/*.edit"))
        self.pages = ["README.md"] + sorted(glob.glob("docs/*.md")) + ["tests/README.md"]
        self.pages = [p for p in self.pages if os.path.exists(p)]
        self.text = {p: read(p) for p in self.modules + self.proofs + self.sources + self.edits + self.pages}
        self.own = {module(p): p for p in self.modules}
        self.decl = {p: declared(self.text[p]) for p in self.modules + self.proofs}
        self.goals = {}
        for p in self.proofs:
            self.goals[p] = {n for k, n, t, o in self.decl[p] if re.match(r"\(?tie\.|.*\btie\.Need", t) or re.search(r"[-_]spec$", n)}
        self.plan()

    def plan(self):
        """The new names: everywhere, of fields alone, and of one module's names."""
        self.all, self.fields, self.scoped, self.now = dict(), dict(), dict(), set()
        old = {n for p in self.decl for _, n, _, _ in self.decl[p]}
        for p in self.modules + self.proofs:
            for kind, n, t, owner in self.decl[p]:
                if n in self.goals.get(p, ()):
                    continue
                if kind == "con" and n[0].isupper():
                    self.scoped[module(p), n] = CONSTRUCTORS.get(owner, "%s") % re.sub(r"(?<=[a-z0-9])([A-Z])", r"_\1", n).lower()
                    continue
                new = self.new(n, t if kind in ("fun", "abbrev", "unfoldable") else "", kind)
                if kind == "fun" and n in ASIDE and ASIDE[n][0] in old:
                    self.scoped[module(p), n] = ASIDE[n][1]
                elif new != n:
                    (self.fields if kind == "field" else self.all)[n] = new
                self.now.add(new)

    def new(self, n, t="", kind="fun"):
        if n in TABLE:
            return TABLE[n]
        if kind in ("record", "data") or re.search(r"(^|→ )Type \d$", t) and re.search("[a-z]", n):
            return camel(n)
        if n[0].isupper():
            return camel(n) if old_form(n) and not re.search(r"^[A-Z]-", n) else n
        return snake(n) if old_form(n) else n

    def names(self, p):
        """What a file's bare words become."""
        text, out, kept = self.text[p], dict(self.all), set()
        antt = p.endswith(".antt")
        here = module(p) if p in self.own.values() else None
        for (m, n), new in self.scoped.items():
            if m == here:
                out[n] = new
        for path, n, other in imports(text):
            if n and (path, n) in self.scoped:
                out[n] = self.scoped[path, n]
            elif n and path not in self.own and not other:
                kept.add(n)
            if other and old_form(other):
                out[other] = camel(other) if other[0].isupper() else snake(other)
        kept |= self.goals.get(p, set())
        if antt:
            b = bare(text)
            if p in self.proofs:
                words = re.findall(r"(?:let |λ |\()([^\s(){}\[\].,;@\"«»\\]+) [:=.]", b)
            else:
                spans = [m.span() for m in USE.finditer(b)]
                words = [m.group() for m in TOKEN.finditer(b) if b[m.start() - 1:m.start()] != "." and not any(s <= m.start() < e for s, e in spans)]
            for w in words:
                if w not in out and w not in kept and old_form(w) and not w.startswith("#"):
                    out[w] = LOCAL.get((p, w)) or self.fields.get(w) or (camel(w) if w[0].isupper() else snake(w))
        return {a: b for a, b in out.items() if a not in kept and a != b}

    def modules_named(self, p):
        return {a: path for path, n, a in imports(self.text[p]) if n is None and a and path in self.own}

    # ---- turning a text

    def code(self, text, p, names, older=False):
        """Words outside comments and strings; `older`: also names from before port.py."""
        aliases = self.modules_named(p) if p in self.text else {}
        b = bare(text) if p.endswith(".antt") else text
        uses = [(m.span(1), m.span(), m.group(1)) for m in USE.finditer(b)]
        last = max((u[1][1] for u in uses), default=0)
        out, at = [], 0
        for m in TOKEN.finditer(b):
            w, new = m.group(), None
            use = next((u for u in uses if u[1][0] <= m.start() < u[1][1]), None) if m.start() < last else None
            if use and use[0][0] <= m.start() < use[0][1]:
                continue
            dotted = m.start() > 0 and b[m.start() - 1] == "."
            if use and not re.search(r"\sas\s+$", b[use[1][0]:m.start()]):
                new = None if use[2] not in self.own else self.scoped.get((use[2], w)) or (self.all.get(w))
            elif not dotted or (dotted and use):
                new = names.get(w) or self.fields.get(w) if w not in self.goals.get(p, ()) else None
            else:
                start = m.start() - 1
                while start and not re.match(r"[\s(){}\[\],;@\"«»\\]", b[start - 1]):
                    start -= 1
                before = b[start:m.start() - 1]
                if p in self.goals and re.search(r"(^|\.)before$|^c$", before):
                    continue  # a step's name, by the toolchain
                where = aliases.get(before, before)
                if where in self.own:
                    new = self.scoped.get((where, w)) or self.all.get(w)
                else:
                    new = self.fields.get(w)
            if new is None and older and old_form(w):
                new = self.older(w)
            if new and new != w:
                out += [text[at:m.start()], new]
                at = m.end()
        return "".join(out) + text[at:]

    def older(self, w):
        """The present name of one from before port.py, or None."""
        if w in TABLE:
            return TABLE[w]
        if w.replace("-", "_") in ASIDE and "-" in w:
            return ASIDE[w.replace("-", "_")][1]
        new = self.all.get(w) or self.fields.get(w) or (camel(w) if w[0].isupper() else snake(w))
        return new if new in self.now else None

    def ticked(self, text, names, plain=False):
        """Names in backticks, and with `plain` whole words in camel case elsewhere too."""
        def word(w):
            if w in names and old_form(w):
                return names[w]
            return (self.older(w) or w) if old_form(w) else w
        def ticks(m):
            if re.search(r"[/$]|--\w|\.(rt|md|antt|rs|sh|edit|py|json|txt|toml|geojson)\b", m.group()):
                return m.group()
            return TOKEN.sub(lambda t: re.sub(r"^(`*)(.*?)(`*)$", lambda x: x.group(1) + word(x.group(2)) + x.group(3), t.group()), m.group())
        text = re.sub(r"`[^`\n]+`", ticks, text)
        if plain:
            text = re.sub(r"(?<![\w`/.'-])[a-z]+[a-z0-9]*[A-Z]\w*(?![\w`/'-])", lambda m: word(m.group()), text)
        return text

    def turn_antt(self, p):
        text, names = self.text[p], self.names(p)
        turned = self.code(text, p, names)
        out = []
        for line in turned.split("\n"):
            m = re.search(r"(^|\s)--(\s|$|-)", line)
            out.append(line if not m else line[:m.start()] + self.ticked(line[m.start():], names, True))
        return "\n".join(out)

    def spans(self, text):
        """Where a .rt file has ghost items and clauses."""
        for m in re.finditer(r"(?m)^[ \t]*(?:pub(?:\([a-z]+\))? )?ghost use [^;]*;", text):
            yield m.span()
        for m in re.finditer(r"(?<![\w'])(?:requires|ensures|invariant|decreases|ghost)\*?(?: [a-z_0-9]+)?:? *\{|(?<![\w'])ghost (?!use)[^;{\n]*\{", text):
            if "//" in text[text.rfind("\n", 0, m.start()) + 1:m.start()]:
                continue
            depth, i = 0, m.end() - 1
            while i < len(text):
                depth += {"{": 1, "}": -1}.get(text[i], 0)
                i += 1
                if not depth:
                    break
            yield m.end() - 1, i

    def turn_rt(self, p):
        text, names = self.text[p], self.names(p)
        out, at = [], 0
        for s, e in sorted(set(self.spans(text))):
            if s < at:
                continue
            out += [text[at:s], self.code(text[s:e], p, names)]
            at = e
        lines = ("".join(out) + text[at:]).split("\n")
        for i, line in enumerate(lines):
            m = re.search(r"(^|\s)//", line)
            if m:
                lines[i] = line[:m.start()] + self.ticked(line[m.start():], names, True)
        return "\n".join(lines)

    def turn_edit(self, p):
        text = self.text[p]
        m = re.search(r"(?m)^file: *(\S+)", text)
        target = p.split("/must-fail/")[0] + "/" + m.group(1) if m else ""
        names = self.names(target) if target in self.text else dict(self.all)
        if not target.endswith(".antt"):
            names = {a: b for a, b in names.items() if old_form(a)}
        head = text if not m else text[m.start():]
        return (text if not m else text[:m.start()])[:len(text) - len(head)] + self.code(head, target + "#", names, True)

    def turned(self):
        for p in self.modules + self.proofs:
            yield p, self.turn_antt(p)
        for p in self.sources:
            yield p, self.turn_rt(p)
        for p in self.edits:
            yield p, self.turn_edit(p)
        for p in self.pages:
            yield p, self.ticked(self.text[p], self.all, True)


def check(tree):
    bad = 0
    def say(*words):
        nonlocal bad
        bad += 1
        print(*words)
    reserved = set("record ruleset data open abbrev use module where let in as elim with ground assumption search grind omega simp rw cc hlevel".split())
    places = {}
    for p in tree.modules:
        seen = {}
        for kind, n, t, owner in tree.decl[p]:
            new = tree.scoped.get((module(p), n)) or (tree.fields.get(n, n) if kind == "field" else tree.all.get(n, n))
            if new in reserved:
                say("reserved:", p, new)
            if kind == "field":
                continue
            if seen.setdefault(new, n) != n:
                say("falls together in", p + ":", n, "and", seen[new])
            places.setdefault(new, set()).add(n)
    for new, olds in sorted(places.items()):
        if len(olds) > 1:
            say("one new name of several:", new, sorted(olds))
    # names and fields of a module whose uses stand in one file
    for p in tree.modules + tree.proofs:
        names = tree.names(p)
        b = bare(tree.text[p])
        heads = set()
        comps = set()
        spans = [m.span(1) for m in USE.finditer(b)]
        for m in TOKEN.finditer(b):
            if any(s <= m.start() < e for s, e in spans):
                continue
            (comps if b[m.start() - 1:m.start()] == "." else heads).add(m.group())
        for a in sorted(heads):
            new = names.get(a) or tree.fields.get(a)
            if new and new != a and new in heads and new not in names and a not in tree.goals.get(p, ()):
                say("two words become one in", p + ":", a, new)
        inverse = {}
        for a in sorted(heads):
            new = names.get(a) or tree.fields.get(a)
            if new and new != a and a not in tree.goals.get(p, ()):
                inverse.setdefault(new, []).append(a)
        for new, olds in inverse.items():
            if len(olds) > 1:
                say("two words become one in", p + ":", olds, new)
        goals = tree.goals.get(p, set())
        for a in sorted(heads - goals):
            if names.get(a) in goals:
                say("a goal's name in", p + ":", a, names[a])
    for p in tree.sources:
        text, names = tree.text[p], tree.names(p)
        for m in re.finditer(r"\bfn (\w+)[^(]*\(([^)]*)\)", text):
            params = set(re.findall(r"(\w+)\s*:", m.group(2)))
            end = text.find("fn ", m.end())
            part = text[m.end():end if end > 0 else len(text)]
            cited = set()
            for s, e in tree.spans(part):
                for t in TOKEN.finditer(part[s:e]):
                    if part[s:e][t.start() - 1] != ".":
                        cited.add(t.group())
            for a in cited:
                if names.get(a, a) in params and a in names:
                    say("a parameter hides a name in", p, m.group(1) + ":", a, names[a])
        s = [tree.text[p][a:b] for a, b in tree.spans(text)]
        words = {w for x in s for w in TOKEN.findall(x)}
        for a in sorted(words):
            if a in names and names[a] in words:
                say("two words become one in", p + ":", a, names[a])
    # left in an older spelling; imports that name nothing
    have = {m: {n for _, n, _, _ in tree.decl[p]} for m, p in tree.own.items()}
    for p in tree.modules + tree.proofs:
        for kind, n, t, owner in tree.decl[p]:
            if n not in tree.goals.get(p, ()) and (old_form(n) or kind == "con" and n[0].isupper()):
                new = tree.scoped.get((module(p), n)) or tree.fields.get(n) or tree.all.get(n)
                if not new:
                    say("left:", p, n)
    crates = {os.path.basename(c) for c in glob.glob("crates/*")}
    for p in tree.modules + tree.proofs + tree.sources:
        for path, n, other in imports(tree.text[p]):
            m = re.match(r"Rattle\.(\w+)\.(specs|proofs)\.", path)
            if n and m and m.group(1) in crates:
                if path in have and n not in have[path]:
                    say("names nothing:", p, path, n)
    return bad


def main():
    if not os.path.isdir("crates"):
        sys.exit("respell: run this at the repository's top")
    tree = Tree()
    if sys.argv[1:] == ["check"]:
        sys.exit(1 if check(tree) else 0)
    changed = 0
    for p, new in tree.turned():
        if new != tree.text[p]:
            changed += 1
            with open(p, "w", encoding="utf-8") as f:
                f.write(new)
    print(f"respell: {changed} files changed")


main()
