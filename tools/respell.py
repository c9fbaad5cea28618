#!/usr/bin/env python3
"""Spells the names of this repository's definitions, lemmas and fields in snake case, where they were in camel case or had dashes.

usage: tools/respell.py [--list]          at the top of the repository, once, after the kit's port.py

It goes by text. A name is the repository's own if an .antt file below crates/ declares it: as an item, a field, a
constructor, in a `let`, or as a variable. Functions and types of src/, names that a library gives, names that Rattle
makes (behind `tie.`, and behind `c.` where no field of a record is so called) keep their spelling, and so do strings.
Comments and pages are turned only between backticks, and must-fail edits in their `old:` and `new:` lines.
A fact, that is a definition whose result is `Type 0`, is spelled as a type. Where two names would fall together, the
one with dashes, which is the lemma, ends in `_lem`.
--list prints each name with its new spelling and writes nothing.
"""

import os
import re
import sys

# What a name is made of in antt: anything but blanks and the marks that end it.
TOKEN = re.compile(r"[^\s(){}.;,@\"«»\[\]|`]+")
SIGNATURE = re.compile(r"^( *)((?:pub |abbrev |unfoldable |data |record )*)([^\s(){}.;,@\"«»:λ]+)((?: \{[^{}\n]*\}| \([^()\n]*\))*) : ?(.*)$")
LET = re.compile(r"\blet ([^\s(){}.;,@\"«»:λ]+) (?:=|:)")
BINDER = re.compile(r"[({]([^(){}:;,.]+) : ")
LAMBDA = re.compile(r"λ ((?:[^\s().λ]+ )*[^\s().λ]+)\. ")
CLAUSE = re.compile(r"^ *([a-z][^\s(){}.;,@\"«»:λ]*)((?: [^\s=]+)*) =(?: |$)")
USE = re.compile(r"^ *(?:pub |unfoldable |ghost )*use ([^\s{;]+?)(?:\.\{([^}]*)\})?(?: as (\S+?))?;?$")
CAMEL = re.compile(r"^[a-z][^-]*[a-z0-9][A-Z]")
MADE = {"Statement", "Tie", "Lts", "Met", "Goals", "Given", "Code", "declared", "contracts", "TheVariants", "TheConstants"}
# Names of Rattle's own that a record of ours does not have as a field.
ALWAYS_MADE = {"well-formed"}


def files(root, endings):
    for folder, dirs, names in os.walk(root):
        dirs[:] = sorted(d for d in dirs if d not in ("out", "target", ".git"))
        for n in sorted(names):
            if n.endswith(endings):
                yield os.path.join(folder, n)


def text_of(path):
    with open(path, encoding="utf-8") as f:
        return f.read()


def code_of(line, mark):
    """The line's code and its comment."""
    at = line.find(mark)
    while at > 0 and line[at - 1] not in " \t":
        at = line.find(mark, at + 1)
    return (line, "") if at < 0 else (line[:at], line[at:])


def snake(name):
    return re.sub(r"(?<=[a-z0-9])[A-Z](?=[a-z0-9]|$|-)", lambda m: "_" + m[0].lower(), name).replace("-", "_")


def needs_turn(name):
    return bool("-" in name.strip("-") and re.search(r"\w-\w", name) or CAMEL.match(name))


def declared(root):
    """The names that .antt files declare, those that are facts, and those that are fields of records or constructors."""
    names, facts, fields = set(), set(), set()
    for path in files(root, ".antt"):
        inside = None
        for line in text_of(path).split("\n"):
            code = code_of(line, "--")[0]
            if not code.strip() or code.lstrip().startswith(("use ", "pub use ", "mod ", "pub mod ")):
                continue
            m = SIGNATURE.match(code)
            if m and not m[5].startswith("tie."):
                names.add(m[3])
                indent = len(m[1])
                if re.search(r"\b(record|data)\b", m[2]):
                    inside = indent
                elif inside is not None and indent > inside:
                    fields.add(m[3])
                else:
                    inside = None
                if re.search(r"(^|→ )Type 0$", m[5]) and "record" not in m[2] and "data" not in m[2]:
                    facts.add(m[3])
            for it in LET.finditer(code):
                names.add(it[1])
            for it in BINDER.finditer(code):
                names.update(it[1].split())
            for it in LAMBDA.finditer(code):
                names.update(it[1].split())
            m = CLAUSE.match(code)
            if m:
                names.update(TOKEN.findall(m[2]))
    return names, facts, fields


def spelling(root):
    names, facts, fields = declared(root)
    turned = {}
    for n in sorted(names):
        if n in facts and n[0].islower():
            turned[n] = "".join(w[0].upper() + w[1:] for w in re.split(r"[-_]", n))
        elif needs_turn(n):
            turned[n] = snake(n)
    # names that fall together: among those that turn, and with those that stay
    by = {}
    for n in names:
        by.setdefault(turned.get(n, n), []).append(n)
    for new, olds in by.items():
        if len(olds) > 1:
            kept = next((o for o in olds if CAMEL.match(o)), None) or next((o for o in olds if o == new), olds[0])
            for o in olds:
                if o != kept:
                    turned[o] = new + "_lem"
    return turned, fields


def excluded(text, own):
    """Names that this file has from a library, or from what Rattle makes."""
    out = set()
    for line in text.split("\n"):
        m = USE.match(line.strip())
        if m and m[2]:
            steps = m[1].split(".")
            mine = steps[0] == "Rattle" and len(steps) > 1 and steps[1] in own
            if not mine or MADE & set(steps):
                out.update(x.strip().split(" as ")[0].strip() for x in m[2].split(","))
    return out


def turn_code(code, turned, fields, out):
    """The code with each own name turned."""

    def one(m):
        name = m[0]
        new = turned.get(name)
        if new is None or name in out:
            return name
        at = m.start()
        if at > 0 and code[at - 1] == ".":
            head = re.search(r"([^\s(){};,@\"«»\[\]|`]+)\.$", code[:at])
            steps = head[1].split(".") if head else []
            if steps and steps[0] in ("tie", "goal"):
                return name
            if steps and steps[0] in ("c", "l", "a") and (name not in fields or name in ALWAYS_MADE or steps[-1] in ("c", "before")):
                return name
            if steps and steps[0] not in ("Rattle",) and steps[0][:1].islower() and name not in fields and steps[0] in ("lib", "native", "borrow", "denote", "mathlib", "seplogic"):
                return name
        return new

    return TOKEN.sub(one, code)


def turn_ticks(text, turned):
    """The text with own names turned between backticks."""
    return re.sub(r"`([^`\n]+)`", lambda m: "`" + TOKEN.sub(lambda t: turned.get(t[0], t[0]), m[1]) + "`", text)


def turn_lines(text, mark, turned, fields, out, strings):
    done = []
    for line in text.split("\n"):
        code, comment = code_of(line, mark)
        if strings:
            parts = re.split(r'("(?:[^"\\]|\\.)*")', code)
            code = "".join(p if p.startswith('"') else turn_code(p, turned, fields, out) for p in parts)
        else:
            code = turn_code(code, turned, fields, out)
        done.append(code + turn_ticks(comment, turned))
    return "\n".join(done)


def main(words):
    own = {os.path.basename(c) for c in os.listdir("crates")}
    turned, fields = spelling("crates")
    if "--list" in words:
        for n in sorted(turned):
            print(n, turned[n])
        return
    for path in list(files("crates", (".antt", ".rt", ".edit"))) + list(files("docs", ".md")) + ["README.md", "NOTICE"] + list(files("bindings", ".md")) + list(files("oracle", ".md")):
        text = text_of(path)
        out = excluded(text, own)
        if path.endswith(".antt"):
            new = turn_lines(text, "--", turned, fields, out, False)
        elif path.endswith(".rt"):
            new = turn_lines(text, "//", turned, fields, out, True)
        elif path.endswith(".edit"):
            new = "\n".join(
                (lambda k, v: k + turn_lines(v, "\0", turned, fields, set(), True))(*re.match(r"((?:old|new): ?)(.*)$", l).groups())
                if re.match(r"(old|new): ?", l)
                else l
                for l in text.split("\n")
            )
        else:
            new = turn_ticks(text, turned)
        if new != text:
            with open(path, "w", encoding="utf-8") as f:
                f.write(new)


main(sys.argv[1:])
