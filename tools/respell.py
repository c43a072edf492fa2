#!/usr/bin/env python3
"""Respells the repository's own definitions and lemmas: words in snake case, `′` as `'`.

usage: python3 tools/respell.py [--dry]      at the top of the repository, once, after port.py

A name is one of ours if a signature, a constructor or a field of a file in specs/ or proofs/ declares it. What proofs/MODULE/FUNCTION
declares keeps its name: Rattle gives most of those. Where a lemma would get the name of a definition, it gets `_lem`.
"""
import collections
import glob
import os
import re
import sys

# Names that the library has too, under which we import them: they stay.
KEPT = {"map-append", "sets-eq"}

# Steps of proofs in proofs/MODULE/FUNCTION, named by a function or a local of the code: behind a dot they stay.
STEPS = {"after-ends", "far-after", "is-at", "is_digit", "lay-word", "one_more", "put-bad", "put-listed", "queue-of", "same_tables"}

# A token: a name with its primes and dashes, or a field behind a dot.
TOKEN = re.compile(r"[\w'′·#◌]+(?:-[\w'′·#◌]+)*")
# In code and pages a dash is also a dash.
PLAIN = re.compile(r"[A-Za-z_][\w′]*")


def snake(n):
    n = n.replace("′", "'").replace("-", "_")
    if n[0].islower():
        n = re.sub(r"(?<=[a-z0-9'])([A-Z])", lambda m: "_" + m.group(1).lower(), n)
        n = re.sub(r"(?<=_)([A-Z])", lambda m: m.group(1).lower(), n)
    return n


def antt_files():
    for area in ("specs", "proofs"):
        yield from sorted(glob.glob(f"crates/*/{area}/**/*.antt", recursive=True))


def is_answer(path):
    return path.endswith("/Proof.antt")


DECL = re.compile(r"^\s*(?:(?:abbrev|unfoldable|pub|data|record|ruleset)\s+)*([^\s(){}:;,]+(?:\s+[^\s(){}:;,]+)*)\s*(?:[({].*)?\s:\s")


def declared(text):
    for line in text.split("\n"):
        line = re.sub(r"--.*", "", line)
        m = DECL.match(line + " ")
        if m and not re.search(r"[=↦→λ]", m.group(1)):
            for w in m.group(1).split():
                if re.fullmatch(r"[\w'′-]+", w):
                    yield w


def planned(texts):
    names = collections.defaultdict(set)
    for p, t in texts.items():
        if not is_answer(p):
            for w in declared(t):
                names[w].add(p)
    uses = {p: set(TOKEN.findall(re.sub(r"--.*", "", t))) for p, t in texts.items()}
    plan = {w: snake(w) for w in names if snake(w) != w and w not in KEPT}
    meets = collections.defaultdict(set)
    for w in names:
        meets[plan.get(w, w)].add(w)
    said = []
    for to, ws in sorted(meets.items()):
        if len(ws) < 2:
            continue
        value = sorted(w for w in ws if re.search("[a-z][A-Z]", w))
        lemma = sorted(ws - set(value))
        in_specs = any(not re.search(r"/Laws(/|\.antt)", p) and "/specs/" in p for w in value for p in names[w])
        same_file = any(len(ws & u) > 1 for u in uses.values())
        if value and lemma and (in_specs or same_file):
            for w in lemma:
                plan[w] = to + "_lem"
            said.append(f"{' '.join(sorted(ws))}: {', '.join(lemma)} to {to}_lem")
        else:
            said.append(f"{' '.join(sorted(ws))}: all to {to}, in files that share none")
    return plan, said


def turned(text, plan, pattern=TOKEN):
    return pattern.sub(lambda m: plan.get(m.group(0), m.group(0)), text)


def answers(text, plan):
    """A proof of a function: what stands behind a dot and is a step keeps its name."""
    return re.sub(r"(?<![\w'·-])(\.?)(%s)" % TOKEN.pattern, lambda m: m.group(0) if m.group(1) and m.group(2) in STEPS else m.group(1) + plan.get(m.group(2), m.group(2)), text)


def antt(text, plan, turned=turned):
    """A proof or definition: comments keep their dashes, but for what stands in backticks."""
    out = []
    for line in text.split("\n"):
        code, dashes, comment = line.partition("-- ") if not line.startswith("--") else ("", "--", line[2:])
        out.append(turned(code, plan) + dashes + prose(comment, plan))
    return "\n".join(out)


def prose(text, plan):
    camel = {w: t for w, t in plan.items() if "-" not in w and re.search("[a-z][A-Z]", w)}
    text = re.sub(r"`[^`\n]*`", lambda m: turned(m.group(0), plan), text)
    return turned(text, camel, PLAIN)


def code(text, plan):
    """Rattle: the clauses and the ghost imports, as they stand in lines that no string begins in."""
    out = []
    for line in text.split("\n"):
        body, slashes, comment = line.partition("//")
        if '"' not in body:
            body = turned(body, plan)
        out.append(body + slashes + prose(comment, plan))
    return "\n".join(out)


def write(path, text):
    with open(path, "w", encoding="utf-8") as f:
        f.write(text)


def main():
    texts = {p: open(p, encoding="utf-8").read() for p in antt_files()}
    plan, said = planned(texts)
    print("\n".join(said))
    print(f"{len(plan)} names")
    if "--dry" in sys.argv:
        return
    for p, t in texts.items():
        write(p, antt(t, plan, answers if is_answer(p) else turned))
    for p in sorted(glob.glob("crates/*/src/**/*.rt", recursive=True)):
        write(p, code(open(p, encoding="utf-8").read(), plan))
    for p in sorted(glob.glob("crates/*/must-fail/*.edit")):
        t = open(p, encoding="utf-8").read()
        write(p, antt(t, plan) if "\nfile: specs" in t or "\nfile: proofs" in t else code(t, plan))
    for p in sorted(["README.md", "CONTRIBUTING.md"] + glob.glob("docs/**/*.md", recursive=True)):
        t = open(p, encoding="utf-8").read()
        write(p, re.sub(r"`[^`\n]*`", lambda m: turned(m.group(0), plan), t))


main()
