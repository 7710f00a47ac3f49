#!/usr/bin/env python3
"""Turns this repository's own definitions and lemmas to the kit's spelling; run once, at the top, after the kit's port.py.

Words are in snake case: `firstRefusal` is `first_refusal`. A dash stays only between two names, of definitions, functions or
fields; where a part is a plain word it is `_`: `placed-length` stays, `is-at` is `is_at`. What Rattle makes keeps its dashes
(the goals and steps that a Proof.antt names), and so does what another library has. Exits with 1 where two names fall together.
"""
import collections
import glob
import re
import sys

TOKEN = re.compile(r"[^\W\d][\w'\u2080-\u2089]*(?:-[\w'\u2080-\u2089]+)*")
DECLARED = re.compile(r"^\s*(?:(?:pub|abbrev|unfoldable|let)\s+)*([^\W\d][\w'\u2080-\u2089-]*) :(?: |$)")
HEAD = re.compile(r"^(?:(?:pub|abbrev|unfoldable)\s+)*([^\W\d][\w'\u2080-\u2089-]*) :(?: |$)")
USE = re.compile(r"(?m)^\s*(?:pub )?use (\S+?)\.\{([^}]*)\}")
# Lemmas of a plain word that port.py gave the name that a definition gets here, and the crates in which they stand.
LEMMAS = {"other_tag": ["card_laws"], "is_open": ["demands"], "near_up": ["grid"], "one_more": ["larger"],
    "table_on": ["tour"], "all_made": ["witnesses"], "put_byte": ["contracts"]}
# Names of the libraries that lemmas are named by.
KNOWN = set("""length append take drop get set replicate zero suc add mul sub div mod pow min max rev map sum neg sqrt round
    one nan le lt eq paste getD get_or not and or if compare""".split())


def snake(word):
    word = re.sub(r"([a-z0-9])([A-Z])", r"\1_\2", word)
    return re.sub(r"([A-Z])([A-Z][a-z])", r"\1_\2", word).lower()


def main():
    crates = {l.split(":")[0] for l in open("crates.txt") if l.strip() and not l.startswith("#")}
    antt = sorted(glob.glob("crates/*/specs/**/*.antt", recursive=True) + glob.glob("crates/*/proofs/**/*.antt", recursive=True))
    source = sorted(glob.glob("crates/*/src/**/*.rt", recursive=True))
    by_hand = {p for p in antt if p.endswith("/Proof.antt")}
    text = {p: open(p, encoding="utf-8").read() for p in antt + source}
    for w, where in LEMMAS.items():
        for p in antt:
            if p.split("/")[1] in where:
                text[p] = re.sub(rf"(?<!Text\.)(?<!antt\.)\b{w}\b(?![\w'-])", w + "_lem", text[p])
    original = {p: open(p, encoding="utf-8").read() for p in text}
    outside, names, dashed, camel = set(), set(KNOWN), set(), set()
    for p in antt:
        for path, those in USE.findall(text[p]):
            parts = path.split(".")
            if not (parts[0] == "Rattle" and parts[1] in crates):
                outside |= {x.strip().split(" as ")[0] for x in those.split(",")}
        outside |= {m.group(1) for m in re.finditer(r"(?:native|mathlib|lib|Prim|borrow)\.[\w.]*\.([^\W\d][\w'-]*)", text[p])}
        for line in text[p].splitlines():
            m = DECLARED.match(line)
            if m and p not in by_hand:
                w = m.group(1)
                if "-" in w:
                    dashed.add(w)
                elif "/specs/" in p and HEAD.match(line):
                    names.add(snake(w) if w[0].islower() else w)
            m = re.match(r"\s*(?:pub |abbrev |unfoldable )*(?:record|data) ([^\W\d][\w'-]*)", line)
            if m:
                names.add(m.group(1))
            body = line.split("--")[0]
            for w in TOKEN.findall(body):
                if w[0].islower() and re.search("[A-Z]", w) and "-" not in w and "_" not in w:
                    camel.add(w)
    for p in source:
        names |= set(re.findall(r"\bfn ([a-z_0-9]+)", text[p]))
    camel -= outside
    dashed -= outside
    turned = {w: snake(w) for w in camel}
    # A lemma that would have a definition's or a function's name gets `_lem`.
    functions = {f for p in source for f in re.findall(r"\bfn ([a-z_0-9]+)", text[p])}
    taken = set(turned.values()) | functions
    for p in antt:
        for line in text[p].splitlines():
            taken |= {w for w in TOKEN.findall(line.split("--")[0]) if "-" not in w}
    for w in sorted(dashed):
        parts = [turned.get(x, snake(x) if x[:1].islower() and re.search("[A-Z]", x) else x) for x in w.split("-")]
        new = parts[0]
        for a, b in zip(parts, parts[1:]):
            new += ("-" if a in names and b in names else "_") + b
        if "-" not in new and new in taken:
            new += "_lem"
        if new != w:
            turned[w] = new
    # the fields that a record of ours has, which a proof by hand names too
    fields = set()
    for p in antt:
        inside = False
        for line in text[p].splitlines():
            if re.match(r"\S", line):
                inside = bool(re.match(r"(?:pub |abbrev )*record ", line))
            elif inside:
                m = re.match(r"  pub ([^\W\d][\w'-]*) :", line)
                if m:
                    fields.add(m.group(1))
    fields -= {f.replace("_", "-") for f in functions}

    def turn(t, hand, prose):
        def one(m):
            w, at = m.group(0), m.start()
            if w not in turned:
                return w
            dot = at > 0 and t[at - 1] == "."
            if "-" in w:
                if prose and not (at > 0 and t[at - 1] == "`"):
                    return w
                if hand and dot and w not in fields:
                    return w
            return turned[w]
        return TOKEN.sub(one, t)

    def lines(p):
        out = []
        for line in text[p].splitlines(keepends=True):
            if p.endswith(".rt"):
                code, mark, comment = line.partition("//")
                ghostly = code.lstrip().startswith("ghost use") or "{" in code
                out.append(turn(code, False, not ghostly) + mark + turn(comment, False, True))
            else:
                code, mark, comment = line.partition("--")
                out.append(turn(code, p in by_hand, False) + mark + turn(comment, p in by_hand, True))
        return "".join(out)

    new = {p: lines(p) for p in text}
    bad = 0
    for p in [q for q in antt if q not in by_hand] + source:
        if p.endswith(".rt"):
            before = set(re.findall(r"\b([a-z_0-9]+): ", text[p])) | set(re.findall(r"\bconst ([A-Z_0-9]+)", text[p]))
            before |= {w for w in TOKEN.findall(text[p]) if w in turned}
        else:
            code = re.sub(r"--.*|use .* as .*", "", text[p])
            code = re.sub(r"\.[\w'-]+", "", re.sub(r"Rattle[\w.'-]*", "", code))
            before = set(TOKEN.findall(code))
        used = {turned[w] for w in before if w in turned}
        groups = collections.defaultdict(set)
        for w in before:
            if w in turned:
                groups[turned[w]].add(w)
        for w, olds in groups.items():
            if len(olds) > 1 or w in before:
                print(f"{p}: {' '.join(sorted(olds))} and {w} fall together")
                bad += 1
    if bad and "--anyway" not in sys.argv:
        return 1
    for p in text:
        if new[p] != original[p]:
            open(p, "w", encoding="utf-8").write(new[p])
    for p in ["README.md"] + sorted(glob.glob("docs/*.md")) if "--pages" in sys.argv else []:
        t = open(p, encoding="utf-8").read()
        u = turn(t, False, True)
        if t != u:
            open(p, "w", encoding="utf-8").write(u)
    with open("/tmp/spelling.tsv", "w") as f:
        for w in sorted(turned):
            f.write(f"{w}\t{turned[w]}\n")
    print(f"{len(turned)} names turned")
    return 0


if __name__ == "__main__":
    raise SystemExit(main())
