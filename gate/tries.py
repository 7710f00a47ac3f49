#!/usr/bin/env python3
"""tries.py [CRATE..]: what the prover refuses of each must-fail edit, a line `PLACE FACT` each, as target/must-fail/CRATE/LABEL.facts,
from what it says, LABEL.log beside it. tries.py --facts prints the facts of a log that it reads.

`rt ci` tries each edit too, and is content if anything of the crate is refused; of what the prover said it prints one line. An
edit here is a sweep of many wrong programs, and each is to be refused at a fact of its own (refusals.sh), so the edits are tried
once more, as rt does: on a copy of the crate with the edit in it, over what `rt check` kept of the crate as it stands. Where an
answer only names what the edit took away, which says nothing of the goal, the edit is tried again without that answer, and the
prover has to prove the goal by itself. A log begins with a sum of all that it was made from, and is not made again where that is
today's."""
import concurrent.futures
import hashlib
import os
import re
import shutil
import subprocess
import sys
import tempfile

TOP = os.path.dirname(os.path.dirname(os.path.realpath(__file__)))
PARTS = ("src", "specs", "proofs")


def said(*words):
    return subprocess.run(words, check=True, stdout=subprocess.PIPE, text=True).stdout


KIT = said(f"{TOP}/hosts/native/kit.sh").strip()


def text_of(path):
    with open(path, encoding="utf-8") as it:
        return it.read()


def write(path, text):
    with open(path, "w", encoding="utf-8") as it:
        it.write(text)


def crates():
    """Each crate of crates.txt, with the crates that it names."""
    lines = [it.partition("#")[0].partition(":") for it in text_of(f"{TOP}/crates.txt").splitlines()]
    return {name.split()[0]: deps.split() for name, _, deps in lines if name.split()}


def sum_of(name, below, sums):
    """A sum of the crate's files, and of those of the crates below it."""
    if name not in sums:
        sum = hashlib.sha256(text_of(f"{KIT}/KIT-ID").encode())
        for part in PARTS:
            for at, folders, files in os.walk(f"{TOP}/crates/{name}/{part}"):
                folders.sort()
                for file in sorted(files):
                    sum.update(repr((os.path.relpath(f"{at}/{file}", TOP), text_of(f"{at}/{file}"))).encode())
        sum.update(repr([sum_of(it, below, sums) for it in below[name] if it in below]).encode())
        sums[name] = sum.hexdigest()
    return sums[name]


def edited(edit, folder):
    """The texts that the edit makes, by their files in the crate, or why it cannot be applied."""
    file, old, texts = None, None, {}
    for line in text_of(edit).split("\n"):
        if line.startswith("file: "):
            file = line[len("file: "):].strip()
        elif line.startswith("old: "):
            old = line[len("old: "):]
        elif line.startswith("new:"):
            new = line[len("new:"):]
            if file not in texts:
                texts[file] = text_of(f"{folder}/{file}")
            found = texts[file].count(old)
            if found != 1:
                return None, f"stands in {file} {found} times, and not once: {old}"
            texts[file] = texts[file].replace(old, new[1:] if new.startswith(" ") else new)
    return texts, None


# An answer or a lemma that the prover does not take; and why that says nothing of it: it leans on another, or names what is gone.
REFUSED = re.compile(r"(?:\./)?(\S+?):\d+:\d+: error: `([^`]+)`: (.*)")
ANSWERS = re.compile(r"proofs/(.*)/(?:Answers|Invariants|Proof)\.antt")
LEANS, NAMES = "was not admitted", re.compile(r"that can be named from here|has no field|is not in scope")
# A goal that the prover does not prove by itself, told above its function's line or in it.
GOAL = re.compile(r"note: src/\S*?:\d+:\d+: it is not proved that .*?\(`([^`]+)`\)")
FUNCTION = re.compile(r"fn \w+::(\S+): (proved|not proved|no proof)")


def facts_of(log):
    """The facts that a log refuses, as places and names; and, by the files, the answers that only name what is gone."""
    facts, gone, goals = [], {}, []
    for line in log.split("\n"):
        at, goal, function = REFUSED.match(line), GOAL.match(line), FUNCTION.match(line)
        if at and NAMES.search(at[3]):
            gone.setdefault(at[1], []).append(at[2])
        elif at and LEANS not in at[3]:
            of = ANSWERS.fullmatch(at[1])
            facts.append((of[1] if of else re.sub(r"^proofs/|\.antt$", "", at[1]), at[2]))
        elif goal:
            goals.append(goal[1])
        elif function:
            goals += re.findall(r"`([^`]+)`", line.partition("`search` did not prove ")[2].partition(";")[0])
            facts += [(function[1].replace("::", "/"), it) for it in goals if function[2] != "proved"]
            goals = []
    return list(dict.fromkeys(facts)), gone


def listed(log):
    return "".join(f"{place} {name}\n" for place, name in facts_of(log)[0])


def without(text, names):
    """The text of an Answers.antt without these answers."""
    kept, of = [], None
    for line in text.split("\n"):
        head = re.match(r"(?:pub )?(\S+)", line)
        of = head[1] if head else of
        if of not in names:
            kept.append(line)
    return "\n".join(kept)


def linked(one, other):
    """Copies a file of what was kept; what was proved by a link, where that can be made, since a check replaces such a file."""
    try:
        return os.link(one, other) if one.endswith(".oantt") else shutil.copy2(one, other)
    except OSError:
        return shutil.copy2(one, other)


def tried(name, texts, words):
    """What the prover says of the crate with these texts."""
    folder = f"{TOP}/crates/{name}"
    with tempfile.TemporaryDirectory() as room:
        for part in PARTS:
            if os.path.isdir(f"{folder}/{part}"):
                shutil.copytree(f"{folder}/{part}", f"{room}/{part}")
        for file, text in texts.items():
            write(f"{room}/{file}", text)
        shutil.copytree(f"{folder}/out/incremental", f"{room}/kept", copy_function=linked)
        ran = [f"{KIT}/bin/rattle", "check", *words, "--jobs", "1", "--incremental", f"{room}/kept"]
        how = {"cwd": room, "stdin": subprocess.DEVNULL, "stdout": subprocess.PIPE, "stderr": subprocess.STDOUT}
        return subprocess.run(ran, errors="replace", **how).stdout


def log_of(name, edit, words, sum):
    """Makes the log of an edit, unless it is there, and returns why it could not."""
    label = os.path.basename(edit)[: -len(".edit")]
    to = f"{TOP}/target/must-fail/{name}/{label}"
    texts, why = edited(edit, f"{TOP}/crates/{name}")
    head = f"# {hashlib.sha256(repr((text_of(__file__), sum, text_of(edit))).encode()).hexdigest()}\n"
    log = ""
    if not why and os.path.isfile(f"{to}.facts") and text_of(f"{to}.log").startswith(head):
        return None
    if not why:
        log = tried(name, texts, words)
        facts, gone = facts_of(log)
        told = {place for place, _ in facts}
        bare = [it for it in gone if it.endswith("/Answers.antt") and ANSWERS.fullmatch(it)[1] not in told]
        if bare:
            bare = {it: without(text_of(f"{TOP}/crates/{name}/{it}"), gone[it]) for it in bare}
            log += "# without the answers that name what the edit took away\n" + tried(name, {**texts, **bare}, words)
        ends = log.rstrip().split("\n")[-1]
        why = None if ends.startswith("logic=not-proved") else f"no refusal: {ends}"
    os.makedirs(os.path.dirname(to), exist_ok=True)
    write(f"{to}.log", head + log)
    if why:
        if os.path.isfile(f"{to}.facts"):
            os.remove(f"{to}.facts")
        return f"crates/{name}/must-fail/{label}.edit: {why}"
    write(f"{to}.facts", listed(log))
    return None


def main(names):
    if names == ["--facts"]:
        print(listed(sys.stdin.read()), end="")
        return 0
    below, sums, waited, failed = crates(), {}, [], 0
    lacking = [it for it in names if it not in below]
    if lacking:
        sys.exit(f"tries.py: crates.txt has no {lacking[0]}")
    with concurrent.futures.ThreadPoolExecutor(len(os.sched_getaffinity(0))) as pool:
        for name in [it for it in below if not names or it in names]:
            folder = f"{TOP}/crates/{name}/must-fail"
            edits = sorted(it for it in os.listdir(folder) if it.endswith(".edit")) if os.path.isdir(folder) else []
            sum = edits and sum_of(name, below, sums)
            words = edits and said(f"{TOP}/hosts/native/words.sh", name).splitlines()
            if edits and not os.path.isdir(f"{TOP}/crates/{name}/out/incremental"):
                sys.exit(f"tries.py: {name}: run rt check in its folder first")
            waited += [pool.submit(log_of, name, f"{folder}/{it}", words, sum) for it in edits]
        for it in concurrent.futures.as_completed(waited):
            if it.result():
                failed += 1
                print(it.result(), flush=True)
    print(f"{len(waited)} must-fail edits tried by themselves, {failed} of them with nothing to read")
    return 1 if failed else 0


if __name__ == "__main__":
    sys.exit(main(sys.argv[1:]))
