#!/usr/bin/env python3
"""Brings the repository's own words of specs/ and proofs/ to snake case, as today's Rattle spells them.

Run once, at the top, after the kit's port.py. Definitions, lemmas, fields, constructors and local names that were spelled with a dash
or in camel case (`steps-add`, `badMove`) are spelled with underscores (`steps_add`, `bad_move`). Types, modules, names of the library,
names that Rattle makes and names from src/ stay. In comments a name with a dash is turned only between backquotes, since English has
dashes too. It also turns the edits of must-fail/ and the names that the pages quote between backquotes.
"""
import collections
import os
import re
import sys

# the constructors of the data types of real calls, whose respelling falls together with the calls themselves
REAL = re.compile(r"/specs/Real(?:Consumer|Producer)\.antt$")
WORD = re.compile(r"[^\s(){}\[\].,;:λ@\"`]+")
DECLARED = re.compile(r"^\s*(?:(?:pub|abbrev|unfoldable|private|instance)\s+)*([^\s(){}\[\].,;:]+)\s*(?:[({][^)}]*[)}]\s*)*:(?:\s|$)")
USE = re.compile(r"^(?:pub )?use ([^\s{]+?)(?:\.\{(.*)\})?(?: as (\S+))?$")


def odd(word):
    """spelled with a dash or in camel case"""
    return bool(re.search(r"[\w']-[\w']", word)) or bool(re.match(r"^[a-z][a-z0-9_']*[A-Z]", word))


def snake(word):
    if re.match(r"^[A-Z0-9_-]+$", word):
        return word.replace("-", "_")
    out = re.sub(r"(?<=[a-z0-9'])([A-Z])", r"_\1", word)
    return out.replace("-", "_").lower()


def files(top, ending):
    for d, ds, fs in os.walk(os.path.join(top, "crates")):
        ds[:] = sorted(x for x in ds if x != "out")
        for f in sorted(fs):
            if f.endswith(ending):
                yield os.path.join(d, f)


def is_walk(path):
    """a proof of one function, whose names are goals"""
    return path.endswith("/Proof.antt")


def read(path):
    with open(path, encoding="utf-8") as f:
        return f.read()


def logical(text):
    """the lines of a file, a `use` that goes over several lines as one"""
    return re.sub(r"\{\s*\n\s*", "{", re.sub(r",\s*\n\s*", ", ", text)).split("\n")


def main():
    top = sys.argv[1] if len(sys.argv) > 1 else "."
    crates = {l.split(":")[0].strip() for l in read(os.path.join(top, "crates.txt")).splitlines() if ":" in l}
    own, lent = set(), set()
    for path in files(top, ".antt"):
        for line in logical(read(path)):
            m = USE.match(line)
            if m:
                root = m[1].split(".")
                if not (root[0] == "Rattle" and len(root) > 1 and root[1] in crates):
                    lent |= {t.split(" as ")[0].strip() for t in (m[2] or "").split(",")}
                continue
            m = DECLARED.match(line)
            if m and odd(m[1]) and not is_walk(path):
                own.add(m[1])
    own -= lent
    turned = {}
    fall_together(top, own)
    # what a walk calls a step after: a function of src/
    sources = {f.replace("_", "-") for path in files(top, ".rt") for f in re.findall(r"\bfn (\w+)", read(path))}
    for path in files(top, ".antt"):
        text = read(path)
        goals = set(re.findall(r"^(\S+) : tie\.", text, re.M)) | set(re.findall(r"^(?:pub )?(\S+-spec) :", text, re.M))
        new = turn(text, own, lent, goals if is_walk(path) else set(), not is_walk(path), turned, "--", OTHER[path], sources if is_walk(path) else set())
        if new != text:
            open(path, "w", encoding="utf-8").write(new)
    for ending in (".rt", ".edit"):
        for path in files(top, ending):
            text = read(path)
            new = turn(text, own, lent, set(), False, turned, "//" if ending == ".rt" else None, {}, set())
            if new != text:
                open(path, "w", encoding="utf-8").write(new)
    for page in ["README.md"] + ["docs/" + f for f in sorted(os.listdir(os.path.join(top, "docs")))]:
        path = os.path.join(top, page)
        text = read(path)
        new = quoted(text, own, turned)
        if new != text:
            open(path, "w", encoding="utf-8").write(new)
    for a, b in sorted(turned.items()):
        print(a, b)


# by file: the names that get another spelling there, since the plain one is taken
OTHER = collections.defaultdict(dict)


def fall_together(top, own):
    """two of the repository's names that are one in snake case, in one file: the lemma gets `_lem`, the constructor of a real call `real_`,
    the short name of a module `_reads`"""
    words, declared, short = {}, {}, {}
    for path in files(top, ".antt"):
        code = "\n".join(l for l in read(path).split("\n") if not l.lstrip().startswith("--"))
        words[path] = {w for w in WORD.findall(code) if odd(w)}
        # a word that the kit's port.py has brought to snake case already, where it is brought in or declared
        brought = {w.strip() for l in re.findall(r"^use \S+\.\{(.*)\}", code, re.M) for w in l.split(",")}
        declared[path] = {m[1] for m in map(DECLARED.match, code.split("\n")) if m}
        words[path] |= {w for w in brought | declared[path] if re.match(r"^[a-z][a-z0-9_']*$", w)}
        short[path] = set(re.findall(r"^use \S+ as (\S+)$", code, re.M))
    real = set().union(*(declared[p] for p in words if REAL.search(p)))
    twins = collections.defaultdict(set)
    for path in words:
        for w in words[path]:
            twins[snake(w)].add(w)
    for plain, both in twins.items():
        dashed, camel = {w for w in both if "-" in w}, {w for w in both if "-" not in w}
        # a test whose lemma has the plain name already
        for w in camel - {plain}:
            for path in words:
                if w in declared[path] and plain in declared[path]:
                    OTHER[path][w] = plain + "_test"
        if not dashed or not camel or not any(words[p] & dashed and words[p] & camel for p in words):
            continue
        for w in dashed:
            for path in words:
                if w in short[path]:
                    new = plain + "_reads" if words[path] & camel else plain
                elif w in real and re.search(r"(?:^|/)crates/(packed|history|further|wrong)/", path) and (REAL.search(path) or w not in declared[path]):
                    new = "real_" + plain
                else:
                    new = plain + "_lem"
                OTHER[path][w] = new


def quoted(text, own, turned):
    def each(m):
        return WORD.sub(lambda w: put(w[0], turned) if w[0] in own else w[0], m[0])
    return re.sub(r"`[^`\n]+`", each, text)


def put(word, turned, other={}):
    new = other.get(word) or snake(word)
    turned[word] = new
    return new


def turn(text, own, lent, goals, local, turned, comment, other, sources):
    out = []
    for line in text.split("\n"):
        code, said = line, ""
        if comment:
            at = line.find(comment) if line.lstrip().startswith(comment) or (" " + comment + " ") in line else -1
            if at >= 0:
                code, said = line[:at], line[at:]

        def each(m):
            w = m[0]
            if not odd(w) or w in lent or w in goals or w.startswith("#"):
                return w
            after_dot = m.start() > 0 and code[m.start() - 1] == "."
            if after_dot and w in sources:
                return w
            if w in own or (local and not after_dot and not re.match(r"[A-Z]", w)):
                return put(w, turned, other)
            return w

        pieces = code.split('"') if comment != "--" else [code]
        for i in range(0, len(pieces), 2):
            code = pieces[i]
            pieces[i] = WORD.sub(each, code)
        code = '"'.join(pieces)
        said = quoted(said, own, turned)
        said = WORD.sub(lambda m: put(m[0], turned) if m[0] in own and re.match(r"^[a-z][a-z0-9_']*[A-Z]", m[0]) else m[0], said)
        out.append(code + said)
    return "\n".join(out)


if __name__ == "__main__":
    main()
