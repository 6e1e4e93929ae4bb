#!/usr/bin/env python3
"""Lists the places in crates/*/src that docs/DESIGN-PASS.md counts, point by point.

    tools/places.py [REVISION]     the working tree, or the tree of a commit
    tools/places.py -c [REVISION]  the counts alone

What is listed is a candidate: a place that has the shape. The page says of each what became of it.
"""
import collections
import re
import subprocess
import sys


def sources(revision):
    """Path and text of every file below crates/*/src, and the paths below crates/*/proofs."""
    if revision:
        listing = ["git", "ls-tree", "-r", "--name-only", revision]
        read = lambda p: subprocess.run(["git", "show", f"{revision}:{p}"], capture_output=True, text=True).stdout
    else:
        listing = ["git", "ls-files", "-co", "--exclude-standard", "--", "crates"]
        read = lambda p: open(p, encoding="utf-8").read()
    paths = subprocess.run(listing, capture_output=True, text=True, check=True).stdout.split()
    src = {}
    for p in paths:
        if re.match(r"crates/\w+/src/.*\.rt$", p):
            try:
                src[p] = read(p)
            except FileNotFoundError:
                pass
    return src, [p for p in paths if re.match(r"crates/\w+/proofs/.+/(Answers|Invariants)\.antt$", p)]


def functions(src):
    """(path, line, name, parameters, result, body) of each function."""
    for path, text in src.items():
        for m in re.finditer(r"^( *)(?:pub )?fn (\w+)(?:<[^>]*>)?\((.*?)\)(?: -> ([^\n{]*?))?\s*(?:where[^{]*?)?(?=\n\1    (?:requires|ensures)|\s*\n\1\{| \{)", text, re.M | re.S):
            start = text.index("{\n", m.end()) if "{\n" in text[m.end():] else m.end()
            # the body begins at the brace that stands alone, or at the end of the signature's line
            brace = re.compile(r"^%s\{$|\{$" % m.group(1), re.M).search(text, m.end())
            end = re.compile(r"^%s\}" % m.group(1), re.M).search(text, m.end())
            body = text[brace.end():end.start()] if brace and end else ""
            yield path, text.count("\n", 0, m.start()) + 1, m.group(2), " ".join(m.group(3).split()), (m.group(4) or "").strip(), body


def places(revision):
    src, proofs = sources(revision)
    fns = list(functions(src))
    found = collections.OrderedDict()

    def add(point, what, path, line, text):
        found.setdefault((point, what), []).append(f"{path}:{line}: {text}")

    def lines(point, what, pattern):
        for path, text in src.items():
            for n, line in enumerate(text.split("\n"), 1):
                if not line.lstrip().startswith("//") and re.search(pattern, line):
                    add(point, what, path, n, line.strip())

    # 1: own enums with a case for 'refused' or 'nothing', flags and numbers beside values, numbers for refusals and kinds
    for path, text in src.items():
        for m in re.finditer(r"^(?:pub )?enum (\w+) \{\n(.*?)^\}", text, re.M | re.S):
            cases = re.findall(r"^    (\w+)", m.group(2), re.M)
            if {"Refused", "Nowhere", "Nothing", "Bad", "NoHeader", "None", "Ended"} & set(cases):
                add(1, "own enum", path, text.count("\n", 0, m.start()) + 1, f"{m.group(1)} {{ {', '.join(cases)} }}")
    for path, line, name, params, result, body in fns:
        if result == "u8" and ("refuse.rt" in path or "in_place" in path):
            add(1, "a refusal as a number", path, line, name)
    lines(1, "a number for a kind, or a value that stands for none", r"^(pub )?const (PASS|BAD|END|LOST)\b|return 0;$|^\s+0$")
    lines(1, "a number or a flag beside values", r"^\s+pub (status|number|count|more|bad|writing): (u8|bool)")

    # 2: functions of one body but for types, numbers and the two ends' names
    def plain(body):
        for pattern, word in (
            (r"\bu(8|16|32|64|size)\b", "T"), (r"\bRing(Producer|Consumer)\b", "End"), (r"\b(driver|device)\b", "area"),
            (r"\b(avail|used)\b", "cursor"), (r"\b(Produced|Consumed)\b", "Said"), (r"\b(\w+?)(8|16|32|64)\b", r"\1"), (r"\b\d+\b", "N"),
            (r"\b(AskedCount|AskedBool|AskedCursor|AskedTable)\b", "Asked"), (r"\b(addrs|lens)\b", "list"),
            (r"\b(halves|words|longs|half|word|long)\b", "words"), (r"\b(value|flag)\b", "value")):
            body = re.sub(pattern, word, body)
        return " ".join(body.split())
    groups = collections.defaultdict(list)
    for f in fns:
        if len(f[5].split()) > 3:
            groups[plain(f[5])].append(f)
    for body, group in groups.items():
        if len(group) > 1:
            for path, line, name, params, result, _ in group:
                add(2, "functions of one body", path, line, f"{name}  [{group[0][2]}]")
    for kinds in (("AskedCount", "AskedBool", "AskedCursor", "AskedTable"), ("Produced", "Consumed")):
        for path, text in src.items():
            for k in kinds:
                for m in re.finditer(rf"^pub (enum|struct) {k}\b", text, re.M):
                    add(2, "types of one shape", path, text.count("\n", 0, m.start()) + 1, k)

    # 3
    lines(3, "`while`", r"^\s+while ")
    lines(3, "`for` over numbers", r"^\s+for \w+ in .*\.\.")

    # 4
    lines(4, "a field copied", r"^\s+(\w+): self\.\1,$|^\s+let (\w+) = self\.\2;$")
    lines(4, "fields compared one by one", r"\((\w+)\.(\w+) == (\w+)\.\2\)")
    lines(4, "bytes of a number by hand", r"% 256\) as u8|\bword(16|32|64)\(")
    lines(4, "a yes or no as a number, by hand", r"if b \{ 1 \} else \{ 0 \}|pick16\(b, 1, 0\)|if b \{ take8")
    lines(4, "a name's number and back", r"fn number(ed)?\(|\bnumbered\(no\)|\bnumbered\(bad\)")
    lines(4, "arithmetic of the library by hand", r"std::num::wrapping_|pick::(less|below)\(|fn (less|below|on|minus|cut)\(")

    # 5
    for path, line, name, params, result, body in fns:
        flat = re.sub(r"&mut |&", "", params)
        for what, pattern in (
            ("`out, n`", r"out: \[u8\].*\bn: usize"), ("`ring, ids, counts` or `ring, counts`", r"ring: \[u8\].*counts: \[u16\]"),
            ("`addrs, lens, readable`", r"addrs: (\[u64\]|usize).*lens: (\[u32\]|usize).*readable: usize"),
            ("`region` and the harness's tables", r"region: \[u8\], \w+: \[u16\]")):
            if re.search(pattern, flat):
                add(5, f"parameters {what}", path, line, name)
        if params.count(":") > 6:
            add(5, "more than six parameters", path, line, name)

    # 6
    lines(6, "a buffer and how much of it is in use", r"io::read_full\(|\bzeroed::<|io::(large_)?buffer\(\)")
    for path, line, name, params, result, body in fns:
        if re.search(r"input: &\[u8\],? n: usize|registers: &(mut )?\[u16\]", params):
            add(6, "a length beside a buffer, or numbers for fields", path, line, name)

    # 7
    lines(7, "a switch on an op", r"match (op|self\.op|r\.op|which|input::byte)\b")
    lines(7, "an op tested", r"\bop == (b'|\d|OWN|OP|header)")

    # 8
    for p in proofs:
        add(8, "files of answers and invariants", p, 1, "")
    return found


def main():
    args = [a for a in sys.argv[1:] if a != "-c"]
    found = places(args[0] if args else None)
    for (point, what), where in sorted(found.items(), key=lambda x: x[0][0]):
        print(f"{point}  {what}: {len(where)}")
        if "-c" not in sys.argv and point != 8:
            for w in where:
                print("     ", w)


if __name__ == "__main__":
    main()
