#!/usr/bin/env python3
"""Lists the places in crates/*/src that could stand in a plainer form, kind by kind, and counts them.

    tools/design_places.py [COMMIT] [KIND ..]

With a COMMIT the sources are read from git, else from the work tree. docs/DESIGN-PASS.md says what each kind is, and which
of the lines are such places when they are read.
"""
import collections
import pathlib
import re
import subprocess
import sys

ROOT = pathlib.Path(__file__).resolve().parent.parent


def sources(commit):
    if commit is None:
        for path in sorted(ROOT.glob("crates/*/src/**/*.rt")):
            yield str(path.relative_to(ROOT)), path.read_text()
        return
    git = ["git", "-C", str(ROOT)]
    names = subprocess.run(git + ["ls-tree", "-r", "--name-only", commit, "crates"], capture_output=True, text=True, check=True)
    for name in sorted(names.stdout.split()):
        if re.fullmatch(r"crates/\w+/src/.*\.rt", name):
            yield name, subprocess.run(git + ["show", f"{commit}:{name}"], capture_output=True, text=True, check=True).stdout


def closing(text, at):
    """The place behind the brace that closes the one at `at`."""
    depth = 0
    for k in range(at, len(text)):
        depth += {"{": 1, "}": -1}.get(text[k], 0)
        if depth == 0:
            return k + 1
    return len(text)


class Function:
    def __init__(self, name, file, line, params, result, clauses, body):
        self.name, self.file, self.line = name, file, line
        self.params, self.result, self.clauses, self.body = params, result, clauses, body
        self.crate = file.split("/")[1]

    def where(self):
        return f"{self.file}:{self.line}: {self.name}"


def functions(file, text):
    text = re.sub(r"//[^\n]*", lambda m: " " * len(m.group()), text)
    for m in re.finditer(r"\bfn (\w+)(?:<[^(]*>)?\(", text):
        depth, k = 1, m.end()
        while depth:
            depth += {"(": 1, ")": -1}.get(text[k], 0)
            k += 1
        params = [p.strip() for p in split_outside(text[m.end():k - 1]) if p.strip()]
        clauses, result = [], ""
        while text[k] not in "{;":
            c = re.match(r"\s*(requires|ensures)\s*(\w*)\s*\{", text[k:])
            if c:
                start = k + c.end() - 1
                end = closing(text, start)
                clauses.append((c.group(1), " ".join(text[start + 1:end - 1].split())))
                k = end
            else:
                result += text[k]
                k += 1
        body = text[k:closing(text, k)] if text[k] == "{" else ""
        yield Function(m.group(1), file, text.count("\n", 0, m.start()) + 1, params, " ".join(result.split()), clauses, body)


def split_outside(text, opening="<([", closing=">)]"):
    """The parts of a text between commas that stand in no brackets."""
    depth, part = 0, ""
    for c in text:
        depth += (c in opening) - (c in closing)
        if c == "," and depth == 0:
            yield part
            part = ""
        else:
            part += c
    yield part


def lines(pattern, files):
    for file, text in files:
        for k, line in enumerate(text.splitlines(), 1):
            if re.search(pattern, line) and not line.strip().startswith(("//", "ghost")):
                yield f"{file}:{k}: {line.strip()}"


def two_cased_enums(files, _):
    for file, text in files:
        for m in re.finditer(r"\benum (\w+)(?:<[^{]*>)? \{", text):
            body = re.sub(r"//[^\n]*", "", text[m.end():closing(text, m.end() - 1) - 1])
            cases = [c.strip() for c in split_outside(body, "{(", "})") if c.strip()]
            if len(cases) <= 2:
                yield f"{file}:{text.count(chr(10), 0, m.start()) + 1}: {m.group(1)}: {' | '.join(' '.join(c.split()) for c in cases)}"


def flags_beside(_, fns):
    """Functions that answer a bool and write something, and structs of flags."""
    for f in fns:
        if f.result.startswith("-> bool") and any("&mut" in p for p in f.params):
            yield f.where()


def numbers(files, fns):
    """Numbers for kinds and refusals: parameters, fields and results of 8 bits."""
    for f in fns:
        for p in f.params:
            if re.fullmatch(r"(rule|heading|refusal|number|kind): (u8|usize)", p) and (p.endswith("u8")):
                yield f"{f.where()}({p})"
        if f.result == "-> u8" and f.name != "letter":
            yield f"{f.where()} {f.result}"
    yield from lines(r"^\s*(pub )?(refusal|rule): u8,$", [(n, t) for n, t in files])


def twins(_, fns):
    """Functions with bodies of the same shape, names and numbers apart."""
    groups = collections.defaultdict(list)
    for f in fns:
        tokens = re.findall(r"\w+|[^\w\s]", f.body)
        words = {"for", "in", "if", "else", "match", "while", "return", "let", "mut", "as", "Some", "None", "Ok", "Err", "self", "true", "false"}
        shape = " ".join(t if not re.match(r"\w", t) or t in words else "w" for t in tokens)
        if len(tokens) >= 14:
            groups[shape].append(f)
    for group in groups.values():
        if len(group) > 1:
            yield " = ".join(f"{f.file.split('/')[1]}/{f.name}" for f in group)


def counted_loops(files, fns):
    for f in fns:
        for m in re.finditer(r"\bfor (\w+) in ([^{\n]*\.\.[^{\n]*) \{", f.body):
            body = f.body[m.end() - 1:closing(f.body, m.end() - 1)]
            if re.search(rf"\b{m.group(1)}\b", body):
                yield f"{f.where()}: for {m.group(1)} in {m.group(2)}"
        for m in re.finditer(r"\bwhile [^{\n]*", f.body):
            yield f"{f.where()}: {m.group().strip()}"


def counters(_, fns):
    """Counters that a loop moves on by hand."""
    for f in fns:
        for m in re.finditer(r"\b(?:for|while) [^{\n]* \{", f.body):
            body = f.body[m.end() - 1:closing(f.body, m.end() - 1)]
            for c in dict.fromkeys(re.findall(r"\b(\w+) (?:[+-]=|= \1\.saturating_add)", body)):
                yield f"{f.where()}: {c} in `{m.group().rstrip(' {')}`"


def searching_loops(_, fns):
    """Loops over elements that only test them, or only set them."""
    for f in fns:
        if re.search(r"\bfor \w+ in [^{]*\{\s*if [^{]*\{\s*return (true|false);\s*\}\s*\}", f.body):
            yield f.where()
        elif re.search(r"\bfor \w+ in [^{]*iter_mut\(\) \{\s*\*\w+ = [^;{]*;\s*\}", f.body):
            yield f.where()


def by_hand(files, fns):
    """Equality, order, copying, conversion and printing."""
    for f in fns:
        arms = re.findall(r"=> [\d'b.\\]+,|=> Some\(\w+::\w+\)", f.body)
        if len(arms) >= 2:
            yield f"{f.where()}: a table of {len(arms)}"
        if re.search(r"self\.(\w+) == other\.\1", f.body):
            yield f"{f.where()}: equality"
        for m in re.finditer(r"(Some|Ok|Err)\((\w+)\) => (Some|Ok|Err)\(.*\),\s*(None => None|Err\((\w+)\) => Err\(\5\)|Ok\((\w+)\) => Ok\(\6\))", f.body):
            yield f"{f.where()}: a match that maps"
        for m in re.finditer(r"Err\(_\) => (return )?Err\(|Err\((\w+)\) => Err\(\2\)|Ok\((\w+)\) => \3,\s*Err", f.body):
            yield f"{f.where()}: a match that converts an error"
        if re.search(r"else \{\s*return Err\(", f.body) and re.search(r"let (Some|Ok)\(", f.body):
            yield f"{f.where()}: let .. else {{ return Err }}"


def repeated_clauses(_, fns):
    groups = collections.defaultdict(list)
    for f in fns:
        for kind, clause in f.clauses:
            if kind == "requires":
                for part in parts(clause):
                    groups[(f.crate, re.sub(r"\.(now|old)\b", ".*", part))].append(f.name)
    for (crate, clause), names in groups.items():
        if len(set(names)) >= 3:
            yield f"{crate}: {{ {clause} }} in {', '.join(dict.fromkeys(names))}"


def parts(clause):
    depth, part, out = 0, "", []
    for c in clause + "×":
        if c == "×" and depth == 0:
            out.append(part.strip())
            part = ""
        else:
            depth += {"(": 1, ")": -1}.get(c, 0)
            part += c
    return [q for p in out for q in (parts(p[1:-1]) if p.startswith("(") and closing_paren(p) == len(p) and "×" in p else [p])]


def closing_paren(p):
    depth = 0
    for k, c in enumerate(p):
        depth += {"(": 1, ")": -1}.get(c, 0)
        if depth == 0:
            return k + 1
    return len(p)


def travelling(_, fns):
    """Parameters that three or more functions of a crate take together: the largest such sets."""
    by_crate = collections.defaultdict(list)
    for f in fns:
        by_crate[f.crate].append((f.name, frozenset(p.replace("mut ", "") for p in f.params if ":" in p)))
    for crate, all_params in by_crate.items():
        sets = collections.Counter()
        for i, (_, a) in enumerate(all_params):
            for _, b in all_params[i + 1:]:
                if len(a & b) >= 2:
                    sets[a & b] += 1
        found = []
        for s in sorted(sets, key=lambda s: (-len(s), sorted(s))):
            names = [n for n, ps in all_params if s <= ps]
            if len(names) >= 3 and not any(s < t and names == n for t, n in found):
                found.append((s, names))
        for s, names in found:
            yield f"{crate}: ({', '.join(sorted(s))}) in {', '.join(names)}"


def beside(files, fns):
    """Structs with a buffer and a number, or with several lists."""
    for file, text in files:
        for m in re.finditer(r"\bstruct (\w+)(?:<[^{(]*>)? \{", text):
            body = re.sub(r"//[^\n]*", "", text[m.end():closing(text, m.end() - 1) - 1])
            fields = [" ".join(x.split()) for x in split_outside(body, "{(", "})") if x.strip() and not x.strip().startswith("ghost")]
            lists = [x for x in fields if re.search(r"Vec<|\[", x)]
            counts = [x for x in fields if re.search(r"\b(len|used|count|from|to|bays|at)\b.*: usize", x)]
            if lists and counts or len(lists) > 1 or len(counts) > 1:
                yield f"{file}:{text.count(chr(10), 0, m.start()) + 1}: {m.group(1)} {{ {', '.join(fields)} }}"
    for f in fns:
        slices = [p for p in f.params if re.search(r"\[|Vec<|WorkList", p)]
        if len(slices) > 1:
            yield f"{f.where()}({', '.join(slices)})"


def switches(files, fns):
    for f in fns:
        for m in re.finditer(r"match (self|way|laying|self\.page\.phase|call|kind|rule|header\.rule)\b[^{]*\{", f.body):
            yield f"{f.where()}: {m.group().rstrip(' {')}"


KINDS = {
    "1a-two-cased-enums": two_cased_enums,
    "1b-flags-beside": flags_beside,
    "1c-numbers": numbers,
    "2-twins": twins,
    "3a-counted-loops": counted_loops,
    "3b-searching-loops": searching_loops,
    "3c-counters": counters,
    "4-by-hand": by_hand,
    "5a-repeated-clauses": repeated_clauses,
    "5b-travelling": travelling,
    "6-beside": beside,
    "7-switches": switches,
}


def main():
    words = sys.argv[1:]
    commit = words.pop(0) if words and words[0] not in KINDS else None
    files = list(sources(commit))
    fns = [f for file, text in files for f in functions(file, text)]
    total = {}
    for kind, find in KINDS.items():
        if words and kind not in words:
            continue
        found = list(find(files, fns))
        total[kind] = len(found)
        print(f"== {kind}: {len(found)}")
        for place in found:
            print(f"   {place}")
    print(" ".join(f"{kind}={n}" for kind, n in total.items()))


if __name__ == "__main__":
    main()
