#!/usr/bin/env python3
"""Lists the places in src/ that docs/DESIGN-PASS.md counts, point by point.

usage: python3 tools/places.py [COMMIT]     of the commit, or else of the files as they stand
       python3 tools/places.py -c [COMMIT]  the counts alone
"""
import collections
import itertools
import re
import subprocess
import sys

ITEM = re.compile(r"^\s*(?:pub(?:\(crate\))? )?fn (\w+)")
CLAUSE = re.compile(r"^\s*(?:requires|ensures)(?: \w+)? \{ (.*) \}$")

# for each point: what is looked for, and the pattern of a line that has it, in the older spelling or in today's
LINES = {
    1: [
        ("a value that is thrown away, so that Some or Ok is a flag", r"let (Some|Ok|Err)\(_\)|let Ok\(Some\(_\)\)|\.ok\(\)|\|_\|"),
        ("a number for a kind or a refusal", r"=> \d+,$"),
        ("a kind packed into a number, or 0 for none", r"% 2\b|\bstep == 0\b|as usize\] - 1;|usize - 1\)|\+ 1\) as u16|checked_sub\(1\)"),
        ("a type with ghost facts made as a literal", r"^(?!.*(struct|impl)).*\b(Invoices|Struck|Network|Residual|Heights) \{( |$)"),
        ("a message that is printed apart from its error", r'eprintln!\(rt; "(clear|usage)'),
    ],
    3: [
        ("a loop over an index, or counted by hand", r"^\s*('\w+: )?for (?!_ )\w+ in \d+\.\.|^\s*\w+ \+= 1;|^\s*('\w+: )?loop \{"),
        ("a loop or a chain that goes by number beside the thing itself", r"for \(\w+, .*enumerate\(\)|\(0\.\..*\)\.(map|all|any|find)\("),
    ],
    4: [
        ("equality, order, copying, conversion or printing as a function", r"fn (eq|ne|cmp|partial_cmp|clone|fmt|hash|from|try_from|number|place)\b"),
        ("a conversion that loses nothing, as a cast", r" as (usize|u64|u32|i64)\b"),
    ],
    6: [
        ("a row with its length beside it", r"\b(ring|row): &(mut )?\[\w+\], m: usize|fn (collect|follow|search)\("),
        ("fields that are rows or vectors", r"^\s*(pub(\(crate\))? )?\w+: (&'a (mut )?\[\w+\]|Vec<\w+>),$"),
    ],
    7: [
        ("a step that is chosen by a value, or a function passed on", r"\bdyn\b|impl Fn|: Fn(Mut|Once)?\(|\brule: Rule\b"),
        ("copies of a timing loop", r"in 0\.\.(clock::)?RUNS"),
    ],
}


def sources(commit):
    if commit:
        names = subprocess.check_output(["git", "ls-tree", "-r", "--name-only", commit, "crates"], text=True).split()
        show = lambda name: subprocess.check_output(["git", "show", f"{commit}:{name}"], text=True)
    else:
        names = subprocess.check_output(["git", "ls-files", "crates"], text=True).split()
        show = lambda name: open(name).read()
    return {n: show(n) for n in sorted(names) if re.match(r"crates/\w+/src/.*\.rt$", n)}


def functions(files):
    """Each function: its place, its parameters, its clauses and its body."""
    for name, text in files.items():
        lines = text.split("\n")
        for i, line in enumerate(lines):
            if not (m := ITEM.match(line)):
                continue
            end = next((j for j in range(i, len(lines)) if lines[j] == re.match(r"\s*", line)[0] + "}" or lines[j].endswith("{}")), i)
            whole = "\n".join(lines[i:end + 1])
            head = re.search(r"fn \w+(?:<[^>]*>)?\((.*?)\)(?: ->|\n|$| \{)", whole, re.S)
            params = [p.strip() for p in head[1].split(",") if p.strip()] if head else []
            clauses = [c[1] for l in lines[i:end] if (c := CLAUSE.match(l))]
            body = whole.split("\n" + re.match(r"\s*", line)[0] + "{\n")[-1]
            yield f"{name}:{i + 1}", m[1], params, clauses, body


def shape(body):
    body = re.sub(r"//.*", "", body)
    body = re.sub(r"\b[a-z_]\w*\b", "x", body)
    body = re.sub(r"\b(0x)?\d[\d_]*\b", "n", body)
    body = re.sub(r"\s+", " ", body)
    return re.sub(r"(x\[x(?: \+ n)?\],? ?)+", "x[] ", body).replace("[ ", "[").replace(" ]", "]")


def types(files):
    by_names = collections.defaultdict(list)
    for name, text in files.items():
        for m in re.finditer(r"^(?:pub(?:\(crate\))? )?(?:enum|struct) (\w+)(?:<.*?>)? \{\n(.*?)^\}", text, re.S | re.M):
            names = tuple(re.findall(r"^    (?:pub(?:\(crate\))? )?(\w+)(?:\(|:|,)", m[2], re.M))
            by_names[names].append(f"{name} {m[1]}")
    return [" | ".join(v) for v in by_names.values() if len(v) > 1]


def twins(files):
    by_shape = collections.defaultdict(list)
    for place, name, _, _, body in functions(files):
        if len(body) > 20:
            by_shape[shape(body)].append(f"{place} {name}")
    return [" | ".join(v) for v in by_shape.values() if len(v) > 1]


def facts(files):
    found = collections.defaultdict(set)
    for place, name, _, clauses, _ in functions(files):
        for clause in clauses:
            found[re.sub(r"\.(old|new|now|entry)\b", "", clause)].add(name)
    return [f"{clause}: {', '.join(sorted(v))}" for clause, v in found.items() if len(v) > 2]


def together(files):
    found = collections.defaultdict(set)
    for place, name, params, _, _ in functions(files):
        names = sorted(p.split(":")[0].replace("mut ", "") for p in params if ":" in p)
        names = [n for n in names if n not in ("rt", "heap", "f")]
        for size in range(2, 6):
            for group in itertools.combinations(names, size):
                found[group].add(place)
    large = {g: v for g, v in found.items() if len(v) > 2}
    most = [g for g in large if not any(set(g) < set(o) and large[g] <= large[o] for o in large)]
    return [f"{', '.join(g)}: {len(large[g])} functions" for g in most]


def places(files, point):
    if point == 2:
        yield "functions whose bodies have one shape", twins(files)
        yield "types whose fields or variants have the same names", types(files)
    if point == 5:
        yield "a fact in the contracts of three functions or more", facts(files)
        yield "parameters that travel together through three functions or more", together(files)
    for what, pattern in LINES.get(point, []):
        hits = []
        for name, text in files.items():
            hits += [f"{name}:{i + 1}: {l.strip()}" for i, l in enumerate(text.split("\n")) if re.search(pattern, l) and not l.strip().startswith("//")]
        yield what, hits


def main():
    args = sys.argv[1:]
    counts = "-c" in args
    files = sources(next((a for a in args if a != "-c"), None))
    for point in range(1, 8):
        found = list(places(files, point))
        print(f"{point}: {sum(len(hits) for _, hits in found)}")
        for what, hits in found:
            print(f"  {len(hits)} {what}")
            if not counts:
                for hit in hits:
                    print("    " + hit)


main()
