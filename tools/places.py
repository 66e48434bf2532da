#!/usr/bin/env python3
"""Lists places in crates/*/src that read like an older language, by the points of docs/DESIGN-PASS.md.

    python3 tools/places.py [FOLDER] [POINT]

FOLDER is the repository's (this one, if none is given), POINT one of 1 to 8. A place is a function, a type or a clause; a function that a
point finds by two patterns is one place of that point. A row is POINT FILE:LINE NAME (what was found).
"""
import collections
import pathlib
import re
import sys

FN = re.compile(r"\s*(?:pub(?:\([^)]*\))? )?(?:const )?fn (\w+)")

# what a point looks for in the lines of one function
IN_FUNCTION = {
    1: [
        ("hands on", r"None => (None|return None|Err\(|0\b|\(0, 0\)|false|true|64)|Err\((\w+)\) => Err\(\2\)|Some\((\w+)\) => (Ok|Some)\("),
        ("else None", r"else \{ None \}|^\s+None$"),
        ("test, then an error or none", r"return (Ok\()?Err\(|return None\b"),
        ("numbers for kinds", r"\d+ => \"|\bkind < \d|number\(\) == |== (4_294_967_295|u32::MAX)"),
    ],
    3: [
        ("index loop", r"for \w+ in .*\.\."),
        ("counted beside", r"for \(_?\w+, \w+\) in .*\.enumerate\(\)"),
        ("while", r"\bwhile "),
        ("loop over items that folds, copies or pushes", r"for \w+ in &?\w+ \{"),
    ],
    4: [
        ("order by hand", r"fn precedes"),
        ("equality by hand", r"fn same_key|\(None, None\) => true"),
        ("conversion by hand", r"Refusal::\w+ => \d+,|\) => Ok\(Answer::|Ok\(_\) => Ok\(Answer::|\b\w+ as u64|\bnext as u32|more as u32|\(\) as u8|- b'0'|if counts \{ 1 \} else \{ 0 \}"),
        ("printing by hand", r"b'0' \+ "),
    ],
    7: [("a flag among the parameters", r"fn \w+.*\b\w+: bool[,)]")],
}
# what a point looks for in the head of a function: the comment above it and its signature
IN_HEAD = {
    1: [
        ("a number for none", r"//.*(, or 0\b|or 0 where|0 where|or the number of|nil where|or the length|or the count\b|the length where)"),
        ("a flag from a write", r"fn \w+\(.*&mut .*-> bool"),
    ],
}


def functions(path):
    """Name, line, head and body of each function of a file."""
    lines = path.read_text().split("\n")
    starts = [i for i, line in enumerate(lines) if FN.match(line)]
    for i, start in enumerate(starts):
        above = start
        while above > 0 and lines[above - 1].lstrip().startswith("//"):
            above -= 1
        stop = starts[i + 1] if i + 1 < len(starts) else len(lines)
        signature = start
        while signature < stop - 1 and not re.search(r"[{;]\s*$|\bensures\b|\brequires\b|\{", lines[signature]):
            signature += 1
        yield FN.match(lines[start]).group(1), start + 1, lines[above:signature + 1], lines[start:stop]


def found(patterns, lines):
    return [what for what, pattern in patterns if any(re.search(pattern, line) for line in lines if pattern.startswith("//") or not line.lstrip().startswith("//"))]


def by_function(root, point):
    for path in sorted(root.glob("crates/*/src/**/*.rt")):
        for name, line, head, body in functions(path):
            whats = found(IN_HEAD.get(point, []), head) + found(IN_FUNCTION.get(point, []), body)
            if whats:
                yield path, line, name, "; ".join(dict.fromkeys(whats))


def twins(root):
    """Functions of the repository with bodies of one shape: names, numbers and strings aside."""
    shapes = collections.defaultdict(list)
    for path in sorted(root.glob("crates/*/src/**/*.rt")):
        for name, line, _, body in functions(path):
            code, depth, inside = [], 0, False
            for text in body[1:] if not body[0].rstrip().endswith("{") else body:
                if re.match(r"\s*(ensures|requires|//|≡|ghost)", text):
                    continue
                code.append(text.strip())
            kept = " ".join(code)
            kept = kept[kept.index("{"):] if "{" in kept else ""
            end, depth = 0, 0
            for end, letter in enumerate(kept):
                depth += (letter == "{") - (letter == "}")
                if depth == 0:
                    break
            kept = re.sub(r"\"[^\"]*\"|'[^']*'|\d[\d_]*|[A-Za-z_]\w*", "x", kept[:end + 1])
            if len(re.sub(r"\W*x\W*", "x", kept)) > 6:
                shapes[kept].append((path, line, name))
    for places in shapes.values():
        if len(places) > 1:
            for path, line, name in places:
                yield path, line, name, "one shape with " + ", ".join(sorted({n for p, l, n in places if (p, l) != (path, line)}))


def clauses(root):
    """Clauses that three functions or more of one crate have."""
    for crate in sorted((root / "crates").iterdir()):
        places = collections.defaultdict(list)
        for path in sorted(crate.glob("src/**/*.rt")):
            for name, line, _, body in functions(path):
                for text in body:
                    match = re.match(r"\s*(requires|ensures)(?: \w+)? (\{.*\})\s*[;]?$", text)
                    if match:
                        places[re.sub(r"\b(old|new|now)\b", "_", match.group(2))].append((path, line, name))
        for clause, at in places.items():
            if len({(p, l) for p, l, _ in at}) >= 3:
                path, line, _ = at[0]
                yield path, line, clause, "in " + ", ".join(n for _, _, n in at)


def fields(root):
    """Structs that have an array, and a length or a second array beside it."""
    for path in sorted(root.glob("crates/*/src/**/*.rt")):
        text = path.read_text()
        for match in re.finditer(r"struct (\w+)[^{;]*\{(.*?)\n\}", text, re.S):
            rows = re.findall(r"^\s+(?:pub(?:\([^)]*\))? )?(\w+): (\[.*\]|usize|Table|\w*Vec<.*>),", match.group(2), re.M)
            arrays = [n for n, t in rows if t != "usize"]
            lengths = [n for n, t in rows if t == "usize" and n in ("len", "count", "top")]
            if arrays and (lengths or len(arrays) > 1):
                yield path, text[:match.start()].count("\n") + 1, match.group(1), ", ".join(arrays + lengths)


def proofs(root):
    for crate in sorted((root / "crates").iterdir()):
        files = sorted(crate.glob("proofs/**/*.antt"))
        if files:
            lines = sum(len(f.read_text().split("\n")) - 1 for f in files)
            yield crate, 0, crate.name, f"{len(files)} files, {lines} lines"


def rows(root, point):
    other = {2: twins, 5: clauses, 6: fields, 8: proofs}
    return list(other[point](root) if point in other else by_function(root, point))


def main():
    words = [w for w in sys.argv[1:] if not w.isdigit()]
    wanted = [int(w) for w in sys.argv[1:] if w.isdigit()] or range(1, 9)
    root = pathlib.Path(words[0] if words else pathlib.Path(__file__).parent.parent)
    for point in wanted:
        places = rows(root, point)
        for path, line, name, what in places:
            print(f"{point} {path.relative_to(root)}:{line} {name} ({what})")
        print(f"{point}: {len(places)} places")


main()
