#!/usr/bin/env python3
"""The places of each point of the design pass, in crates/*/src of a tree (this one, or the one named), and their count.

    python3 tools/design/places.py [TREE] [POINT..]

A point is counted by what the text of the code shows, so that two trees are counted alike; docs/DESIGN-PASS.md says what is kept, and why.
"""
import collections
import pathlib
import re
import sys

TREE = pathlib.Path(sys.argv[1] if len(sys.argv) > 1 else ".")
ONLY = set(sys.argv[2:])

ERROR_CASES = {"Argument", "Count", "State", "NotInTable", "NotGood", "BadPayload", "BadToken", "Missing", "None"}
TOGETHER = [
    {"code", "length", "sub_address"},
    {"buffer", "place"},
    {"first", "second"},
    {"write_base", "read_base"},
]


def sources():
    for path in sorted(TREE.glob("crates/*/src/**/*.rt")):
        yield path.relative_to(TREE / "crates"), path.read_text()


def line_of(text, at):
    return text.count("\n", 0, at) + 1


def items(word):
    """Each struct or enum: its file, line, name, and the lines of its body."""
    for path, text in sources():
        for found in re.finditer(rf"^(?:pub |pub\(crate\) )?{word} (\w+)[^{{;]*\{{\n(.*?)^\}}", text, re.M | re.S):
            yield path, line_of(text, found.start()), found[1], found[2]


def functions():
    """Each function: its file, line, name, head (with its clauses) and body."""
    for path, text in sources():
        lines = text.split("\n")
        for at, line in enumerate(lines):
            found = re.match(r"^( *)(?:pub |pub\(crate\) )?(?:extern \"C\" )?fn (\w+)", line)
            if not found or line.rstrip().endswith(";"):
                continue
            opened = at
            while lines[opened].strip() != "{" and not re.match(r"^(?! *(?:requires|ensures)).*\{$", lines[opened]):
                opened += 1
            closed = opened + 1
            while lines[closed] != found[1] + "}":
                closed += 1
            yield path, at + 1, found[2], "\n".join(lines[at : opened + 1]), "\n".join(lines[opened + 1 : closed]) + "\n"


def fields(body):
    return re.findall(r"^\s+(?:pub |pub\(crate\) )?(\w+): ([^\n]*?),?$", body, re.M)


def own_answers():
    """1: a struct of a refusal's number and values; an enum with an error's case; a flag beside its value; a number for a refusal or a kind."""
    for path, line, name, body in items("struct"):
        names = fields(body)
        if ("refusal", "u8") in names:
            yield f"{path}:{line} {name}: number beside values"
        for (flag, kind), (value, _) in zip(names, names[1:]):
            if kind == "bool" and flag in {"told", "complete", "there", "over", "good", "found"}:
                yield f"{path}:{line} {name}: {flag} beside {value}"
    for path, line, name, body in items("enum"):
        if set(re.findall(r"^\s+(\w+)", body, re.M)) & ERROR_CASES and name not in {"Refusal"}:
            yield f"{path}:{line} {name}: an enum with the cases of a Result"
    for path, line, name, head, body in functions():
        if re.search(r"-> u8\b", head) and re.search(r"refusal", name + head):
            if name not in {"number", "glyph"}:
                yield f"{path}:{line} {name}: gives a refusal's number"
    for path, text in sources():
        numbered = re.finditer(r"(?:^ *(?:pub )?const [A-Z_]+: u(?:8|16|32) = (?:\d+|b'.');\n\n?){2,}", text, re.M)
        for found in numbered:
            names = re.findall(r"const ([A-Z_]+)", found[0])
            values = re.findall(r"= ([^;]+);", found[0])
            letters = all(value.startswith("b'") for value in values)
            if not letters and not any(int(b) == int(a) + 1 for a, b in zip(values, values[1:]) if a.isdigit() and b.isdigit()):
                continue
            yield f"{path}:{line_of(text, found.start())} {', '.join(names)}: numbers for kinds"


def shape(body):
    body = re.sub(r"//[^\n]*", "", body)
    body = re.sub(r"\b[A-Za-z_]\w*\b", "I", body)
    body = re.sub(r"\b\d\w*\b", "N", body)
    return re.sub(r"\s+", " ", body).strip()


def twins():
    """2: a function beside its copy by name; functions of one shape with five lines and more; structs with the same fields."""
    by_shape = collections.defaultdict(list)
    for path, line, name, head, body in functions():
        if name.endswith("_copy"):
            yield f"{path}:{line} {name}: a copy"
        if body.count("\n") >= 5:
            by_shape[shape(body)].append(f"{path}:{line} {name}")
    for group in by_shape.values():
        if len(group) > 1:
            yield "one shape: " + ", ".join(group)
    by_fields = collections.defaultdict(list)
    for path, line, name, body in items("struct"):
        if len(fields(body)) > 1:
            by_fields[tuple(fields(body))].append(f"{path}:{line} {name}")
    for group in by_fields.values():
        if len(group) > 1:
            yield "one struct: " + ", ".join(group)


def counted_loops():
    """3: a loop that counts by hand: `while`, or `for` over a range whose body indexes by the count."""
    for path, text in sources():
        text = re.sub(r"//[^\n]*", "", text)
        for found in re.finditer(r"^( *)while\b[^\n]*", text, re.M):
            yield f"{path}:{line_of(text, found.start())} {found[0].strip()}"
        for found in re.finditer(r"^( *)for (\w+) in [^\n]*\.\.[^\n]*\{\n(.*?)^\1\}", text, re.M | re.S):
            if re.search(rf"\[[^\]]*\b{found[2]}\b[^\]]*\]", found[3]):
                yield f"{path}:{line_of(text, found.start())} for {found[2]} in .."


def by_hand():
    """4: copies, comparisons of all parts, conversions and letters by hand."""
    for path, line, name, head, body in functions():
        by_name = re.search(r"^(joined(_four)?|word_of|digit_of|small_letter|smaller|larger|hex_\w+)$", name)
        if name.endswith("_copy") or by_name and not re.search(r"\bfrom(_be_bytes)?\(", body):
            yield f"{path}:{line} {name}"
        if re.search(r"\((\w+)\.(\w+) == (\w+)\.\2\) & \(\1\.(\w+) == \3\.\4\)", body):
            yield f"{path}:{line} {name}: compared part by part"
        if re.search(r"\[b'.', b'.', b'.'", body):
            yield f"{path}:{line} {name}: letters one by one"


def repeated():
    """5: a fact in the `requires` of three functions and more of a crate; parameters that travel together through three and more."""
    facts = collections.defaultdict(list)
    together = collections.defaultdict(list)
    for path, line, name, head, body in functions():
        for clause in re.findall(r"requires(?: \w+)? \{ (.*?) \}$", head, re.M):
            for fact in re.split(r" × ", clause):
                facts[(path.parts[0], fact.strip("()"))].append(f"{path}:{line} {name}")
        parameters = set(re.findall(r"[(,\s](\w+): ", head.split("ensures")[0].split("requires")[0]))
        for group in TOGETHER:
            if group <= parameters:
                together[(path.parts[0], ", ".join(sorted(group)))].append(f"{path}:{line} {name}")
    for (crate, fact), where in facts.items():
        if len(where) >= 3:
            yield f"{crate}: `{fact}` of " + ", ".join(w.split()[-1] for w in where)
    for (crate, group), where in together.items():
        if len(where) >= 3:
            yield f"{crate}: {group} of " + ", ".join(w.split()[-1] for w in where)


def lengths_beside():
    """6: an array with its count beside it, in a struct or in a function's parameters."""
    for path, line, name, body in items("struct"):
        names = fields(body)
        if any(kind.startswith("[") for _, kind in names) and any(n in {"count", "length", "used"} for n, _ in names):
            yield f"{path}:{line} {name}"
    for path, line, name, head, body in functions():
        parameters = head.split("ensures")[0].split("requires")[0]
        if re.search(r"(\w+): &(?:mut )?\[u\d+\], (?:count|used|length): usize", parameters):
            yield f"{path}:{line} {name}"


def switches():
    """7: a chain of tests of one value against named numbers that says what to run."""
    for path, line, name, head, body in functions():
        tests = collections.Counter(re.findall(r"\bif \(?([\w.]+) == (?:\w+::)*[A-Z][A-Z_]+\b", body))
        for value, count in tests.items():
            if count >= 2:
                yield f"{path}:{line} {name}: {count} tests of {value}"


def answered():
    """8: functions with answers by hand, and their lines."""
    for path in sorted(TREE.glob("crates/*/proofs/**/Answers.antt")):
        yield f"{path.relative_to(TREE / 'crates')} {path.read_text().count(chr(10))}"


POINTS = [own_answers, twins, counted_loops, by_hand, repeated, lengths_beside, switches, answered]

if __name__ == "__main__":
    for number, point in enumerate(POINTS, 1):
        if ONLY and str(number) not in ONLY:
            continue
        places = list(point())
        print(f"{point.__doc__}\n   {len(places)} places")
        for place in places if number < 8 or ONLY else []:
            print(f"   - {place}")
