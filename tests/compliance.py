#!/usr/bin/env python3
"""Fails where docs/COMPLIANCE.md or docs/UNIQUENESS.md is not true as far as a script can tell:

- a row names a file or a definition that is not there,
- a row of COMPLIANCE has no contract or theorem (a wrong program alone is none), or names a whole file as its run,
- a public function or a conversion of a library is missing in UNIQUENESS, or has no refusal law and does not say why.

A reference stands in backticks: `path` or `path: name, name`. The name has to be declared in the file, not just used.
"""
import collections
import pathlib
import re
import sys

TOP = pathlib.Path(__file__).resolve().parent.parent
COMPLIANCE = "docs/COMPLIANCE.md"
UNIQUENESS = "docs/UNIQUENESS.md"

DECLARED = {
    ".antt": r"^\s*(?:abbrev |unfoldable )?(?:pub )?(?:record |data |ruleset )?{0}(?=[\s:]|$)",
    ".rt": r"\b(?:fn|struct|enum|const|mod) {0}\b",
    ".py": r"\b(?:def|class) {0}\b|^{0} =",
    ".edit": r"{0}",
}


def references(text):
    """The references of a text: path and names."""
    found = []
    for reference in re.findall(r"`([^`]+/[^`]+)`", text):
        path, _, names = (part.strip() for part in reference.partition(":"))
        found.append((path, re.split(r",\s*", names) if names else []))
    return found


def missing(path, names):
    """What of a reference is not there, or None."""
    file = TOP / path
    if not file.exists():
        return f"no file {path}"
    form = DECLARED.get(file.suffix, r"{0}")
    for name in names:
        if not re.search(form.format(re.escape(name)), file.read_text(), re.MULTILINE):
            return f"{path} declares no {name}"
    return None


def rows(page):
    """The rows of a page's tables, without their heads, as cells."""
    lines = [line for line in (TOP / page).read_text().splitlines() if line.startswith("|")]
    cells = [[cell.strip() for cell in re.split(r"(?<!\\)\|", line)[1:-1]] for line in lines]
    heads = [at for at, row in enumerate(cells) if set("".join(row)) <= set("-: ")]
    return [row for at, row in enumerate(cells) if at not in heads and at + 1 not in heads]


def proves(path, names):
    """Whether a reference is a contract (a function) or a theorem (a name in proofs)."""
    return bool(names) and (path.endswith(".rt") or "/proofs/" in path)


def unanswered(row):
    """What a row of COMPLIANCE lacks."""
    if len(row) != 4:
        yield f"not four columns: {row[0][:60]}"
        return
    if not any(proves(*reference) for reference in references(row[2])):
        yield f"no contract or theorem: {row[0][:60]}"
    for path, names in references(row[3]):
        if not names and not path.startswith("examples/"):
            yield f"a whole file as a run: {row[0][:60]}"


def operations(text):
    """The public functions of a source, and its conversions, each as often as the source has one of its name."""
    public = re.findall(r"^\s*pub (?:extern \"C\" )?fn (\w+)", text, re.MULTILINE)
    conversions = re.findall(r"^impl (?:Try)?From<.*?^    fn (\w+)", text, re.MULTILINE | re.DOTALL)
    return collections.Counter(public + conversions)


def unlisted(listed):
    """Operations of libraries that UNIQUENESS does not have, or not as often as their source has them: a name may be that of two types."""
    for source in sorted(TOP.glob("crates/*/src/*.rt")):
        if (source.parent / "main.rt").exists():
            continue
        path = str(source.relative_to(TOP))
        for name, times in sorted(operations(source.read_text()).items()):
            if listed.count((path, [name])) < times:
                yield f"{UNIQUENESS} does not list {path}: {name} as often as the {times} there are"


def lawless(row):
    """What a row of UNIQUENESS lacks: a lemma, and a refusal law or why there is none."""
    if len(row) != 3 or not references(row[1]):
        yield f"no lemma: {row[0]}"
    elif not row[2]:
        yield f"neither a refusal law nor why there is none: {row[0]}"


def main():
    compliance, uniqueness = rows(COMPLIANCE), rows(UNIQUENESS)
    named = [r for row in compliance + uniqueness for cell in row for r in references(cell)]
    wrong = [m for m in (missing(*reference) for reference in named) if m]
    wrong += [w for row in compliance for w in unanswered(row)]
    wrong += [w for row in uniqueness for w in lawless(row)]
    wrong += unlisted([r for row in uniqueness for r in references(row[0])])
    for line in wrong:
        print(f"compliance: {line}")
    print(f"compliance: {len(compliance)} sentences, {len(uniqueness)} operations, {len(named)} references")
    return 1 if wrong or not compliance or not uniqueness else 0


if __name__ == "__main__":
    sys.exit(main())
