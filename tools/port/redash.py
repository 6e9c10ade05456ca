#!/usr/bin/env python3
"""Gives lemmas back the dash in their names that the toolchain's port script took where a library has a name of the same spelling: `put-refused` had become
`put_refused`, beside `told-refused`. Run at the top, after that script and before respell.py; a second run finds nothing.

The names stand in lemma-dashes.txt beside this file, one a line as they landed: those that a file of proofs/ declares. A file that has the
name with `_` for something else, or imports it from a library, is left alone.
"""
import pathlib
import re
import sys

sys.path.insert(0, str(pathlib.Path(__file__).resolve().parent))
import respell  # noqa: E402

HERE = pathlib.Path(__file__).resolve().parent


def main():
    names = {name.replace("-", "_"): name for name in (HERE / "lemma-dashes.txt").read_text().split()}
    crates = {path.name for path in respell.TOP.glob("crates/*")}
    functions = respell.functions()
    written = 0
    for path in respell.antt_files():
        text = path.read_text()
        foreign = set()
        for found in re.finditer(r"\buse ([^\s{]+)\.\{([^}]*)\}", text):
            module = found.group(1).split(".")
            if module[0] != "Rattle" or module[1] not in crates:
                foreign |= {name.strip().split(" as ")[0] for name in found.group(2).split(",")}
        if foreign & names.keys():
            print(f"redash: {path.relative_to(respell.TOP)}: a library's {', '.join(sorted(foreign & names.keys()))}")

        def one(found):
            word = found.group(0)
            if word in foreign or word not in names:
                return word
            before = text[:found.start()]
            if word in functions and (before.endswith(".proofs.") or path.parent.name == word or before.endswith("Rattle.") or re.search(r"\bc(\.\w+)*\.$", before[-60:])):
                print(f"redash: {path.relative_to(respell.TOP)}: kept {word}")
                return word
            return names[word]
        new = respell.TOKEN.sub(one, text)
        if new != text:
            path.write_text(new)
            written += 1
    print(f"redash: {len(names)} names, {written} files written")
    return 0


if __name__ == "__main__":
    sys.exit(main())
