#!/usr/bin/env python3
"""Brings the must-fail edits of a repository that was ported (the toolchain's port.py, rt fmt, redash.py, respell.py) to its text as it stands.

    python3 turn_edits.py prepare LANDED FOLDER     in a clone: makes FOLDER, a copy of the commit LANDED with every edit applied in a file of its own
                                                    beside the file that it changes, and commits it there. Then, in FOLDER: python3 port.py
    python3 turn_edits.py pairs LANDED FOLDER PORTED OUT.json    the lines that each edit changes, as port.py wrote them (old and new line; PORTED: a folder
                                                    with what port.py made of LANDED itself), both respelled by respell.py's tables
    python3 turn_edits.py write PAIRS.json          at the top of the repository: writes the edits, and lists those that need a hand
    python3 turn_edits.py test                      at the top: each old: stands exactly once, new: differs, and applying it changes just that place

So the wrong text is turned by the same scripts as the right one, and keeps its meaning.
"""
import collections
import difflib
import json
import pathlib
import re
import subprocess
import sys

sys.path.insert(0, str(pathlib.Path(__file__).resolve().parent))
import respell  # noqa: E402

TOP = pathlib.Path.cwd()
VARIANT = "-edit-"


def git(*arguments):
    return subprocess.run(["git", *arguments], capture_output=True, text=True, check=True).stdout


def parsed(text):
    """An edit's files, each with its pairs: an edit may change two files, the code and its definition."""
    files, old = [], None
    for line in text.split("\n"):
        if line.startswith("file:"):
            files.append((line[5:].strip(), []))
        elif line.startswith("old: "):
            old = line[5:]
        elif line.startswith("new: ") or line == "new:":
            files[-1][1].append((old, line[5:]))
    return files


def landed_edits(commit):
    """The name of each edit and file, as PATH or PATH#2, the file and its pairs."""
    for path in git("ls-tree", "-r", "--name-only", commit, "crates").split("\n"):
        if re.fullmatch(r"crates/\w+/must-fail/\w+\.edit", path):
            for k, (file, pairs) in enumerate(parsed(git("show", f"{commit}:{path}")), 1):
                yield path if k == 1 else f"{path}#{k}", file, pairs


def applied(text, pairs):
    """The text with the pairs applied, or None where an old text does not stand exactly once."""
    for old, new in pairs:
        if text.count(old) != 1:
            return None
        text = text.replace(old, new)
    return text


def changed_lines(before, after):
    """The numbers of the lines that differ: an edit never changes their count."""
    a, b = before.split("\n"), after.split("\n")
    return None if len(a) != len(b) else [i for i, (x, y) in enumerate(zip(a, b)) if x != y]


def groups(commit):
    """Edits that can share one copy of a file: no two change lines that touch. file -> list of {edit: lines}, with the text."""
    made = collections.defaultdict(list)
    for path, file, pairs in landed_edits(commit):
        crate = path.split("/")[1]
        target = f"crates/{crate}/{file}"
        before = git("show", f"{commit}:{target}")
        after = applied(before, pairs)
        lines = after is not None and changed_lines(before, after)
        if not lines:
            print(f"by hand: {path}: does not apply as it landed")
            continue
        for group in made[target]:
            taken = {n for others in group["edits"].values() for n in others}
            if all(abs(n - m) > 1 for n in lines for m in taken):
                break
        else:
            group = {"edits": {}, "text": before.split("\n")}
            made[target].append(group)
        group["edits"][path] = lines
        for n in lines:
            group["text"][n] = after.split("\n")[n]
    return made


def variant(target, number):
    """A name beside the file: an .antt file's module has a capital."""
    path = pathlib.Path(target)
    return str(path.with_name(f"{path.stem}_v{number}{path.suffix}" if path.suffix == ".rt" else f"{path.stem}Variant{number}{path.suffix}"))


def prepare(commit, folder):
    subprocess.run(["git", "clone", "-q", str(TOP), folder], check=True)
    subprocess.run(["git", "-C", folder, "checkout", "-q", commit], check=True)
    count = 0
    for target, list_of in groups(commit).items():
        for number, group in enumerate(list_of):
            (pathlib.Path(folder) / variant(target, number)).write_text("\n".join(group["text"]))
            count += 1
    subprocess.run(["git", "-C", folder, "add", "-A"], check=True)
    subprocess.run(["git", "-C", folder, "-c", "user.name=t", "-c", "user.email=t@t", "commit", "-qm", "edits applied"], check=True)
    print(f"turn_edits: {count} copies; now run port.py in {folder}")


def respelled(path, text, maps):
    words, dashed, scoped, _ = maps
    if path.suffix == ".antt":
        return respell.antt_text(path, text, words, dashed, scoped)
    return respell.rt_text(text, words, dashed, scoped)


WORD = re.compile(r"[\w'·-]+|[^\w\s]")


def one_line(base, a, b, new):
    """A hunk as pairs of single lines, also where the layout has put either side on several; or None."""
    old = base[a:b]
    if len(old) == len(new):
        return list(zip(old, new))
    if not old:         # lines came in: behind the line before, or where that stands more than once, before the next
        come = " ".join(line.strip() for line in new)
        before, behind = base[a - 1], base[a]
        if base.count(before) == 1 and len(before.strip()) > 7:
            return [(before, before + " " + come)]
        return [(behind, behind[:len(behind) - len(behind.lstrip())] + come + " " + behind.lstrip())]
    was = [(m.group(0), k, m.start(), m.end()) for k, line in enumerate(old) for m in WORD.finditer(line)]
    joined = " ".join(line.strip() for line in new)
    now = [(m.group(0), m.start(), m.end()) for m in WORD.finditer(joined)]
    first = 0
    while first < min(len(was), len(now)) and was[first][0] == now[first][0]:
        first += 1
    last = 0
    while last < min(len(was), len(now)) - first and was[-1 - last][0] == now[-1 - last][0]:
        last += 1
    gone, come = was[first:len(was) - last], now[first:len(now) - last]
    text = joined[come[0][1]:come[-1][2]] if come else ""
    if gone:
        if len({k for _, k, _, _ in gone}) > 1:
            return None
        k, start, end = gone[0][1], gone[0][2], gone[-1][3]
    elif first:
        _, k, _, start = was[first - 1]
        end, text = start, " " + text
    else:
        return None
    return [(old[k], old[k][:start] + text + old[k][end:])]


def pairs_of(commit, folder, ported, out):
    """The changed lines of each edit, as the scripts write them."""
    respell.TOP = pathlib.Path(ported).resolve()
    maps = respell.collect(set())
    found, left = {}, {}
    landed = {path: [old for old, _ in pairs] for path, _, pairs in landed_edits(commit)}
    for target, list_of in groups(commit).items():
        base_path = respell.TOP / target
        base = respelled(base_path, base_path.read_text(), maps).split("\n")
        for number, group in enumerate(list_of):
            text = respelled(base_path, (pathlib.Path(folder) / variant(target, number)).read_text(), maps).split("\n")
            hunks = [(a, b, c, d) for tag, a, b, c, d in difflib.SequenceMatcher(None, base, text, autojunk=False).get_opcodes() if tag != "equal"]
            owners = sorted((n, path) for path, lines in group["edits"].items() for n in lines)
            # the lines of one edit may touch: they are one hunk
            runs = [[owners[0]]]
            for n, path in owners[1:]:
                if path == runs[-1][-1][1] and n == runs[-1][-1][0] + 1:
                    runs[-1].append((n, path))
                else:
                    runs.append([(n, path)])
            pieces = [one_line(base, a, b, text[c:d]) for a, b, c, d in hunks]
            if len(hunks) != len(runs):
                pieces, hunks = [None], []
            for piece, run in zip(pieces, runs):
                same = piece and len({path for _, path in run}) == 1
                for path in {path for _, path in run}:
                    if same:
                        found.setdefault(path, {"file": target, "landed": landed[path], "pairs": []})["pairs"] += piece
            for path in group["edits"]:
                own = [piece for piece, run in zip(pieces, runs) if any(p == path for _, p in run)]
                if not own or None in own or pieces == [None]:
                    found.pop(path, None)
                    left[path] = [(base[a:b], text[c:d]) for a, b, c, d in hunks]
    pathlib.Path(out).write_text(json.dumps({"found": found, "left": left}, indent=1, ensure_ascii=False))
    print(f"turn_edits: {len(found)} edits turned, {len(left)} left: {', '.join(sorted(left))}")


PIECE = re.compile(r"[^\s(){}\[\],;.:]+|\s+|.")


def words_of(text):
    """A line's words, as far as spelling goes, with their places."""
    return [(re.sub(r"[_'′]", "", m.group(0)).lower().replace("getd", "getor"), m.start(), m.end()) for m in re.finditer(r"[^\W]+['′]*", text)]


def as_landed(old, new, text, landed):
    """The piece of the line that the landed edit named, where it stands once and holds what changed; and what it becomes."""
    line = words_of(old)
    first = 0
    while first < min(len(old), len(new)) and old[first] == new[first]:
        first += 1
    last = 0
    while last < min(len(old), len(new)) - first and old[-1 - last] == new[-1 - last]:
        last += 1
    for was in landed:
        want = [w for w, _, _ in words_of(was)]
        for at in range(len(line) - len(want) + 1):
            if not want or [w for w, _, _ in line[at:at + len(want)]] != want:
                continue
            start, end = line[at][1], line[at + len(want) - 1][2]
            while end < len(old) and old[end] in ")];,}?" and was.rstrip()[-1] in ")];,}?{":
                end += 1
            if was.rstrip().endswith("{") and old[end:end + 2] == " {":
                end += 2
            while start > 0 and old[start - 1] in "(!&[" and was.lstrip()[0] in "(!&[":
                start -= 1
            if was.startswith("  ") and not old[:start].strip():
                start = 0
            start, end = min(start, first), max(end, len(old) - last)
            while start and re.match(r"\w", old[start - 1]) and re.match(r"\w", old[start]):
                start -= 1
            while end < len(old) and re.match(r"\w", old[end - 1]) and re.match(r"\w", old[end]):
                end += 1
            piece, becomes = old[start:end], new[start:len(new) - (len(old) - end)]
            if text.count(piece) == 1 and piece == piece.rstrip() and piece.strip():
                return piece, becomes
    return None


def smallest(old, new, text):
    """The smallest piece of a line, in whole words, that stands once in the text and holds what changed; and what it becomes."""
    a, b = PIECE.findall(old), PIECE.findall(new)
    first = 0
    while first < min(len(a), len(b)) and a[first] == b[first]:
        first += 1
    last = 0
    while last < min(len(a), len(b)) - first and a[-1 - last] == b[-1 - last]:
        last += 1
    left, right = first, len(a) - last
    while True:
        piece = "".join(a[left:right])
        if piece and piece == piece.strip() and text.count(piece) == 1 and len(piece) >= 8:
            return piece, "".join(a[left:first]) + "".join(b[first:len(b) - last]) + "".join(a[len(a) - last:right])
        if left == 0 and right == len(a):
            return (old, new) if text.count(old) == 1 and old.strip() else None
        # a word to the left first, then one to the right
        if right < len(a) and (left == 0 or right - (len(a) - last) < first - left):
            right += 1
        else:
            left -= 1


def write(pairs_file):
    data = json.loads(pathlib.Path(pairs_file).read_text())
    written, hand, texts = 0, {}, {}
    for path, edit in sorted(data["found"].items()):
        target, place = TOP / edit["file"], TOP / path.partition("#")[0]
        if not place.exists():
            continue        # its crate is not here
        file = edit["file"].split("/", 2)[2]
        text, lines = target.read_text(), [f"file: {file}"]
        for old, new in edit["pairs"]:
            piece = None
            if old in text.split("\n"):
                piece = as_landed(old, new, text, edit["landed"]) or smallest(old, new, text)
            piece = piece or nearest(old, new, text)
            if not piece:
                hand[path] = (old, new)
                break
            lines += [f"old: {piece[0]}", f"new: {piece[1]}"]
            text = text.replace(*piece)
        else:
            texts.setdefault(place, []).extend(lines)
    for path, pairs in data["left"].items():
        if (TOP / path.partition("#")[0]).exists():
            hand[path] = pairs
    by_hand = {TOP / path.partition("#")[0] for path in hand}
    for place, lines in texts.items():
        if place not in by_hand:        # an edit of two files is turned whole or not at all
            place.write_text("\n".join(lines) + "\n")
            written += 1
    for path, pair in sorted(hand.items()):
        print(f"by hand: {path}\n    {pair}")
    print(f"turn_edits: {written} edits written, {len(hand)} by hand")


def nearest(old, new, text):
    """Where the line itself is no more there: what changed of it, if that stands once in the text."""
    a = old.strip()
    return (a, new.strip()) if a and text.count(a) == 1 else None


def test():
    bad = 0
    edits = sorted(TOP.glob("crates/*/must-fail/*.edit"))
    for path in edits:
        wrong = wrong_in(path)
        if wrong:
            print(f"BAD {path.relative_to(TOP)}: {wrong}")
            bad += 1
    print(f"turn_edits: {len(edits)} edits, {bad} bad")
    return 1 if bad else 0


def wrong_in(path):
    """What keeps an edit from being applied, or None."""
    files = parsed(path.read_text())
    if not files or not all(pairs for _, pairs in files):
        return "no pair"
    for file, pairs in files:
        target = path.parent.parent / file
        text = target.read_text() if target.exists() else ""
        for old, new in pairs:
            if text.count(old) != 1:
                return f"stands {text.count(old)} times: {old}"
            if old == new or not old.strip():
                return f"changes nothing: {old}"
            at = text.index(old)
            after = text.replace(old, new)
            if after[:at] != text[:at] or after[at + len(new):] != text[at + len(old):] or after.count("\n") != text.count("\n"):
                return "changes more than its place"
            text = after
    return None


def main():
    task, *arguments = sys.argv[1:] or ["help"]
    if task == "prepare":
        return prepare(*arguments)
    if task == "pairs":
        return pairs_of(*arguments)
    if task == "write":
        return write(*arguments)
    if task == "test":
        return test()
    print(__doc__)
    return 2


if __name__ == "__main__":
    sys.exit(main())
