#!/usr/bin/env python3
"""Brings the repository's own names to today's spelling. Run once, at the repository's top, after the toolchain's port
script and redash.py (`all` runs them in order); a second run finds nothing.

    python3 respell.py              renames, and prints a table old -> new
    python3 respell.py --dry        prints the table and the collisions alone
    python3 respell.py --skip constants,constructors     leaves those kinds alone

What is renamed (the toolchain's guide CONTRACT_STYLE.md, "Names"):
  words         camelCase with a small first letter -> snake_case, also in the parts of a lemma's name that a dash joins
  fields, functions     dashes in record fields and in functions -> '_' (a lemma's dash stays, unless a field has the same name)
  constants     numbers spelled as types (refusal.None) -> snake case
  constructors  of the repository's own `data` -> snake case
Where: specs/, proofs/, clauses and `ghost use` of src/ (code, strings and data of src/ stay), the texts of must-fail/*.edit, docs/*.md and
README.md in backticks. Nothing is written where a collision is left: the new name stands already in a file that has the old one.
"""
import collections
import functools
import pathlib
import re
import sys

TOP = pathlib.Path.cwd()

# Names that today's spelling alone would make fall together with another in some file, or that antt reserves (`open`, `module`, `record`).
WORDS = {
    "getD-each": "get_or-each",
    "getD-marks": "get_or-marks",
}
DASHED = {
    "block-fits": "fits_block",         # the function block_fits
    "is-port": "names_port",            # the function is_port
    "is-accepted": "accepts_last",      # the function is_accepted
    "sub-address": "sub_in_range",      # the field sub_address of a command
    "cards-started": "started_cards",   # the function cards_started
    "cards-given": "given_cards",       # the function cards_given
    "slice-val": "own_slice_val",       # the kit's slice_val
}
# module -> name -> name
SCOPED = {
    "Rattle.rules.specs.Refusals": {"Open": "still_open", "Record": "bad_record"},
    "Rattle.text.specs.Kinds": {"Module": "set_module"},
    "Rattle.text.specs.Letters": {c: f"capital_{c.lower()}" for c in "SWRMET"},
    "Rattle.token_lines.specs.TokenLines": {"C": "capital_c"},
}
# constructors whose plain snake case is taken: by a keyword (module, open), by std (take), by a definition or a variable of a file that has them
CONSTRUCTORS = {
    "Module": "set_module",
    "Take": "take_word",
    "Flipped": "bits_flipped",
    "Served": "one_served",
    "Filled": "got_filled",
    "Turned": "got_turned",
    "Muted": "got_muted",
    "Selects": "pin_select",
    "Clocks": "pin_clock",
    "Releases": "pin_release",
    "SetsModule": "pin_set_module",
    "Call": "one_call",
    "Open": "still_open",
    "Over": "is_over",
    "Sure": "is_sure",
}
# names of one file that a renamed word meets: file -> its word -> the other's new name
ALIASES_OF = {
    "crates/shifter/proofs/left/Proof.antt": {"leftOver": ("left_over", "left_over_fn")},
}
RESERVED = set("abbrev as data deriving else elim if in infix let module of open postulate pub record refl ruleset rw search simp omega grind suc syntax then"
               " unfoldable unfolding use where zero yes no result".split())
# names that Rattle makes in the proof files of a function
MADE = re.compile(r"^(invariant|decreases|ghosts|returns|overflow|loop|goal)-")

NAME = r"[^\s()\[\]{};.,\"@`]+"
TOKEN = re.compile(NAME)
COMMENT = re.compile(r"(?:(?<=\s)|^)--(?=\s|$)")
SIGNATURE = re.compile(rf"^( *)((?:pub |abbrev |unfoldable )*)({NAME})(?: \{{[^}}]*\}})* : (.*)")
HEAD = re.compile(r"^( *)(?:pub )?(record|data|module) ")
USE = re.compile(r"\buse (Rattle(?:\.[^\s.{};]+)+)(?:\.\{([^}]*)\}| as ([^\s;]+))?")
CLAUSE = re.compile(r"\b(?:requires|ensures|ghost|invariant|decreases)\b\*?(?:\s+[a-z_][a-z_0-9]*)?\s*:?\s*\{")


def sources(*patterns):
    found = [p for pattern in patterns for p in TOP.glob(pattern) if "out" not in p.relative_to(TOP).parts]
    return sorted(set(found))


def antt_files():
    return sources("crates/*/specs/**/*.antt", "crates/*/proofs/**/*.antt")


def module_of(path):
    """Rattle.c.specs.M of crates/c/specs/M.antt."""
    parts = path.relative_to(TOP).with_suffix("").parts
    return "Rattle." + ".".join(parts[1:])


def code_of(line):
    cut = COMMENT.search(line)
    return (line, "") if not cut else (line[:cut.start()], line[cut.start():])


def is_camel(word):
    return "·" not in word and any(re.match(r"[a-z]", p) and re.search(r"[a-z0-9'][A-Z]", p) for p in word.split("-"))


def snake(word):
    def part(p):
        return re.sub(r"(?<=[A-Za-z0-9'])([A-Z])", r"_\1", p).lower()
    return "-".join(part(p) if re.match(r"[a-z]", p) else p for p in word.split("-"))


def lowered(word):
    return re.sub(r"(?<=[a-z0-9'])([A-Z])", r"_\1", word).lower()


def codomain(signature):
    depth, last = 0, 0
    for at, c in enumerate(signature):
        depth += (c in "({[") - (c in ")}]")
        if c == "→" and depth == 0:
            last = at + 1
    return signature[last:].strip()


def definitions(path):
    """Each signature of a file: name, modifiers, what it stands in ('record', 'data', 'module', 'where' or ''), its whole type."""
    for _, *rest in signatures(path.read_text()):
        yield rest


def places(text):
    """The line of each signature, and what it stands in."""
    for at, _, _, inside, _ in signatures(text):
        yield at, inside


def signatures(text):
    lines = [code_of(line)[0].rstrip() for line in text.split("\n")]
    stack = []
    for at, line in enumerate(lines):
        if not line.strip():
            continue
        indent = len(line) - len(line.lstrip())
        while stack and stack[-1][0] >= indent:
            stack.pop()
        head = HEAD.match(line)
        inside = stack[-1][1] if stack else ""
        if head:
            stack.append((indent, head.group(2)))
            continue
        if re.match(r"^ *(where|let)\b", line):
            stack.append((indent, "where"))
        found = SIGNATURE.match(line)
        if found:
            signature = found.group(4)
            for more in lines[at + 1:]:
                if not more.strip() or len(more) - len(more.lstrip()) <= indent or not re.match(r"\s*[→≡∙×(]", more):
                    break
                signature += " " + more.strip()
            yield at, found.group(3), found.group(2), inside, signature


@functools.cache
def functions():
    """The names of the functions of src/."""
    return {name for path in sources("crates/*/src/**/*.rt") for name in re.findall(r"\bfn (\w+)", path.read_text())}


def in_function_folder(path):
    return len(path.relative_to(TOP).parts) > 4


def collect(skip):
    """The renames: of words (everywhere), of dashed names (everywhere), and of a module's names."""
    words, dashed, scoped, kinds = {}, {}, collections.defaultdict(dict), {}
    outside, lemmas = set(), collections.defaultdict(set)
    crates = {p.name for p in TOP.glob("crates/*")}
    for path in antt_files():
        text = path.read_text()
        for line in text.split("\n"):
            used = re.match(r"\s*(?:pub )?use ([^\s{]+?)\.\{([^}]*)\}", line)
            if used and (not used.group(1).startswith("Rattle.") or used.group(1).split(".")[1] not in crates):
                outside |= {name.strip().split(" as ")[0] for name in used.group(2).split(",")}
            for word in TOKEN.findall(code_of(line)[0]):
                if "words" not in skip and (is_camel(word) or word in WORDS):
                    words[word] = WORDS.get(word, snake(word))
        for name, modifiers, inside, signature in definitions(path):
            ends = codomain(signature)
            function = "abbrev" in modifiers or "unfoldable" in modifiers or re.match(r"(ℕ|Bool|List|Option)\b", ends)
            if "-" in name and not MADE.match(name) and (inside == "record" or function):
                kind = "fields" if inside == "record" else "functions"
                if kind not in skip:
                    dashed[name] = DASHED.get(name, snake(name).replace("-", "_"))
                    kinds[name] = kind
            elif "-" in name:
                lemmas[name].add(path)
            module = module_of(path)
            if re.match(r"[A-Z]", name) and not in_function_folder(path):
                if inside == "data" and "constructors" not in skip:
                    scoped[module][name] = CONSTRUCTORS.get(name, lowered(name))
                    kinds[module, name] = "constructors"
                elif ends == "ℕ" and "→" not in signature and "constants" not in skip:
                    scoped[module][name] = SCOPED.get(module, {}).get(name, lowered(name))
                    kinds[module, name] = "constants"
    for name in outside & (words.keys() | dashed.keys()):
        words.pop(name, None), dashed.pop(name, None)
    for name in dashed:
        words.pop(name, None)
    MIXED.clear()
    MIXED.update({name: lemmas[name] for name in dashed if name in lemmas})
    return words, dashed, scoped, kinds


# fields whose name is a lemma's too, in other files or the same: the lemma keeps its dash (filled by `collect`)
MIXED = {}


def lemmas_by_alias(text):
    """(alias, lemma) of modules that a file names otherwise, where the lemma has a field's name."""
    modules = {module_of(path): path for files in MIXED.values() for path in files}
    return {(found.group(3), name) for found in USE.finditer(text) if found.group(3) and found.group(1) in modules
            for name, files in MIXED.items() if modules[found.group(1)] in files}


def kept_lemmas(path, text):
    """The lemmas of a file, its own or imported, that have a field's name."""
    imported = {n.strip().split(" as ")[0] for found in USE.finditer(text) for n in (found.group(2) or "").split(",")}
    return {name for name, files in MIXED.items() if path in files or name in imported}


def is_field(code, start, end, fields):
    """Whether a word of a line is a field: behind a dot, as a label of a record, or where a record declares it."""
    before, behind = code[:start], code[end:]
    if before.endswith("."):
        return not re.search(r"(^|[^\w'-])[A-Z][\w'-]*\.$", before)
    if fields:
        return re.fullmatch(r"\s*(pub )?", before) is not None and behind.startswith(" : ")
    return bool(re.match(r" = ", behind) and (re.search(r"[{;]\s*$", before) or not before.strip() and before and behind.rstrip().endswith((";", "{", "("))))


def scope(text, module, scoped):
    """What the names of modules are called in a file: bare name -> new, (alias, name) -> new."""
    bare, qualified = dict(scoped.get(module, {})), {pair: pair[1] for pair in lemmas_by_alias(text)}
    for found in USE.finditer(text):
        target, names, alias = found.groups()
        for old, new in scoped.get(target, {}).items():
            if names is not None:
                for name in (n.strip() for n in names.split(",")):
                    if name == old:
                        bare[old] = new
            if alias:
                qualified[alias, old] = new
    for target, names in scoped.items():
        for old, new in names.items():
            qualified[target.rpartition(".")[2], old] = new     # a full path, as Rattle.c.specs.M.old
    return bare, qualified


def renamed(code, everywhere, bare, qualified, kept=(), fields=False):
    """A piece of antt with its names renamed."""
    def one(found):
        word, start = found.group(0), found.start()
        before = code[:start]
        if word in kept and not is_field(code, start, found.end(), fields):
            return word
        if before.endswith("."):
            alias = re.search(rf"({NAME})\.$", before)
            if alias and (alias.group(1), word) in qualified:
                return qualified[alias.group(1), word]
        elif word in bare:
            return bare[word]
        return everywhere.get(word, word)
    return TOKEN.sub(one, code)


def use_lines(text, scoped):
    """The import lists of modules whose names are scoped, renamed, also where a name is imported as another."""
    def one(found):
        target, names, alias = found.groups()
        if names is None or target not in scoped:
            return found.group(0)
        renames = scoped[target]
        new = re.sub(NAME, lambda n: renames.get(n.group(0), n.group(0)), names)
        return found.group(0).replace("{" + names + "}", "{" + new + "}")
    return USE.sub(one, text)


def said(text, words):
    """Words in a comment or a page."""
    return re.sub(r"(?<![\w'·-])[a-z][\w'-]*", lambda w: prose(w.group(0), words), text)


def prose(word, words):
    for tail in ("", "'s", "'", "-"):
        if word.endswith(tail) and word[:len(word) - len(tail)] in words:
            return words[word[:len(word) - len(tail)]] + tail
    return word


def own_aliases(path, text):
    """A file's own names that give way: none once its word is renamed."""
    return dict(pair for word, pair in ALIASES_OF.get(str(path.relative_to(TOP)), {}).items() if word in TOKEN.findall(text))


def antt_text(path, text, words, dashed, scoped):
    module = module_of(path)
    everywhere = {**words, **dashed, **own_aliases(path, text)}
    bare, qualified = scope(text, module, scoped)
    kept = kept_lemmas(path, text)
    if in_function_folder(path):        # `c.block-fits` is what Rattle made of the function block_fits there
        everywhere = {old: new for old, new in everywhere.items() if "-" not in old or old.replace("-", "_") not in functions()}
    records = {at for at, inside in places(text) if inside == "record"} if kept else set()
    lines = []
    for at, line in enumerate(text.split("\n")):
        code, comment = code_of(line)
        if re.match(r"\s*(pub )?use ", code):
            code = use_lines(code, scoped)
            code = TOKEN.sub(lambda w: w.group(0) if w.group(0) in kept else everywhere.get(w.group(0), w.group(0)), code)
        else:
            code = renamed(code, everywhere, bare, qualified, kept, at in records)
        stay = {k: v for k, v in everywhere.items() if k not in MIXED}
        cited = {old: new for old, new in bare.items() if len(old) > 1}       # `C` is a letter
        comment = re.sub(r"`[^`]*`", lambda b: renamed(b.group(0), stay, cited, qualified), comment)
        lines.append(code + said(comment, words))
    return "\n".join(lines)


def clauses(text):
    """Where the clauses and `ghost use` lines of a .rt file stand."""
    at = 0
    while True:
        found = re.compile(CLAUSE.pattern + r"|\bghost use [^;]*;").search(text, at)
        if not found:
            return
        if found.group(0).startswith("ghost use"):
            yield found.start(), found.end()
            at = found.end()
            continue
        depth, end = 1, found.end()
        while depth and end < len(text):
            depth += (text[end] == "{") - (text[end] == "}")
            end += 1
        yield found.end() - 1, end
        at = end


def rt_text(text, words, dashed, scoped):
    everywhere = {**words, **dashed}
    bare, qualified = scope(text, "", scoped)
    out, last = [], 0
    for start, end in clauses(text):
        out.append(rt_rest(text[last:start], everywhere, words))
        piece = text[start:end]
        if piece.startswith("ghost use"):
            piece = TOKEN.sub(lambda w: everywhere.get(w.group(0), w.group(0)), use_lines(piece, scoped))
        else:
            piece = renamed(piece, everywhere, bare, qualified)
        out.append(piece)
        last = end
    out.append(rt_rest(text[last:], everywhere, words))
    return "".join(out)


def rt_rest(text, everywhere, words):
    """Code of src/: its comments cite definitions, and `#[tactic(..)]` names them; the rest stays."""
    text = re.sub(r"//[^\n]*", lambda c: said(c.group(0), words), text)
    return re.sub(r"#\[tactic\([^\]]*\]", lambda a: re.sub(r"(?<=::)«?([\w'-]+)»?", lambda n: attribute(n, everywhere), a.group(0)), text)


def attribute(found, everywhere):
    new = everywhere.get(found.group(1))
    return found.group(0) if new is None else new if re.fullmatch(r"\w+", new) else f"«{new}»"


def edit_text(text, path, words, dashed, scoped):
    """An edit: its old: and new: texts, in the scope of the file that it changes."""
    file = re.search(r"^file: *(\S+)", text, re.MULTILINE)
    target = path.parent.parent / file.group(1) if file else None
    if not target or not target.exists():
        return text
    source = target.read_text()
    everywhere = {**words, **dashed}
    is_antt = target.suffix == ".antt"
    # also where the file itself is renamed already
    bare, qualified = scope(source, module_of(target) if is_antt else "", scoped)
    lines = []
    for line in text.split("\n"):
        key = re.match(r"(old|new): ", line)
        if key:
            piece = line[key.end():]
            if is_antt:
                piece = use_lines(piece, scoped) if re.match(r"\s*(pub )?use ", piece) else renamed(piece, everywhere, bare, qualified)
                piece = TOKEN.sub(lambda w: everywhere.get(w.group(0), w.group(0)), piece)
            else:
                piece = TOKEN.sub(lambda w: words.get(w.group(0), w.group(0)), piece)
            line = key.group(0) + piece
        lines.append(line)
    return "\n".join(lines)


def declared(path):
    names = set()
    if path.suffix == ".antt" and path.exists():
        for name, _, _, _ in definitions(path):
            names.add(name)
        for head in re.findall(rf"^\s*(?:pub )?(?:record|data|ruleset) ({NAME})", path.read_text(), re.MULTILINE):
            names.add(head)
    return names


def canonical(name):
    return snake(name).replace("-", "_").lower()


def page_text(text, words, dashed, scoped, known):
    """A page: what stands in backticks. A name after a file's path is one that the file declares (as it stands by now)."""
    everywhere = {**words, **{k: v for k, v in dashed.items() if k not in MIXED}}

    def one(found):
        body = found.group(1)
        path, colon, names = body.partition(":")
        if colon and path.startswith("crates/") and path.endswith(".antt"):
            path = path.strip()
            have = declared(TOP / path)
            module = module_of(TOP / path)

            def cited(word):
                name = word.group(0)
                new = scoped.get(module, {}).get(name) or everywhere.get(name, name)
                if new in have or name in have and name not in scoped.get(module, {}):
                    return new if new in have else name
                same = [n for n in have if canonical(n) == canonical(name)]
                return same[0] if len(same) == 1 else new
            return "`" + path + ":" + re.sub(NAME, cited, names) + "`"
        def word(found):
            name = found.group(0)
            if name in everywhere:
                return everywhere[name]
            return snake(name) if is_camel(name) and snake(name) in known else name
        body = re.sub(r"\b(refusal|letter|kind)\.([A-Z]\w*)", lambda q: f"{q.group(1)}.{constant(q.group(1), q.group(2), scoped)}", body)
        return "`" + TOKEN.sub(word, body) + "`"
    return re.sub(r"`([^`\n]+)`", one, text)


ALIASES = {"refusal": "Rattle.rules.specs.Refusals", "letter": "Rattle.text.specs.Letters", "kind": "Rattle.text.specs.Kinds"}


def constant(alias, name, scoped):
    return scoped.get(ALIASES[alias], {}).get(name, name)


def collisions(words, dashed, scoped):
    """Files where a new name stands already as a bare word beside the old one."""
    everywhere = {**words, **dashed}
    for path in antt_files() + sources("crates/*/src/**/*.rt"):
        text = path.read_text()
        is_antt = path.suffix == ".antt"
        bare, _ = scope(text, module_of(path) if is_antt else "", scoped)
        bare.update(own_aliases(path, text))
        if is_antt:
            code = "\n".join(code_of(line)[0] for line in text.split("\n"))
        else:
            code = "\n".join(text[a:b] for a, b in clauses(text))
            parameters = " ".join(re.findall(r"\bfn \w+(?:<[^>]*>)?\(([^)]*)\)", text))
            code += "\n" + " ".join(re.findall(r"(\w+):", parameters))
            code = re.sub(r"\b(ensures|requires) \w+ \{", r"\1 {", code)
        # a name behind a dot is a field, a module's or a function's; `name =` in a record is a label
        free = set()
        for found in TOKEN.finditer(code):
            if code[:found.start()].endswith(".") and not code[:found.start()].endswith("λ."):
                before = code[:found.start()]
                if not re.search(r"λ [^.()]*\.$", before):
                    continue
            free.add(found.group(0))
        new = collections.defaultdict(set)
        for old in free:
            to = bare.get(old) or everywhere.get(old)
            if to:
                new[to].add(old)
        for to, olds in sorted(new.items()):
            stays = to in free and to not in bare and to not in everywhere
            if stays or len(olds) > 1 or to in RESERVED:
                yield path.relative_to(TOP), sorted(olds), to


def main():
    skip = set()
    for at, argument in enumerate(sys.argv):
        if argument == "--skip":
            skip = set(sys.argv[at + 1].split(","))
    dry = "--dry" in sys.argv
    words, dashed, scoped, kinds = collect(skip)
    clash = list(collisions(words, dashed, scoped))
    for path, olds, to in clash:
        print(f"collision: {path}: {', '.join(olds)} -> {to}")
    rows = [("word", o, n) for o, n in words.items()] + [(kinds[o][:-1], o, n) for o, n in dashed.items()]
    rows += [(kinds[m, o][:-1], f"{m}.{o}", n) for m, names in scoped.items() for o, n in names.items()]
    for kind, old, new in sorted(rows):
        print(f"{kind:12} {old} -> {new}")
    print(f"respell: {len(words)} words, {len(dashed)} fields and functions, {sum(map(len, scoped.values()))} names of a module; {len(clash)} collisions")
    if clash:
        print("respell: nothing written; add a name to a table of this script, or run with --force")
    if dry or clash and "--force" not in sys.argv:
        return 1 if clash else 0
    changed = {}
    for path in sources("crates/*/must-fail/*.edit"):
        changed[path] = edit_text(path.read_text(), path, words, dashed, scoped)
    for path in antt_files():
        changed[path] = antt_text(path, path.read_text(), words, dashed, scoped)
    for path in sources("crates/*/src/**/*.rt"):
        changed[path] = rt_text(path.read_text(), words, dashed, scoped)
    count = write(changed)
    known = {w for p in antt_files() for w in TOKEN.findall(p.read_text())}
    pages = sources("docs/*.md", "README.md")
    count += write({p: page_text(p.read_text(), words, dashed, scoped, known) for p in pages})
    print(f"respell: {count} files written")
    return 0


def write(changed):
    count = 0
    for path, text in changed.items():
        if text != path.read_text():
            path.write_text(text)
            count += 1
    return count


if __name__ == "__main__":
    sys.exit(main())
