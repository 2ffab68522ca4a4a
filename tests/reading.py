#!/usr/bin/env python3
"""Sees that docs/READING.md and docs/READING_TODAY.md list just the definitions that the headline rests on,
docs/READING_FIND.md and docs/READING_FIND_TODAY.md those that *nowhere means nowhere* does, docs/READING_TRANSCRIPT.md
those that a transcript does, and docs/READING_STATE.md those that the laws of the state text and of cuts do.

    tests/reading.py [--write]

The lists are computed: every name that a clause of `Session::seek` cites, every name that those definitions cite, and
so on, by the `use` lines of the specs/ folders; for the terminal of today, what the ghost members cite by which it
plays, for find its clause `nowhere`, for a transcript its clauses with the rows that leave and stand, and for the
state text its laws, with those of cuts and the texts that stand in their place, each without what the lists have that
it builds on. A record, a data type and its constructors count as one; so does a type of the code that the definitions
speak of. With --write a page gets its lists anew, a row for each file with the names that it has: the headings and
their order stay, names that went are dropped, new ones stand behind the definition that stands before them in their
file, and one that moved to another file keeps its place.
"""
import glob
import itertools
import os
import re
import sys
import textwrap

TOP = os.path.join(os.path.dirname(os.path.abspath(__file__)), "..")
PAGE = "docs/READING.md"
TODAY = "docs/READING_TODAY.md"
FIND = "docs/READING_FIND.md"
FIND_TODAY = "docs/READING_FIND_TODAY.md"
TRANSCRIPT = "docs/READING_TRANSCRIPT.md"
STATE = "docs/READING_STATE.md"
STATE_CRATES = ("screen_state", "xterm_state")
STATE_TEXTS = ("screen_state/src/vt_state", "xterm_state/src/today_state")
NAME = r"[^\W\d]\w*(?:\.\w+)*"
USE = re.compile(r"^\s*(?:ghost )?use (Rattle\.[\w.]+?)(?:\.\{([^}]*)\}| as (\w+))?;?$", re.M)
HEAD = re.compile(r"^(?:abbrev |unfoldable )?pub (?:record |data )?(\w+)", re.M)


def read(path):
    with open(os.path.join(TOP, path), encoding="utf-8") as file:
        return file.read()


def files(pattern):
    return sorted(os.path.relpath(path, TOP) for path in glob.glob(os.path.join(TOP, pattern), recursive=True))


class Definition:
    """A definition of specs/, or a type of the code that definitions speak of."""

    def __init__(self, name, place, text):
        self.name, self.place, self.text = name, place, text


def imports(text):
    """Each name that the use lines bring, with the module that has it, and each other name of a module."""
    names, modules = {}, {}
    for path, listed, alias in USE.findall(text):
        for piece in filter(None, (piece.strip() for piece in (listed or "").split(","))):
            name, _, other = piece.partition(" as ")
            names[other or name] = (path, name)
        if alias:
            modules[alias] = path
    return names, modules


def blocks(path):
    """The definitions of a file of specs/, in order."""
    lines, found = [], []
    for line in read(path).split("\n") + ["pub end"]:
        head = HEAD.match(line)
        starts = head and not line.startswith("pub mod ")
        if lines and (starts or re.match(r"(--|use |infixl |$)", line)):
            found.append(Definition(HEAD.match(lines[0])[1], path, "\n".join(lines)))
            lines = []
        if starts:
            lines = [line]
        elif lines and not line.startswith("--"):
            lines.append(line)
    return found


def code_type(crate, name):
    """A type or trait of the code: its fields, variants or ghost members."""
    for path in files(f"crates/{crate}/src/**/*.rt"):
        text = read(path)
        found = re.search(rf"^(?:pub )?(struct|enum|trait) {name}\b[^{{;]*[{{;](.*?)^\}}", text, re.M | re.S)
        if found:
            body = re.sub(r"//.*", "", found[2])
            members = "\n".join(re.findall(r"^    ghost \w+: .*;$", body, re.M))
            return Definition(name, path, members if found[1] == "trait" else body)
    sys.exit(f"no type {name} in crates/{crate}/src")


class Book:
    """All definitions, found by their modules."""

    def __init__(self):
        self.modules, self.order, self.seen = {}, {}, {}

    def module(self, path):
        """The definitions of specs/PATH of a crate, by name; constructors give their data type."""
        if path not in self.modules:
            _, crate, _, *rest = path.split(".")
            file = f"crates/{crate}/specs/{'/'.join(rest)}.antt"
            known = blocks(file) if os.path.exists(os.path.join(TOP, file)) else []
            self.modules[path] = {definition.name: definition for definition in known}
            self.order[file] = [definition.name for definition in known]
            for definition in known:
                if definition.text.startswith("pub data "):
                    for names in re.findall(r"^  ([\w ]+) :", definition.text, re.M):
                        for name in names.split():
                            self.modules[path].setdefault(name, definition)
        return self.modules[path]

    def find(self, path, name):
        """The definition that a module has under a name, or None where it is none of the repository's."""
        parts = path.split(".")
        if len(parts) < 4 or parts[2] != "specs" or not os.path.isdir(os.path.join(TOP, "crates", parts[1])):
            return None
        if parts[3] == "declared":
            owner = parts[-2] if parts[-1] == "TheVariants" else parts[-1]
            if (parts[1], owner) not in self.seen:
                self.seen[parts[1], owner] = code_type(parts[1], owner)
            return self.seen[parts[1], owner]
        return self.module(path).get(name)

    def cited(self, definition):
        """The definitions that one cites."""
        text = read(definition.place)
        if definition.place.endswith(".rt"):
            return self.types_in(definition, text)
        names, modules = imports(text)
        own = f"Rattle.{definition.place.split('/')[1]}.specs." + definition.place.split("/specs/")[1][:-5].replace(
            "/", "."
        )
        found = []
        for clause in clauses(definition):
            for word in free_names(clause):
                head, _, rest = word.partition(".")
                if head in modules:
                    found.append(self.find(modules[head], rest.split(".")[0]))
                elif head in names:
                    found.append(self.find(*names[head]))
                else:
                    found.append(self.module(own).get(head))
        return [one for one in found if one and one is not definition]

    def types_in(self, definition, text):
        """The types of the fields of one in the code: as contracts see them."""
        crate, found = definition.place.split("/")[1], []
        for name in set(re.findall(r"\b[A-Z]\w+", definition.text)) - {"Vec", "Option", "Some", "None", "Box"}:
            outside = re.search(rf"^use (\w+)::\{{?[^;]*\b{name}\b", text, re.M)
            home = outside[1] if outside and outside[1] not in ("crate", "super", "std") else crate
            for path in files(f"crates/{home}/src/**/*.rt"):
                source = read(path)
                if not re.search(rf"^pub (?:struct|enum) {name}\b", source, re.M):
                    continue
                model = re.search(rf"^impl Model for {name} \{{.*?ghost Value = \{{ (.*?) \}};", source, re.M | re.S)
                if model and model[1] in imports(source)[0]:
                    found.append(self.find(*imports(source)[0][model[1]]))
                elif not model:
                    found.append(self.find(f"Rattle.{home}.specs.declared.{name}", name))
        return [one for one in found if one]


def clauses(definition):
    """A definition cut into its equations; a record or a data type is one, and its fields are no names."""
    text = re.sub(r"--.*", "", definition.text)
    if text.startswith(("pub record", "pub data")):
        return [re.sub(r"^  (?:pub )?[\w ]+ :", "", text, flags=re.M).replace(f" {definition.name} ", " ", 1)]
    head, *rest = re.split(rf"^(?={definition.name}\b)", text, flags=re.M)
    return [head.split(":", 1)[1] if ":" in head else "", *rest]


def free_names(clause):
    """The names of an equation that it doesn't bind itself. Constructors in its patterns count."""
    left, equals, right = (
        re.match(r"(\w[^=\n]*?)?( = |=\n)?(.*)", clause, re.S).groups() if "=" in clause else ("", "", clause)
    )
    bound = {name for name in re.findall(NAME, left or "") if name[0].islower()} if equals else set()
    body = right if equals else clause
    bound |= {name for names in re.findall(r"λ ([^.]*)\.", body) for name in names.split()}
    bound |= set(re.findall(r"\blet (\w+) =", body))
    bound |= {name for names in re.findall(r"[({]((?:\w+ )+): ", body) for name in names.split()}
    fields = set(re.findall(r"[{;]\s*(\w+) = ", body))
    names = re.findall(NAME, body) + [name for name in re.findall(NAME, left or "") if name[0].isupper()]
    body_alone = {name for name in re.findall(r"(?<![{;] )(?<!\w)(\w+)(?! = )\b", body)}
    return [name for name in names if name.split(".")[0] not in bound and (name not in fields or name in body_alone)]


def contract_of_seek():
    """The file of `seek`, and the clauses of its contract with what the contracts see of a session."""
    for path in files("crates/tape_seek/src/**/*.rt"):
        text = read(path)
        found = re.search(r"^    pub fn seek\(.*?^    \{", text, re.M | re.S)
        if found:
            values = re.findall(r"ghost Value = \{ (\w+)[^}]* \};", text)
            return path, text, re.sub(r"//.*", "", found[0]) + " " + " ".join(values)
    sys.exit("no function seek in crates/tape_seek")


def members_of_today():
    """The file in which the terminal of today plays, and its ghost members."""
    path = "crates/xterm_term/src/playing.rt"
    text = read(path)
    return path, text, " ".join(re.findall(r"^    ghost \w+ = \{.*?\};", text, re.M | re.S))


def clause_of_find(path):
    """The file of a `find`, and its clause that nowhere means nowhere."""
    text = read(path)
    return path, text, re.search(r"^pub fn find<.*?^    ensures nowhere (\{.*?\})\n", text, re.M | re.S)[1]


def contract_of_transcript():
    """The file of `transcript`, and its contract."""
    path = "crates/transcripts/src/print.rt"
    text = read(path)
    return path, text, re.search(r"^pub fn transcript<.*?^\{", text, re.M | re.S)[0]


def rows_told(path):
    """The file in which a terminal tells its rows, and which leave and stand."""
    text = read(path)
    return path, text, " ".join(re.findall(r"^    ghost (?:leaving|standing) = \{.*?\};", text, re.M | re.S))


def laws_of(crate):
    """The file of a crate's laws, and what they say."""
    path = f"crates/{crate}/src/laws.rt"
    text = read(path)
    return path, text, " ".join(re.findall(r"^    ensures (?:\w+ )?\{.*?\}$", text, re.M | re.S))


def text_for_cuts(file):
    """The file that has a terminal's state text for cuts, and which text that is."""
    path = f"crates/{file}.rt"
    text = read(path)
    return path, text, re.search(r"^    ghost text = \{.*?\};", text, re.M | re.S)[0]


def rests_on(*contracts):
    """The definitions that contracts cite, and those that they cite, each once."""
    book = Book()
    found, waiting = {}, []
    for _, text, clause in contracts:
        names, _ = imports(text)
        waiting += [book.find(*names[word]) for word in re.findall(r"\w+", clause) if word in names]
    while waiting:
        one = waiting.pop()
        if one and (one.name, one.place) not in found:
            found[one.name, one.place] = one
            waiting += book.cited(one)
    return found, book


LIST = re.compile(r"^- \[`[\w/.]+`\]\(\.\./(crates/[\w/.]+)\): (.*)$")


def entries_of(page):
    """The page as a list: a line as it stands, or the key of a name, whose place is that of its file."""
    found = []
    for line in page.replace("\n  `", " `").split("\n"):
        row = LIST.match(line)
        found += [(name, row[1]) for name in re.findall(r"\w+", row[2])] if row else [line]
    return found


def crate_of(place):
    return place.split("/")[1]


def place_of_new(key, entries, order):
    """Where a row that the page lacks comes in: behind the nearest one before it in its file, or else at the end."""
    name, place = key
    names = order.get(place, [name])
    before = names[: names.index(name)] if name in names else []
    rows = {entry: at for at, entry in enumerate(entries) if isinstance(entry, tuple)}
    for other in reversed(before):
        if (other, place) in rows:
            return rows[other, place] + 1
    same = [at for (_, where), at in rows.items() if where == place]
    return min(same) if same else (max(rows.values(), default=len(entries) - 1) + 1)


def listed(place, names):
    """A file, by its crate and folder, with the names of its definitions."""
    crate, _, rest = place.removeprefix("crates/").partition("/")
    text = f"- [`{crate}/{rest.removesuffix('.antt')}`](../{place}): " + ", ".join(f"`{name}`" for name in names)
    return textwrap.wrap(text, 120, subsequent_indent="  ", break_long_words=False, break_on_hyphens=False)


def laid_out(entries):
    """The text of a page: neighbours of one file make one row."""
    lines = []
    for place, group in itertools.groupby(entries, lambda entry: entry[1] if isinstance(entry, tuple) else None):
        lines += listed(place, [name for name, _ in group]) if place else group
    return "\n".join(lines)


def written(page, found, book):
    """The page with the names of these definitions."""
    there = entries_of(page)
    known = {entry for entry in there if isinstance(entry, tuple)}
    moved = {(name, crate_of(place)): (name, place) for name, place in found.keys() - known}
    entries = []
    for entry in there:
        if isinstance(entry, tuple) and entry not in found:
            entry = moved.get((entry[0], crate_of(entry[1])))
        entries += [] if entry is None else [entry]
    missing = found.keys() - {entry for entry in entries if isinstance(entry, tuple)}
    rank = {(name, place): at for place, names in book.order.items() for at, name in enumerate(names)}
    for key in sorted(missing, key=lambda key: (key[1], rank.get(key, -1))):
        entries.insert(place_of_new(key, entries, book.order), key)
    count = f"**{len(found)} definitions**"
    return re.sub(r"\*\*\d+ definitions\*\*", count, laid_out(entries))


def pages():
    """Each page as it is, with the definitions of its list, and as it has to be."""
    found, book = rests_on(contract_of_seek())
    yield PAGE, found, book
    today, book = rests_on(members_of_today())
    yield TODAY, {key: one for key, one in today.items() if key not in found}, book
    more, book = rests_on(clause_of_find("crates/screen_print/src/each_byte.rt"))
    yield FIND, {key: one for key, one in more.items() if key not in found}, book
    more, book = rests_on(clause_of_find("crates/xterm_print/src/find_lines.rt"))
    yield FIND_TODAY, {key: one for key, one in more.items() if key not in found and key not in today}, book
    rows = (rows_told(f"crates/{crate}/src/transcribes.rt") for crate in ("screen_transcript", "xterm_transcript"))
    more, book = rests_on(contract_of_transcript(), *rows)
    yield TRANSCRIPT, {key: one for key, one in more.items() if key not in found and key not in today}, book
    more, book = rests_on(*map(laws_of, [*STATE_CRATES, "tape_cut"]), *map(text_for_cuts, STATE_TEXTS))
    yield STATE, {key: one for key, one in more.items() if key not in found and key not in today}, book


def main():
    passed, failed = 0, 0
    for path, found, book in pages():
        page = read(path)
        wanted = written(page, found, book)
        if sys.argv[1:] == ["--write"]:
            with open(os.path.join(TOP, path), "w", encoding="utf-8") as file:
                file.write(wanted)
        elif page == wanted:
            passed += len(found)
        else:
            old, new = set(page.split("\n")), set(wanted.split("\n"))
            for line in sorted(old - new):
                print(f"FAILED {path} has: {line[:150]}")
            for line in sorted(new - old):
                print(f"FAILED {path} lacks: {line[:150]}")
            failed += 1
    if failed:
        print("tests/reading.py --write brings the pages in step")
    if not sys.argv[1:]:
        print(f"reading: {passed} definitions passed, {failed} pages failed")
    return failed > 0


if __name__ == "__main__":
    sys.exit(main())
