#!/usr/bin/env python3
"""Names in the documents are names of the repository.

Every path and every definition, statement, function or file that a document sets in backticks is there, and those that
docs/AUDIT.md lays beside the papers stand in the file that it names; every wrong program that it names is there, and
every one that is there is named, and so is every public call. Those that the gate doesn't try fit the text that they change. README.md's picture of the crates is that
of crates.txt, which lists what each names and no more. Prints what fails, then 'N passed, M failed'.
"""
import pathlib
import re
import subprocess
import sys

from counting import closing

TOP = pathlib.Path(__file__).resolve().parent.parent
DOCUMENTS = [
    "README.md", "docs/PROMISES.md", "docs/AUDIT.md", "docs/DECISIONS.md", "controller/README.md", "peer/README.md", "vectors/README.md",
    *sorted(str(page.relative_to(TOP)) for page in TOP.glob("docs/changes/*.md")),
]
WORD = re.compile(r"[\w\-◌']+")
NAME = re.compile(r"[A-Za-z_◌][\w\-◌']*(::[A-Za-z_]\w*)*\Z")
PATH = re.compile(r"[\w.*\-]*/[\w./*\-]+\Z")
EDIT = re.compile(r"`(\w+)`(\*?)")


def tracked():
    listed = subprocess.run(["git", "ls-files", "-co", "--exclude-standard"], cwd=TOP, capture_output=True, text=True, check=True)
    return [path for path in listed.stdout.splitlines() if (TOP / path).is_file()]


def words():
    """Every word of the repository that isn't a document's."""
    found = set()
    for path in tracked():
        if not path.endswith(".md"):
            found.update(WORD.findall(path), WORD.findall((TOP / path).read_text(encoding="utf-8", errors="replace")))
    return found


def is_there(name, folder, known):
    if PATH.match(name):
        places = [folder, TOP, *TOP.glob("crates/*")]
        return "target/" in name or any(any(place.glob(name.removeprefix("./").rstrip("/"))) for place in places)
    return all(part in known for part in name.split("::"))


def names(known):
    """A name and whether it is there, for each in backticks."""
    for document in DOCUMENTS:
        path = TOP / document
        for name in sorted(set(re.findall(r"`([^`\n]+)`", path.read_text(encoding="utf-8")))):
            if NAME.match(name) or PATH.match(name):
                yield f"{document}: `{name}`", is_there(name, path.parent, known)


def definitions():
    """A definition of the table "Beside the papers" and whether it stands in the file that its row names."""
    table = (TOP / "docs/AUDIT.md").read_text(encoding="utf-8").split("## Beside the papers", 1)[1].split("\n## ", 1)[0]
    folders = dict((letter, folder) for folder, letter in re.findall(r"`(crates/\w+/specs)/` \((\w)\)", table))
    for row in re.findall(r"^\|.*\| (.*) \| (\w \w+(?:, \w \w+)*) \|$", table, re.M):
        files = [f"{folders[place[0]]}/{place[2:]}.antt" for place in row[1].split(", ")]
        text = "".join((TOP / file).read_text(encoding="utf-8") for file in files)
        for name in re.findall(r"`([^`]+)`", row[0]):
            yield f"`{name}` is defined in {row[1]}", re.search(rf"\bpub (record |data )?{re.escape(name)}[ :]", text)


def edits():
    """The wrong programs of the tables of docs/AUDIT.md beside the files."""
    text = (TOP / "docs/AUDIT.md").read_text(encoding="utf-8")
    tables = text.split("All of them, by the call", 1)[1].split("\n## ", 1)[0]
    cells = [row.split("|", 2)[2] for row in tables.splitlines() if row.startswith("| ")]
    told = {(name, star == "*") for cell in cells for name, star in EDIT.findall(cell)}
    there = {(path.stem, False) for path in TOP.glob("crates/*/must-fail/*.edit")}
    there |= {(path.stem, True) for path in TOP.glob("tests/wrong/*/*.edit")}
    for name, star in sorted(told | there):
        where = "tests/wrong" if star else "crates/*/must-fail"
        yield f"wrong program {name}: in docs/AUDIT.md and in {where}", (name, star) in told and (name, star) in there


def fits(edit):
    """Whether what an edit replaces stands in its file, once."""
    text = ""
    for line in edit.read_text(encoding="utf-8").splitlines():
        if line.startswith("file: "):
            text = (TOP / "crates" / edit.parent.name / line[6:]).read_text(encoding="utf-8")
        elif line.startswith("old: "):
            old = line[5:]
            if text.count(old) != 1:
                return False
        elif line.startswith("new: "):
            text = text.replace(old, line[5:])
    return text != ""


def untried():
    """The wrong programs of tests/wrong beside the crates."""
    for edit in sorted(TOP.glob("tests/wrong/*/*.edit")):
        yield f"{edit.relative_to(TOP)} fits crate {edit.parent.name}", fits(edit)


def calls():
    """Every public function of a crate, and whether docs/AUDIT.md names it."""
    text = (TOP / "docs/AUDIT.md").read_text(encoding="utf-8")
    for file in sorted(TOP.glob("crates/*/src/**/*.rt")):
        for name in re.findall(r"^ *pub (?:extern \"C\" )?fn (\w+)", file.read_text(encoding="utf-8"), re.M):
            yield f"docs/AUDIT.md: the call {name} of {file.relative_to(TOP)}", re.search(rf"`(?:\w+::)*{name}[`(]", text)


def listed():
    """The areas of crates.txt in its order, each with its crates, and what each crate is listed with."""
    areas, uses = {}, {}
    for line in (TOP / "crates.txt").read_text(encoding="utf-8").split("\n\n", 1)[1].splitlines():
        if line.startswith("# "):
            areas[line[2:]] = []
        elif line:
            name, names = line.split(":")
            # a static library has that word after its name
            name = name.split()[0]
            areas[list(areas)[-1]].append(name)
            uses[name] = names.split()
    return areas, uses


def direct(names, uses):
    """Those of the names that none of the others uses, itself or by way of another."""
    def below(name):
        return {lower for use in uses.get(name, ()) for lower in {use} | below(use)}
    return [name for name in names if not any(name in below(other) for other in names)]


def named(crate, other):
    """Whether a crate's code, definitions or proofs name another crate."""
    files = [file for part in ("src", "specs", "proofs") for file in (TOP / "crates" / crate / part).rglob("*") if file.suffix in (".rt", ".antt")]
    text = "\n".join(re.sub(r"(^|\s)(--|//).*", "", file.read_text(encoding="utf-8")) for file in files)
    return re.search(rf"(?<!\w)Rattle\.{other}\.|(?<!\w){other}::", text)


def crates():
    """README.md's areas and crates beside crates.txt, and this beside what each crate names."""
    areas, uses = listed()
    page = (TOP / "README.md").read_text(encoding="utf-8").split("\n## Crates\n", 1)[1]
    rows = re.findall(r"^\| (?:\*\*(.*)\*\*|`(\w+)`) \| (.*?) ?\|", page, re.M)
    told = [(area or crate, *re.findall(r"`(\w+)`", names)) for area, crate, names in rows]
    wanted = [row for area in areas for row in [(area,), *((name, *direct(uses[name], uses)) for name in areas[area])]]
    yield "README.md: the table of crates is that of crates.txt", told == wanted
    home = {name: area for area in areas for name in areas[area]}
    above = {area: {home[use] for name in areas[area] for use in uses[name] if use in home} - {area} for area in areas}
    lines = re.findall(r"^    (\w[\w, ]*?)(?: ─+ (.*))?$", page, re.M)
    drawn = {area: set(filter(None, behind.split("; "))) for area, behind in lines}
    yield "README.md: the picture of the areas is that of crates.txt", drawn == {area: set(direct(sorted(above[area]), above)) for area in areas}
    order = list(uses)
    for name in order:
        yield f"crates.txt: {name} uses crates above it", all(use not in order[order.index(name):] for use in uses[name])
        for use in uses[name]:
            yield f"crates.txt: {name} names {use}", named(name, use)


if __name__ == "__main__":
    sys.exit(not closing([*names(words()), *definitions(), *edits(), *untried(), *calls(), *crates()]))
