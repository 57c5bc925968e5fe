#!/usr/bin/env python3
"""Single edits of definitions and of code, each of which the prover has to refuse.

    python3 compare/edits.py definitions|code COUNT SEED
    python3 compare/edits.py every DIR [PART/PARTS]
    python3 compare/edits.py named [CRATE | CRATE/NAME ...]
    python3 compare/edits.py fits

In the first two forms an edit changes one numeral by one, one comparison, one truth value, one sign, one letter of a text or one number of a list of bytes.

The first form tries COUNT random ones, at most one at each place. Run it in a copy of the tree, since it edits files in place and
puts them back. The tree has to prove as it stands, else every edit would seem to be refused: `rt all check` is run first.
An edit is tried on its crate, and, where that still proves, on the crates above it in the order of crates.txt.

The second form tries every edit of every definition, a numeral both ways and a text letter by letter, against the laws and the
tables alone: it writes the tree without its functions and their proofs to DIR, which must be new, checks that, and edits it there. So it is told
whether a law or a table refuses an edit, whatever the code would say. PART/PARTS, as 1/2 and 2/2, tries a share of them, for several at a time.
The laws and theorems that stand in proofs/Laws and proofs/Theorems.antt are laws as well: an edit in must-fail/ breaks them.

The third form tries the edits that are written down as compare/edits/CRATE/NAME.edit, all of them or those of the crates and names given. Such a
file is written as those of crates/CRATE/must-fail/ are: a comment, then a `file:` of src/ or specs/ and pairs of `old:` and `new:` for it, once or
several times. Run it in a copy of the tree, too; `rt check` is run in their crates first. An edit is tried on its own crate alone.

The fourth form proves nothing: it only looks whether the `old:` texts of every such file, and of those in crates/*/must-fail/, stand exactly once in their files.

A row of a table is printed for each edit that is tried: the place or the name, the edit or its comment, and where it was refused with the first error. Refused
means that the check ended with status 1 and the prover's `logic=not-proved`; a random edit of code may be refused by the compiler as well, and its row
says so. Where it is refused only because a proof file names what the edit renames, its row says that, too: then it tells little of the promise. An edit that no crate refuses is called KEPT, one that does not fit its files or does not reach the prover UNFIT, a check
that ended otherwise NO VERDICT, and the status is then 1.
"""
import contextlib
import enum
import pathlib
import random
import re
import shutil
import subprocess
import sys

ROOT = pathlib.Path(__file__).resolve().parent.parent
NAMED = ROOT / "compare" / "edits"
# What stands apart from the definitions in specs/: laws, and what the checker evaluates.
APART = {"Laws", "Theorems", "Demands", "Tables", "LineTables", "Edges", "Pins", "Examples", "Lib", "Code"}
SWAPS = {"eqb": "ltb", "leb": "ltb", "ltb": "leb", "true": "false", "false": "true", "<": "<=", "<=": "<", "==": "!=",
         "!=": "==", "+": "-"}
IN_DEFINITIONS = re.compile(r'"(?P<text>[^"]*)"|(?<![\w₀-₉.])(?<!Type )(?P<number>\d+)(?![\w₀-₉])(?! =)|(?<![\w.-])(?P<word>eqb|leb|ltb|true|false)(?![\w-])')
IN_CODE = re.compile(r'"(?P<text>[^"]*)"|b\'(?P<byte>[^\\])\'|(?<![\w.])(?P<number>\d+)(?!\w)|(?<= )(?P<word><=|<|==|!=|\+|true|false)(?=[ ;,])')
# Where a word that an edit brings in comes from, so that the edit is refused for what it says and not for a name that is not in scope.
HOME = "Rattle.std.specs.Prelude"
# What the prover says of a text that it cannot read, as it says it of a definition's file.
UNREAD = re.compile(r"is not in scope|has no field|is no name|operand is missing|expected the end|cannot continue")
# What it says of a proof file that names a goal or a fact which an edit has renamed, as `returns-then-t-lt-START` where `<` became `<=`.
RENAMED = re.compile(r"\w+/proofs/.*(has no field|is not in scope|has no `|was not admitted)")


class End(enum.Enum):
    """How a check ends."""
    PROVED = enum.auto()
    NOT_PROVED = enum.auto()
    NOT_COMPILED = enum.auto()
    NO_VERDICT = enum.auto()


class Unfit(Exception):
    """Why a written edit does not fit the files that it names."""


def crates(root):
    """The crates in their order, with what each uses."""
    lines = (root / "crates.txt").read_text().splitlines()
    parts = [line.split("#")[0].split(":", 1) for line in lines]
    return {part[0].split()[0]: part[1].split() for part in parts if len(part) == 2}


def definition_lines(path):
    """The lines of a definition file that define something: no comment, no `use`, no precedence, no signature of a field."""
    for number, line in enumerate(path.read_text().splitlines()):
        code = line.split("--")[0]
        if not re.match(r"\s*(use|ghost|pub mod|unfolding|infix[lr]?)\b", code):
            yield number, code


def code_lines(path):
    """The lines of a file of code without its attributes, promises and comments."""
    for number, line in enumerate(path.read_text().splitlines()):
        code = line.split("//")[0]
        if not re.match(r"\s*((use|ghost|ensures|requires|mod|pub mod)\b|#)", code) and "fn " not in code and "struct " not in code:
            yield number, code


def candidates(root, kind):
    """Every place that may be edited, as (crate, file, line, match)."""
    found = []
    for crate in crates(root):
        base = root / "crates" / crate
        if not (base / "specs").is_dir():
            continue  # a program: what it prints is compared, it promises nothing
        if kind == "definitions":
            files = sorted(p for folder in ("specs", "specs/Code") for p in (base / folder).glob("*.antt") if p.stem not in APART)
            lines, pattern = definition_lines, IN_DEFINITIONS
        else:
            files, lines, pattern = sorted((base / "src").glob("*.rt")), code_lines, IN_CODE
        for path in files:
            for number, code in lines(path):
                for match in pattern.finditer(code):
                    found.append((crate, path, number, match))
    return found


def changes(match):
    """Every edit of a match."""
    part, value = match.lastgroup, match[match.lastgroup]
    if part == "number":
        return [str(n) for n in (int(value) + 1, int(value) - 1) if n >= 0]
    if part == "word":
        return [SWAPS[value]]
    if part == "byte":
        return [f"b'{chr(ord(value) + 1)}'"]
    letters = [i for i, c in enumerate(value) if c.isalnum() or c in " /."]
    return ['"' + value[:i] + ("X" if value[i] != "X" else "Y") + value[i + 1:] + '"' for i in letters]


def first_error(crate, lines):
    """The first error that a check printed: of a text that cannot be read, else of a table before that of a law, and that before that of a function's proof
    or a promise that is not proved; and only where there is no other, of a name that a proof file no longer finds."""
    told = [line.removeprefix("note: ") for line in lines if re.search(r":\d+:\d+: error|^note: src/\S+:\d+:\d+: it is not proved", line)]
    told = [line for line in told if "that depend on" not in line and "that depends on" not in line] or told
    errors = [re.sub(r"^(\./)?(?=(src|specs|proofs)/)", f"{crate}/", line) for line in told]
    unread = [error for error in errors if re.match(r"\w+/(src|specs)/", error) and UNREAD.search(re.sub(r"`[^`]*`", "", error))]
    evaluated = [error for error in errors if re.match(r"\w+/specs/(Tables|LineTables|Edges|Pins|Examples)\b", error)]
    stated = [error for error in errors if re.match(r"\w+/(specs|proofs/Laws|proofs/Theorems)\b", error)]
    others = [error for error in errors if not RENAMED.match(error)]
    return (unread or evaluated or stated or others or errors or lines[-1:] or ["no word"])[0]


def checked(root, crate):
    """How a check of the crate ends, with its first error; the compiler's stands in a file of code, and the prover then says nothing."""
    ran = subprocess.run(["rt", "check"], cwd=root / "crates" / crate, capture_output=True, text=True)
    lines = (ran.stdout + ran.stderr).splitlines()
    error = first_error(crate, lines)
    if ran.returncode == 0:
        return End.PROVED, ""
    if ran.returncode == 1 and re.match(r"\w+/(src|specs)/", error) and UNREAD.search(re.sub(r"`[^`]*`", "", error)):
        return End.NOT_COMPILED, error
    if ran.returncode == 1 and any(line.startswith("logic=not-proved") for line in lines):
        return End.NOT_PROVED, error
    if ran.returncode == 1 and re.match(r"\w+/src/\S+\.rt:\d+:\d+: error", error):
        return End.NOT_COMPILED, error
    return End.NO_VERDICT, f"status {ran.returncode}, {error}"


def judged(end, error, compiler_counts):
    """Whether an edit is refused by a check that ended so, and what its row says of it."""
    match end:
        case End.PROVED:
            return False, "KEPT"
        case End.NOT_PROVED if RENAMED.match(error):
            return True, f"only for a name in a proof file: {error}"
        case End.NOT_PROVED:
            return True, error
        case End.NOT_COMPILED if compiler_counts:
            return True, f"by the compiler: {error}"
        case End.NOT_COMPILED:
            return False, f"UNFIT: it does not reach the prover: {error}"
        case End.NO_VERDICT:
            return False, f"NO VERDICT: {error}"


def refusal(root, crate):
    """Where the edit fails and how: the crate itself, or one above it, which sees its definitions and, of code, its constants."""
    above = [name for name, uses in crates(root).items() if crate in uses]
    for name in [crate] + above:
        end, error = checked(root, name)
        if end is not End.PROVED:
            return name, end, error
    return "-", End.PROVED, ""


@contextlib.contextmanager
def rewritten(texts):
    """The tree with other texts of some files, which are put back at the end."""
    before = {path: path.read_text() for path in texts}
    try:
        for path, text in texts.items():
            path.write_text(text)
        yield
    finally:
        for path, text in before.items():
            path.write_text(text)


def in_scope(lines, word):
    """The lines of a definition file in which a word of the library is in scope."""
    brought = [n for n, line in enumerate(lines) if line.startswith("use ")]
    if any(re.search(rf"[{{,] ?{word}[,}}]", lines[n]) for n in brought):
        return lines
    home = next((n for n in brought if lines[n].startswith(f"use {HOME}.{{")), None)
    if home is None:
        at = brought[0] if brought else 1
        return [*lines[:at], f"use {HOME}.{{{word}}}", *lines[at:]]
    return [*lines[:home], lines[home].replace(f"use {HOME}.{{", f"use {HOME}.{{{word}, ", 1), *lines[home + 1:]]


def tried(root, crate, path, number, match, new):
    """Tries one edit, puts the file back and prints its row; whether it was refused."""
    lines = path.read_text().split("\n")
    line = lines[number]
    lines[number] = line[:match.start()] + new + line[match.end():]
    if new in SWAPS.values() and path.suffix == ".antt":
        lines = in_scope(lines, new)
    with rewritten({path: "\n".join(lines)}):
        name, end, error = refusal(root, crate)
    refused, said = judged(end, error, path.suffix == ".rt")
    where = f"{path.relative_to(root / 'crates')}:{number + 1}"
    print(f"| {where} | `{line.strip()[:70]}` | `{match[0]}` to `{new}` | {name} | {said[:160]} |".replace("\n", " "), flush=True)
    return refused


def must_prove(root, what, *names):
    """Stops where a tree, or the crates named, do not prove before any edit."""
    runs = [(["rt", "check"], root / "crates" / name) for name in names] or [(["rt", "all", "check"], root)]
    for words, place in runs:
        if subprocess.run(words, cwd=place, stdout=subprocess.DEVNULL).returncode != 0:
            sys.exit(f"{what} does not prove as it stands")


def at_random(kind, count, seed):
    """COUNT random edits at places that differ; whether all were refused."""
    rng = random.Random(seed)
    places = [place for place in candidates(ROOT, kind) if changes(place[3])]
    print(f"{len(places)} places", file=sys.stderr)
    must_prove(ROOT, "the tree")
    drawn = rng.sample(places, min(count, len(places)))
    return all([tried(ROOT, *place, rng.choice(changes(place[3]))) for place in drawn])


def without_functions(code):
    """A file of code with its types and constants alone."""
    kept, inside = [], False
    # A group of names is written on one line, so that its functions can be left out.
    code = re.sub(r"^use [^;]*;", lambda m: " ".join(m[0].split()), code, flags=re.M)
    for line in code.splitlines():
        if inside:
            inside = not line.startswith("}")
        elif re.match(r'(pub )?(extern "C" )?fn ', line):
            inside = True
        elif line.startswith("use "):
            kept += without_their_names(line)
        elif not re.match(r"#\[(unsafe\(no_mangle\)|tactic\b.*)\]|ghost use", line):
            kept.append(line)
    return "\n".join(kept) + "\n"


def without_their_names(line):
    """A `use` line without the functions that it brings, if anything is left of it: a module of constants and what is not all small letters stay."""
    path, _, last = line.removeprefix("use ").removesuffix(";").rpartition("::")
    if "{" in line:
        path, _, last = line.removeprefix("use ").removesuffix(";").partition("::{")
    names = [name.strip() for name in last.strip("{} ").split(",") if name.strip()]
    left = [name for name in names if name in ("description", "refusal") or not re.fullmatch(r"[a-z_0-9]+", name)]
    return [f"use {path}::{{{', '.join(left)}}};"] if left else []


def copy_laws(proofs, copy):
    """Copies the laws that stand in proofs/, which speak of definitions and of no function."""
    modules = [name for name in ("Laws", "Theorems") if (proofs / f"{name}.antt").is_file()]
    if modules:
        copy.mkdir(parents=True)
        (copy / "Lib.antt").write_text("".join(f"pub mod {name}\n" for name in modules))
    for name in modules:
        shutil.copy(proofs / f"{name}.antt", copy)
        if (proofs / name).is_dir():
            shutil.copytree(proofs / name, copy / name)


def bare_tree(root):
    """Writes the libraries without their functions and the proofs of these, to a directory that is not there yet."""
    if root.exists():
        sys.exit(f"{root} is there already")
    for crate in [name for name in crates(ROOT) if (ROOT / "crates" / name / "src/lib.rt").is_file()]:
        base = pathlib.Path("crates") / crate
        if (ROOT / base / "specs").is_dir():
            shutil.copytree(ROOT / base / "specs", root / base / "specs")
        copy_laws(ROOT / base / "proofs", root / base / "proofs")
        for path in (ROOT / base / "src").rglob("*.rt"):
            copy = root / path.relative_to(ROOT)
            copy.parent.mkdir(parents=True, exist_ok=True)
            copy.write_text(without_functions(path.read_text()))
    listed = [line for line in (ROOT / "crates.txt").read_text().splitlines() if (root / "crates" / (line.split(":")[0].split() or [""])[0]).is_dir()]
    (root / "crates.txt").write_text("\n".join(listed) + "\n")
    must_prove(root, "the tree of definitions, laws and tables alone")


def every(root, part, parts):
    """Every edit of every definition, or a share of them; whether all were refused."""
    bare_tree(root)
    edits = [(*place, new) for place in candidates(root, "definitions") for new in changes(place[3])]
    print(f"{len(edits)} edits", file=sys.stderr)
    return all([tried(root, *edit) for edit in edits[part - 1::parts]])


def named_edits():
    """The edits that are written down beside the gate, each with its crate."""
    return [(path.parent.name, path) for path in sorted(NAMED.glob("*/*.edit"))]


def gate_edits():
    """The edits that the gate tries, each with its crate."""
    return [(path.parents[1].name, path) for path in sorted(ROOT.glob("crates/*/must-fail/*.edit"))]


def file_of(crate, name):
    """The file of a crate that a `file:` line names."""
    path = ROOT / "crates" / crate / name
    if not name.startswith(("src/", "specs/")) or ".." in path.parts:
        raise Unfit(f"`{name}` is not under src/ or specs/")
    if not path.is_file():
        raise Unfit(f"{crate} has no file `{name}`")
    return path


def replaced(text, old, new, name):
    """A file's text with the old text of a pair, which has to stand in it once, made the new one."""
    times = text.count(old) if old else 0
    if times != 1:
        raise Unfit(f"`{old.strip()}` stands {times} times in {name}, not once")
    return text.replace(old, new)


def edited(crate, edit):
    """The texts of the files that a written edit changes; each pair is taken to what the pairs before it left."""
    texts, name, old = {}, "", ""
    for line in edit.read_text().split("\n"):
        if line.startswith("file: "):
            name = line.removeprefix("file: ")
        elif line.startswith("old: "):
            old = line.removeprefix("old: ")
        elif line.startswith("new:"):
            path = file_of(crate, name)
            new = line.removeprefix("new:").removeprefix(" ")
            texts[path] = replaced(texts.get(path, path.read_text()), old, new, name)
            old = ""
        elif line and not line.startswith("#"):
            raise Unfit(f"`{line.strip()}` belongs to no pair: an `old:` and a `new:` have one line each")
    if not texts:
        raise Unfit("it has no pair of `old:` and `new:`")
    return texts


def comment_of(edit):
    """What a written edit says of itself."""
    return " ".join(line.removeprefix("#").strip() for line in edit.read_text().split("\n") if line.startswith("#"))


def tried_named(crate, edit):
    """Tries one named edit on its crate, puts the files back and prints its row; whether the prover refused it."""
    try:
        with rewritten(edited(crate, edit)):
            refused, said = judged(*checked(ROOT, crate), False)
    except Unfit as why:
        refused, said = False, f"UNFIT: {why}"
    print(f"| {crate}/{edit.stem} | {comment_of(edit)} | {said[:160]} |", flush=True)
    return refused


def named(wanted):
    """The named edits, all or those of the crates and names wanted; whether there are some and all were refused."""
    edits = [(crate, edit) for crate, edit in named_edits() if not wanted or {crate, f"{crate}/{edit.stem}"} & set(wanted)]
    unknown = set(wanted) - {crate for crate, _ in edits} - {f"{crate}/{edit.stem}" for crate, edit in edits}
    if unknown:
        sys.exit(f"compare/edits/ has no {', '.join(sorted(unknown))}")
    must_prove(ROOT, "the tree", *sorted({crate for crate, _ in edits}))
    refused = sum([tried_named(*edit) for edit in edits])
    print(f"{len(edits)} named edits, {refused} refused")
    return refused == len(edits) > 0


def fits():
    """Tells every written edit that does not fit its files; whether all do."""
    edits = named_edits() + gate_edits()
    unfit = 0
    for crate, edit in edits:
        try:
            edited(crate, edit)
        except Unfit as why:
            unfit += 1
            print(f"{edit.relative_to(ROOT)}: {why}")
    print(f"{len(edits)} edits, {len(edits) - unfit} fit")
    return unfit == 0


def share_of(text):
    """PART and PARTS of a share."""
    said = re.fullmatch(r"(\d+)/(\d+)", text)
    part, parts = map(int, said.groups()) if said else (0, 0)
    if not 1 <= part <= parts:
        sys.exit(__doc__)
    return part, parts


def main():
    match sys.argv[1:]:
        case ["every", directory]:
            passed = every(pathlib.Path(directory), 1, 1)
        case ["every", directory, share]:
            passed = every(pathlib.Path(directory), *share_of(share))
        case ["definitions" | "code" as kind, count, seed] if count.isdecimal() and seed.isdecimal():
            passed = at_random(kind, int(count), int(seed))
        case ["named", *wanted]:
            passed = named(wanted)
        case ["fits"]:
            passed = fits()
        case _:
            sys.exit(__doc__)
    return 0 if passed else 1


if __name__ == "__main__":
    sys.exit(main())
