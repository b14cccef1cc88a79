"""What the gate's scripts read of the tree: public functions with contract and body, must-fail edits and mutants, and what a check says of
an edit.

An edit's first line says what it is of and what would be wrong:

    # FUNCTION, result: ..           breaks what the function hands back, in the function's own body
    # FUNCTION, buffer NAME: ..      breaks what the lent buffer NAME holds afterwards, in the function's own body
    # FUNCTION: ..                   of the function, in whatever it calls or is stated by
    # DEFINITION: ..                 of something else

Further comment lines: `# stand-in: ..` and `# looks right: ..` name the item of document 01 that the edit stands for, and
`# fails at: PLACE [NAME]` the false fact, for such edits: a file or folder below the crate, and the declaration there.
"""
import contextlib
import pathlib
import re
import shutil
import subprocess
import sys

sys.dont_write_bytecode = True
ROOT = pathlib.Path(__file__).resolve().parent.parent


def text(path):
    return path.read_text(encoding="utf-8") if path.exists() else ""


def without_comments(source):
    """Every character stays at its place."""
    return re.sub(r"//[^\n]*", lambda comment: " " * len(comment.group()), source)


def flat(words):
    return " ".join(words.split())


class Function:
    """A public function: its parameters as (name, type), its result's type, what stands between its head and its body, its body, and
    where in the file that stands; and its first line and its last."""

    def __init__(self, crate, path, name, exported, head, text, body, lines):
        self.crate, self.path, self.name, self.exported = crate, path, name, exported
        self.text, self.body, self.lines = text, body, lines
        given, _, rest = head[1:].partition(")")
        self.parameters = []
        for part in filter(None, map(flat, given.split(","))):
            word, _, kind = part.removeprefix("mut ").partition(": ")
            lent, own = re.fullmatch(r"(&?(?:mut )?)(self)", word).groups() if not kind else ("", word)
            self.parameters.append((own, kind or f"{lent}Self"))
        self.result = flat(re.match(r"(?: *-> ([^\n]*))?", rest).group(1) or "()")
        self.requires = re.search(r"\brequires\b", rest) is not None
        ensures = re.search(r"\bensures \{(.*)\}\s*$", rest, re.S)
        self.ensures = flat(ensures.group(1)) if ensures and len(re.findall(r"\bensures\b", rest)) == 1 else None

    @property
    def lent(self):
        return [name for name, kind in self.parameters if kind.startswith("&mut ")]

    @property
    def own_type(self):
        return self.name.split("::")[0]


HEAD = re.compile(r'^( *)((?:#\[unsafe\(no_mangle\)\]\s+)?)pub (?:extern "C" )?fn (\w+)(\(.*?)^\1\{\n(.*?)^\1\}', re.M | re.S)


def handed_on(root):
    """(module, item) of each `pub use` of a crate's root."""
    for module, items in re.findall(r"^pub use ([\w:]+)::(\{[^}]*\}|\w+|\*);", root, re.M):
        for item in re.findall(r"\w+|\*", items):
            yield module.removeprefix("crate::"), item


OF_TRAIT = re.compile(r"^impl ([\w:]+)[^\n{]* for (\w+)[^\n{]*\{\n.*?^\}", re.M | re.S)
METHOD = re.compile(r"^( +)fn (\w+)(\(.*?)^\1\{\n(.*?)^\1\}", re.M | re.S)


def methods_of_traits(crate, sources, types):
    """Each method that a type which can be reached has by a trait that can be reached: by one of std, or by a public one of the crate."""
    hidden = {name for source in sources.values() for name in re.findall(r"^(?:pub\(crate\) )?trait (\w+)", source, re.M)}
    bare = {name for source in sources.values() for name in re.findall(r"^pub struct (\w+);", source, re.M)}
    for path, source in sources.items():
        for found in OF_TRAIT.finditer(source):
            trait, of = found.groups()
            if of not in types or trait.split("::")[-1] in hidden:
                continue
            heads = list(METHOD.finditer(source, *found.span()))
            if len(re.findall(r"\bfn ", found.group())) != len(heads):
                raise SystemExit(f"{path}: not every method of {trait} for {of} can be read")
            for head in heads:
                given = head.group(3)
                if of in bare:
                    # (a value without fields is left as it was)
                    given = re.sub(r"^\(&mut self\b", "(self", given)
                lines = tuple(1 + source.count("\n", 0, at) for at in head.span())
                yield Function(crate, path, f"{of}::{head.group(2)}", False, given, head.group(4), head.span(4), lines)


def functions(crate):
    """Each public function of a crate that another crate or another language can reach. A method counts where its type can be reached, one
    of a trait where the trait can be reached too."""
    root = without_comments(text(crate / "src" / "lib.rt"))
    handed = set(handed_on(root))
    types = set(re.findall(r"^pub (?:struct|enum) (\w+)", root, re.M)) | {item for _, item in handed}
    sources = {path: without_comments(text(path)) for path in sorted((crate / "src").rglob("*.rt"))}
    opened = {"lib"} | set(re.findall(r"^pub mod (\w+);", root, re.M))
    for path, source in sources.items():
        if path.stem in opened:
            types |= set(re.findall(r"^pub (?:struct|enum) (\w+)", source, re.M))
    for path, source in sources.items():
        methods = [(found.group(1), *found.span()) for found in re.finditer(r"^impl (\w+) \{\n.*?^\}", source, re.M | re.S)]
        found = list(HEAD.finditer(source))
        heads = len(re.findall(r'\bpub (?:[\w" ]+ )?fn ', source))
        if heads != len(found):
            raise SystemExit(f"{path}: {heads} public functions, of which {len(found)} can be read")
        for head in found:
            name, exported = head.group(3), "extern" in head.group(0).split("fn", 1)[0]
            of = next((kind for kind, begin, end in methods if begin < head.start() < end), None)
            if exported or (of in types if of else path.stem in opened or (path.stem, name) in handed):
                lines = tuple(1 + source.count("\n", 0, at) for at in head.span())
                yield Function(crate, path, f"{of}::{name}" if of else name, exported, head.group(4), head.group(5), head.span(5), lines)
    yield from methods_of_traits(crate, sources, types)


def static_libraries(root):
    """The crates that crates.txt builds for C, and on which no crate can stand."""
    return set(re.findall(r"^(\w+)(?: [\w=]+)* staticlib\b", text(root / "crates.txt"), re.M))


NUMBERS = {"u8", "u16", "u32", "u64", "usize"}


def type_of(kind, own):
    """How a specification writes a type of the code."""
    kind = kind.removeprefix("&").removeprefix("mut ")
    if kind == "bool":
        return "Bool"
    if kind in NUMBERS:
        return "ℕ"
    if kind == "str":
        return "List ℕ"
    listed = re.fullmatch(r"\[(.*?)(?:; \w+)?\]", kind)
    if listed:
        of = type_of(listed.group(1), own)
        return f"List {of}" if " " not in of else f"List ({of})"
    return own if kind == "Self" else kind.split("::")[-1]


def imports(source):
    """Where each name that a file uses comes from."""
    return {
        name: module
        for module, names in re.findall(r"^(?:ghost )?use ([^\s;{]+)\.\{([^}]*)\}", source, re.M)
        for name in (word.strip().split(" as ")[-1] for word in names.split(","))
        if name
    }


def put(words, old, new):
    """The text with a word, or a word and its field, replaced by another."""
    return re.sub(rf"(?<![^\s(){{}}]){re.escape(old)}(?![^\s(){{}}])", new, words)


def contract(function):
    """The contract's text in plain words: what is read is its name, a lent buffer as it was is its name, and as it is left its name with
    a dash."""
    words = function.ensures
    for name, kind in function.parameters:
        moments = {"old": name, "new": f"{name}'"} if kind.startswith("&mut ") else {"now": name} if kind.startswith("&") else {}
        for moment, plain in moments.items():
            words = put(words, f"{name}.{moment}", plain)
    return words


def other_call(function, callee):
    """Why an exported function is not the call of that name and with its contract, or None. `callee` is the public function of that name in
    the crate that its body names, or None."""
    called = re.fullmatch(r"\s*(\w+)::(\w+)\(([^()]*)\)\s*", function.text)
    names = [name for name, _ in function.parameters]
    if not called or called.group(2) != function.name or called.group(3).split(", ") != names:
        return "is more or something else than the call of its name, with what it is given"
    if not callee:
        return f"calls what is no public function of {called.group(1)}"
    for what in ("parameters", "result", "requires", "ensures"):
        own, other = getattr(function, what), getattr(callee, what)
        if own != other:
            return f"has the {what} `{own}`, and {callee.crate.name}::{callee.name} has `{other}`"
    here, there = (imports(without_comments(text(one.path))) for one in (function, callee))
    for word in set(re.findall(r"[^\s()]+", function.ensures)):
        for name in {word, word.split(".")[0], f"◌{word}◌"} & (set(here) | set(there)):
            if here.get(name) != there.get(name):
                return f"has `{name}` from {here.get(name)}, and {callee.crate.name}::{callee.name} from {there.get(name)}"
    return None


def plain(function, bound, words):
    """A theorem's text about the outcome `bound`, in the words of `contract`."""
    for field, name in zip(["result", "buffer", "second"], ["result", *(f"{name}'" for name in function.lent)]):
        words = put(words, f"{bound}.{field}", name)
    return words


def theorem(function, source):
    """Why the theorem of one outcome in a file is not about the function's contract, or None. It has the contract letter by letter,
    over the function's own parameters:

        (PARAMETERS) → One (λ r. CONTRACT)
        (PARAMETERS) → One (λ (o : Lent RESULT). CONTRACT)                with a lent buffer, and with two of them `LentTwo`
        (PARAMETERS) (o p : Lent RESULT) → CONTRACT → CONTRACT → o ≡ p     one at most

    where r and `o.result` stand for `result`, and `o.buffer`, `o.second` for the buffers as they are left."""
    stated = re.search(rf"^-- `{re.escape(function.name)}`[^\n]*\n(?:pub )?([\w']*one_outcome) :(.*?)\n(?=\S)", source, re.M | re.S)
    if not stated:
        return "has no one-outcome theorem"
    said, wanted = flat(stated.group(2)), contract(function)
    result = type_of(function.result, function.own_type)
    lent = f"{'LentTwo' if len(function.lent) == 2 else 'Lent'} {f'({result})' if ' ' in result else result}"
    given = [(name, type_of(kind, function.own_type)) for name, kind in function.parameters]
    parts = re.match(r"((?:\([^():]* : (?:[^()]|\([^()]*\))*\) ?)*)(?:→ )?(.*)$", said)
    groups = re.findall(r"\(([^():]*) : ((?:[^()]|\([^()]*\))*)\)", parts.group(1))
    telescope = [(name, flat(kind)) for names, kind in groups for name in names.split()]
    over = re.fullmatch(r"One \(λ (.*?)\. (.*)\)", parts.group(2))
    if over:
        bound = f"(o : {lent})" if function.lent else "r"
        if over.group(1) not in (bound, f"(r : {result})"):
            return f"has a one-outcome theorem over `{over.group(1)}`, not over `{bound}`"
        about = [plain(function, "o", over.group(2)) if function.lent else put(over.group(2), "r", "result")]
    elif parts.group(2).endswith(" → o ≡ p") and telescope[-2:] == [("o", lent), ("p", lent)]:
        telescope = telescope[:-2]
        first, arrow, second = parts.group(2).removesuffix(" → o ≡ p").partition(" → ")
        about = [plain(function, "o", first), plain(function, "p", second)]
    else:
        return f"has a one-outcome theorem that is not of the form `(..) → One (λ ..)`: {said}"
    if telescope != given:
        return f"has a one-outcome theorem for {telescope}, not for its own {given}"
    for words in about:
        if words != wanted:
            return f"has a one-outcome theorem about `{words}`, and its `ensures` says `{wanted}`"
    return other_name(function, wanted, source)


def other_name(function, words, source):
    """Why a name of the contract is another thing in the theorem's file than in the code, or None."""
    code, specs = imports(without_comments(text(function.path))), imports(source)
    plain = {name for name, _ in function.parameters} | {f"{name}'" for name in function.lent} | {"result"}
    for word in set(re.findall(r"[^\s()]+", words)):
        if word.split(".")[0] in plain:
            continue
        for name in {word, word.split(".")[0], f"◌{word}◌"} & (set(code) | set(specs)):
            if code.get(name) != specs.get(name):
                return f"has `{name}` from {code.get(name)} in its contract, and from {specs.get(name)} in its one-outcome theorem"
    for name in ("One", "Lent", "LentTwo"):
        if re.search(rf"\b{name}\b", words) or not re.search(rf"\b{name}\b", re.sub(r"^use .*", "", source, flags=re.M)):
            continue
        if specs.get(name) != "Rattle.answer.specs.Outcome":
            return f"has a one-outcome theorem over a `{name}` that is not the one beside the answers"
    for kind in [kind for _, kind in function.parameters] + [function.result]:
        name = type_of(kind, function.own_type)
        named = re.fullmatch(r"[A-Z]\w*", name) and name != "Bool" and name in specs
        if named and not re.search(rf"\.declared\.(?:\w+\.)*{name}$", specs[name]):
            return f"has a one-outcome theorem over a `{name}` that is not the code's"
    return None


class Edit:
    def __init__(self, path, crate):
        self.path, self.crate, self.name = path, crate, path.stem
        self.pairs, self.notes = [], {}
        self.function, self.breaks, self.buffer = None, None, None
        file, old = None, None
        for number, line in enumerate(text(path).split("\n")):
            if number == 0:
                label = re.match(r"# ([\w:'-]+)(?:, (result)|, buffer (\w+))?: ", line)
                if label:
                    self.function, self.buffer = label.group(1), label.group(3)
                    self.breaks = "result" if label.group(2) else "buffer" if label.group(3) else None
            elif note := re.match(r"# (stand-in|looks right|fails at): (.*)", line):
                self.notes.setdefault(note.group(1), []).append(note.group(2).strip())
            elif line.startswith("file: "):
                file = line[6:]
            elif line.startswith("old: "):
                old = line[5:]
            elif line.startswith("new:"):
                self.pairs.append((file, old, line[4:].removeprefix(" ")))
                old = None

    def __str__(self):
        return f"{self.crate}/{self.name}"

    def unfit(self, crates):
        """Why it cannot be applied, or None."""
        changed = {}
        for file, old, new in self.pairs:
            path = crates / self.crate / (file or "")
            if not file or not path.is_file():
                return f"no file {file}"
            now = changed.get(file, text(path))
            if not old or now.count(old) != 1:
                return f"`{old}` stands {now.count(old) if old else 0} times in {file}"
            changed[file] = now.replace(old, new)
        return None if self.pairs else "it has no `old:` and `new:` pair"


def edits(root, folder):
    """The edits of `must-fail` (below each crate) or of `mutants` (a folder for each crate at the top)."""
    pattern = "crates/*/must-fail/*.edit" if folder == "must-fail" else "mutants/*/*.edit"
    return [Edit(path, path.parent.parent.name if folder == "must-fail" else path.parent.name) for path in sorted(root.glob(pattern))]


# Words by which the prover says that it could not read a text or that a proof file names what is gone, or that something rests on what
# it refused: no fact fails there.
UNREAD = re.compile(r"is not in scope|has no field|has no `|has nothing|is no name|operand is missing|expected the end|cannot continue")
RESTS = re.compile(r"was not admitted|was rejected|^\S+ error: \d+ declarations? that depends? on ")


def errors(said):
    """(place, declaration, line) of each error of what a check said; the place is below the crate. Of a function with no proof file the
    place is where one would stand, and the declaration each goal that is left."""
    for line in said.split("\n"):
        found = re.match(r"(?:\./)?(?P<place>\S+?:\d+:\d+): error: (?:`(?P<name>[^`]*)`: )?", line)
        if found:
            yield found.group("place"), found.group("name"), line
        left = re.search(r"no proof: expected \w+ in (?:\./)?(?P<place>[^ ;]*); `search` did not prove (?P<names>.*)", line)
        for name in re.findall(r"`([^`]*)`", left.group("names")) if left else ():
            yield left.group("place"), name, line


def is_unread(found):
    """Whether an error says that a text cannot be read, or that a proof file names what the edit took away."""
    _, name, line = found
    return not RESTS.search(line) and (not name or bool(UNREAD.search(line)))


def is_fact(found):
    """Whether an error says that a fact is false: it is a declaration's, and not that it cannot be read or rests on what is refused."""
    _, name, line = found
    return bool(name) and not RESTS.search(line) and not UNREAD.search(line)


def own(edit):
    return edit.function.split("::")[-1]


def verdict(said, edit):
    """Why the refusal that a check tells of is none for a fact, or None. A fact has to fail; an edit of a result or of a buffer has to be
    refused in the function's own proof; and where the edit says at which fact it fails, an error has to stand there. What only rests on
    a refused fact does not count, nor do the goals that are left where a proof file names what the edit took away: it may have answered
    them under another name."""
    found = list(errors(said))
    edited = ("src/", "specs/", *(file for file, _, _ in edit.pairs))
    unread = [one for one in found if is_unread(one)]
    for at, _, line in unread:
        if at.startswith(edited):
            return f"the prover cannot read the edited text: {line[:200]}"
    folder = lambda at: at.partition(":")[0].rpartition("/")[0]
    misfits = {folder(at) for at, _, _ in unread}
    facts = [(at, name) for at, name, line in found if is_fact((at, name, line)) and not (": no proof: " in line and folder(at) in misfits)]
    if not facts:
        return "no fact is seen to fail" + (f", and a proof file no longer fits: {unread[0][2][:200]}" if unread else "")
    some = ", ".join(f"{at.partition(':')[0]} {name}" for at, name in facts[:4])
    if edit.breaks and not any(f"/{own(edit)}/" in at for at, _ in facts):
        return f"no fact of {edit.function} itself fails, but: {some}"
    for wanted in edit.notes.get("fails at", []):
        place, _, name = wanted.partition(" ")
        if not any(re.match(rf"{re.escape(place)}[/:]", at) and (not name or said == name) for at, said in facts):
            return f"no fact fails at {wanted}, but: {some}"
    return None


def told(words, edit, root):
    """What `rt ci` printed of an edit: `refused` for a fact, `unfit` and why, or `unsettled` where the fact printed, which is the first that
    failed, is not the one that the edit names."""
    at = words.removeprefix("refused, as it must be: ")
    if at == words:
        return "unfit", words[:300]
    noted = re.match(r"note: (?P<file>\S+?):(?P<line>\d+):\d+: it is not proved that ", at)
    if noted:
        # of a function with no proof file, at its code; where there is one it may only misfit
        crate, line = root / "crates" / edit.crate, int(noted.group("line"))
        if any(path.is_dir() and path.name == own(edit) for path in (crate / "proofs").rglob("*")):
            return "unsettled", None
        there = [one for one in functions(crate) if one.name == edit.function and one.path == crate / noted.group("file")]
        is_own, place, name = any(one.lines[0] <= line <= one.lines[1] for one in there), "", None
    else:
        found = next(errors(at), None)
        if not found or not is_fact(found):
            return "unsettled", None
        place, name, _ = found
        is_own = edit.breaks and f"/{own(edit)}/" in place
    for wanted in edit.notes.get("fails at", []):
        file, _, law = wanted.partition(" ")
        if not re.match(rf"{re.escape(file)}[/:]", place) or law and law != name:
            return "unsettled", None
    if edit.breaks and not is_own:
        return "unsettled", None
    return "refused", None


def copy_of(root, place):
    """Copies the sources of the crates, in which edits can be tried: a check there begins with what `rt check` kept in the checkout."""
    shutil.copytree(root / "crates", place / "crates", ignore=shutil.ignore_patterns("out", "must-fail"))
    shutil.copy(root / "crates.txt", place)
    # (a copy's top is told by this)
    (place / ".git").mkdir()


@contextlib.contextmanager
def applied(place, edit):
    """The copy with the edit in it."""
    was = {}
    try:
        for file, old, new in edit.pairs:
            path = place / "crates" / edit.crate / file
            was.setdefault(path, text(path))
            path.write_text(text(path).replace(old, new), encoding="utf-8")
        yield
    finally:
        for path, words in was.items():
            path.write_text(words, encoding="utf-8")


def check(place, crate):
    """The status of a check of a crate, and what it says."""
    words = ["rt", "check", "--jobs", "1"]
    how = {"stdin": subprocess.DEVNULL, "stdout": subprocess.PIPE, "stderr": subprocess.STDOUT, "text": True, "errors": "replace"}
    ran = subprocess.run(words, cwd=place / "crates" / crate, **how)
    return ran.returncode, ran.stdout


def tried(place, edit):
    """The word for an edit, tried in a copy of the sources whose crate is proved as it stands, and why it is unfit."""
    why = edit.unfit(place / "crates")
    if why:
        return "unfit", why
    with applied(place, edit):
        status, said = check(place, edit.crate)
    if status == 0:
        return "accepted", None
    if status != 1 or "logic=not-proved" not in said:
        errors = [line for line in said.split("\n") if "error" in line] or said.rstrip().split("\n")[-1:]
        return "unfit", f"its check ended with status {status}: {flat(' '.join(errors[:3]))[:300]}"
    why = verdict(said, edit)
    return ("unfit", why) if why else ("refused", None)
