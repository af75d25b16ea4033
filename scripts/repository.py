"""Facts about the repository, read from its sources: crates, the items of their files, contracts, definitions and edits.

Shared by check-pages, map, promises and try-edits. It reads text alone and asks no prover. A path is one from the repository's
top, TOP, and an absolute one stays as it is. Needs Python 3.8.
"""
import functools
import itertools
import os
import re
import signal
from collections import defaultdict
from typing import Dict, Iterator, List, NamedTuple, Optional, Set, Tuple

import command
from command import TOP

# Folders of edits. The gate tries those in edits/ and must-fail/.
EDIT_FOLDERS = ("edits", "further-edits", "must-fail")
# The character that represents the end of a line in a text of an edit.
LINE_END = "⏎"


def text_of(path: str) -> str:
    return command.text_of(os.path.join(TOP, path))


def end_with_reader() -> None:
    """Lets a reader of the output end the script, as head does, without a traceback."""
    signal.signal(signal.SIGPIPE, signal.SIG_DFL)


def is_file(path: str) -> bool:
    return os.path.isfile(os.path.join(TOP, path))


def text_if_there(path: str) -> str:
    return text_of(path) if is_file(path) else ""


def entries(path: str) -> List[Tuple[int, str, str]]:
    """Returns the lines `HEAD: REST` of a data file as (line, HEAD, REST), without empty lines and those that begin with #."""
    lines = enumerate(text_of(path).split("\n"), 1)
    parts = [(number, line.partition(": ")) for number, line in lines if line.strip() and not line.startswith("#")]
    return [(number, head.strip(), rest.strip()) for number, (head, _, rest) in parts]


@functools.lru_cache(None)
def crates() -> Dict[str, List[str]]:
    """Returns the crates of crates.txt in its order, each with the libraries that it names."""
    return command.crates_listed()


@functools.lru_cache(None)
def files(crate: str, folder: str, ending: str) -> List[str]:
    """Returns the files of a crate in a folder and those below it that have an ending, in order."""
    top = os.path.join(TOP, "crates", crate, folder)
    found = [os.path.join(at, name) for at, _, names in os.walk(top) for name in names if name.endswith(ending)]
    return sorted(os.path.relpath(path, TOP) for path in found)


def crate_of(path: str) -> str:
    """Returns the crate that a path below crates/ leads into."""
    return path.split("/")[1]


def root_of(crate: str) -> Optional[str]:
    """Returns the first file of a crate: its lib.rt, or the main.rt of a program."""
    paths = (f"crates/{crate}/src/{name}.rt" for name in ("lib", "main"))
    return next((path for path in paths if is_file(path)), None)


def opening(path: str) -> str:
    """Returns the first sentence of the comment that a file of code begins with."""
    lines = itertools.takewhile(lambda line: line.startswith("//!"), text_of(path).split("\n"))
    return first_sentence("\n".join(line[3:].strip() for line in lines))


# --- Files of code --------------------------------------------------------------------------------------------------------------

# Comments, strings and characters, which are no code.
QUIET = re.compile(
    r"""//[^\n]*|/\*.*?\*/|(?<!\w)b?r(#*)".*?"\1|(?:(?<!\w)b)?"(?:\\.|[^"\\])*"|"""
    r"""(?:(?<!\w)b)?'(?:\\(?:x[0-9a-fA-F]{2}|u\{[^}]*\}|.)|[^\\'\n])'""",
    re.S,
)
BRACKET = re.compile(r"[()\[\]{};]")
ANGLE = re.compile(r"->|[<>(\[{]")
HEAD = re.compile(
    r"(pub(?:\([^)]*\))?\s+)?(?:(?:const|unsafe|extern)\s+(?=(?:(?:unsafe|extern)\s+)*fn\b|impl\b|trait\b))*"
    r"(fn|struct|enum|trait|impl|mod|use|const|static|type|ghost|macro_rules!)\s*(?:\b(\w+))?"
)
IMPL = re.compile(r"(?:(?:\w+::)*(\w+)\s*(<.*>)?\s+for\s+)?&?(?:'\w+\s+)?(?:\w+::)*(\w+)")
# The end of a function's arguments: a clause, a bracket, or nothing.
BEHIND = re.compile(r"\b(requires|ensures)\b(?:\s+(\w+))?\s*(?=\{)|[(\[{;]")


class Clause(NamedTuple):
    """A clause of a contract; its name is empty if it has none."""

    kind: str
    name: str
    text: str


class Item(NamedTuple):
    """An item of a file of code. Its owner is the type of its `impl`, or the trait that declares it."""

    kind: str
    name: str
    path: str
    line: int
    module: str
    owner: str
    # The trait that an `impl` is of, and whether arguments follow its name.
    trait: str
    is_applied: bool
    is_public: bool
    is_of_trait: bool
    doc: str
    attributes: str
    head: str
    clauses: Tuple[Clause, ...]
    # The fields of a struct, the variants of an enum.
    parts: Tuple[str, ...]
    has_body: bool
    start: int
    body: int
    end: int

    @property
    def crate(self) -> str:
        return crate_of(self.path)

    @property
    def full_name(self) -> str:
        return f"{self.owner}::{self.name}" if self.owner else self.name

    @property
    def turned(self) -> Tuple[str, str, bool, str]:
        """The function as an edit names what it turns: module, type with trait, whether that is applied, and name."""
        return self.module, f"{self.owner}{self.trait}", self.is_applied, self.name

    @property
    def answers(self) -> str:
        """The type that a function returns."""
        return self.head.rpartition("->")[2].partition("\nwhere")[0].strip() if "->" in self.head else ""


def without_quiet(text: str) -> str:
    """Returns a text with comments, strings and characters blanked; all places stay."""
    return QUIET.sub(lambda found: re.sub(r"[^\n]", " ", found[0]), text)


def past_bracket(code: str, place: int) -> int:
    """Returns the place behind the bracket that opens at a place."""
    depth = 0
    for found in BRACKET.finditer(code, place):
        depth += {"(": 1, "[": 1, "{": 1, ";": 0}.get(found[0], -1)
        if depth == 0 and found[0] != ";":
            return found.end()
    return len(code)


def past_angle(code: str, place: int) -> int:
    """Returns the place behind the list of parameters `<..>` that begins at a place."""
    depth = 0
    while True:
        found = ANGLE.search(code, place)
        if not found:
            return len(code)
        place = past_bracket(code, found.start()) if found[0] in "([{" else found.end()
        depth += {"<": 1, ">": -1}.get(found[0], 0)
        if depth == 0:
            return place


def past_item(code: str, place: int, ends_at_brace: bool) -> int:
    """Returns the place behind the first `;` from a place on, or behind the first block, if that ends the item."""
    while True:
        found = BRACKET.search(code, place)
        if not found:
            return len(code)
        if found[0] == ";":
            return found.end()
        place = past_bracket(code, found.start())
        if found[0] == "{" and ends_at_brace:
            return place


def contract(code: str, text: str, place: int) -> Tuple[int, List[Clause], int, int]:
    """Reads what follows a function's name: where its head ends, its clauses, where its body begins, and where it ends."""
    if code[place : place + 1] == "<":
        place = past_angle(code, place)
    place = past_bracket(code, code.index("(", place))
    head, clauses = None, []
    while True:
        found = BEHIND.search(code, place)
        if not found:
            return len(code), clauses, len(code), len(code)
        if found[1]:
            head = head or found.start()
            place = past_bracket(code, found.end())
            clauses.append(Clause(found[1], found[2] or "", " ".join(text[found.end() + 1 : place - 1].split())))
        elif found[0] in "{;":
            end = past_bracket(code, found.start()) if found[0] == "{" else found.end()
            return head or found.start(), clauses, found.start(), end
        else:
            place = past_bracket(code, found.start())


def names_in_body(body: str) -> List[str]:
    """Returns the fields or variants of a type, by the text between its brackets."""
    body = re.sub(r"#\[[^\]]*\]", "", body)
    names, depth, start = [], 0, 0
    for found in re.finditer(r"[(\[{<]|->|[)\]}>]|,", body + ","):
        depth += 1 if found[0] in "([{<" else -1 if found[0] in ")]}>" else 0
        if found[0] == "," and depth == 0:
            name = re.match(r"\s*(?:pub(?:\([^)]*\))?\s+)?(\w+)", body[start : found.start()])
            names += [name[1]] if name else []
            start = found.end()
    return names


class Reader:
    """Reads the items of one file of code."""

    def __init__(self, path: str, module: str, text: str):
        self.path, self.text, self.code = path, text, without_quiet(text)
        self.found: List[Item] = []
        self.read(0, len(text), module, ("", "", False), False)

    def read(self, place: int, end: int, module: str, of: Tuple[str, str, bool], is_of_trait: bool) -> None:
        """Reads the items between two places, which belong to a module and a type with its trait."""
        before = place
        while place < end:
            gap = re.compile(r"\s*(?:#!?(?=\[))?").match(self.code, place)
            if gap[0].endswith(("#", "!")):
                place = past_bracket(self.code, gap.end())
                continue
            head = HEAD.match(self.code, gap.end())
            if not head or head.start() >= end:
                # (what is no item, as a call of a macro, is passed over line by line)
                place = self.code.find("\n", gap.end()) + 1 or end
                continue
            place = self.read_item(head, before, module, of, is_of_trait)
            before = place

    def read_item(self, head: "re.Match[str]", before: int, module: str, of: Tuple[str, str, bool], is_of_trait: bool) -> int:
        """Reads one item, and those in it, and returns the place behind it."""
        kind, name = head[2], head[3] or ""
        clauses: List[Clause] = []
        parts: List[str] = []
        if kind == "fn":
            above, clauses, body, end = contract(self.code, self.text, head.end())
        else:
            end = past_item(self.code, head.end(2), kind in ("struct", "enum", "trait", "impl", "mod", "macro_rules!"))
            above = body = self.code.find("{", head.end(2), end) if self.code[end - 1] == "}" else end - 1
        is_braced = self.code[end - 1] == "}" and body < end - 1
        if kind in ("struct", "enum") and is_braced:
            parts = names_in_body(self.code[body + 1 : end - 1])
        between = self.text[before : head.start()]
        self.found.append(
            Item(
                kind,
                name,
                self.path,
                self.text.count("\n", 0, head.start()) + 1,
                module,
                of[0],
                of[1],
                of[2],
                bool(head[1]) and not head[1].startswith("pub("),
                is_of_trait,
                "\n".join(line.strip()[3:].strip() for line in between.split("\n") if line.strip().startswith("///")),
                " ".join(re.findall(r"#\[(.*?)\]\n", between, re.S)),
                self.text[head.start() : above].strip(),
                tuple(clauses),
                tuple(parts),
                is_braced,
                head.start(),
                body,
                end,
            )
        )
        if is_braced and kind == "trait":
            self.read(body + 1, end - 1, module, (name, "", False), True)
        elif is_braced and kind == "mod":
            self.read(body + 1, end - 1, f"{module}::{name}".lstrip(":"), ("", "", False), False)
        elif is_braced and kind == "impl":
            self.read(body + 1, end - 1, module, self.implemented(head.end(2), body), False)
        return end

    def implemented(self, place: int, body: int) -> Tuple[str, str, bool]:
        """Returns the type of an `impl`, its trait, and whether that is applied to arguments."""
        place = re.compile(r"\s*").match(self.code, place).end()
        if self.code[place] == "<":
            place = past_angle(self.code, place)
        head = " ".join(self.code[place:body].split()).partition(" where ")[0]
        found = IMPL.match(head)
        return (found[3], found[1] or "", bool(found[2])) if found else ("", "", False)


def module_of(path: str) -> str:
    """Returns the module of a file of code, by its path below the crate."""
    return re.sub(r"(^|::)(lib|main)$", "", path.partition("src/")[2][: -len(".rt")].replace("/", "::"))


@functools.lru_cache(None)
def items(path: str) -> List[Item]:
    """Returns the items of a file of code, those of blocks after the block."""
    return Reader(path, module_of(path), text_of(path)).found


@functools.lru_cache(None)
def items_of(crate: str) -> List[Item]:
    return [item for path in files(crate, "src", ".rt") for item in items(path)]


@functools.lru_cache(None)
def passed_on(crate: str) -> Set[Tuple[str, str]]:
    """Returns what the root of a crate passes on, as (module, name); the module of another crate's is that crate's name."""
    root = root_of(crate)
    found = set()
    for item in items(root) if root else []:
        if item.kind != "use" or not item.is_public:
            continue
        path, _, names = re.sub(r"^pub use\s+|;$|\s", "", item.head.replace(" as ", "=")).partition("{")
        if not names:
            path, _, names = path.rpartition("::")
        module = re.sub(r"^crate::|::$", "", path)
        found |= {(module, name.partition("=")[0]) for name in names.rstrip("}").split(",") if name}
    return found


def public_modules(crate: str) -> Set[str]:
    """Returns the modules of a crate that callers can name, its root as the empty name."""
    found = {""}
    for item in items_of(crate):
        if item.kind == "mod" and item.is_public and item.module in found:
            found.add(f"{item.module}::{item.name}".lstrip(":"))
    return found


@functools.lru_cache(None)
def public_items(crate: str) -> List[Item]:
    """Returns the items that callers of a crate can name, the functions that C can call, and the methods of such types and
    traits."""
    modules = public_modules(crate)
    is_named = lambda it: it.module in modules or (it.module, it.name) in passed_on(crate) or "no_mangle" in it.attributes
    is_seen = lambda it: it.is_public and not it.owner and is_named(it)
    named = [it for it in items_of(crate) if it.kind in ("fn", "struct", "enum", "trait", "const", "type") and is_seen(it)]
    types = {it.name for it in named if it.kind in ("struct", "enum", "trait", "type")}
    methods = [it for it in items_of(crate) if it.kind in ("fn", "const") and it.owner in types]
    return named + [it for it in methods if it.is_of_trait or (it.is_public and not it.trait)]


@functools.lru_cache(None)
def public_calls(crate: str) -> List[Item]:
    """Returns the functions that callers of a library can call, in the order of files and lines."""
    if (root_of(crate) or "").endswith("main.rt"):
        return []
    return sorted((it for it in public_items(crate) if it.kind == "fn"), key=lambda it: (it.path, it.start))


def is_law(item: Item) -> bool:
    """Tests whether a function's contract is a law: it takes and returns nothing, or is in a module or a crate of laws."""
    is_bare = re.search(r"\bfn \w+\(\)$", item.head) is not None
    return is_bare or item.module.split("::")[0] == "laws" or item.crate.endswith("_laws")


def first_sentence(doc: str) -> str:
    """Returns the first sentence of a doc comment."""
    paragraph = " ".join(doc.split("\n\n")[0].split())
    found = re.match(r"(.+?[.!?])(?=\s+[A-Z`]|$)", paragraph)
    return found[1] if found else paragraph


# --- Definitions ----------------------------------------------------------------------------------------------------------------

IMPORT = re.compile(r"use Rattle\.(\w+)\.(specs|proofs)\.([\w.\-]+?)(?:\.\{([^}]*)\}| as ([\w\-]+))?;?$", re.M)
DECLARED = re.compile(
    r"^ *(?:(?:(?:pub|abbrev|unfoldable) )+(?:(?:record|data|module) )?|(?:record|data|module) )(?!use\b|mod\b)([^\s:(){}]+)"
    r"|^ *([^\s:(){}]+) :",
    re.M,
)
KEYWORDS = {"", "pub", "abbrev", "unfoldable", "record", "data", "module", "where", "else", "--"}


class Definition(NamedTuple):
    """A definition: its crate, its file in that crate's specs, without the ending, and its name."""

    crate: str
    file: str
    name: str


@functools.lru_cache(None)
def declared(path: str) -> Set[str]:
    """Returns the names that a file of definitions or lemmas declares: fields and constructors too, and what it hands on."""
    text = text_of(path)
    names = {name for pair in DECLARED.findall(text) for name in pair if name not in KEYWORDS}
    names |= {name for line in re.findall(r"^ +([A-Z]\w*(?: [A-Z]\w*)+) :", text, re.M) for name in line.split()}
    handed_on = re.findall(r"pub use [^{\n]*\{([^}]*)\}", text)
    return names | {name.split(" as ")[-1].strip() for names in handed_on for name in names.split(",")}


@functools.lru_cache(None)
def imported(path: str) -> Dict[str, Definition]:
    """Returns the definitions of this repository that a file of code imports, by the name that it gives them. A file that is
    imported whole has the name with a dot at its end."""
    found = {}
    for crate, folder, file, names, alias in IMPORT.findall(text_of(path)):
        if folder != "specs" or crate not in crates() or file.startswith("declared."):
            continue
        if not names:
            found[f"{alias or file.split('.')[-1]}."] = Definition(crate, file, "")
        for name in names.split(","):
            name, _, other = (part.strip() for part in name.partition(" as "))
            if name:
                found[other or name] = Definition(crate, file, name)
    return found


def cited(item: Item, clause: Clause) -> List[Definition]:
    """Returns the definitions of this repository that a clause cites, in its order."""
    names = imported(item.path)
    found = []
    for whole, part in re.findall(r"([\w◌]+\.)?([\w◌\-]+)", clause.text):
        if whole in names:
            found.append(names[whole]._replace(name=part))
        elif part in names and (not whole or part[0].isupper()):
            found.append(names[part])
    return [*dict.fromkeys(found)]


# --- Edits ----------------------------------------------------------------------------------------------------------------------


def function_at(file: str, text: str, place: int) -> Optional[Tuple[str, str, bool, str]]:
    """Returns the function around a place of a file's text: its module, the type that it belongs to with the trait, whether that
    is applied, and its name."""
    row_end = f"{text}\n".find("\n", place) if place >= 0 else -1
    found = [it for it in Reader(file, module_of(file), text).found if it.kind == "fn" and it.start <= row_end and place < it.end]
    return found[0].turned if found else None


class Edit:
    """Pairs of texts, old and new, file by file, each for what the pairs before it made; and the functions that they turn, None
    for what is in none."""

    def __init__(self, crate: str, path: str):
        self.crate, self.path, self.pairs, self.turned, file, texts = crate, path, [], set(), "", {}
        for line in text_of(path).split("\n"):
            word, _, rest = line.replace(LINE_END, "\n").partition(" ")
            if word == "file:":
                file = rest
                texts.setdefault(file, text_if_there(f"crates/{crate}/{file}"))
            elif word == "old:":
                old = rest
                self.turned.add(function_at(file, texts[file], texts[file].find(old)))
            elif word == "new:":
                self.pairs.append((file, old, rest))
                texts[file] = texts[file].replace(old, rest)

    @property
    def name(self) -> str:
        return os.path.basename(self.path)[: -len(".edit")]

    def make(self, texts: Dict[str, str], crate: str) -> str:
        """Makes the edit in texts, by file, and says why it can't be made."""
        for file, old, new in self.pairs:
            text = texts.get(file) or text_if_there(f"crates/{crate}/{file}")
            if text.count(old) != 1:
                return f"a text to replace is {text.count(old)} times in {file}, and not once"
            texts[file] = text.replace(old, new)
        return ""


@functools.lru_cache(None)
def edits_of(crate: str) -> List[Edit]:
    """Returns the edits of a crate, folder by folder."""
    return [Edit(crate, path) for folder in EDIT_FOLDERS for path in files(crate, folder, ".edit")]


def edits_by_function(crate: str) -> Dict[Optional[Tuple[str, str, bool, str]], List[Edit]]:
    """Returns the edits of a crate by the functions that they turn."""
    found = defaultdict(list)
    for edit in edits_of(crate):
        for turned in edit.turned:
            found[turned].append(edit)
    return found


def tests_of(crate: str) -> Iterator[Tuple[str, List[Item]]]:
    """Returns the files of a crate that have tests, each with its test functions."""
    for path in files(crate, "src", ".rt"):
        found = [it for it in items(path) if it.kind == "fn" and re.search(r"\btest\b", it.attributes)]
        if found:
            yield path, found


# --- Data files beside the scripts ----------------------------------------------------------------------------------------------

CallName = Tuple[str, str]


def calls_named(path: str) -> Dict[CallName, Tuple[int, str]]:
    """Returns what a data file says of calls, by crate and call: the line of the file, and the reason. Its lines are
    `crate call: reason`, or `call` where only one crate has the call; a call that is nowhere keeps the crate that is written."""
    found = {}
    for number, head, reason in entries(path):
        crate, _, name = head.rpartition(" ")
        having = [it for it in crates() if any(call.full_name == name for call in public_calls(it))]
        found[crate or (having[0] if len(having) == 1 else ""), name] = number, reason
    return found
