#!/usr/bin/env python3
"""Reads the sources, and looks whether memory can be taken once a run has begun its work.

In Rattle memory comes from an allocator, which a call is given, or from a vector or string that was made with one and grows. So it is
enough that

1. nothing that the work can call is given an allocator or a runtime: the calls are followed by their names, from where serving,
   operating, a backup, what restores one, a session, a report of vectors, a check of a transcript and a digest's line begin, through all
   crates below the program. Where a name can mean several functions, all of them are followed;
2. nothing that the work can call makes a vector, a string or a box, or calls what may grow one: each place that looks like it is listed
   below with what its receiver is;
3. no type keeps an allocator;
4. whoever is given an allocator is listed below with its reason, and once it calls the work it hands its allocator to nobody;
5. what is listed is there.

Tests are left out, and the kit's code isn't read. It goes by names and not by types, so it may refuse what takes no memory. Then it plants
a mistake of each kind into what it read, and has to tell each.

usage: no_memory.py [--reached]     the second form lists what the work can call
"""
import os
import re
import sys
from functools import lru_cache

TOP = os.path.join(os.path.dirname(os.path.abspath(__file__)), "..")
PROGRAM = "module_program"

# Where the work begins. What stands before it in a run may take memory.
WORK = {
    "command_serving serve": "frames",
    "line_serving operate": "an operator's lines",
    "backup_runs back_up": "a backup",
    "backup_runs restore_and_operate": "an operator's lines behind a restored backup",
    "session_runs run_session": "a session",
    "vector_reports report_vectors": "vectors",
    "transcript_report check_transcript": "a transcript",
    "stream_calls write_all": "the digest's line",
    "state_model Module::shut": "the end of a module",
    "state_model Module::close": "the end of a module",
}

MAKES = "makes what a run works in"
BEFORE = "is called before the work begins, and hands the allocator to what makes something"
LOADS = "loads a file, before the work begins"
RUNS = "takes all the memory and then works"
GIVEN = {
    "bits_core Outbox::new": MAKES,
    "crypto_services Parts::new": MAKES,
    "crypto_services Work::new": MAKES,
    "line_input Lines::new": MAKES,
    "line_serving LineCodec::new": MAKES,
    "module_frames Command::new": MAKES,
    "module_frames Frames::new": MAKES,
    "module_frames Reply::new": MAKES,
    "ssp_slots Vault::new": MAKES,
    "ssp_slots blank_keys": MAKES,
    "state_model Module::open": MAKES,
    "transcript_pairs Pairs::new": MAKES,
    "outside MemSink::new": "is for tests and stored runs",
    "outside MemFiles::load": "is for tests and stored runs",
    "outside Files::load": LOADS,
    "outside DiskFiles::load": LOADS,
    "outside read_within": LOADS,
    "module_top load_image": LOADS,
    "module_top load_digest": LOADS,
    "module_top load_keys": LOADS,
    "module_top load_backup": LOADS,
    "module_top digest_image": LOADS,
    "module_top run": BEFORE,
    "module_top perform": BEFORE,
    "module_top work_on_files": BEFORE,
    "module_top work_with_keys": BEFORE,
    "module_works do_work": BEFORE,
    "module_works serve_frames": BEFORE,
    "module_works operate_lines": BEFORE,
    "module_works summarise": BEFORE,
    "module_works back_up_lines": BEFORE,
    "module_works operate_restored": BEFORE,
    "module_top check_vectors": BEFORE,
    "module_top check_pairs": BEFORE,
    "module_works open_and_serve": RUNS,
    "module_works open_and_operate": RUNS,
    "module_works open_and_run": RUNS,
    "module_works open_and_back_up": RUNS,
    "module_works open_and_restore": RUNS,
    "module_top take_and_report": RUNS,
    "module_top take_and_check": RUNS,
    f"{PROGRAM} words_of": "reads the words of the command line",
    f"{PROGRAM} main": "has the runtime, and calls run once",
}

# What may grow a vector or a string, or make another one.
GROWING = (
    "push push_str push_within_capacity extend extend_from_slice reserve reserve_exact insert resize append to_vec to_string to_owned "
    "clone collect sort sort_by concat join repeat split_off with_capacity from_str into_boxed_slice from_array read_to_end read_to_string"
).split()
A_COMMAND = "a command, whose push writes into the room that it was made with"
A_LINE = "lines, whose push writes into the room that they were made with"
A_HASHER = "a hasher, which holds no vector"
GROWS = {
    ("module_frames", "self.push"): A_COMMAND,
    ("module_frames", "self.command.push"): A_COMMAND,
    ("session_commands", "into.push"): A_COMMAND,
    ("operator_text", "into.push"): A_COMMAND,
    ("line_input", "self.push"): A_LINE,
    ("state_model", "self.entry.append"): "an entry, which has an array of 64 bytes",
    ("hmac_core", "it.clone"): A_HASHER,
    ("hmac_core", "self.inner.clone"): A_HASHER,
    ("hmac_core", "self.outer.clone"): A_HASHER,
    ("drbg_core", "keyed.clone"): "a keyed MAC, which is two hashers",
    ("kbkdf_core", "keyed.clone"): "a keyed MAC, which is two hashers",
}

ALLOCATOR = re.compile(r"\b(?:Global|AllocGlobal|HostRuntime|Allocator)\b")
HANDED = re.compile(r"\balloc\b")
MADE = re.compile(r"\b(?:vec|format)!|\b(?:Vec|String|Box|Rc|Arc)(?:::<[^()]*>)?::\w+\s*\(")
CALL = re.compile(r"(?P<dot>\.\s*)?(?:\b(?P<owner>\w+)(?:::<[^()]*?>)?::)?\b(?P<name>[a-z_]\w*)(?:::<[^()]*?>)?\s*\(")
RECEIVER = re.compile(r"(?P<who>[\w.]*\w)\s*\.\s*(?P<name>\w+)\s*(?:::<[^()]*?>)?\(")
WORDS = {"if", "while", "for", "match", "return", "fn", "in", "loop", "move", "let", "else", "requires", "ensures"}


def masked(text):
    """The text with comments, strings and characters made blank, at the same places."""
    literal = r'//[^\n]*|b?"(?:[^"\\]|\\.)*"|b?\'(?:[^\'\\\n]|\\x..|\\u\{[^}]*\}|\\.)\''
    return re.sub(literal, lambda found: re.sub(r"[^\n]", " ", found.group()), text, flags=re.DOTALL)


def closing(text, at):
    """Where the brace that opens here is closed."""
    depth = 0
    for place in range(at, len(text)):
        depth += (text[place] == "{") - (text[place] == "}")
        if depth == 0:
            return place
    raise ValueError("a brace that isn't closed")


def without_clauses(text):
    """Without ghost items and the clauses of contracts, which run nothing."""
    text = re.sub(r"^\s*(?:pub )?ghost use [^;]*;", "", text, flags=re.MULTILINE)
    begins = re.compile(r"\bghost \w+ ?[=:]\s*\{|\b(?:requires|ensures|invariant|decreases)(?: [a-z_]\w*)?\s*\{")
    while found := begins.search(text):
        end = closing(text, found.end() - 1) + 1
        ends = found.group().startswith("ghost") and text[end : end + 1] == ";"
        text = text[: found.start()] + text[end + ends :]
    return text


class Function:
    def __init__(self, crate, owner, name, head, body):
        self.crate, self.owner, self.name, self.head, self.body = crate, owner, name, head, body
        self.title = f"{crate} {owner + '::' if owner else ''}{name}"
        self.takes_self = re.search(r"\(\s*(?:mut )?(?:&\s*(?:'\w+ )?(?:mut )?)?self\b", head) is not None
        self.calls = {(call["owner"], call["name"], call["dot"] is not None) for call in CALL.finditer(body) if call["name"] not in WORDS}


def owners(text):
    """Where impls and traits stand, with the name of their type or trait, and their heads."""
    found = []
    for item in re.finditer(r"^(?:pub(?:\(crate\))? )?(?:impl|trait)\b([^{;]*)\{", text, re.MULTILINE):
        head = re.sub(r"<[^<>]*(?:<[^<>]*>[^<>]*)*>", "", item.group(1))
        named = re.findall(r"\b[A-Za-z_]\w*", head.split(" for ")[-1].split(" where ")[0].split(":")[0])
        found.append((item.start(), closing(text, item.end() - 1), named[0] if named else "?", item.group(1)))
    return found


@lru_cache(maxsize=None)
def read(crate, text):
    """The functions and the types of a file, with their fields."""
    text = without_clauses(masked(text))
    return list(functions_in(crate, text)), list(types_in(crate, text))


def functions_in(crate, text):
    where = owners(text)
    for item in re.finditer(r"\bfn (\w+)", text):
        if re.search(r"#\[(?:test|cfg\(test\))\]\s*(?:pub(?:\(crate\))? )?$", text[: item.start()]):
            continue
        ends = re.compile(r"[{;]")
        at, depth = item.end(), 0
        while depth or not ends.match(text, at):
            depth += (text[at] in "([") - (text[at] in ")]")
            at += 1
        body = text[at : closing(text, at) + 1] if text[at] == "{" else ""
        owner, around = next(((name, head) for start, end, name, head in reversed(where) if start < item.start() < end), ("", ""))
        yield Function(crate, owner, item.group(1), text[item.start() : at] + around, body)


def types_in(crate, text):
    for item in re.finditer(r"\b(?:struct|enum) (\w+)[^;{(]*([{(;])", text):
        end = closing(text, item.end() - 1) if item.group(2) == "{" else text.index(";", item.start())
        yield f"{crate} {item.group(1)}", text[item.end() : end]


def crates_below(top, crate=PROGRAM):
    """The crates that a crate stands on, and itself."""
    below = {}
    with open(os.path.join(top, "crates.txt"), encoding="utf-8") as file:
        for line in file:
            name, colon, rest = line.partition(":")
            if colon and not line.startswith("#"):
                below[name.split()[0]] = rest.split()
    found, due = set(), [crate]
    while due:
        name = due.pop()
        if name in below and name not in found:
            found.add(name)
            due += below[name]
    return sorted(found)


def files_of(top, crate):
    """The files of a crate that aren't tests, with their texts."""
    source = os.path.join(top, "crates", crate, "src")
    texts = {}
    for folder, _, names in os.walk(source):
        for name in names:
            path = os.path.join(folder, name)
            with open(path, encoding="utf-8") as file:
                texts[os.path.relpath(path, source)] = file.read()
    tests = {name for text in texts.values() for name in re.findall(r"#\[cfg\(test\)\]\s*(?:pub(?:\(crate\))? )?mod (\w+);", text)}
    return {path: text for path, text in texts.items() if not any(part in tests for part in path.removesuffix(".rt").split(os.sep))}


class Sources:
    def __init__(self, texts):
        """The texts of the files, by crate and path."""
        self.below = {crate: crates_below(TOP, crate) for crate, _ in texts}
        self.functions, self.types = [], []
        for (crate, _), text in texts.items():
            functions, types = read(crate, text)
            self.functions += functions
            self.types += types
        self.by_name = {}
        for function in self.functions:
            self.by_name.setdefault(function.name, []).append(function)
        self.owners = {function.owner for function in self.functions if function.owner}

    def meant(self, function, owner, name, dotted):
        """All functions that a call may mean."""
        named = self.by_name.get(name, [])
        if dotted:
            return [each for each in named if each.takes_self]
        if owner == "Self":
            owner = function.owner
        if owner in self.owners:
            return [each for each in named if each.owner == owner] or named
        if owner and re.fullmatch(r"[A-Z]", owner):
            return [each for each in named if each.owner]
        if owner and owner[0].isupper():
            return []  # a type of the kit's: what it is given is looked at where it is called
        # A private function may have the name of one in a crate above.
        return [each for each in named if not each.owner and each.crate in self.below[function.crate]]

    def called(self, function):
        for owner, name, dotted in function.calls:
            yield from self.meant(function, owner, name, dotted)

    def reached(self):
        """All that the work can call, each with what called it."""
        due = [(function, None) for function in self.functions if function.title in WORK]
        found = {}
        while due:
            function, by = due.pop()
            if function not in found:
                found[function] = by
                due += [(each, function) for each in self.called(function)]
        return found


def way_to(function, reached):
    names = []
    while function:
        names.append(function.title)
        function = reached[function]
    return " < ".join(names)


def growing(function):
    """The places of a function that look as if a vector or string grew there, and aren't listed."""
    for place in RECEIVER.finditer(function.body):
        if place["name"] in GROWING and (function.crate, f"{place['who']}.{place['name']}") not in GROWS:
            yield f"{place['who']}.{place['name']}(..)"


def given(function):
    return ALLOCATOR.search(function.head) is not None


def behind_work(function):
    """Whether an allocator stands behind the first call of the work."""
    begins = [re.search(rf"\b{title.split(' ')[1].split('::')[-1]}\s*\(", function.body) for title in WORK]
    first = min((found.start() for found in begins if found), default=None)
    return first is not None and HANDED.search(function.body, first) is not None


def faults(sources):
    """All that is wrong with these sources."""
    reached = sources.reached()
    for function, _ in reached.items():
        if given(function) or HANDED.search(function.body):
            yield f"the work can call {way_to(function, reached)}, which has an allocator"
        if MADE.search(function.body):
            yield f"the work can call {way_to(function, reached)}, which makes a vector, a string or a box"
        for place in growing(function):
            yield f"the work can call {way_to(function, reached)}, where {place} may take memory"
    for title, fields in sources.types:
        if ALLOCATOR.search(fields):
            yield f"{title} keeps an allocator"
    for function in sources.functions:
        if given(function) and function.title not in GIVEN:
            yield f"{function.title} is given an allocator, and isn't listed"
        if given(function) and behind_work(function):
            yield f"{function.title} hands its allocator on behind the work"
    titles = {function.title for function in sources.functions if given(function)}
    yield from (f"{title} is listed, and isn't given an allocator" for title in GIVEN if title not in titles)
    yield from (f"{title} is where work begins, and isn't there" for title in WORK if title not in {each.title for each in sources.functions})
    places = {(f.crate, f"{place['who']}.{place['name']}") for f in reached for place in RECEIVER.finditer(f.body)}
    yield from (f"{who} of {crate} is listed, and the work doesn't call it" for crate, who in GROWS if (crate, who) not in places)


# A mistake, the file in which it is planted, the text that it exchanges, and what has to be told.
PLANTED = [
    ("an allocator for a service", "crypto_services/src/digests.rt", "fn hash<E: Engine>(", "fn hash<E: Engine>(alloc: Global, ", "has an allocator"),
    ("a vector that is made in serving", "command_serving/src/answering.rt", "    let mut done = 0;\n", "    let mut held = Vec::new(alloc_of(chunk));\n    let mut done = 0;\n", "makes a vector"),
    ("a vector that grows by each command", "command_serving/src/answering.rt", "    codec.clear();\n", "    codec.clear();\n    codec.held.push(1)?;\n", "may take memory"),
    ("a module that keeps its allocator", "state_model/src/module.rt", "pub struct Module<E: Engine> {\n", "pub struct Module<E: Engine> {\n    alloc: Global,\n", "keeps an allocator"),
    ("a helper with an allocator", "module_works/src/working.rt", "// ", "fn more(alloc: Global) {}\n// ", "isn't listed"),
    ("memory behind the work", "module_works/src/frames_work.rt", "    module.shut();\n", "    let more = Reply::new(alloc)?;\n    module.shut();\n", "behind the work"),
    ("a constructor of another name", "module_frames/src/reply.rt", "pub fn new(alloc: Global)", "pub fn make(alloc: Global)", "is listed, and isn't given"),
    ("work of another name", "session_runs/src/running.rt", "pub fn run_session<", "pub fn run_all<", "isn't there"),
]


def texts_of(top):
    return {(crate, path): text for crate in crates_below(top) for path, text in files_of(top, crate).items()}


def untold(texts):
    """The planted mistakes that aren't told."""
    for name, file, right, wrong, wanted in PLANTED:
        crate, _, path = file.partition("/src/")
        text = texts.get((crate, path), "")
        if right not in text:
            yield f"{name}: no such text stands in {file}"
            continue
        changed = {**texts, (crate, path): text.replace(right, wrong, 1)}
        if not any(wanted in fault for fault in faults(Sources(changed))):
            yield f"{name}: planted in {file}, and isn't told"


def main(words):
    texts = texts_of(TOP)
    sources = Sources(texts)
    if words == ["--reached"]:
        print("\n".join(sorted(function.title for function in sources.reached())))
        return 0
    wrong = list(faults(sources)) or list(untold(texts))
    for each in wrong:
        print(f"no_memory: FAILED: {each}")
    if wrong:
        return 1
    print(
        f"no_memory: passed: {len(sources.reached())} of {len(sources.functions)} functions can be called by the work, none of them with an "
        f"allocator; {len(GIVEN)} are given one before it; {len(PLANTED)} planted mistakes are told"
    )
    return 0


if __name__ == "__main__":
    sys.exit(main(sys.argv[1:]))
