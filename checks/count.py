"""Counts what a reader minds, and compares each count with the most that checks/counts allows: a count may fall, and then its line there is to be lowered; it may not rise."""
import re
import subprocess
import sys

SOURCE_WIDTH, SPEC_WIDTH, FUNCTION_LINES = 100, 140, 40
# What rt fmt keeps in one line: imports, and attributes that name lemmas.
IMPORT = re.compile(r"\s*((pub )?(ghost )?use |#\[tactic\()")
FUNCTION = re.compile(r"( *)(pub(\([a-z]+\))? )?(const )?fn ")


def files(*patterns):
    return subprocess.run(["git", "ls-files", *patterns], capture_output=True, text=True, check=True).stdout.split()


def lines_of(file):
    with open(file, encoding="utf-8") as it:
        return it.read().split("\n")


def wide(names, width):
    """The lines over a width, in characters. An import is as long as the names that it brings in, and an attribute as the lemmas that it names."""
    for file in names:
        for number, line in enumerate(lines_of(file), 1):
            if len(line) > width and not IMPORT.match(line):
                yield f"{file}:{number}: {len(line)} characters"


def long_functions(names):
    """The functions whose bodies have more lines than a reader keeps in view."""
    for file in names:
        start = indent = body = None
        for number, line in enumerate(lines_of(file), 1):
            head = FUNCTION.match(line)
            if head:
                start, indent, body = number, head[1], None
            if start and body is None and line.endswith("{"):
                body = number
            if start and body is not None and line == indent + "}":
                if number - body - 1 > FUNCTION_LINES:
                    yield f"{file}:{start}: {number - body - 1} lines"
                start = None


def crate_of(file):
    return file.split("/")[1]


def crates_above():
    """Each crate with all that stand on it, itself left out."""
    above = {}
    for line in lines_of("crates.txt"):
        name, colon, below = line.partition(":")
        if colon and not line.startswith("#"):
            for it in below.split():
                above.setdefault(it, set()).add(name.split()[0])

    def all_above(crate, found):
        for it in above.get(crate, set()) - found:
            found.add(it)
            all_above(it, found)
        return found

    return {crate: all_above(crate, set()) for crate in above}


def brought_in(text):
    """The names that a file imports from other crates, and the crates that it imports whole."""
    named, whole = set(), set()
    for crate, path in re.findall(r"^ *(?:pub )?use (\w+)::([^;]*);", text, re.M):
        if crate not in ("crate", "self", "super", "std"):
            named.update(re.findall(r"\w+", path))
            if path.endswith("*"):
                whole.add(crate)
    return named, whole


def is_test(file, text):
    return crate_of(file).endswith("_tests") or "/tests" in file or "#[test]" in text


class Calls:
    """The calls of each file: a method counts as called where a file above calls one of its name, another function where a file imports it and calls
    it by its bare name."""

    def __init__(self, names):
        self.code = {file: re.sub(r"//.*", "", "\n".join(lines_of(file))) for file in names}
        self.methods, self.functions, self.imports, self.above = {}, {}, {}, crates_above()
        self.handed_out = {}
        for file, text in self.code.items():
            self.methods[file] = set(re.findall(r"(?:\.|::)(\w+)(?:::<[^>]*>)?\(", text))
            self.functions[file] = set(re.findall(r"(?<![.:\w])(?<!fn )(\w+)(?:::<[^>]*>)?\(", text))
            self.imports[file] = brought_in(text)
            if file.endswith("/src/lib.rt"):
                self.handed_out[crate_of(file)] = set(re.findall(r"\w+", " ".join(re.findall(r"pub use ([^;]*);", text))))

    def callers(self, name, is_method, crate):
        """The files that call it: those of the crates above, and the tests of its own crate."""
        for file, text in self.code.items():
            if name not in (self.methods if is_method else self.functions)[file]:
                continue
            if crate_of(file) == crate and is_test(file, text):
                yield file
            elif crate_of(file) in self.above.get(crate, ()):
                named, whole = self.imports[file]
                if is_method or name in named or crate in whole:
                    yield file

    def has_caller_within(self, name, is_method, file):
        """Whether the crate itself calls it, outside of its tests."""
        where = self.methods if is_method else self.functions
        return any(
            name in where[other] for other, text in self.code.items() if crate_of(other) == crate_of(file) and not is_test(other, text)
        )

    def public(self):
        """The public functions, laws left out: the file, the lines of comment before it, the name, and whether it is a method."""
        for file, text in self.code.items():
            whole = "\n".join(lines_of(file))
            for doc, indent, name in re.findall(r"((?:^ *(?:///|#\[|ghost ).*\n)*)^( *)pub (?:const )?fn ([a-z_0-9]+)", whole, re.M):
                if not name.startswith("law_") and (indent or name in self.handed_out.get(crate_of(file), ())):
                    yield file, doc, name, bool(indent)


def uncalled(calls):
    """The public functions that neither another crate nor a test calls."""
    for file, _, name, is_method in calls.public():
        if not any(calls.callers(name, is_method, crate_of(file))):
            yield f"{file}: {name}"


def tested_alone(calls):
    """The public functions that only tests call, and whose comment does not say so."""
    for file, doc, name, is_method in calls.public():
        callers = [*calls.callers(name, is_method, crate_of(file))]
        by_tests = callers and all(is_test(it, calls.code[it]) for it in callers)
        if by_tests and not calls.has_caller_within(name, is_method, file) and "Only tests call it" not in re.sub(r"\n */// ", " ", doc):
            yield f"{file}: {name}"


def main():
    sources = files("crates/*.rt")
    specs = [it for it in files("crates/*.antt") if "/specs/" in it]
    calls = Calls(sources)
    found = {
        f"source lines over {SOURCE_WIDTH} columns": [*wide(sources, SOURCE_WIDTH)],
        f"spec lines over {SPEC_WIDTH} columns": [*wide(specs, SPEC_WIDTH)],
        f"functions over {FUNCTION_LINES} lines": [*long_functions(sources)],
        "public functions that nothing else calls": [*uncalled(calls)],
        "public functions that only tests call, and that do not say so": [*tested_alone(calls)],
    }
    with open("checks/counts", encoding="utf-8") as it:
        most = dict(reversed(line.strip().split(" ", 1)) for line in it if line.strip())
    for what, places in found.items():
        allowed = int(most.get(what, 0))
        if len(places) > allowed:
            print(f"{len(places)} {what}, where at most {allowed} are allowed:", *places, sep="\n  ")
        elif len(places) < allowed:
            print(f"note: {len(places)} {what}: lower the {allowed} of checks/counts", file=sys.stderr)


main()
