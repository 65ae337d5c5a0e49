"""Tries the scripts ./tetgen, ./tetfit and ./tetwhere, tools/dist and checks/dist on a made-up
repository: its programs are scripts, and it has stand-ins for the kit and for tools/prove.py. It
prints what they do otherwise than they have to."""
import gzip
import os
import shutil
import subprocess
import sys
import tempfile

TOP = os.path.dirname(os.path.dirname(os.path.abspath(__file__)))
PROGRAMS = ("tetgen", "tetfit", "tetwhere")
# What the scripts and the made-up programs call, the kit left out.
COMMANDS = (
    "awk cat chmod cmp dirname find grep gzip ls mkdir mv readlink rm sed sh sha256sum sort uname"
)
FILES = {
    "crates.txt": "# crates\nlow:\ntests: low\n" + "".join(f"{it}: low std\n" for it in PROGRAMS),
    "crates/low/src/lib.rt": "low\n",
    "crates/low/specs/Low.antt": "low\n",
    "crates/low/proofs/low/Proof.antt": "low\n",
    "crates/low/must-fail/low.edit": "low\n",
    "crates/tests/src/lib.rt": "tests\n",
    **{f"crates/{it}/src/main.rt": f"{it}\n" for it in PROGRAMS},
}
# A program that says who built it, where it runs, and its words, and ends with a status of its own.
PROGRAM = '#!/bin/sh\necho "{name} by {who} in $(pwd -P): $*"\nexit 3\n'
PROVE = f"""import os, sys
name = sys.argv[1]
os.makedirs(f"crates/{{name}}/out", exist_ok=True)
with open(f"crates/{{name}}/out/{{name}}", "w") as file:
    file.write({PROGRAM!r}.format(name=name, who="prove.py"))
os.chmod(file.name, 0o755)
"""
RUNS = "tetgen: running dist/tetgen.gz, built from these sources; "
BUILDS = "./tetgen --build proves and builds it here\n"
NO_KIT = (
    "to prove and build it here takes the Rattle toolchain (rt, python3), which is not on this "
    "machine\n"
)
OTHER_SOURCES = "tetgen: dist/tetgen.gz was built from other sources, so it is not run\n"
OTHER_SUM = (
    "tetgen: dist/tetgen.gz has another sum than dist/SHA256SUMS says, so it is not run\n"
)


def write(path, text, mode=0o644):
    os.makedirs(os.path.dirname(path), exist_ok=True)
    with open(path, "w", encoding="utf-8") as file:
        file.write(text)
    os.chmod(path, mode)


class Repository:
    """A made-up repository, with two folders of commands, one of them with the stand-in kit."""

    def __init__(self, folder):
        self.top, self.caller = f"{folder}/top", f"{folder}/caller"
        self.commands = {False: f"{folder}/bare", True: f"{folder}/kit"}
        os.makedirs(self.caller)
        shutil.copytree(f"{TOP}/tools", f"{self.top}/tools")
        os.makedirs(f"{self.top}/checks")
        for path in ("checks/dist", *PROGRAMS):
            shutil.copy2(f"{TOP}/{path}", f"{self.top}/{path}")
        for path, text in FILES.items():
            write(f"{self.top}/{path}", text)
        self.set_commands()

    def set_commands(self):
        for folder in self.commands.values():
            os.makedirs(folder)
            for it in COMMANDS.split():
                os.symlink(shutil.which(it), f"{folder}/{it}")
        kit = self.commands[True]
        write(f"{kit}/rt", "#!/bin/sh\necho kit 1\n", 0o755)
        write(f"{kit}/python3", f'#!/bin/sh\nexec "{sys.executable}" "$@"\n', 0o755)
        write(f"{self.top}/tools/prove.py", f"import os\nos.chdir({self.top!r})\n{PROVE}")

    def ci(self, who="rt ci"):
        """Builds the programs as rt ci does, with the proofs left out."""
        for it in PROGRAMS:
            write(f"{self.top}/crates/{it}/out/{it}", PROGRAM.format(name=it, who=who), 0o755)

    def clean(self):
        """Leaves what a fresh clone has."""
        for folder in (*(f"crates/{it}" for it in PROGRAMS), "dist"):
            shutil.rmtree(f"{self.top}/{folder}/out", ignore_errors=True)

    def run(self, *words, has_kit=True, **variables):
        """The status of a command of the repository and its two outputs."""
        variables = {"PATH": self.commands[has_kit], "HOME": f"{self.caller}/home", **variables}
        command = [f"{self.top}/{words[0]}", *words[1:]]
        how = {"cwd": self.caller, "env": variables, "capture_output": True, "text": True}
        ran = subprocess.run(command, check=False, **how)
        return ran.returncode, ran.stdout, ran.stderr

    def said(self, who, *words):
        """What a start of the program by this builder gives, that says nothing itself."""
        return 3, f"tetgen by {who} in {os.path.realpath(self.caller)}: {' '.join(words)}\n", ""


def change(path):
    """Changes one byte of a file, and leaves its size and its time."""
    times = os.stat(path)
    with open(path, "r+b") as file:
        file.seek(times.st_size // 2)
        byte = file.read(1)[0]
        file.seek(-1, os.SEEK_CUR)
        file.write(bytes([byte ^ 1]))
    os.utime(path, ns=(times.st_atime_ns, times.st_mtime_ns))


def first_starts(repo):
    words = ("a", "b c", "")
    status, output, _ = repo.said("rt ci", *words)
    yield "a first start", repo.run("tetgen", *words), (status, output, RUNS + BUILDS)
    yield "a second start", repo.run("tetgen", *words), (status, output, "")


def other_machines(repo):
    status, output, _ = repo.said("rt ci", "a")
    write(f"{repo.top}/dist/out", "")
    yield "dist/ with no room", repo.run("tetgen", "a"), (status, output, RUNS + BUILDS)
    yield "a second start there", repo.run("tetgen", "a"), repo.said("rt ci", "a")
    os.remove(f"{repo.commands[True]}/uname")
    write(f"{repo.commands[True]}/uname", "#!/bin/sh\necho Linux aarch64\n", 0o755)
    other = "tetgen: dist/tetgen.gz is for Linux on x86-64, so it is not run\n"
    built = (*repo.said("prove.py", "a")[:2], other)
    yield "another processor", repo.run("tetgen", "a"), built


def other_libraries(repo):
    repo.ci()
    write(f"{repo.top}/crates/tetgen/out/tetgen", "#!/no/loader\n", 0o755)
    repo.run("tools/dist")
    repo.clean()
    other = "tetgen: dist/tetgen.gz does not start on this machine, so it is not run\n"
    refused = 125, "", f"{other}tetgen: {NO_KIT}"
    for number in ("first", "second"):
        yield f"a {number} start with no loader", repo.run("tetgen", "a", has_kit=False), refused


def starts_without_kit(repo):
    status, output, _ = repo.said("rt ci", "a")
    first = repo.run("tetgen", "a", has_kit=False)
    yield "a first start without the kit", first, (status, output, RUNS + NO_KIT)
    refused = 125, "", f"tetgen: {NO_KIT}"
    yield "--build without the kit", repo.run("tetgen", "--build", has_kit=False), refused
    built = repo.run("tetgen", "a", has_kit=False, TETGEN_BUILD="1")
    yield "TETGEN_BUILD=1 without the kit", built, refused


def changed_sources(repo):
    repo.run("tetgen", "a")
    refused = 125, "", f"{OTHER_SOURCES}tetgen: {NO_KIT}"
    for path in FILES:
        change(f"{repo.top}/{path}")
        counts = path.startswith(("crates/low/", "crates/tetgen/")) and "must-fail" not in path
        wanted = refused if counts or path == "crates.txt" else repo.said("rt ci", "a")
        yield f"a changed byte of {path}", repo.run("tetgen", "a", has_kit=False), wanted
        change(f"{repo.top}/{path}")
    added = f"{repo.top}/crates/low/proofs/added.antt"
    write(added, "")
    yield "an added file", repo.run("tetgen", "a", has_kit=False), refused
    os.remove(added)
    yield "no change", repo.run("tetgen", "a", has_kit=False), repo.said("rt ci", "a")
    os.remove(f"{repo.top}/crates/low/specs/Low.antt")
    built = (*repo.said("prove.py", "a")[:2], OTHER_SOURCES)
    yield "a removed file", repo.run("tetgen", "a"), built


def changed_programs(repo):
    repo.run("tetgen", "a")
    change(f"{repo.top}/dist/out/tetgen")
    again = (*repo.said("rt ci", "a")[:2], RUNS + BUILDS)
    yield "a changed byte of the unpacked program", repo.run("tetgen", "a"), again
    refused = 125, "", f"{OTHER_SUM}tetgen: {NO_KIT}"
    change(f"{repo.top}/dist/tetgen.gz")
    yield "a changed byte of dist/", repo.run("tetgen", "a", has_kit=False), refused
    other = PROGRAM.format(name="tetgen", who="another")
    with gzip.open(f"{repo.top}/dist/tetgen.gz", "wt") as file:
        file.write(other)
    yield "another program in dist/", repo.run("tetgen", "a", has_kit=False), refused
    built = (*repo.said("prove.py", "a")[:2], OTHER_SUM)
    yield "another program in dist/, with the kit", repo.run("tetgen", "a"), built


def built_here(repo):
    built = repo.said("prove.py", "a")
    yield "TETGEN_BUILD=1", repo.run("tetgen", "a", TETGEN_BUILD="1"), built
    yield "a start of what was built here", repo.run("tetgen", "a"), built
    change(f"{repo.top}/crates/low/src/lib.rt")
    refused = repo.run("tetgen", "a", has_kit=False, TETGEN_BUILD="1")
    yield "a change behind it", refused, (125, "", f"tetgen: {NO_KIT}")
    where = f"tetgen: proved and built from these sources: {repo.top}/crates/tetgen/out/tetgen\n"
    yield "--build behind it", repo.run("tetgen", "--build"), (0, where, "")
    change(f"{repo.top}/crates/low/src/lib.rt")
    other = f"{where}tetgen: it is another program than that of dist/tetgen.gz\n"
    yield "--build", repo.run("tetgen", "--build"), (0, other, "")
    repo.ci()
    like = f"{where}tetgen: it is the program of dist/tetgen.gz, byte for byte\n"
    yield "--build behind rt ci", repo.run("tetgen", "--build"), (0, like, "")


def no_dist(repo):
    shutil.rmtree(f"{repo.top}/dist")
    yield "a start without dist/", repo.run("tetgen", "a"), repo.said("prove.py", "a")
    note = "note: there is no dist/, so each program is built at its first start\n"
    yield "checks/dist without dist/", repo.run("checks/dist"), (0, "", note)


def pages(repo):
    for name in ("tetgen", "tetwhere"):
        with open(f"{TOP}/tools/pages/{name}", encoding="utf-8") as file:
            page = 0, file.read(), ""
        for words in ((), ("-h",), ("--help",)):
            yield f"{name} {words}", repo.run(name, *words, has_kit=False), page
    status, output, _ = repo.run("tetfit", "-h")
    wanted = 3, repo.said("rt ci", "-h")[1].replace("tetgen", "tetfit")
    yield "tetfit -h", (status, output), wanted


def unlike(name, what):
    return f"{what}: rt ci and then tools/dist make it anew\n".replace("NAME", name)


def compared(repo):
    lacking = "crates/NAME/out/NAME is not built, so dist/NAME.gz was not compared with it\n"
    all_lacking = "".join(lacking.replace("NAME", it) for it in PROGRAMS)
    notes = "".join(f"note: {it}\n" for it in all_lacking.splitlines())
    yield "no programs", repo.run("checks/dist"), (0, all_lacking, "")
    yield "no programs, told so", repo.run("checks/dist", "--unbuilt"), (0, "", notes)
    repo.ci()
    yield "the same programs", repo.run("checks/dist"), (0, "", "")
    change(f"{repo.top}/crates/tetgen/out/tetgen")
    told = "dist/NAME.gz is not the program that is built as crates/NAME/out/NAME"
    other = unlike("tetgen", told)
    yield "another program of rt ci", repo.run("checks/dist"), (0, other, "")
    repo.ci()
    change(f"{repo.top}/crates/tetfit/src/main.rt")
    other = unlike("tetfit", "dist/NAME.gz was built from other sources")
    yield "other sources", repo.run("checks/dist"), (0, other, "")
    change(f"{repo.top}/crates/tetfit/src/main.rt")
    write(f"{repo.commands[True]}/rt", "#!/bin/sh\necho kit 2\n", 0o755)
    other = unlike("", "dist/ was built by kit 1, and not by kit 2")
    yield "another kit", repo.run("checks/dist"), (0, other, "")


def compared_sums(repo):
    repo.ci()
    change(f"{repo.top}/dist/tetwhere.gz")
    status, output, _ = repo.run("checks/dist")
    other = unlike("tetwhere", "dist/NAME.gz has another sum than dist/SHA256SUMS says")
    yield "a changed byte of dist/", (status, output.startswith(other)), (0, True)
    repo.run("tools/dist")
    write(f"{repo.top}/dist/more", "")
    other = "dist/more is none of the programs\n"
    yield "one more file in dist/", repo.run("checks/dist"), (0, other, "")
    os.remove(f"{repo.top}/dist/more")
    change(f"{repo.top}/crates/low/src/lib.rt")
    refused = repo.run("tools/dist")
    old = "dist: crates/tetgen/out/tetgen is not built from these sources: rt ci builds it\n"
    yield "tools/dist behind a change", refused, (1, "", old)


CASES = (
    first_starts,
    other_machines,
    other_libraries,
    starts_without_kit,
    changed_sources,
    changed_programs,
    built_here,
    no_dist,
    pages,
    compared,
    compared_sums,
)


def main():
    for case in CASES:
        with tempfile.TemporaryDirectory() as folder:
            repo = Repository(folder)
            repo.ci()
            if repo.run("tools/dist") != (0, "", ""):
                print("tools/dist makes no dist/ of programs that were just built")
            repo.clean()
            for what, found, wanted in case(repo):
                if found != wanted:
                    print(f"{what}: {found}, and not {wanted}")


main()
