"""Proves and builds a program or a static library of this repository: prove.py NAME. Crates are proved side by side, each once those below it are, and first those with the
longest chain of others above them, each in a copy of the sources of its own, since rt locks the folders below the crate that it works in. What is built is
linked into the checkout. How far that has come goes to standard error: on one line of a terminal, which is written anew each second, else on a line for
each crate. A build that fails prints all that rt said of the crate, and ends with status 125."""
import fcntl
import os
import shutil
import signal
import subprocess
import sys
import tempfile
import threading
import time

TOP = os.path.dirname(os.path.dirname(os.path.abspath(__file__)))
PARTS = ("src", "specs", "proofs")
# What a check takes at most, in bytes, where several run at once.
MEMORY = 4 << 30
FAILED = 125
WAITS = ("another copy of the repository is building", "waiting for another rt")


def crate_of(line):
    """The name of the crate that a line of crates.txt lists, or of none."""
    return line.partition(":")[0].split()[0] if ":" in line and not line.startswith("#") else None


def made_of(name):
    """What is built of the crate: an archive of a static library, else a program."""
    with open(f"{TOP}/crates.txt", encoding="utf-8") as lines:
        is_static = any(it.partition(":")[0].split()[1:] == ["staticlib"] for it in lines if crate_of(it) == name)
    return f"{TOP}/crates/{name}/out/{f'lib{name}.a' if is_static else name}"


def crates_below(program):
    """Each own crate of the program, itself last, with the own crates that it lists."""
    listed, order = {}, {}
    with open(f"{TOP}/crates.txt", encoding="utf-8") as lines:
        for line in lines:
            if crate_of(line):
                listed[crate_of(line)] = line.partition(":")[2].split()

    def visit(name):
        if name in listed and name not in order:
            for below in listed[name]:
                visit(below)
            order[name] = [it for it in listed[name] if it in listed]

    visit(program)
    return order


def size_of(name):
    """The bytes of the crate's sources: the time of its proof grows with them."""
    return sum(
        os.path.getsize(f"{at}/{file}")
        for part in PARTS
        for at, _, files in os.walk(f"{TOP}/crates/{name}/{part}")
        for file in files
    )


def chains(order):
    """For each crate the size of the longest chain from it up to the program."""
    chain = {}
    for name in reversed([*order]):
        chain[name] = chain.get(name, 0) + size_of(name)
        for below in order[name]:
            chain[below] = max(chain.get(below, 0), chain[name])
    return chain


def workers():
    free = next(int(it.split()[1]) << 10 for it in open("/proc/meminfo", encoding="ascii") if it.startswith("MemAvailable"))
    return max(1, min(len(os.sched_getaffinity(0)), free // MEMORY))


def clock(since):
    seconds = int(time.monotonic() - since)
    return f"{seconds // 60}:{seconds % 60:02}"


def copy_sources(order, to):
    """A copy of what rt reads of the crates. Its list has these alone, since rt wants a folder for each crate that is listed."""
    for name in order:
        for part in PARTS:
            if os.path.isdir(f"{TOP}/crates/{name}/{part}"):
                shutil.copytree(f"{TOP}/crates/{name}/{part}", f"{to}/crates/{name}/{part}")
    shutil.copy2(f"{TOP}/HANDLES", f"{to}/HANDLES")
    with open(f"{TOP}/crates.txt", encoding="utf-8") as lines, open(f"{to}/crates.txt", "w", encoding="utf-8") as out:
        out.writelines(it for it in lines if crate_of(it) in order)


def link(name, one, other):
    """Gives another copy the library that one has built, with rt's stamp of the text that it was built of, by links where the disk takes them."""
    made, to = f"{one}/crates/{name}/out/rlib", f"{other}/crates/{name}/out/rlib"
    shutil.rmtree(to, ignore_errors=True)

    def take(source, target):
        try:
            os.link(source, target)
        except OSError:
            shutil.copy2(source, target)

    shutil.copytree(made, to, copy_function=take)


class Proofs:
    """The crates of a program, those that are proved by now, and those that are under proof."""

    def __init__(self, program, copies):
        self.program, self.copies, self.order = program, copies, crates_below(program)
        self.chain, self.begun = chains(self.order), time.monotonic()
        self.left, self.proved, self.doing, self.log, self.failed = [*self.order], set(), {}, {}, None
        self.turn, self.ran = threading.Condition(), set()

    def next(self):
        """The crate with the longest chain of those whose turn it is, or None where there is none any more."""
        with self.turn:
            while self.left and not self.failed:
                ready = [it for it in self.left if it != self.program and all(below in self.proved for below in self.order[it])]
                if ready:
                    name = max(ready, key=self.chain.get)
                    self.left.remove(name)
                    self.doing[name] = ""
                    return name
                if self.left == [self.program]:
                    return None
                self.turn.wait()
            return None

    def jobs(self, name):
        """How many modules of a crate are checked at a time: the crates under proof share the processors, and that with the longest chain, for which
        all others will wait, has at least half of them."""
        with self.turn:
            longest = max([*self.doing, *self.left], key=self.chain.get)
            share = len(self.copies) // len(self.doing)
            return max(1, share, len(self.copies) // 2 if name == longest else 1)

    def work(self, copy):
        """Proves crates in one copy, until none is left."""
        while (name := self.next()) is not None:
            status = self.run(name, f"{copy}/crates/{name}", ["lib", "--jobs", str(self.jobs(name))])
            with self.turn:
                if status:
                    self.failed = self.failed or name
                else:
                    for other in [*self.copies, TOP]:
                        if other != copy:
                            link(name, copy, other)
                    self.proved.add(name)
                del self.doing[name]
                self.turn.notify_all()

    def run(self, name, folder, words):
        """Runs rt there, keeps what it says, and notes where it waits for another start."""
        said = self.log.setdefault(name, [])
        with subprocess.Popen(
            ["rt", *words], cwd=folder, stdin=subprocess.DEVNULL, stdout=subprocess.PIPE, stderr=subprocess.STDOUT, text=True, errors="replace"
        ) as ran:
            self.ran.add(ran)
            for line in ran.stdout:
                said.append(line)
                self.doing[name] = " (another copy proves it)" if any(it in line for it in WAITS) else ""
            self.ran.discard(ran)
        return ran.returncode

    def tell(self, is_terminal, shown):
        """Writes how far the proofs have come, where that has changed."""
        doing = ", ".join(f"{name}{why}" for name, why in [*self.doing.items()])
        done = f"{len(self.proved)} of {len(self.order)} crates are proved"
        text = f"{self.program}: {done}, {clock(self.begun)}: {doing}"
        if is_terminal:
            width = os.get_terminal_size(2).columns
            print(f"\r\033[K{text[: (width if width > 1 else 80) - 1]}", end="", file=sys.stderr, flush=True)
        elif done != shown:
            print(text, file=sys.stderr, flush=True)
        return done

    def all(self):
        """Proves all crates below the program side by side, and then the program in the checkout itself."""
        threads = [threading.Thread(target=self.work, args=(copy,), daemon=True) for copy in self.copies]
        for it in threads:
            it.start()
        is_terminal, shown = os.isatty(2) and os.environ.get("TERM", "dumb") != "dumb", ""
        while any(it.is_alive() for it in threads):
            shown = self.tell(is_terminal, shown)
            time.sleep(1)
        if not self.failed:
            self.doing[self.program] = ""
            last = threading.Thread(target=self.build, daemon=True)
            last.start()
            while last.is_alive():
                shown = self.tell(is_terminal, shown)
                last.join(1)
        if is_terminal:
            print("\r\033[K", end="", file=sys.stderr, flush=True)
        return self.failed is None

    def build(self):
        """Builds the program, or the archive. rt ends the build of a program with a run with no words, whose refusal is of no interest."""
        is_archive = made_of(self.program).endswith(".a")
        status = self.run(self.program, f"{TOP}/crates/{self.program}", ["lib" if is_archive else "run"])
        is_run = any(it.startswith("rt: running ") for it in self.log[self.program])
        if status if is_archive else not is_run:
            self.failed = self.program

    def stop(self):
        for it in [*self.ran]:
            it.terminate()


def build(program, begun):
    made = made_of(program)
    room = tempfile.mkdtemp(prefix=f"{program}-proofs-")
    proofs = None
    try:
        order = crates_below(program)
        copies = [f"{room}/{k}" for k in range(workers())]
        for it in copies:
            copy_sources(order, it)
        print(f"{program}: proving and building it, {len(order)} crates, {len(copies)} side by side", file=sys.stderr)
        proofs = Proofs(program, copies)
        if not proofs.all():
            sys.stderr.writelines(proofs.log.get(proofs.failed, []))
            print(f"{program}: {proofs.failed} could not be proved and built, after {clock(proofs.begun)}; rt's words are above", file=sys.stderr)
            return FAILED
    finally:
        if proofs:
            proofs.stop()
        # (thousands of small files: the program does not wait for their removal)
        subprocess.Popen(["rm", "-rf", room], start_new_session=True)
    # a source that was changed during the build is newer than this
    os.utime(made, (begun, begun))
    print(f"{program}: proved and built in {clock(proofs.begun)}", file=sys.stderr)
    return 0


def main():
    program = sys.argv[1]
    signal.signal(signal.SIGTERM, lambda *_: sys.exit(FAILED))
    out = f"{TOP}/crates/{program}/out"
    os.makedirs(out, exist_ok=True)
    begun = time.time()
    with open(f"{out}/lock", "w", encoding="ascii") as lock:
        try:
            fcntl.flock(lock, fcntl.LOCK_EX | fcntl.LOCK_NB)
        except BlockingIOError:
            print(f"{program}: another start is proving and building it: waiting for it", file=sys.stderr)
            fcntl.flock(lock, fcntl.LOCK_EX)
            if os.path.exists(made_of(program)):
                return 0
        return build(program, begun)


try:
    sys.exit(main())
except KeyboardInterrupt:
    sys.exit(130)
