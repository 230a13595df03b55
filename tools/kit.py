"""What the commands at the top of the repository share: where it is, its toolchain, how long proving takes, and of which
sources a program was built."""

import hashlib
import os
import shutil
import subprocess
import sys

TOP = os.path.dirname(os.path.dirname(os.path.abspath(__file__)))

# In about how many minutes all crates below ashd, and ashd after these, are proved from nothing, by the number of
# processors: on a fast machine and on a slow one. These are estimates from proofs that ran beside other work.
MINUTES = {4: (60, 120)}


def processors():
    return len(os.sched_getaffinity(0))


def time_to_prove():
    """About how long it takes to prove and build ashd, on the machine nearest to this one."""
    measured = max((it for it in MINUTES if it <= processors()), default=min(MINUTES))
    fast, slow = MINUTES[measured]
    return f"{fast} to {slow} minutes on {measured} processors, by how fast they are (this machine has {processors()})"


def rt_environment(**more):
    """The environment of `rt ci`. Without RT_JOBS, rt counts some three times the memory that a check takes, and leaves
    processors idle."""
    return {"RT_JOBS": str(processors()), **os.environ, **more}


def uses_of_crates():
    """The libraries that each crate of the repository uses, by the crate's name, lowest crates first."""
    with open(f"{TOP}/crates.txt", encoding="utf-8") as file:
        lines = [line.partition("#")[0].partition(":") for line in file]
    return {name.split()[0]: used.split() for name, _, used in lines if name.strip()}


def in_order(name, uses, order):
    """Adds a crate to an order, after those of the repository that it uses."""
    for used in uses[name]:
        if used in uses and used not in order:
            in_order(used, uses, order)
    order.append(name)
    return order


def crates_of(program):
    """The crates that a program is built of, each after those that it uses."""
    return in_order(program, uses_of_crates(), [])


def files_of(crate):
    """The files that a proof of the crate reads."""
    for part in ("src", "specs", "proofs"):
        for folder, folders, names in os.walk(f"{TOP}/crates/{crate}/{part}"):
            folders.sort()
            yield from (f"{folder}/{name}" for name in sorted(names))


def sum_of_file(path):
    with open(path, "rb") as file:
        return hashlib.sha256(file.read()).hexdigest()


def sum_of_sources(program):
    """A sum of all that a program is built from: the toolchain, what each crate uses, and the crates' files."""
    uses = uses_of_crates()
    sources = [subprocess.check_output(["rt", "version"])]
    for crate in crates_of(program):
        sources += [crate, uses[crate]]
        sources += [(os.path.relpath(it, TOP), sum_of_file(it)) for it in files_of(crate)]
    return hashlib.sha256(repr(sources).encode()).hexdigest()


class Program:
    """A program that a command builds, and a file that records the sum of the sources that it was built from, and its own."""

    def __init__(self, name, path, record):
        self.name, self.path, self.record = name, path, record

    def sum_of_sources(self):
        return sum_of_sources(self.name)

    def is_built_from(self, sources):
        """Whether the program is there and was built from the sources with this sum."""
        if not (os.path.isfile(self.path) and os.path.isfile(self.record)):
            return False
        with open(self.record, encoding="utf-8") as file:
            return file.read() == f"{sources} {sum_of_file(self.path)}\n"

    def take(self, built, sources):
        """Copies what was built from the sources with this sum, and records it unless they have changed since."""
        # under another name first, since the program may run
        shutil.copyfile(built, f"{self.path}.new")
        os.chmod(f"{self.path}.new", 0o755)
        os.replace(f"{self.path}.new", self.path)
        if sources == self.sum_of_sources():
            with open(self.record, "w", encoding="utf-8") as file:
                file.write(f"{sources} {sum_of_file(self.path)}\n")


def need_rt(command):
    """Ends this command where the toolchain is not installed."""
    if shutil.which("rt") is None:
        print(
            f"{command}: the command rt is not on the PATH. Install the Rattle kit that README.md names under"
            " 'Building', and put its folder bin on the PATH.",
            file=sys.stderr,
        )
        sys.exit(127)
