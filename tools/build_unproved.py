"""Builds a program without its proofs, as out/NAME-unproved, if that is not done for the present sources: build_unproved.py
[NAME], which is ashd or ash_world, and ashd if none is given. Such a build looks for overflows and bad accesses as it runs, and
is slow."""

import os
import subprocess
import sys
import tempfile
import time

from kit import TOP, Program, need_rt

OUT = f"{TOP}/out"
SECONDS_FOR_A_RUN = 600
# A script that does not end: a load of it spends its budget, and so does each call of its function.
ENDLESS = "int f() { for (;;) { } return 1; } int n = f();"
SLOW = "int f() { for (;;) { } return 1; }"


class Build:
    """How a program is built: with these words, of which FOLDER is an empty folder, it runs until all requests are handled. That
    takes long, since rt try removes a program that it built once that has run. It is whole if it writes this to these other
    words."""

    def __init__(self, name, words, requests, other_words, answer):
        self.words, self.requests, self.other_words, self.answer = words, requests, other_words, answer
        self.program = Program(name, f"{OUT}/{name}-unproved", f"{OUT}/{name}-unproved.built-from")


BUILDS = {
    "ashd": Build(
        "ashd",
        ["try", "--budget", str(2**64 - 1), "--counters", "0"],
        f"load m {len(ENDLESS)}\n{ENDLESS}\n",
        ["check", os.devnull],
        b"ok\n",
    ),
    # its budget is fixed, so many calls spend it
    "ash_world": Build(
        "ash_world",
        ["FOLDER"],
        f"load m {len(SLOW)}\n{SLOW}\n" + "call m f\n" * 100_000,
        [],
        b"Error: the words are: ash_world FOLDER\n",
    ),
}
PROGRAM = BUILDS["ashd"].program


def write(build, text):
    print(f"{build.program.name}-unproved: {text}", file=sys.stderr, flush=True)


def program_below(folder):
    """What rt try has built in this folder, and runs."""
    for at, _, names in os.walk(folder):
        if "program" in names:
            return f"{at}/program"
    return None


def is_whole(build, program):
    """Whether a program that was copied is all of it: the copy may have been made while it was written."""
    try:
        ran = subprocess.run([program, *build.other_words], stdout=subprocess.PIPE, stderr=subprocess.STDOUT)
    except OSError:
        return False
    return ran.stdout == build.answer


def copy_while_it_runs(build, work, folder, copy):
    """Copies the program that rt try builds in this folder, unless rt try ends before. Returns whether it did."""
    while work.poll() is None:
        built = program_below(folder)
        if built and subprocess.call(["cp", built, copy], stderr=subprocess.DEVNULL) == 0 and is_whole(build, copy):
            return True
        time.sleep(1)
    return False


def compile_to(build, copy, folder):
    """Compiles a program as this file, and returns whether that went well. It is ended when it has been copied."""
    os.mkdir(f"{folder}/try")
    os.mkdir(f"{folder}/store")
    with open(f"{folder}/requests", "w", encoding="utf-8") as file:
        file.write(build.requests)
    words = ["rt", "try", "--steps", "1", "--seconds", str(SECONDS_FOR_A_RUN), "--"]
    words += [f"{folder}/store" if it == "FOLDER" else it for it in build.words]
    log = f"{folder}/log"
    with open(f"{folder}/requests", "rb") as requests, open(log, "wb") as output:
        how = {"cwd": f"{TOP}/crates/{build.program.name}", "stdin": requests, "stdout": output, "stderr": subprocess.STDOUT}
        with subprocess.Popen(words, env={**os.environ, "TMPDIR": f"{folder}/try"}, **how) as work:
            try:
                copied = copy_while_it_runs(build, work, f"{folder}/try", copy)
            finally:
                work.terminate()
    if not copied:
        with open(log, encoding="utf-8", errors="replace") as file:
            write(build, f"it was not compiled. rt try ended with:\n{file.read()[-4000:]}")
    return copied


def build(name="ashd"):
    """Builds a program if that is not done for the present sources. Returns whether it is there."""
    made = BUILDS[name]
    sources = made.program.sum_of_sources()
    if made.program.is_built_from(sources):
        return True
    os.makedirs(OUT, exist_ok=True)
    write(made, "compiling it without its proofs, which takes one to three minutes, and longer beside other work")
    with tempfile.TemporaryDirectory(prefix=f"{name}-") as folder:
        if not compile_to(made, f"{folder}/{name}", folder):
            return False
        made.program.take(f"{folder}/{name}", sources)
    return True


if __name__ == "__main__":
    need_rt("build_unproved.py")
    chosen = sys.argv[1:] or ["ashd"]
    if len(chosen) > 1 or chosen[0] not in BUILDS:
        sys.exit(f"build_unproved.py: it takes one of these, or nothing: {' '.join(BUILDS)}")
    try:
        sys.exit(0 if build(chosen[0]) else 1)
    except KeyboardInterrupt:
        sys.exit(130)
