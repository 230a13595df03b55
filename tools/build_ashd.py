"""Proves and builds ashd, as crates/ashd/out/ashd, where that is not done for the present sources. It writes to standard
error how far it is."""

import os
import re
import shutil
import subprocess
import sys
import tempfile
import time

from kit import TOP, Program, crates_of, need_rt, rt_environment, time_to_prove

OUT = f"{TOP}/crates/ashd/out"
PROGRAM = Program("ashd", f"{OUT}/ashd", f"{OUT}/built-from")
LOG = f"{OUT}/build.log"
# What rt writes of a crate that is proved.
PROVED = r"^rt: \w+ (?:proved|is kept:)"
SECONDS_BETWEEN_LINES = 20
LINES_OF_LOG = 20


def write(text):
    print(f"ashd.sh: {text}", file=sys.stderr, flush=True)


def lines_of_log():
    with open(LOG, encoding="utf-8", errors="replace") as file:
        return file.read().splitlines()


def copy_crates(to, crates):
    """Copies these crates, without their must-fail edits, as a repository of their own."""
    for crate in crates:
        shutil.copytree(f"{TOP}/crates/{crate}", f"{to}/crates/{crate}", ignore=shutil.ignore_patterns("out", "must-fail"))
    shutil.copy(f"{TOP}/HANDLES", to)
    with open(f"{TOP}/crates.txt", encoding="utf-8") as file, open(f"{to}/crates.txt", "w", encoding="utf-8") as copy:
        copy.writelines(it for it in file if (it.split() or [""])[0].rstrip(":") in crates)


def prove(folder, crates):
    """Proves the crates of a repository and builds its programs, and returns whether that went well."""
    start = time.monotonic()
    with open(LOG, "wb") as log:
        how = {"cwd": folder, "stdin": subprocess.DEVNULL, "stdout": log, "stderr": subprocess.STDOUT}
        with subprocess.Popen(["rt", "ci"], env=rt_environment(), **how) as work:
            while work.returncode is None:
                proved, minutes = len(re.findall(PROVED, "\n".join(lines_of_log()), re.M)), int(time.monotonic() - start) // 60
                write(f"proved {proved} of {len(crates)} crates, {minutes} min so far")
                try:
                    work.wait(SECONDS_BETWEEN_LINES)
                except subprocess.TimeoutExpired:
                    pass
                except BaseException:
                    work.terminate()
                    raise
    return work.returncode == 0


def build():
    """Proves the crates of ashd and builds it, if that is not done for the present sources. Returns the status to end with."""
    sources = PROGRAM.sum_of_sources()
    if PROGRAM.is_built_from(sources):
        return 0
    os.makedirs(OUT, exist_ok=True)
    write(f"proving and building ashd. From nothing that takes {time_to_prove()}; rt's own lines go to {LOG}")
    crates = crates_of("ashd")
    with tempfile.TemporaryDirectory(prefix="ashd-") as folder:
        # rt runs what it built as another user
        os.chmod(folder, 0o711)
        copy_crates(folder, crates)
        if not prove(folder, crates):
            print(*lines_of_log()[-LINES_OF_LOG:], sep="\n", file=sys.stderr)
            write(f"ashd was not proved or not built. Above are the last lines of {LOG}")
            return 1
        PROGRAM.take(f"{folder}/crates/ashd/out/ashd", sources)
    return 0


if __name__ == "__main__":
    need_rt("ashd.sh")
    try:
        sys.exit(build())
    except KeyboardInterrupt:
        write("stopped. The next call goes on from there only if the toolchain stores what it has proved")
        sys.exit(130)
    except OSError as error:
        write(str(error))
        sys.exit(1)
