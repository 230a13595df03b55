"""Shows an example: has ashd, built without proof, serve the requests of examples/NAME.requests, and prints them with the
replies, which must be those of examples/NAME.replies. NAME is first if none is given. The program is built by the first call,
and stays: the last lines say how to go on with it."""

import os
import subprocess
import sys

import build_unproved
from kit import TOP, need_rt, time_to_prove

# How wide the requests are, beside which the replies are printed.
WIDTH = 24
LIMITS = "--budget 1000 --counters 2"
# About how many times as long the program takes to run a script as an optimised build, which was not proved either but comes
# near the proved one: a call of `fib` took 0.19 milliseconds of the processor, and 0.00009 there.
SLOWER = "2,000"


def write(text):
    print(f"first-example: {text}", file=sys.stderr, flush=True)


def text_of(path):
    with open(path, encoding="utf-8") as file:
        return file.read()


def split(text):
    """The lines of the requests, each with the script that follows it, which is empty if it loads none."""
    requests = []
    while text:
        line, _, text = text.partition("\n")
        length = int(line.split()[2]) + 1 if line.startswith("load ") else 0
        requests.append((line, text[:length]))
        text = text[length:]
    return requests


def serve(requests):
    """What the program writes as replies, and what it writes to standard error."""
    words = [build_unproved.PROGRAM.path, "try", *LIMITS.split()]
    with open(requests, "rb") as file:
        ran = subprocess.run(words, stdin=file, stdout=subprocess.PIPE, stderr=subprocess.PIPE)
    return ran.stdout.decode(errors="replace"), ran.stderr.decode(errors="replace")


def show(requests, replies):
    print("\nThe requests, each with its reply beside it, and a script below the request that loads it:\n")
    lines = iter(replies.splitlines())
    for line, script in split(requests):
        print(f"    {line:<{WIDTH}}{next(lines, '(none)')}")
        for it in script.splitlines():
            print(f"    {it}")


def go_on(requests):
    """Says how to go on with the program, from the folder that the caller is in."""
    program, requests = map(os.path.relpath, (build_unproved.PROGRAM.path, requests))
    if os.sep not in program:
        program = f"./{program}"
    print(
        f"""
This build was not proved. It is {program}, and stays there until the sources change. It tests itself as it runs, and takes
some {SLOWER} times as long for a script as an optimised build. To go on with it:

    {program} try {LIMITS} < {requests}
    {program} try {LIMITS}                   # requests that you type; quit ends it
    {program} check FILE                     # checks a script
    mkdir store && {program} create store
    {program} serve store {LIMITS} < {requests}

./ashd.sh takes the same words. It proves and builds ashd first, which takes {time_to_prove()}."""
    )


def main():
    need_rt("first-example")
    name = sys.argv[1] if len(sys.argv) > 1 else "first"
    requests, wanted = f"{TOP}/examples/{name}.requests", f"{TOP}/examples/{name}.replies"
    if not os.path.exists(requests):
        write(f"there is no {requests}")
        return 2
    if not build_unproved.build():
        return 1
    replies, errors = serve(requests)
    show(text_of(requests), replies)
    if replies != text_of(wanted):
        write(f"these replies are not those of {wanted}. The program wrote this to standard error:\n{errors}")
        return 1
    go_on(requests)
    return 0


if __name__ == "__main__":
    try:
        sys.exit(main())
    except KeyboardInterrupt:
        sys.exit(130)
