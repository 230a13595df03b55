"""Conversations with ashd and with the host on AngelScript's engine, a case at a time."""

import os
import select
import subprocess

SECONDS = 20


class Ended(Exception):
    """The program ended, or did not reply in time."""


class Talk:
    """A program that replies to each line with a line. What it has taken away is kept by its own numbers."""

    def __init__(self, words):
        self.run = subprocess.Popen(words, stdin=subprocess.PIPE, stdout=subprocess.PIPE, stderr=subprocess.DEVNULL)
        self.rest = b""

    def ask(self, line, source=None):
        data = line.encode() + b"\n" + (b"" if source is None else source + b"\n")
        try:
            self.run.stdin.write(data)
            self.run.stdin.flush()
        except BrokenPipeError as fault:
            raise Ended from fault
        while b"\n" not in self.rest:
            if not select.select([self.run.stdout], [], [], SECONDS)[0]:
                raise Ended
            more = os.read(self.run.stdout.fileno(), 1 << 20)
            if not more:
                raise Ended
            self.rest += more
        reply, self.rest = self.rest.split(b"\n", 1)
        return reply.decode("latin-1")

    def end(self):
        self.run.kill()
        self.run.communicate()


class Reply:
    """What a request is replied to: the words without the sequence number, and the host objects that went."""

    def __init__(self, line):
        words, _, gone = line.partition(" dropped ")
        before, _, number = words.rpartition(" seq ")
        self.words = before if number.isdigit() and before else words
        self.gone = [int(it) for it in gone.split()]

    def __str__(self):
        return self.words + (f" dropped {' '.join(str(it) for it in self.gone)}" if self.gone else "")


class Ashd(Talk):
    def __init__(self, program, case):
        super().__init__([program, "try", "--budget", str(case.budget), "--counters", str(case.counters)])

    def whole(self, module, name):
        """A global with all that it leads to, as the host writes it."""
        reply = self.ask(f"get {module} {name}")
        return self.place(reply.removeprefix("ok "), {})

    def place(self, text, met):
        """A value: `object N` as what the object holds, or as its place among those that were met before."""
        if not text.startswith("object "):
            return text
        number = text.split()[1]
        if number in met:
            return f"#{met[number]}"
        met[number] = len(met) + 1
        words = self.ask(f"object {number}").split()[3:]
        if words[0] == "array":
            return "array{" + "".join(f" {self.place(it, met)}" for it in values(words[3:], False)) + " }"
        if words[3:4] == ["state"]:
            return f"Counter{{ {int.from_bytes(bytes.fromhex(words[4]), 'little', signed=True)} }}"
        fields = values(words[3:], True)
        return words[0].split(".")[1] + "{" + "".join(f" {name} {self.place(it, met)}" for name, it in fields) + " }"


def values(words, named):
    """The values of a reply, each with the name before it if they have names."""
    at = 0
    while at < len(words):
        name = words[at]
        at += named
        count = 2 if words[at] == "object" else 1
        text = " ".join(words[at : at + count])
        at += count
        yield (name, text) if named else text
