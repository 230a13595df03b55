"""A client of a world: it runs the program, writes requests to it as lines, and reads a line of reply to each."""

import subprocess


class World:
    def __init__(self, program, folder):
        words = [program, folder]
        self.process = subprocess.Popen(words, stdin=subprocess.PIPE, stdout=subprocess.PIPE)

    def send(self, request):
        """Sends a request, and does not wait for its reply."""
        self.process.stdin.write(request)
        self.process.stdin.flush()

    def reply(self):
        return self.process.stdout.readline().decode().rstrip("\n")

    def ask(self, *words):
        """The reply to a request of these words."""
        self.send(" ".join(map(str, words)).encode() + b"\n")
        return self.reply()

    def batch(self, *requests):
        """The replies to these lines as one: all of it is stored, or nothing."""
        self.send("\n".join([f"batch {len(requests)}", *requests, ""]).encode())
        return [self.reply() for _ in requests]

    def load(self, module, path):
        """The reply to a load of the script in a file. Its length is in bytes, so the file is read as bytes."""
        with open(path, "rb") as file:
            source = file.read()
        self.send(b"load %s %d\n%s\n" % (module.encode(), len(source), source))
        return self.reply()

    def kill(self):
        """Ends the program as a crash does, with SIGKILL: it writes nothing more."""
        self.process.kill()
        self.process.communicate()

    def quit(self):
        self.ask("quit")
        self.process.communicate()
