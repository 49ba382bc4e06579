#!/usr/bin/python3
import subprocess


class Bench:
    """The program as an object: send a line, get the lines that answer it."""

    def __init__(self, *options):
        pipes = {"stdin": subprocess.PIPE, "stdout": subprocess.PIPE}
        self.ran = subprocess.Popen(["propbench", *options], encoding="utf-8", **pipes)

    def send(self, line):
        self.ran.stdin.write(line + "\n")
        self.ran.stdin.flush()
        if not line.strip(" \t") or line.lstrip(" \t").startswith("#"):
            return []
        first = self.read()
        word, *rest = first.split(" ")
        if word == "in:":
            return [first, self.read()]
        if word == "nogoods" and rest[0] != "=":
            return [first] + [self.read() for _ in range(int(rest[0]))]
        return [first]

    def read(self):
        reply = self.ran.stdout.readline()
        if not reply:
            raise EOFError(f"propbench ended with status {self.ran.wait()}")
        return reply.removesuffix("\n")

    def settle(self, steps=100_000):
        """Runs in slices, between which other work can be done."""
        self.send(f"limit {steps}")
        while (reply := self.send("settle")) == ["unsettled"]:
            pass
        return reply

    def close(self):
        self.ran.stdin.close()
        return self.ran.wait()


bench = Bench()
for line in ["cell x span", "cell y span", "cell z span", "attach sum x y z"]:
    assert bench.send(line) == ["ok"], line
bench.send("tell morning x 3..5")
bench.send("tell evening y 10")
print(*bench.settle())
print(*bench.send("why z"))
print(*bench.send("worldview"), sep="\n")
print(*bench.send("ask w"))
print("status", bench.close())
