"""Runs a program in a directory of its own, with a time limit. Standard input, output and error are files there."""

import os
import signal

SECONDS = 10


class Broken(Exception):
    """A run that crashed, hung, ended with the wrong status or wrote to standard error."""


class Runner:
    def __init__(self, directory):
        self.directory = directory
        os.makedirs(directory, exist_ok=True)
        self.image = None
        self.child = None
        self.late = False
        signal.signal(signal.SIGALRM, self.stop)

    def path(self, name):
        return os.path.join(self.directory, name)

    def put(self, name, content):
        with open(self.path(name), "wb") as file:
            file.write(content)

    def get(self, name):
        with open(self.path(name), "rb") as file:
            return file.read()

    def stop(self, *_):
        self.late = True
        os.kill(self.child, signal.SIGKILL)

    def run(self, program, stdin):
        """What the program prints, given these bytes; its status must be 0 and standard error empty."""
        self.put("in", stdin)
        make = os.O_WRONLY | os.O_CREAT | os.O_TRUNC
        streams = [
            (os.POSIX_SPAWN_OPEN, 0, self.path("in"), os.O_RDONLY, 0),
            (os.POSIX_SPAWN_OPEN, 1, self.path("out"), make, 0o600),
            (os.POSIX_SPAWN_OPEN, 2, self.path("err"), make, 0o600),
        ]
        os.chdir(self.directory)
        self.late = False
        self.child = os.posix_spawn(program, [program], {}, file_actions=streams)
        signal.setitimer(signal.ITIMER_REAL, SECONDS)
        _, status = os.waitpid(self.child, 0)
        signal.setitimer(signal.ITIMER_REAL, 0)
        if self.late:
            raise Broken(f"no end within {SECONDS} seconds")
        if status != 0:
            raise Broken(f"ended with wait status {status}: {self.get('err')[:200]!r}")
        if os.path.getsize(self.path("err")) != 0:
            raise Broken(f"wrote to standard error: {self.get('err')[:200]!r}")
        return self.get("out")

    def answer(self, canalroute, image, commands):
        """What canalroute prints for an image and its commands."""
        if self.image != image:
            self.put("book.img", image)
            self.image = image
        output = self.run(canalroute, commands)
        return output
