"""A program that is driven packet by packet, by pipes: what it answers to each packet is known before the next."""

import subprocess

from parts.packets import FENCES, HEAD, spelled


class Driven:
    """A program with all that it was given and all that it answered."""

    def __init__(self, path, setup, client=False):
        self.child = subprocess.Popen([path], stdin=subprocess.PIPE, stdout=subprocess.PIPE, stderr=subprocess.DEVNULL)
        self.fence, self.echo = FENCES["client" if client else "server"]
        # what it was given, packet by packet, and the packets with which it answered each; and how it ended
        self.given, self.steps, self.code = [], [], None
        self.give(0, setup)

    def give(self, peer, data):
        """Gives a packet. Returns what is answered, or nothing where the program has ended."""
        if self.code is not None:
            return []
        self.given.append((peer, data))
        try:
            self.child.stdin.write(spelled(peer, data) + spelled(*self.fence))
            self.child.stdin.flush()
        except BrokenPipeError:
            pass
        self.steps.append(list(self.answers()))
        return self.steps[-1]

    def answered(self):
        """All packets that it answered."""
        return [packet for step in self.steps for packet in step]

    def answers(self):
        """The packets that come, up to the one that answers the fence."""
        while True:
            head = self.child.stdout.read(HEAD.size)
            if not head:
                self.close()
                return
            peer, size = HEAD.unpack(head)
            data = self.child.stdout.read(size)
            if peer == self.echo[0] and data.startswith(self.echo[1]):
                return
            yield peer, data

    def close(self):
        """Ends the program's input."""
        try:
            self.child.stdin.close()
        except BrokenPipeError:
            pass
        self.child.stdout.close()
        self.code = self.child.wait()
