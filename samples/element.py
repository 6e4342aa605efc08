#!/usr/bin/env python3
"""A client of `faxgate serve`: it rings a line for a fax that comes in, and says where its pages go.

usage: samples/element.py CONTROL_SOCKET CALLER CALLED

A SIP element does this for each call. CALLER is the address of the caller's T.38 media, which its SDP says, or `any` behind NAT. CALLED is
what came of the call that `dial` asks for: the address in the answer of the machine that was called, or the code with which it refused,
as 486. It prints answers and events, and ends with 0 where the pages were delivered.
"""
import collections, json, socket, sys

TAG = "call-1"  # what the element names the call: each event of the call's job has it


class Client:
    """Says words, a line each, and hears events, which come between the answers."""

    def __init__(self, path):
        self.stream = socket.socket(socket.AF_UNIX)
        self.stream.connect(path)
        self.lines = self.stream.makefile(encoding="utf-8", newline="\n")
        self.events = collections.deque()

    def say(self, word):
        """What a word is answered with: `ok`, and what is told after it."""
        self.stream.sendall(word.encode() + b"\n")
        while (line := next(self.lines)).startswith("{"):
            self.events.append(json.loads(line))
        print(f"{word}: {line.strip()}", flush=True)
        return line.split() if line.startswith("ok") else sys.exit(1)

    def event(self):
        """The next event."""
        event = self.events.popleft() if self.events else json.loads(next(self.lines))
        print(event, flush=True)
        return event


def place(client, line, called):
    """Answers the question of a line: here the element calls the machine that the tag stands for, offers T.38 at the line's called leg,
    and waits until it answers or refuses, `seconds` of the question at most."""
    if ":" in called:
        client.say(f"peer {line} called {called}")  # its pages go there, and the call begins
    else:
        client.say(f"refuse {line} {called}")  # its job ends with this cause


def main(path, caller, called):
    client = Client(path)
    # first it is told what is on: after a crash of either side calls of jobs may be asked for (`dial`), each with its tag
    client.say("events")
    # a line that is idle takes the call; `octets=300` after the tag where the caller's SDP has `T38FaxMaxDatagram:300`
    _, line, _ = client.say(f"ring any {TAG}")
    # here the element answers with T.38 at the address of the line's calling leg
    client.say(f"peer {line} calling {caller}")
    while True:
        event = client.event()
        if event["event"] == "dial" and event["tag"] == TAG:
            place(client, event["line"], called)
        if event["event"] == "job" and event["tag"] == TAG:
            return 0 if event["outcome"] == "Delivered" else 1


if __name__ == "__main__":
    sys.exit(main(*sys.argv[1:]) if len(sys.argv) == 4 else __doc__)
