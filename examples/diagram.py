#!/usr/bin/env python3
"""Draws the lines that `ots replay` prints as a Mermaid sequence diagram.

usage: python3 examples/diagram.py <LINES >DIAGRAM

The client, the nodes and the ends are the columns. A line that tells of a message on its way is an arrow between two of
them; any other line is a note over the column where it happened. Each line stands there as it was printed, and in its
place; of a journal the first octets stand. A line that isn't one of a replay ends it, with the number of the line. It
needs Python 3.10 and nothing else.
"""
import re
import sys

CLIENT = "client"
WORDS = re.compile(r"\S+( \S+)*", re.ASCII)
JOURNAL_DIGITS = 16


class Diagram:
    """The diagram of the lines so far, and what they tell of where things are."""

    def __init__(self):
        self.servers = []
        self.steps = []  # the arrows and notes
        self.noted = None  # the column of the last step, where that is a note
        self.node_of = {}  # by transaction
        self.seat_of = {}  # by registration: the column that tells it what to do, and the one where it is
        self.way_of = {}  # by message: the columns of its sender and its receiver

    def column(self, server):
        """The column of a server, under a name that is no word of Mermaid's."""
        if server not in self.servers:
            raise KeyError(server)
        return f"_{server}"

    def note(self, column, text):
        """A note over a column; the one behind it over the same column goes on with it."""
        if self.noted == column:
            self.steps[-1] += f"<br/>{text}"
        else:
            self.steps.append(f"Note over {column}: {text}")
        self.noted = column

    def arrow(self, sender, kind, receiver, text):
        self.steps.append(f"{sender}{kind}{receiver}: {text}")
        self.noted = None

    def request(self, message, sender, receiver, text):
        self.way_of[message] = sender, receiver
        self.arrow(sender, "->>", receiver, text)

    def take(self, line):
        """Takes the next line. ValueError: it is none of a replay. KeyError: it names what no line before it tells of."""
        if not WORDS.fullmatch(line):
            raise ValueError
        match line.split(" "):
            case ["up", server, _]:
                if server not in self.servers:
                    self.servers.append(server)
                self.note(self.column(server), line)
            case ["down", server]:
                self.note(self.column(server), line)
            case ["journal", server, digits]:
                more = "..." if len(digits) > JOURNAL_DIGITS else ""
                self.note(self.column(server), f"journal {server} {digits[:JOURNAL_DIGITS]}{more}")
            case ["top", transaction, node] | ["imp", transaction, _, node]:
                self.node_of[transaction] = self.column(node)
                self.note(self.column(node), line)
            case ["sub", transaction, parent]:
                self.node_of[transaction] = self.node_of[parent]
                self.note(self.node_of[parent], line)
            case ["reg" | "awr", registration, transaction, server]:
                self.seat_of[registration] = self.node_of[transaction], self.column(server)
                self.note(self.column(server), line)
            case ["call", message, _, transaction]:
                self.request(message, CLIENT, self.node_of[transaction], line)
            case ["no", "begin" | "put" | "refuse", _]:
                self.note(CLIENT, line)
            case ["ans", call, _]:
                client, node = self.way_of[call]
                self.arrow(node, "-->>", client, line)
            case ["send", message, _, registration]:
                self.request(message, *self.seat_of[registration], line)
            case ["back", message, request, _]:
                sender, receiver = self.way_of[request]
                self.way_of[message] = receiver, sender
                self.arrow(receiver, "-->>", sender, line)
            case ["recv" | "drop", message]:
                self.note(self.way_of[message][1], line)
            case ["vote", registration, "VoteCommit" | "VoteRollback" | "VoteReadOnly"]:
                self.note(self.seat_of[registration][0], line)
            case (
                ["state", registration, "prepared" | "applied" | "undone" | "forgotten"]
                | ["learn", registration, "commit" | "rollback"]
            ):
                self.note(self.seat_of[registration][1], line)
            case (
                ["decide", transaction, "commit", "record" | "phase" | "none"]
                | ["decide", transaction, "rollback", "Vote" | "PrepareLost" | "PrepareStarved" | "PrepareFault", _]
                | ["decide", transaction, "rollback", "JournalFull", _, _]
                | ["decide", transaction, "rollback", "Asked" | "Marked" | "Timeout"]
                | ["decide", transaction, "unknown"]
                | ["subdone", transaction, "committed" | "rolledback"]
                | ["done" | "marked" | "doubt", transaction]
            ):
                self.note(self.node_of[transaction], line)
            case _:
                raise ValueError

    def text(self):
        columns = [CLIENT] + [f"{self.column(server)} as {server}" for server in self.servers]
        steps = [f"participant {column}" for column in columns] + self.steps
        return "sequenceDiagram\n" + "".join(f"    {step}\n" for step in steps)


def main():
    if len(sys.argv) > 1:
        sys.exit(__doc__.splitlines()[2])
    diagram = Diagram()
    for number, octets in enumerate(sys.stdin.buffer, 1):
        try:
            diagram.take(octets.decode("ascii", "replace").removesuffix("\n"))
        except KeyError as name:
            sys.exit(f"diagram: line {number}: no line before it tells of {name.args[0]}")
        except ValueError:
            sys.exit(f"diagram: line {number}: not a line of a replay")
    sys.stdout.write(diagram.text())


main()
