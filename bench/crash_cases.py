#!/usr/bin/env python3
"""Cases of a node that crashes in each write of its journal, for crates/ots_rows, and a judge of what they print.

    crash_cases.py cases                 writes the cases
    crash_cases.py judge < PRINTED       reads what cases printed, and says in which of them lines disagree

The judge knows nothing of the program. It reads the lines and the octets of the journal, by docs/SCRIPT.md and
docs/JOURNAL.md: what is decided, told, applied and done agrees, over all lives, and with the records.
"""
import struct, sys

SCRIPT = """node n1
end e1
begin n1 t1 0
register t1 e1 g1
register t1 e1 g2
put g1 1 10
put g2 2 20
begin n1 t2 0
register t2 e1 h1
register t2 e1 h2
put h1 3 30
put h2 4 40
commit t1 0
commit t2 0
"""
ONCE_MORE = "restart n1\ntick n1 1\nflow 100\n"
IMAGES = "old", "new", "01", "02ff"


def cases():
    """A crash in each write of the first life, and of the second, in which both decisions are told again."""
    for write in range(1, 9):
        for image in IMAGES:
            script = SCRIPT + f"stop n1 {write} {image}\nflow 100\n" + ONCE_MORE + "crash n1\n" + ONCE_MORE
            yield f"a crash in write {write}, which leaves {image}, and a second one later", script
    for write in range(1, 5):
        for image in IMAGES:
            script = SCRIPT + "stop n1 5 old\nflow 100\nrestart n1\ntick n1 1\n"
            script += f"stop n1 {write} {image}\nflow 100\n" + ONCE_MORE
            yield f"a crash in write {write} of the second life, which leaves {image}", script


def records(octets):
    """The records of a journal, with the places of their gates."""
    assert octets[:8] == b"OTSJ\0\0\0\1", "header"
    place, found = 16, []
    while octets[place] == 1:
        length = struct.unpack(">I", octets[place + 1 : place + 5])[0]
        found.append((place, octets[place + 5 : place + 5 + length]))
        place += 5 + length
    return found


class Journal:
    def __init__(self, octets):
        self.lives, self.decisions, self.dones = [], {}, []
        for place, payload in records(octets):
            if payload[0] == 1:
                self.lives.append(struct.unpack(">I", payload[1:])[0])
            elif payload[0] == 2:
                self.decisions[place] = struct.unpack(">IIQ", payload[1:17])
            else:
                assert payload[0] == 3, "kind"
                self.dones.append(struct.unpack(">I", payload[1:])[0])
        assert self.lives == list(range(1, len(self.lives) + 1)), "lives"
        assert set(self.dones) <= set(self.decisions) and len(set(self.dones)) == len(self.dones), "dones"


class Judge:
    """What the lines of one case have told so far."""

    def __init__(self):
        self.node, self.life, self.up = {}, {}, {}
        self.parts, self.of, self.votes = {}, {}, {}
        self.outcome, self.told_in, self.done, self.state, self.words = {}, {}, set(), {}, {}
        self.standing, self.again, self.calls, self.sent = set(), set(), {}, set()

    def take(self, words):
        getattr(self, "on_" + words[0], lambda *_: None)(*words[1:])

    def on_up(self, seat, life):
        assert int(life) == self.life.get(seat, 0) + 1, "a life is one more than the one before"
        self.life[seat], self.up[seat] = int(life), True
        # what was told as decided and isn't done may be told again, and must be unless all have completed
        self.again = {t for t in self.decided(seat) if t not in self.done}
        self.standing = {t for t in self.again if not self.is_applied(t)}

    def decided(self, seat):
        return [t for t, how in self.outcome.items() if how == "commit record" and self.node[t] == seat]

    def is_told(self, t):
        return self.told_in[t] == self.life[self.node[t]]

    def is_applied(self, t):
        return all(self.state.get(g) == "applied" for g in self.parts[t])

    def on_down(self, seat):
        assert not self.standing, "decisions that stand are told again behind up"
        self.up[seat] = False

    def on_top(self, t, node):
        self.node[t], self.parts[t] = node, []

    def on_reg(self, g, t, end):
        self.parts[t].append(g)
        self.of[g] = t

    def on_call(self, message, operation, t):
        self.calls[message] = operation, t

    def on_vote(self, g, vote):
        self.votes[g] = vote

    def on_decide(self, t, *how):
        how = " ".join(how)
        kind = how.split()[0]
        before = self.outcome.get(t)
        assert before is None or (before == how and t in self.again), "one outcome, told again only behind up"
        if kind == "commit":
            assert all(self.votes.get(g) == "VoteCommit" for g in self.parts[t]), "each has voted commit"
        assert t not in self.done, "nothing that is done is told again"
        self.outcome[t], self.told_in[t] = how, self.life[self.node[t]]
        self.standing.discard(t)
        self.again.discard(t)

    def on_send(self, message, operation, g):
        t = self.of[g]
        assert not self.standing, "decisions that stand are told again before words"
        assert self.up[self.node[t]], "a node that is down sends nothing"
        assert message not in self.sent and not self.sent.add(message), "each message has its own number"
        outcome = self.outcome.get(t, "")
        wanted = {"prepare": not outcome, "commit": outcome.startswith("commit"), "rollback": outcome.startswith("rollback")}
        assert wanted[operation], "a word goes by the outcome"
        assert operation == "prepare" or self.is_told(t), "and behind its line, in each life"
        self.words.setdefault(g, set()).add(operation)

    def on_state(self, g, state):
        before = self.state.get(g)
        wanted = {"prepared": [None], "applied": ["prepared"], "undone": [None, "prepared"]}
        assert before in wanted[state], "how a resource goes on"
        assert state != "applied" or "commit" in self.words[g], "nothing is applied unasked"
        self.state[g] = state

    def on_done(self, t):
        assert self.outcome[t].startswith("commit") and t not in self.done, "done comes once, after commit"
        assert self.is_applied(t) and self.is_told(t), "all have completed"
        self.done.add(t)

    def on_ans(self, message, answer):
        operation, t = self.calls[message]
        if operation == "commit" and answer in ("ok", "TRANSACTION_ROLLEDBACK"):
            assert (answer == "ok") == self.outcome[t].startswith("commit"), "the answer goes by the outcome"

    def on_journal(self, node, text):
        journal = Journal(bytes.fromhex(text))
        assert len(journal.lives) == self.life[node], "a record for each life"
        decided = self.decided(node)
        assert len(decided) == len(journal.decisions), "a record for each decision, in their order"
        done = {decided[list(journal.decisions).index(place)] for place in journal.dones}
        assert self.done & set(decided) <= done, "a record for each done"
        assert all(self.is_applied(t) for t in done), "all have completed"
        self.done |= done

    def end(self):
        """The last line of a case has come, after a tick and a flow of all messages."""
        for t, parts in self.parts.items():
            states = {self.state.get(g) for g in parts}
            assert self.outcome.get(t) == "commit record" or "applied" not in states, "nothing is applied without a decision"
            assert self.outcome.get(t) != "commit record" or states == {"applied"} and t in self.done, "what is decided is carried out"


def expected(head):
    """By the table of docs/JOURNAL.md: which of t1 and t2 are decided in the end, of this case's head."""
    words = head.replace(",", "").split()
    if "second" in words and "life" in words:
        return {"t1", "t2"}
    write, image = int(words[words.index("write") + 1]), words[words.index("leaves") + 1]
    through = image in ("new", "01")
    stands = (write - 1) // 2 + (write % 2 == 0 and through)
    return {"t1", "t2"} if stands >= 2 else {"t1"} if stands == 1 else set()


def judge(text):
    bad = 0
    parts = ("\n" + text).split("\n== ")[1:]
    for part in parts:
        head, *lines = part.rstrip("\n").split("\n")
        judge, line = Judge(), ""
        try:
            for line in lines:
                if line.startswith("-- "):
                    assert line == "-- 0 Done, faults 0 0", "status"
                else:
                    judge.take(line.split(" "))
            judge.end()
            assert set(judge.outcome) == expected(head), "which are decided"
        except (AssertionError, KeyError) as error:
            bad += 1
            print(f"{head}: at '{line[:60]}': {error!r}")
    print(f"{len(parts)} cases, {bad} disagree")
    return bad


if sys.argv[1:] == ["cases"]:
    for remark, script in cases():
        sys.stdout.write(f"== replay | # {remark}\n{script}")
elif sys.argv[1:] == ["judge"]:
    sys.exit(1 if judge(sys.stdin.read()) else 0)
else:
    sys.exit(__doc__)
