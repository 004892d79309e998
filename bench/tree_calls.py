#!/usr/bin/env python3
"""Calls on a tree of transactions, its registrations and its completion, in the form of `tree_rows.txt`, and what they
must answer.

`tree_calls.py calls SEED COUNT BRANCHES` prints about so many random calls on a tree of at most so many branches, and
`answers` in place of `calls` their answers by the plain accounts below, which know nothing of the program.
`tree_calls.py cases calls` and `cases answers` print random cases and what they tell (see trees.sh).
`tree_calls.py bench KIND SIZE COUNT` prints about so many calls of a kind on trees of that size (see bench/trees.sh), and
`setup` in place of `bench` only what makes these trees.
"""
import random
import sys

DEPTH, TRANSACTIONS, REGISTRATIONS, SYNCHRONIZATIONS = 16, 1024, 64, 64
LIVE = "Active", "MarkedRollback"
VOTES = "VoteCommit", "VoteRollback", "VoteReadOnly"


class Account:
    """A tree as the path of each branch from the top to itself; each registration as the branch that it was made at, whether
    it takes part, whether it is told of the end of a subtransaction, and what it voted last; and a count of synchronizations."""

    def __init__(self):
        self.paths, self.states = [(0,)], ["Active"]
        self.made, self.commits, self.synchronizations = [], [], 0

    def parent(self, branch):
        return self.paths[branch][-2] if branch else None

    def create(self, branch):
        if self.states[branch] != "Active":
            return "MarkedAlready" if self.states[branch] == "MarkedRollback" else "Inactive"
        if len(self.paths[branch]) == DEPTH or len(self.paths) == TRANSACTIONS:
            return "SubtransactionsUnavailable"
        self.paths.append(self.paths[branch] + (len(self.paths),))
        self.states.append("Active")
        return f"branch {len(self.paths) - 1}"

    def commit(self, branch):
        parent = self.parent(branch)
        if self.states[branch] not in LIVE or parent is not None and self.states[parent] not in LIVE:
            return "Inactive"
        if self.states[branch] == "MarkedRollback":
            return "MarkedAlready"
        self.states[branch] = "Committed"
        self.commits.append((len(self.made), branch))
        return "ok"

    def rollback(self, branch):
        return self.set(branch, "RolledBack")

    def mark(self, branch):
        return self.set(branch, "MarkedRollback")

    def set(self, branch, state):
        if self.states[branch] not in LIVE:
            return "Inactive"
        self.states[branch] = state
        return "ok"

    def status(self, branch):
        parent = self.parent(branch)
        return f"{self.states[branch]} {self.states[branch if parent is None else parent]} {self.states[0]}"

    def relation(self, a, b):
        is_ancestor, is_same = a in self.paths[b], a == b
        is_related = self.paths[a][0] == self.paths[b][0]
        return f"{is_ancestor} {is_related} {is_same}".lower()

    def live(self, branch):
        below = [b for b, path in enumerate(self.paths) if branch in path[:-1] and self.states[b] in LIVE]
        return max(below, key=lambda b: (len(self.paths[b]), b)) if below else "none"

    def register(self, branch, takes_part=True, is_aware=False):
        refusal = self.refusal(branch, len(self.made), REGISTRATIONS)
        if refusal:
            return refusal
        self.made.append([branch, takes_part, is_aware, None])
        return f"registration {len(self.made)}"

    def double(self, branch):
        return self.register(branch, is_aware=True)

    def aware(self, branch):
        return self.register(branch, takes_part=False, is_aware=True) if branch else "NotSubtransaction"

    def sync(self, branch):
        refusal = self.refusal(branch, self.synchronizations, SYNCHRONIZATIONS)
        if branch or refusal:
            return "SynchronizationUnavailable" if branch else refusal
        self.synchronizations += 1
        return f"registration {self.synchronizations}"

    def refusal(self, branch, count, most):
        if self.states[branch] != "Active":
            return "MarkedAlready" if self.states[branch] == "MarkedRollback" else "Inactive"
        return "NoResources" if count == most else None

    def told(self, branch, after):
        later = [n for n, (at, _, is_aware, _) in enumerate(self.made, 1) if is_aware and at == branch and n > after]
        return min(later, default="none")

    def synchronization(self, number):
        return number if 1 <= number <= self.synchronizations else "none"

    def vote(self, number, vote):
        self.made[number - 1][3] = vote
        return f"Some({vote})"

    def participants(self, top):
        """Of a branch, what was registered with it and the lists of its committed children, in the order of these calls;
        nothing is left where its list was handed on."""
        def listed(branch):
            events = [(2 * place, [place + 1]) for place, (at, takes_part, _, _) in enumerate(self.made) if takes_part and at == branch]
            for moment, (before, child) in enumerate(self.commits):
                if self.parent(child) == branch:
                    events.append((2 * before - 1 + moment / len(self.commits), listed(child)))
            return [number for _, numbers in sorted(events, key=lambda event: event[0]) for number in numbers]

        handed_on = top and self.states[top] == "Committed"
        return " ".join(["participants"] + [str(number) for number in ([] if handed_on else listed(top))])


# the answers to words: what a heuristic one says of updates, which are plain, which consent, and why others roll back; and
# the reasons from outside
HEURISTIC = {"HeuristicCommit": "C", "HeuristicRollback": "R", "HeuristicMixed": "M", "HeuristicHazard": "U"}
PLAIN = "ok", "OBJECT_NOT_EXIST"
CONSENTS = "VoteCommit", "VoteReadOnly"
REFUSALS = {"VoteRollback": "Vote", "lost": "PrepareLost", "starved": "PrepareStarved"}
ANSWERS = [*VOTES, *HEURISTIC, *PLAIN, "TRANSACTION_ROLLEDBACK", "NotPrepared", "other", "starved", "status", "lost"]
REASONS = {
    "asked": "Asked", "marked": "Marked", "timeout": "Timeout", "superior": "Superior", "sync_lost": "SyncLost(1)",
    "sync_starved": "SyncStarved(2)", "not_enlisted": "NotEnlisted",
}


class Completion:
    """A completion as what each participant has answered when it was asked, told the outcome, and told to forget; the word that
    is out; why it was rolled back from outside; and what the journal said of the record, with its place."""

    def __init__(self, participants, lengths, is_asked, may_decide, reason=None):
        self.participants, self.lengths, self.is_asked, self.is_root = participants, lengths, is_asked, may_decide
        self.decides_alone = may_decide and len(participants) == 1
        self.asked, self.told, self.forgot = {}, {}, {}
        self.serial, self.out = 1, None
        self.reason, self.record, self.place = REASONS.get(reason), None, None

    def outcome(self):
        """The first of these: a reason from outside; the answer of the only one, which decides; the first refusal; that nobody
        waits; what the journal said."""
        if self.reason:
            return f"Rollback({self.reason})"
        for g in self.participants:
            answer = self.asked.get(g)
            if answer is None:
                return None
            if self.decides_alone:
                return {"ok": "Commit(OnePhase)", "TRANSACTION_ROLLEDBACK": f"Rollback(Phase(Vote({g})))"}.get(answer, "Unknown")
            if answer not in CONSENTS:
                return f"Rollback(Phase({REFUSALS.get(answer, 'PrepareFault')}({g})))"
        if "VoteCommit" not in self.asked.values():
            return "Commit(Nobody)"
        return {"stands": "Commit(Record)", "full": "Rollback(Phase(JournalFull(27, 296)))", "none": "Rollback(NotStored)"}.get(self.record)

    def hearers(self):
        """Those to whom the outcome is told."""
        outcome = self.outcome() or "Unknown"
        if outcome == "Unknown" or self.decides_alone and self.asked:
            return []
        if outcome.startswith("Commit"):
            return [g for g in self.participants if self.asked.get(g) == "VoteCommit"]
        return [g for g in self.participants if self.asked.get(g) not in ("VoteRollback", "VoteReadOnly")]

    def are_prepared(self):
        return all(self.asked.get(g) in CONSENTS for g in self.participants) and "VoteCommit" in self.asked.values()

    def waits_for_superior(self):
        return not self.is_root and (self.place is not None or bool(self.reason) and self.are_prepared())

    def keepers(self):
        """Those that have raised a heuristic exception, and may keep its outcome."""
        raised = [g for g in self.participants if self.asked.get(g) in HEURISTIC or self.told.get(g) in HEURISTIC]
        return [g for g in raised if self.forgot.get(g) not in PLAIN]

    def late(self):
        """Those that were told the outcome, or are to be, and have not completed."""
        return [g for g in self.hearers() if self.told.get(g) not in (*PLAIN, *HEURISTIC)]

    def next(self):
        """The next word and whom it goes to, or nothing."""
        outcome = self.outcome()
        if outcome is None:
            word, to = "commit_one_phase" if self.decides_alone else "prepare", [g for g in self.participants if g not in self.asked]
        else:
            word = "commit" if outcome.startswith("Commit") else "rollback"
            to = [g for g in self.hearers() if g not in self.told]
            if not to and not self.waits_for_superior() and not (word == "commit" and self.late()):
                word, to = "forget", [g for g in self.keepers() if g not in self.forgot]
        return (word, to[0]) if to else None

    def send(self, whole=None):
        word = None if self.out else self.next()
        if not word:
            return "nothing"
        self.out = word
        name, g = word
        receipt = f"{self.place} {g}" if name == "commit" else "none"
        return f"{name} {g}" + f" number 1 0 1 {self.serial} octets {self.lengths[g - 1]} receipt {receipt}" * bool(whole)

    def hear(self, answer):
        told = self.send()
        if self.out:
            word, g = self.out
            heard = {"prepare": self.asked, "commit_one_phase": self.asked, "forget": self.forgot}.get(word, self.told)
            heard[g] = answer
            self.serial, self.out = self.serial + 1, None
        return told

    def wants_decision(self):
        return not self.decides_alone and not self.reason and not self.record and self.are_prepared()

    def decided(self, answer):
        is_wanted = self.wants_decision()
        if is_wanted:
            self.record, self.place = answer, 4 if answer == "stands" else None
        return f"wanted {is_wanted} doubtful {self.record == 'unsure'}".lower()

    def reread(self, place):
        if self.record == "unsure":
            self.record, self.place = ("none", None) if place == "none" else ("stands", int(place))

    def overtake(self, reason):
        decides = self.decides_alone and self.out
        if reason in REASONS and self.outcome() is None and self.record is None and not decides:
            self.reason = REASONS[reason]
            self.serial, self.out = self.serial + bool(self.out), None

    def named(self, g):
        return str(self.asked.get(int(g)) == "VoteCommit").lower()

    def state(self):
        outcome = self.outcome()
        is_commit = str(outcome).startswith("Commit")
        follows, other = "CR" if is_commit else "RC"
        heard = ""
        for g in self.participants:
            heard += HEURISTIC.get(self.asked.get(g), "")
            if g in self.told:
                heard += follows if self.told[g] in PLAIN else HEURISTIC.get(self.told[g], "U")

        def join(known):
            if outcome in (None, "Unknown"):
                return "Hazard" if outcome else "Nothing"
            return "Mixed" if "M" in known or {"C", "R"} <= set(known) else "Hazard" if "U" in known else None

        root = join(heard + follows) or "Nothing"
        sub = join(heard) or ("Opposite" if set(heard) == {other} else "Nothing")
        report = f"Some({root})" if self.is_asked and root != "Nothing" else "None"
        has_completed = bool(outcome) and not self.late()
        is_settled = has_completed and not self.keepers()
        commits = self.late() if is_commit else []
        forgets = self.keepers() if is_commit or self.waits_for_superior() else []
        return "\n".join([
            f"{f'Some({outcome})' if outcome else None} root {root} sub {sub} report {report}",
            f"dispositions {heard} completed {has_completed} settled {is_settled}".replace("True", "true").replace("False", "false"),
            f"pending commits {commits} forgets {forgets}",
        ])


# how often each call is made, on a tree of as many transactions as there may be and on a small one
KINDS = {
    "create": (60, 25), "commit": (10, 14), "rollback": (3, 2), "mark": (2, 1), "status": (5, 4), "relation": (8, 4),
    "live": (6, 4), "sweep": (2, 1), "register": (3, 14), "double": (2, 7), "aware": (2, 7), "sync": (2, 5), "told": (4, 6),
    "synchronization": (1, 2), "vote": (3, 6), "participants": (2, 8),
}
# the random cases: a seed, how many calls, and of how many branches; and seeds of completions
CASES = [(seed, 150, 24) for seed in range(1, 9)] + [(seed, 2200, TRANSACTIONS) for seed in range(11, 14)]
COMPLETIONS = 24, 49, 56, 69, 78


def random_call(pick, account, most):
    """A call and its words, or nothing."""
    branches = range(len(account.paths))
    branch = pick.choice(branches)
    call = pick.choices(list(KINDS), [often[most < TRANSACTIONS] for often in KINDS.values()])[0]
    if call in ("create", "register", "double", "aware", "commit") and pick.random() < 0.9:
        open_ones = [b for b in branches if account.states[b] == "Active" and len(account.paths[b]) < DEPTH]
        branch = pick.choice(open_ones[0 if call in ("create", "commit") else 1:] or open_ones or branches)
    if call in ("commit", "rollback", "mark") and branch == 0 or call == "create" and len(branches) == most < TRANSACTIONS:
        return None
    if call in ("participants", "sync") and pick.random() < 0.7:
        branch = 0
    if call in ("live", "sweep"):
        branch = min(branch, *pick.choices(branches, k=3))
    if call == "vote":
        return account.made and (call, pick.randint(1, len(account.made)), pick.choice(VOTES))
    if call == "synchronization":
        return call, pick.randint(0, account.synchronizations + 1)
    if call == "told" and account.made:
        branch = pick.choice([branch, pick.choice(account.made)[0]])
    words = {"relation": [pick.choice(branches), branch], "told": [branch, pick.randint(0, len(account.made))]}
    return (call, *words.get(call, [branch]))


def random_calls(seed, count, most):
    """Random calls, each with its answer. A sweep rolls back what is live below a branch, or the first of it."""
    pick = random.Random(seed)
    account = Account()
    for _ in range(count):
        call, *words = random_call(pick, account, most) or ("status", 0)
        steps = 1 if call != "sweep" else pick.randint(1, 12)
        for _ in range(steps):
            name = "live" if call == "sweep" else call
            answer = getattr(account, name)(*words)
            yield " ".join(map(str, [name] + words)), answer
            if call == "sweep" and answer != "none":
                yield f"rollback {answer}", account.rollback(answer)


def random_registrations(pick, account, lengths):
    """Registrations with the top and with subtransactions that end then, whose references have some length: their list is in
    another order than their numbers."""
    subs = [pick.randrange(branch) for branch in range(1, pick.randint(2, 4))]
    for branch in subs:
        yield f"create {branch}", account.create(branch)
    for _ in range(pick.randint(2, 5)):
        branch, octets = pick.randint(0, len(subs)), pick.choice([0, 1, pick.randint(2, 1023), 1024])
        answer = account.register(branch)
        lengths += [octets] * answer.startswith("registration")
        yield f"register {branch} {octets}", answer
        if pick.random() < 0.2 and branch:
            yield f"commit {branch}", account.commit(branch)
    for branch in range(len(subs), 0, -1):
        end = pick.choice(["commit", "commit", "commit", "rollback"])
        yield f"{end} {branch}", getattr(account, end)(branch)
    yield "participants 0", account.participants(0)


def random_answer(pick, word, is_easy):
    usual = {"prepare": ["VoteCommit", "VoteCommit", "VoteReadOnly"]}.get(word, [*PLAIN, *PLAIN, *HEURISTIC])
    return pick.choice(usual if is_easy else ANSWERS)


def random_completion(pick, completion):
    """What comes to a completion that has begun, up to its end or some time before it."""
    ease = pick.choice([0.6, 0.9, 1])
    for _ in range(pick.randint(20, 40)):
        out = completion.out or completion.next() or ("nothing", 0)
        calls = [("hear", random_answer(pick, out[0], pick.random() < ease))] * 12 + [("send", "whole")] * 4
        calls += [("overtake", pick.choice([*REASONS, "stored"])), ("state",), ("named", pick.choice(completion.participants or [1]))]
        calls += [("decided", pick.choice(["stands", "stands", "full", "unsure"]))] * (20 if completion.wants_decision() else 1)
        calls += [("reread", pick.choice(["none", pick.randint(0, 99)]))] * (20 if completion.record == "unsure" else 1)
        call, *words = pick.choice(calls)
        yield " ".join(map(str, [call] + words)), getattr(completion, call)(*words)
        if completion.outcome() and not completion.out and not completion.next():
            break
    yield "send", completion.send()
    yield "state", completion.state()


def random_completions(seed):
    """Random completions of the top of one tree, each with what comes to it."""
    pick = random.Random(seed)
    account, lengths = Account(), []
    yield from random_registrations(pick, account, lengths)
    participants = [int(number) for number in account.participants(0).split()[1:]]
    for _ in range(8):
        asked, decides = pick.choice(["asked", "no"]), pick.choice(["alone", "no"])
        back = [pick.choice([*REASONS, "stored"])] if pick.random() < 0.15 else []
        yield " ".join(["back" if back else "begin", asked, decides] + back), None
        yield from random_completion(pick, Completion(participants, lengths, asked == "asked", decides == "alone", *back))


def cases(what):
    for seed, count, most in CASES:
        told = list(random_calls(seed, count, most))
        size = sum(str(answer).startswith("branch") for _, answer in told) + 1
        tell(what, f"# random calls on a tree that grows to {size:,} transactions, {seed}", told)
    for seed in COMPLETIONS:
        tell(what, f"# random completions, {seed}", random_completions(seed))


def tell(what, remark, told):
    print(f"== tree | {remark}")
    for call, answer in told:
        if what == "calls" or answer is not None:
            print(call if what == "calls" else answer)


def chain(depth):
    return [f"create {branch}" for branch in range(depth - 1)]


def ending(kind, count):
    """A tree of so many subtransactions, and the calls that roll back each of them, with a look for the next one before each:
    below the top; or from the leaves up, the last first, below the parent of each; or pairs of one and its only child, in the
    order of their making, below the first of the pair."""
    parents = {b: (b - 1) // 2 if kind != "pairs" else 0 if b % 2 else b - 1 for b in range(1, count + 1)}
    depths = {0: 0}
    for branch, parent in parents.items():
        depths[branch] = depths[parent] + 1
    looks = {
        "top": [(0, b) for b in sorted(parents, key=lambda b: (depths[b], b), reverse=True)],
        "leaves": [(parents[b], b) for b in reversed(parents)],
        "pairs": [(b, end) for b in range(1, count, 2) for end in (b + 1, b)],
    }
    return [f"create {p}" for p in parents.values()], [line for at, b in looks[kind] for line in (f"live {at}", f"rollback {b}")]


def bench(kind, size):
    """What makes a tree of that size, and calls of a kind on it, which may be made again."""
    if kind == "create":
        return [], [f"create {branch // 2}" if branch else "create 0" for branch in range(size - 1)]
    if kind == "deep":
        return chain(size - 1), [f"create {size - 2}"] * 256
    if kind in ("register", "sync"):
        return [], [f"{kind} 0"] * size
    if kind == "aware":
        return ["create 0"], ["aware 1"] * size
    if kind == "vote":
        return ["register 0"] * size, [f"vote {size} VoteCommit"] * 64
    if kind in ("top", "leaves", "pairs"):
        return ending(kind, size)
    if kind == "few":
        return ["create 0"] * (size - 1) + ["create 1"], ["live 1"] * 4096
    if kind in ("mark", "status"):
        return ["create 0"] * (size - 1), [f"{kind} {size - 1}"] * 64
    if kind == "told":
        return ["create 0"] + ["aware 1"] * size, [f"told 1 {after}" for after in range(size)] * 16
    if kind == "ancestry":
        return chain(size), [f"relation 0 {size - 1}"] * 64
    if kind == "participants":
        return ["register 0"] * size, ["participants 0"] * 16
    if kind == "adopt":
        handed = ["create 0"] * size + [f"register {branch + 1}" for branch in range(size)]
        return handed, [f"commit {branch + 1}" for branch in range(size)]
    if kind == "handed":
        return chain(DEPTH) + [f"register {DEPTH - 1}"] * size, [f"commit {branch}" for branch in range(DEPTH - 1, 0, -1)]
    if kind in ("completion", "join"):
        begun, votes = ["register 0"] * size + ["begin no no"], ["hear VoteCommit"] * size + ["decided stands"]
        told = votes + ["hear ok"] * size
        return (begun, told) if kind == "completion" else (begun + told, ["state"] * 64)
    sys.exit(f"no such kind: {kind}")


def main():
    what, *words = sys.argv[1:]
    if what in ("bench", "setup"):
        first, again = bench(words[0], int(words[1]))
        for _ in range(max(1, int(words[2]) // (len(first) + len(again)))):
            print("\n".join(["== tree"] + first + (again if what == "bench" else [])))
        return
    if what == "cases":
        return cases(words[0])
    for call, answer in random_calls(*map(int, words)):
        print(call if what == "calls" else answer)


if __name__ == "__main__":
    main()
