"""Whether a whole tree gives every reply in one order of what several clients asked, done one at a time.

Each client's own order is kept. If the times of sending and hearing are known, a request that was answered before
another was sent comes before it. A fault changes nothing, and may come anywhere. A request that was never answered may
have been done, or not. The table of operations is tree_model's.

The search takes what needs no choice at once: a fault, a look or an error that is as told here, and whatever has no
path at, above or below one that others have still to ask about. Such a request that isn't answered as told ends the way
at once. Among the rest, changes that may come next, it tries each, and remembers the states that it came to.

A `stat` gives the inode number of what stands there. The first one gives it, and any that isn't spent will do; from
then on it is that one. So a `stat` that gives a number needs no choice only if no other client has still to ask for
what could put something else at its path.
"""

import collections
from collections.abc import Iterator, Mapping, Sequence
from typing import NamedTuple

from yakembi.session_lines import Field
from yakembi.tree_model import Node, Numbers, Path, WholeTree, number_told


class Asked(NamedTuple):
    """A request, when it was sent and when its reply was heard, by one clock, and the reply. A time that isn't known is
    None, and so are reply and hearing of a request that was never answered."""

    word: str
    fields: tuple[Field, ...]
    sent: float | None
    heard: float | None
    reply: bytes | None


LOOKS = {"kind", "stat", "read", "readlink", "list"}
# What can put something else where something stands.
REPLACING = {"unlink", "rmdir", "rename"}
MOST_STATES = 100_000


class Undecided(Exception):
    """The search came to more states than it may."""


class Nodes(dict[Path, Node]):
    """Nodes by their paths, and beside them the names in each directory, what isn't as at first, and a way back."""

    def __init__(self, nodes: Mapping[Path, Node]) -> None:
        super().__init__(nodes)
        self.first = dict(nodes)
        self.changes: dict[Path, Node | None] = {}
        self.names: dict[Path, set[bytes]] = collections.defaultdict(set)
        for path in nodes:
            if path:
                self.names[path[:-1]].add(path[-1])
        self.was: list[tuple[Path, Node | None]] = []

    def __setitem__(self, path: Path, node: Node) -> None:
        self.was.append((path, self.get(path)))
        self.put(path, node)

    def __delitem__(self, path: Path) -> None:
        self.was.append((path, self[path]))
        self.put(path, None)

    def put(self, path: Path, node: Node | None) -> None:
        """The node, or None for none, without a way back."""
        if node is None:
            super().__delitem__(path)
            self.names[path[:-1]].discard(path[-1])
        else:
            super().__setitem__(path, node)
            self.names[path[:-1]].add(path[-1])
        if node == self.first.get(path):
            self.changes.pop(path, None)
        else:
            self.changes[path] = node

    def back_to(self, count: int) -> None:
        """As they were after this many steps."""
        while len(self.was) > count:
            self.put(*self.was.pop())


class Tree(WholeTree):
    """The table of operations over such nodes, of which it looks at no more than it needs."""

    def __init__(self, nodes: Nodes, numbers: Numbers) -> None:
        super().__init__(nodes, numbers)
        self.names = nodes.names

    def children(self, path: Path) -> list[bytes]:
        return sorted(self.names[path]) if self.nodes[path][1] else super().children(path)

    def at_and_below(self, path: Path) -> list[Path]:
        paths = [path]
        for at in paths:
            paths.extend(at + (name,) for name in self.names[at])
        return paths


class Counts:
    """How many requests are left at each path, how many of them can put something else there, and how many are left at
    or below it."""

    def __init__(self) -> None:
        self.at: collections.Counter[Path] = collections.Counter()
        self.replacing: collections.Counter[Path] = collections.Counter()
        self.under: collections.Counter[Path] = collections.Counter()

    def count(self, asked: Asked, step: int) -> None:
        for path in paths_of(asked):
            self.at[path] += step
            self.replacing[path] += step if may_replace(asked) else 0
            for length in range(len(path) + 1):
                self.under[path[:length]] += step


def paths_of(asked: Asked) -> list[Path]:
    return [field for field in asked.fields if isinstance(field, tuple)]


def may_replace(asked: Asked) -> bool:
    """Whether something else may stand at its paths once it is done: it is done, or nobody knows."""
    return asked.word in REPLACING and asked.reply in (None, b"ok")


def is_fault(asked: Asked) -> bool:
    return asked.reply is not None and asked.reply.startswith(b"fault ")


def changes_nothing(asked: Asked) -> bool:
    """Whether it changes no tree on which it is answered so."""
    return asked.word in LOOKS or (asked.reply is not None and asked.reply.startswith(b"err "))


# How many steps nodes and numbers were changed by.
Steps = tuple[int, int]


class Branch(NamedTuple):
    """A state, by what was taken until it was come to, and the clients whose next request is still to be tried
    there."""

    taken: int
    steps: Steps
    clients: Iterator[int]


class State(NamedTuple):
    """How far each client came, what isn't as at first, and the numbers. Those that are spent follow from the first."""

    taken: tuple[int, ...]
    changes: frozenset[tuple[Path, Node | None]]
    given: frozenset[tuple[Path, int]]


class Search:
    """Looks for an order of the requests of each of these clients, from these nodes and, if they are given, to those
    that were seen in the end."""

    def __init__(self, clients: Sequence[Sequence[Asked]], nodes: Mapping[Path, Node],
                 seen: Mapping[Path, Node] | None = None, most_states: int = MOST_STATES,
                 numbers: Numbers | None = None) -> None:
        self.clients = clients
        self.nodes = Nodes(nodes)
        self.numbers = numbers if numbers is not None else Numbers()
        self.tree = Tree(self.nodes, self.numbers)
        self.seen = seen
        self.next = [0] * len(clients)
        self.order: list[int] = []
        self.left = [Counts() for _ in clients]
        self.all_left = Counts()
        for client, requests in enumerate(clients):
            for asked in requests:
                self.count(client, asked, 1)
        self.met: set[State] = set()
        self.most_states = most_states
        # How long the longest order is that was found, and the clients' next requests there with the tree's replies.
        self.longest = -1
        self.stuck: list[tuple[int, int, bytes | None]] = []

    def count(self, client: int, asked: Asked, step: int) -> None:
        self.left[client].count(asked, step)
        self.all_left.count(asked, step)

    # ---- one request

    def asked(self, client: int) -> Asked:
        """The next request of a client that has one left."""
        return self.clients[client][self.next[client]]

    def ready(self) -> list[int]:
        """The clients whose next request may come next: no other's was answered before it was sent."""
        rows = [(client, self.asked(client)) for client, requests in enumerate(self.clients)
                if self.next[client] < len(requests)]
        first = min((row.heard for _, row in rows if row.heard is not None), default=None)
        return [client for client, row in rows if first is None or row.sent is None or row.sent <= first]

    def is_alone(self, client: int, asked: Asked) -> bool:
        """Whether nothing that others have left can change what it does, nor see it."""
        own = self.left[client]
        for path in paths_of(asked):
            if self.all_left.under[path] != own.under[path]:
                return False
            fronts = (path[:length] for length in range(len(path)))
            if any(self.all_left.at[front] != own.at[front] for front in fronts):
                return False
        return True

    def stays(self, client: int, asked: Asked) -> bool:
        """Whether nothing that others have left can put something else at its paths."""
        own = self.left[client].replacing
        return all(self.all_left.replacing[path[:length]] == own[path[:length]]
                   for path in paths_of(asked) for length in range(len(path) + 1))

    def is_settled(self, client: int, asked: Asked) -> bool:
        """Whether a request that is answered here as told may as well come next."""
        tells = asked.reply is not None and number_told(asked.reply) is not None
        gives = tells and asked.fields[0] not in self.numbers.given
        return is_fault(asked) or (changes_nothing(asked) and (not gives or self.stays(client, asked)))

    def steps(self) -> Steps:
        return len(self.nodes.was), len(self.numbers.was)

    def undo(self, steps: Steps) -> None:
        """Nodes and numbers as they were after this many steps."""
        self.nodes.back_to(steps[0])
        self.numbers.back_to(steps[1])

    def take(self, client: int) -> bool:
        """Does the client's next request, if it is answered as told; whether it is."""
        asked, before = self.asked(client), self.steps()
        unheard = asked.word in LOOKS and asked.reply is None
        if not is_fault(asked) and not unheard:
            reply = self.tree.judged(asked.reply, asked.word, *asked.fields)
            if asked.reply not in (None, reply):
                self.undo(before)
                return False
        self.next[client] += 1
        self.order.append(client)
        self.count(client, asked, -1)
        return True

    def back_to(self, branch: Branch) -> None:
        while len(self.order) > branch.taken:
            client = self.order.pop()
            self.next[client] -= 1
            self.count(client, self.asked(client), 1)
        self.undo(branch.steps)

    # ---- what needs no choice

    def settle(self) -> bool:
        """Takes what may as well come first; whether the way continues."""
        moved = True
        while moved:
            moved = False
            for client in self.ready():
                asked = self.asked(client)
                alone = asked.reply is not None and self.is_alone(client, asked)
                if alone or self.is_settled(client, asked):
                    taken = self.take(client)
                    if alone and not taken:
                        return False
                    moved = moved or taken
        return True

    # ---- the search

    def is_done(self) -> bool:
        answered = any(asked.reply is not None for client, requests in enumerate(self.clients)
                       for asked in requests[self.next[client]:][:1])
        return not answered and (self.seen is None or self.nodes == self.seen)

    def branch(self) -> Branch:
        """The state that is come to, once what needs no choice is done, and what to try there."""
        goes_on = self.settle()
        if len(self.order) > self.longest:
            self.longest, self.stuck = len(self.order), self.replies()
        state = State(tuple(self.next), frozenset(self.nodes.changes.items()), frozenset(self.numbers.given.items()))
        clients = self.ready() if goes_on and state not in self.met else []
        self.met.add(state)
        if len(self.met) > self.most_states:
            raise Undecided
        return Branch(len(self.order), self.steps(), iter(clients))

    def replies(self) -> list[tuple[int, int, bytes | None]]:
        """The clients whose next request may come next, and what the tree as it is replies to it."""
        rows = []
        for client in self.ready():
            asked, before = self.asked(client), self.steps()
            rows.append((client, self.next[client], self.tree.judged(asked.reply, asked.word, *asked.fields)))
            self.undo(before)
        return rows

    def run(self) -> list[int] | None:
        """An order, as the clients whose turn it is; None if there is none."""
        branches = [self.branch()]
        while branches:
            if self.is_done():
                return list(self.order)
            branch = branches[-1]
            self.back_to(branch)
            client = next(branch.clients, None)
            if client is None:
                branches.pop()
            elif self.take(client):
                branches.append(self.branch())
        return None


def leads(asked: Sequence[Asked], before: Mapping[Path, Node], seen: Mapping[Path, Node]) -> bool:
    """Whether some order of requests, each of a client of its own, leads from the one tree to the other."""
    return Search([[row] for row in asked], before, seen).run() is not None
