"""Rounds of random requests, several of which are under way at a time, whose replies are those of some order."""

import contextlib
import random
import re
import time
from collections.abc import Callable, Sequence

from checks import check
from clients import ENDED, Client, Odd, seen_by
from random_requests import WORDS, RandomRequests, line_of
from yakembi.session_order import Asked, leads
from yakembi.tree_model import Nodes, Values

MOST_TOGETHER = 8
# The fault of a source that fails.
NOT_FETCHED = re.compile(rb"fault fetch [0-9a-f]{40} Device")


class Round:
    """Some requests, several of which are under way at a time, each of another client."""

    def __init__(self, generator: random.Random, clients: Sequence[Client], requests: RandomRequests) -> None:
        self.random = generator
        self.idle = list(clients)
        self.requests = requests
        self.waiting: list[tuple[Client, str, Values, float]] = []
        self.asked: list[Asked] = []

    def send(self, words: Sequence[str]) -> None:
        """One more request of a client that waits for none."""
        client = self.idle.pop(self.random.randrange(len(self.idle)))
        word, fields = self.requests.one(words)
        self.waiting.append((client, word, fields, time.monotonic()))
        client.send(line_of(word, fields))

    def hear(self) -> None:
        """The reply to one that waits. The end of its session is none."""
        client, word, fields, sent = self.waiting.pop(self.random.randrange(len(self.waiting)))
        reply = client.reply()
        heard = time.monotonic()
        told = (None, None) if reply == ENDED else (heard, reply)
        self.asked.append(Asked(word, fields, sent, *told))
        self.idle.append(client)

    def run(self, count: int, words: Sequence[str]) -> list[Asked]:
        """This many requests; at times one is sent only when another's reply came."""
        chance = self.random.choice([0, 0.2, 0.5])
        for _ in range(count):
            while len(self.waiting) == MOST_TOGETHER or self.waiting and self.random.random() < chance:
                self.hear()
            self.send(words)
        while self.waiting:
            self.hear()
        return self.asked


def check_round(name: str, generator: random.Random, clients: Sequence[Client], requests: RandomRequests,
                words: Sequence[str] = WORDS, faults: re.Pattern[bytes] = NOT_FETCHED,
                look: Callable[[Client], Nodes] = seen_by) -> list[Asked]:
    """The replies of one round are those of some order, or such faults, which leads to the tree that is seen then."""
    asked = Round(generator, clients, requests).run(generator.randint(4, 16), words)
    try:
        seen = look(generator.choice(clients))
    except Odd as odd:
        check(f"{name}: what is seen then", odd.args, "a tree")
        raise
    told = [row.reply for row in asked if row.reply is not None and row.reply.startswith(b"fault ")]
    check(f"{name}: other faults", [reply for reply in told if not faults.fullmatch(reply)], [])
    answered = all(row.reply is not None for row in asked)
    found = answered and leads(asked, requests.tree.nodes, seen)
    check(name, "an order" if found else asked, "an order")
    requests.tree.nodes = seen
    return asked


def check_rounds(name: str, generator: random.Random, clients: Sequence[Client], requests: RandomRequests, count: int,
                 words: Sequence[str] = WORDS) -> list[list[Asked]]:
    """Some rounds, up to one after which the tree can't be seen. What was asked in each."""
    rounds = []
    with contextlib.suppress(Odd):
        for at in range(count):
            rounds.append(check_round(f"{name} {at}", generator, clients, requests, words))
    return rounds
