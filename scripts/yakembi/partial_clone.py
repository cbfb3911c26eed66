"""A partial clone as a source of objects: what it lacks is asked of its remote, many objects at a time.

What is asked for within some milliseconds goes into one question, and what is asked for meanwhile into the next. What
is likely to be asked for next comes along in another one beside it: with a tree its subtrees; once blobs of one folder
are asked for one after another, others of that folder; and once folders that lie side by side are gone through, what is
below those after them. Such a guess is bounded in bytes and in time, and what fails of it is asked for like anything
else. So a remote that fails costs what is asked for alone.
"""

import contextlib
import itertools
import os
import re
import subprocess
import tempfile
import threading
import time
from collections.abc import Callable, Iterable, Sequence

from yakembi.fetching import Bounds, Question, TooSlow, Unanswered
from yakembi.folders import Folder, Folders, Trees
from yakembi.git import Objects, Refusal, Remote, Repository, environment

# How long one who asks first waits for others, in seconds; and how long at most, while something is brought already.
GATHERING, LONGEST_GATHERING = 0.005, 0.1
# How long one whose folder isn't known waits for trees that come or are read, in seconds: as long as its question took,
# but at least the first and at most the second, since mountd waits for all of it.
READING, LONGEST_READING = 1.0, 5.0
# How many bytes a guess may bring; and to how many that falls if guesses take too long.
AHEAD, LEAST_AHEAD = 16 << 20, 1 << 16
# How long a remote may say nothing, and how long a guess may take; mountd waits for 30 s. After one that took less
# than the last the next may bring twice as much again.
SILENCE, LONGEST_GUESS, SHORT_GUESS = 15.0, 8.0, 2.0
# How long nothing of a folder is guessed after a guess that failed, in seconds.
REST = 60.0
# How many guesses are under way at most, and how many objects each has.
MOST_GUESSES, MOST_GUESSED = 4, 10_000
# How many folders are looked into for one guess.
MOST_LOOKED_INTO = 2_000
# What a tree is taken to have.
TREE_BYTES = 1_024
# How many ids are written to Git before its answers are read, so that no pipe is full.
PIECE = 500
# What names an object.
ID = re.compile("[0-9a-f]{40}")
# Each brings a pack, and after this many Git may put them together, as it does after its own fetches.
QUESTIONS_BETWEEN_MAINTENANCE = 50


class Unreachable(Exception):
    """The remote can't be asked, which was said already."""


class Plain:
    """A repository's objects as Git reads them without its settings, so that none that is missing is fetched.

    Git up to 2.43 has no other way to say so.
    """

    def __init__(self, repository: Repository) -> None:
        self.folder = tempfile.TemporaryDirectory(prefix="git-objects.", ignore_cleanup_errors=True)
        os.mkdir(os.path.join(self.folder.name, "refs"))
        with open(os.path.join(self.folder.name, "HEAD"), "w") as head:
            head.write("ref: refs/heads/none\n")
        self.environment = {**environment(), "GIT_DIR": self.folder.name,
                            "GIT_OBJECT_DIRECTORY": repository.objects_folder}
        self.lock = threading.Lock()
        self.looking: subprocess.Popen[bytes] | None = None

    def objects(self) -> Objects:
        return Objects(self.folder.name, self.environment)

    def absent(self, ids: Sequence[str]) -> list[str]:
        """Those that aren't there."""
        found: list[str] = []
        for at in range(0, len(ids), PIECE):
            with self.lock:
                found += self.absent_of(ids[at : at + PIECE])
        return found

    def absent_of(self, ids: Sequence[str]) -> list[str]:
        if self.looking is None:
            words = ["git", "-C", self.folder.name, "cat-file", "--batch-check"]
            self.looking = subprocess.Popen(words, stdin=subprocess.PIPE, stdout=subprocess.PIPE,
                                            stderr=subprocess.DEVNULL, env=self.environment)
        assert self.looking.stdin is not None and self.looking.stdout is not None
        try:
            self.looking.stdin.write("".join(f"{object_id}\n" for object_id in ids).encode())
            self.looking.stdin.flush()
            answers = [self.looking.stdout.readline() for _ in ids]
        except BrokenPipeError:
            answers = [b""]
        if not all(answers):
            self.end_looking()
            raise Unanswered("git can't look for objects")
        return [object_id for object_id, answer in zip(ids, answers) if answer.endswith(b" missing\n")]

    def end_looking(self) -> None:
        if self.looking is not None:
            self.looking.kill()
            self.looking.communicate()
        self.looking = None

    def end(self) -> None:
        with self.lock:
            self.end_looking()
        self.folder.cleanup()


class Want:
    """An object that is being brought, and for which others wait."""

    def __init__(self) -> None:
        self.over = threading.Event()
        # Whether it came; and, of one that was asked for, whether no remote has it.
        self.came = False
        self.is_nowhere = False

    def end(self, came: bool, is_nowhere: bool = False) -> None:
        self.came, self.is_nowhere = came, is_nowhere
        self.over.set()


def known_here(repository: Repository, ids: set[str]) -> set[str]:
    """Those objects that are there, of which nothing is fetched; all of them if that can't be said. What is no id is
    none."""
    ids = {object_id for object_id in ids if ID.fullmatch(object_id)}
    if not repository.remotes():
        return repository.known(ids)
    here = Plain(repository)
    try:
        return ids - set(here.absent(sorted(ids)))
    except Unanswered:
        return ids
    finally:
        here.end()


class PartialClone:
    """What git-objects serves of a partial clone. Any thread may call it.

    `root` is the tree that is shown, if that is known: below it folders are found whose trees nobody asked for.
    """

    def __init__(self, repository: Repository, remotes: Sequence[Remote], root: str | None = None, ahead: int = AHEAD,
                 silence: float = SILENCE, tell: Callable[[str], object] = print,
                 log: Callable[[str], object] = lambda _: None) -> None:
        self.repository = repository
        self.remotes = remotes
        # How much a guess brings: at most the bound, and less if that takes too long.
        self.most_ahead = self.ahead = ahead
        self.silence = silence
        self.tell = tell
        self.log = log
        self.plain = Plain(repository)
        self.lock = threading.Lock()
        self.folders = Folders()
        self.wants: dict[str, Want] = {}
        self.gathered: list[str] = []
        # How many times what was gathered is being brought.
        self.bringing = 0
        self.all_brought = threading.Condition(self.lock)
        self.guesses: dict[str, Want] = {}
        self.guessing = 0
        self.questions: set[Question] = set()
        self.asked = 0
        # The trees that are there, and those that came since: they are read once something is asked for whose folder
        # isn't known.
        self.trees = Trees()
        self.root = root
        self.unread = [] if root is None else [root]
        # How many times trees are being guessed or read.
        self.reading = 0
        self.all_read = threading.Condition(self.lock)
        self.is_over = False

    def objects(self) -> Objects:
        """What is there; a remote is asked by `bring`."""
        return self.plain.objects()

    # ---- what is asked for

    def bring(self, object_id: str) -> bool:
        """Brings an object that wasn't there a moment ago; whether a remote may have it.

        One that can't be asked is an Unreachable.
        """
        self.guess_others(object_id)
        while True:
            with self.lock:
                guess = self.guesses.get(object_id)
                if guess is None:
                    want = self.wants.get(object_id)
                    leads = want is None and not self.gathered
                    if want is None:
                        want = self.wants[object_id] = Want()
                        self.gathered.append(object_id)
                    break
            guess.over.wait()
            if guess.came:
                return True
        began = time.monotonic()
        if leads:
            self.bring_all(self.gather())
        want.over.wait()
        if not want.came and not want.is_nowhere:
            raise Unreachable
        # Its folder may have been found meanwhile, or will be soon: then others of it needn't be asked for alone.
        self.folder_of(object_id, max(READING, min(time.monotonic() - began, LONGEST_READING)))
        return want.came

    def gather(self) -> list[str]:
        """What is asked for within some milliseconds, and while something is brought already."""
        time.sleep(GATHERING)
        with self.lock:
            self.all_brought.wait_for(lambda: self.bringing == 0, LONGEST_GATHERING)
            self.bringing += 1
            asked, self.gathered = self.gathered, []
        return asked

    def bring_all(self, ids: list[str]) -> None:
        """Asks each remote in turn for what isn't there, and answers those who wait."""
        lacking, nowhere = ids, set[str]()
        try:
            # What came by a guess since it was looked for isn't asked for again.
            lacking = self.plain.absent(ids)
            failed: set[str] = set()
            for remote in self.remotes:
                lacking = self.ask_for(remote, lacking, failed)
            nowhere = set(lacking) - failed
        except (Unanswered, OSError) as problem:
            self.tell(f"objects can't be brought: {problem}")
        finally:
            with self.lock:
                for object_id in ids:
                    self.wants.pop(object_id).end(object_id not in lacking, object_id in nowhere)
                self.bringing -= 1
                self.all_brought.notify_all()

    def ask_for(self, remote: Remote, ids: list[str], failed: set[str]) -> list[str]:
        """Asks a remote, and gives what didn't come. Of that `failed` has what the remote doesn't say that it lacks.

        What a failure names is left out of the next question, so that it costs nothing else.
        """
        lacking: list[str] = []
        while ids:
            try:
                self.question(remote, ids, Bounds(self.silence), "")
                break
            except Unanswered as problem:
                self.tell(f"{remote.name} gave none of {len(ids)} objects: {problem}")
                named = [object_id for object_id in ids if object_id in problem.errors] or ids
                failed |= {object_id for object_id in named if f"not our ref {object_id}" not in problem.errors}
                lacking += named
                ids = [object_id for object_id in ids if object_id not in named]
        return lacking

    def question(self, remote: Remote, ids: Sequence[str], bounds: Bounds, how: str) -> float:
        """Asks a remote, and says so in the log; how many seconds it took."""
        asked = Question(self.repository, remote, ids)
        with self.lock:
            if self.is_over:
                raise Unanswered("the server ends")
            self.questions.add(asked)
        began = time.monotonic()
        try:
            came = asked.ask(bounds)
        finally:
            with self.lock:
                self.questions.remove(asked)
                self.asked += 1
                tidies = self.asked % QUESTIONS_BETWEEN_MAINTENANCE == 0
        seconds = time.monotonic() - began
        self.log(f"{remote.name} gave {len(ids)} objects{how}: {came} bytes, {seconds:.3f} s")
        for object_id in ids:
            self.log(f"fetched {object_id}{how}")
        if tidies:
            self.start(self.repository.git, "maintenance", "run", "--auto", "--quiet")
        return seconds

    # ---- what is guessed

    def served_tree(self, tree_id: str, body: bytes) -> None:
        """A tree is about to be served: from now on its subtrees are on their way."""
        with contextlib.suppress(Refusal):
            folder = Folder(tree_id, body)
            with self.lock:
                folder = self.folders.learn(folder)
                folder.look_into()
                self.guess(folder, folder.trees, True, TREE_BYTES)
                self.guess_behind(folder, True)

    def served_blob(self, blob: str, length: int) -> None:
        with self.lock:
            if folder := self.folders.of(blob):
                folder.serve(length)

    def asked_blob(self, blob: str) -> None:
        """A blob is asked for, be it there or not."""
        with self.lock:
            if folder := self.folders.of(blob):
                folder.ask(blob)

    def guess_others(self, object_id: str) -> None:
        """Once blobs of a folder are asked for one after another, others of it are on their way."""
        if folder := self.folder_of(object_id):
            with self.lock:
                if self.guess_behind(folder, False) or folder.in_a_row > 1:
                    chosen = self.guess(folder, folder.others(object_id), False, folder.usual_bytes())
                    folder.guessed(object_id, chosen)

    def guess_behind(self, folder: Folder, are_trees: bool) -> bool:
        """Under the lock: whether folders that lie side by side are gone through, and this one is the next.

        Then the trees or blobs below it and below those after it will be on their way.
        """
        walks = list(self.folders.walks(folder, are_trees)) if self.ahead else []
        for above, place in walks:
            if place >= above.next_folder[are_trees] and time.monotonic() >= above.rests_until:
                above.next_folder[are_trees] = len(above.trees)
                # The trees of this one are guessed already.
                words = (place + 1, True, TREE_BYTES) if are_trees else (place, False, folder.usual_bytes())
                with contextlib.suppress(RuntimeError):
                    self.start(self.look_behind, above, *words)
        return walks != []

    def look_behind(self, above: Folder, start: int, are_trees: bool, usual_bytes: int) -> None:
        """Guesses the missing trees, or the blobs, below the folders from a place on, as many as a guess may have.

        It is looked again from the place at which trees are missing, which may be there by then.
        """
        most, ids, met, again = self.most_guessed(usual_bytes), list[str](), set[str](), len(above.trees)
        ahead = [(tree_id, at) for at, tree_id in enumerate(above.trees)][start:]
        objects = self.objects()
        with contextlib.suppress(Refusal, OSError):
            while ahead:
                tree_id, at = ahead.pop(0)
                if len(ids) >= most or len(met) >= MOST_LOOKED_INTO:
                    again = min(again, at)
                    break
                if tree_id in met:
                    continue
                met.add(tree_id)
                if answer := objects.ask(tree_id):
                    folder = Folder(tree_id, b"".join(objects.pieces(answer[1])))
                    ids += [] if are_trees else folder.blobs
                    ahead[:0] = [(below, at) for below in folder.trees]
                    continue
                again = min(again, at)
                if not are_trees:
                    break
                ids.append(tree_id)
        objects.end()
        with self.lock:
            above.next_folder[are_trees] = again
            self.guess(above, ids, are_trees, usual_bytes)

    def folder_of(self, object_id: str, seconds: float = 0.0) -> Folder | None:
        """The folder of a blob that is asked for. If that is found only now it counts as asked for now.

        This long it waits, if trees are read in which it may be found.
        """
        with self.lock:
            folder = self.folders.of(object_id)
            is_tree = object_id == self.root or self.folders.knows_tree(object_id)
        if folder is None and not is_tree and (folder := self.look_up(object_id, seconds)):
            with self.lock:
                folder = self.folders.learn(folder)
                folder.ask(object_id)
        return folder

    def look_up(self, object_id: str, seconds: float) -> Folder | None:
        """The folder of a blob in the trees that are there, for which it waits this long; those not read yet are
        from now on.

        So it is with a file of a folder that an overlay has, or whose tree was read by somebody else: nobody asks here
        for that tree.
        """
        with self.lock:
            self.all_read.wait_for(self.is_all_read, seconds)
        return self.trees.folder_of(object_id)

    def is_all_read(self) -> bool:
        """Under the lock: whether no tree comes or is read any more. Those that came are read from now on."""
        if self.unread:
            with contextlib.suppress(RuntimeError):
                self.start(self.read_trees, self.unread)
                self.unread, self.reading = [], self.reading + 1
        return self.reading == 0

    def read_trees(self, tops: list[str]) -> None:
        try:
            objects = self.objects()
            try:
                self.trees.read(tops, objects)
            finally:
                objects.end()
        except (Refusal, OSError) as problem:
            self.log(f"trees can't be read: {problem}")
        finally:
            with self.lock:
                self.end_reading()

    def end_reading(self) -> None:
        """Under the lock: trees were read, or came."""
        self.reading -= 1
        self.all_read.notify_all()

    def most_guessed(self, usual_bytes: int) -> int:
        """How many objects a guess has at most: half as many as would fill the bound, since others may be larger."""
        return min(self.ahead // (2 * usual_bytes), MOST_GUESSED)

    def guess(self, folder: Folder, ids: Iterable[str], are_trees: bool, usual_bytes: int) -> list[str]:
        """Under the lock: a guess of these is under way from now on, and whoever asks for one of them waits for it."""
        if self.guessing >= MOST_GUESSES or time.monotonic() < folder.rests_until:
            return []
        free = (object_id for object_id in ids if object_id not in self.guesses and object_id not in self.wants)
        guess = {object_id: Want() for object_id in itertools.islice(free, self.most_guessed(usual_bytes))}
        chosen = list(guess)
        if guess:
            # Its thread waits for the lock before it ends what is waited for. Without one nothing is guessed.
            with contextlib.suppress(RuntimeError):
                self.start(self.bring_guess, folder, guess, are_trees)
                self.guesses.update(guess)
                self.guessing += 1
                self.reading += are_trees
                return chosen
        return []

    def bring_guess(self, folder: Folder, guess: dict[str, Want], are_trees: bool) -> None:
        came, lacking = False, list[str]()
        try:
            lacking = self.plain.absent(list(guess))
            with self.lock:
                self.end_guess(guess, guess.keys() - lacking, True)
            if lacking:
                bounds = Bounds(self.silence, LONGEST_GUESS, self.ahead)
                if self.question(self.remotes[0], lacking, bounds, " ahead") < SHORT_GUESS:
                    self.ahead = min(2 * self.ahead, self.most_ahead)
            came = True
        except (Unanswered, OSError) as problem:
            folder.rests_until = time.monotonic() + REST
            if isinstance(problem, TooSlow):
                self.ahead = max(self.ahead // 2, min(LEAST_AHEAD, self.most_ahead))
            self.log(f"{self.remotes[0].name} gave nothing ahead: {problem}")
        finally:
            with self.lock:
                self.guessing -= 1
                if are_trees:
                    self.unread += lacking if came else []
                    self.end_reading()
                self.end_guess(guess, list(guess), came)

    def end_guess(self, guess: dict[str, Want], ids: Iterable[str], came: bool) -> None:
        """Under the lock: these objects of a guess are waited for no longer, and are there if they came."""
        for object_id in ids:
            del self.guesses[object_id]
            guess.pop(object_id).end(came)

    # ---- threads

    def start(self, call: Callable[..., object], *words: object) -> None:
        threading.Thread(target=call, args=words, daemon=True).start()

    def end(self) -> None:
        """Ends all questions, and waits until nothing is left of them."""
        with self.lock:
            self.is_over = True
            questions = list(self.questions)
        for question in questions:
            question.stop()
        until = time.monotonic() + 5
        while self.questions and time.monotonic() < until:
            time.sleep(0.01)
        self.plain.end()
