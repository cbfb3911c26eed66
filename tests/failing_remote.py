"""What Git starts at a remote in the place of `git upload-pack`: it counts its starts, and fails as it is told.

    python3 failing_remote.py FOLDER REPOSITORY

FOLDER/starts gets a line at each start. FOLDER/mode says how the remote behaves:

    good             as it should
    slow SECONDS     this much later
    dead             it ends at once
    silent           it takes the question, and says nothing
    many-silent      so if it is asked for more than one object
    cut N            it ends after N bytes
    stalled N        it says nothing more after N bytes
    damaged N        the byte N is another one
"""

import os
import pathlib
import subprocess
import sys
import threading
import time

FOREVER = 1_000
PIECE = 1 << 16


def pass_questions(to: int, many_is_silent: bool) -> None:
    """Hands the client's lines to Git, or keeps them back."""
    wants = 0
    while piece := os.read(0, PIECE):
        wants += piece.count(b"want ")
        if many_is_silent and wants > 1:
            time.sleep(FOREVER)
        os.write(to, piece)
    os.close(to)


def pass_answers(by: int, mode: str, place: int) -> None:
    passed = 0
    while piece := os.read(by, PIECE):
        at = place - passed
        passed += len(piece)
        if at < len(piece) and mode in ("cut", "stalled"):
            os.write(1, piece[:at])
            time.sleep(FOREVER if mode == "stalled" else 0)
            os._exit(1)
        if 0 <= at < len(piece) and mode == "damaged":
            piece = piece[:at] + bytes([piece[at] ^ 1 << passed % 8]) + piece[at + 1 :]
        while piece:
            piece = piece[os.write(1, piece) :]


def main(folder: pathlib.Path, repository: str) -> int:
    mode, *number = (folder / "mode").read_text().split()
    with open(folder / "starts", "a") as starts:
        starts.write(f"{mode}\n")
    if mode in ("good", "slow"):
        time.sleep(float(number[0]) if number else 0)
        os.execvp("git", ["git", "upload-pack", repository])
    if mode == "dead":
        return 1
    if mode == "silent":
        time.sleep(FOREVER)
    git = subprocess.Popen(["git", "upload-pack", repository], stdin=subprocess.PIPE, stdout=subprocess.PIPE)
    assert git.stdin is not None and git.stdout is not None
    words = git.stdin.fileno(), mode == "many-silent"
    threading.Thread(target=pass_questions, args=words, daemon=True).start()
    pass_answers(git.stdout.fileno(), mode, int(number[0]) if number else 0)
    return git.wait()


if __name__ == "__main__":
    # Who asked may be gone, and then nothing is to be cleaned up.
    os._exit(main(pathlib.Path(sys.argv[1]), sys.argv[2]))
