#!/usr/bin/env python3
"""Judges captures: whether some one-at-a-time order explains what eight clients saw.

    answer = kilteshva.judge(data)
    if answer.is_green: ...

The judge is a proved library, libkilteshva.so, which shipped/library makes in target/library; the environment variable
KILTESHVA_LIBRARY names another folder to find it in. This module has no judgement of its own. Any bytes get an answer, and any
number of threads may ask at once.

A file that is cut behind an event is a shorter capture, and as such may be green: look whether the operations are those that you
expect, or hold the files to a manifest.

`python3 kilteshva.py FILE...` judges files, a line for each."""
import ctypes
import dataclasses
import functools
import operator
import os
import pathlib
import re
import sys

ORDER, NO_ORDER, UNDECIDED, INVALID, REFUSED = VERDICTS = ("Order", "No order", "Undecided", "Invalid", "Refused")

# Sequential consistency (Lamport 1979): an order has to respect each thread's own order. Linearizability (Herlihy and Wing 1990):
# real time too, so that no stale answer passes.
MODELS = {"sequential": 0, "linearizable": 1}

# The most bytes of a file. A longer one is refused whatever it holds, so nobody needs to read more than one byte beyond.
LONGEST_FILE = 65_536

# Every refusal that a file can meet. The second and the third make a capture Invalid.
REFUSALS = {
    2: "the event names a thread above 7",
    4: "the thread invokes an operation while its last one is still in flight",
    5: "the thread returns although it has no operation in flight",
    6: "the event would be the 65th operation, and 64 is the most",
    20: "the file is longer than 65,536 bytes",
    21: "the file does not open with the bytes RAW1",
    22: "the file ends where a number should go on",
    23: "a number is above 4,294,967,295 or longer than five bytes",
    24: "a number stands for no object, operation, return or flag",
    25: "the stack starts with more than 32 values",
}

_LIBRARY = "libkilteshva.so"
_MADE_IN = pathlib.Path(__file__).resolve().parent / "../../target/library"
_ANSWER = 79
_THREADS_AT = 15
_UNUSED = 255


class LibraryError(Exception):
    """There is no library, or it is not the judge's: it gave what the judge promises never to give."""


@dataclasses.dataclass(frozen=True)
class Answer:
    """What the judge says of a file."""

    verdict: str
    # Attempts that the search made; with Undecided, the budget.
    attempts: int = 0
    # Whose operation comes next. The k-th time that a thread stands here, its k-th operation is meant. An operation that got no
    # answer may stand here or not.
    order: tuple[int, ...] = ()
    # Why the file was not judged to its end, of REFUSALS; 0 with Order, No order and Undecided.
    refusal: int = 0
    # Where the event that was refused starts in the file; 0 for the header or the whole file.
    place: int = 0

    @property
    def is_green(self) -> bool:
        """Some order explains the capture, and there was something to explain."""
        return self.verdict == ORDER and not self.is_empty

    @property
    def is_empty(self) -> bool:
        """The order is empty: no operation completed, so that nothing was judged."""
        return self.verdict == ORDER and not self.order

    def __bool__(self):
        raise TypeError("an answer is neither true nor false: ask whether it is_green")

    def __str__(self):
        """What the verdict means for this file, in plain words."""
        attempts = "1 attempt" if self.attempts == 1 else f"{self.attempts} attempts"
        if self.is_empty:
            return "nothing judged, since no operation completed"
        if self.verdict == ORDER:
            return f"threads {' '.join(map(str, self.order))} ({attempts})"
        if self.verdict == NO_ORDER:
            return f"no one-at-a-time order explains it ({attempts})"
        if self.verdict == UNDECIDED:
            return f"a budget of {attempts} does not cover the search"
        place = f"in the event at byte {self.place}" if self.place else "in the header"
        return f"refusal {self.refusal} {place}: {REFUSALS[self.refusal]}"


def judge(data: bytes, model: str = "linearizable", budget: int = 1_000_000_000) -> Answer:
    """Judges the bytes of a file under a model, linearizable or sequential, with at most `budget` attempts at placing an operation.

    A larger budget never changes Order or No order; it can only turn Undecided into one of them. The budget bounds the time, too,
    and nothing else ends a call early. Raises LibraryError where there is no answer of the judge's, so that this is never green."""
    data = memoryview(data).tobytes()
    if model not in MODELS:
        raise ValueError(f"the model is {' or '.join(MODELS)}, and not {model!r}")
    budget = operator.index(budget)
    if not 0 <= budget < 2**64:
        raise ValueError(f"a budget is 0 to {2**64 - 1}, and not {budget}")
    buffer = ctypes.create_string_buffer(_ANSWER)
    result = _library().kilteshva_judge(data, len(data), MODELS[model], budget, buffer, _ANSWER)
    return _taken_apart(result, buffer.raw)


def library_digest() -> str:
    """The digest of the sources and of the kit that the library was made from, 64 hex digits."""
    try:
        digest = (ctypes.c_char * 65).in_dll(_library(), "kilteshva_made_of").raw
    except ValueError as error:
        raise LibraryError(f"the library is not the judge: {error}") from error
    if not re.fullmatch(rb"[0-9a-f]{64}\0", digest):
        raise LibraryError("the library is not the judge: it does not say what it was made from")
    return digest[:64].decode("ascii")


@functools.lru_cache(maxsize=None)
def _library():
    path = pathlib.Path(os.environ.get("KILTESHVA_LIBRARY") or _MADE_IN).absolute() / _LIBRARY
    try:
        library = ctypes.CDLL(str(path))
        call = library.kilteshva_judge
    except (OSError, AttributeError) as error:
        raise LibraryError(f"{path} is not there or not the judge (shipped/library makes it): {error}") from error
    call.restype = ctypes.c_uint32
    call.argtypes = [
        ctypes.c_char_p,
        ctypes.c_size_t,
        ctypes.c_uint32,
        ctypes.c_uint64,
        ctypes.POINTER(ctypes.c_char),
        ctypes.c_size_t,
    ]
    return library


def _taken_apart(result, answer):
    """What the exported call's result and bytes say, if each field is one that the others allow."""
    verdict, refusal, length = answer[:3]
    attempts = int.from_bytes(answer[3:11], "little")
    place = int.from_bytes(answer[11:_THREADS_AT], "little")
    order, rest = answer[_THREADS_AT:][:length], answer[_THREADS_AT:][length:]
    whole = len(order) == length and all(thread < 8 for thread in order) and all(unused == _UNUSED for unused in rest)
    if result == 0 and whole and verdict < len(VERDICTS):
        found = Answer(VERDICTS[verdict], attempts, tuple(order), refusal, place)
        if _allowed(found):
            return found
    raise LibraryError(f"the library is not the judge (it returned {result})")


def _allowed(answer):
    if answer.verdict == ORDER:
        return answer.refusal == 0 and answer.place == 0
    if answer.verdict in (NO_ORDER, UNDECIDED):
        return not answer.order and answer.refusal == 0 and answer.place == 0
    refused = [number for number in REFUSALS if (number in (4, 5)) == (answer.verdict == INVALID)]
    return not answer.order and answer.attempts == 0 and answer.refusal in refused


USAGE = """\
usage: kilteshva.py [--model MODEL] [--budget N] FILE...
       kilteshva.py --made-of

MODEL is linearizable (the default) or sequential. N is how many attempts the search of a file may make (default 1000000000).
--made-of prints the digest of what the library was made from.

exit status, the first that fits:
  2  bad usage, or some file was not judged: unreadable, or no operation in it completed
  1  some file is No order, Invalid or Refused
  3  some file is Undecided
  0  every file is Order
"""

GREEN, RED, TROUBLE, OPEN = range(4)


def _line(verdict, name, text):
    """A line of its own: no name can end it or change what the terminal shows."""
    shown = re.sub(rb"[\0-\x1f\x7f]", lambda found: b"\\x%02x" % found[0][0], os.fsencode(name))
    sys.stdout.buffer.write(b"%-10s %s: %s\n" % (verdict.encode(), shown, os.fsencode(text)))


def _judge_file(name, model, budget):
    """Tells what comes of a file, and which exit status it stands for."""
    try:
        with open(name, "rb") as file:
            data = file.read(LONGEST_FILE + 1)
    except OSError as error:
        _line("Unreadable", name, error.strerror)
        return TROUBLE
    try:
        answer = judge(data, model, budget)
    except LibraryError as error:
        _line("Unknown", name, str(error))
        return TROUBLE
    _line("Empty" if answer.is_empty else answer.verdict, name, str(answer))
    if answer.is_empty:
        return TROUBLE
    return {ORDER: GREEN, UNDECIDED: OPEN}.get(answer.verdict, RED)


def _options(words):
    """The model, the budget and the files; None for words that make no sense. What stands behind the first file is a file too."""
    model, budget, words = "linearizable", 1_000_000_000, list(words)
    while len(words) > 1 and words[0].startswith("--"):
        option, value, *words = words
        if option == "--model" and value in MODELS:
            model = value
        elif option == "--budget" and re.fullmatch("0*[0-9]{1,20}", value) and int(value[-20:]) < 2**64:
            budget = int(value[-20:])
        else:
            return None
    return (model, budget, words) if words and not words[0].startswith("--") else None


def main(words):
    if words == ["--made-of"]:
        print(library_digest())
        return GREEN
    options = _options(words)
    if options is None:
        sys.stderr.write(USAGE)
        return TROUBLE
    model, budget, files = options
    came_to = {_judge_file(name, model, budget) for name in files}
    return next((status for status in (TROUBLE, RED, OPEN) if status in came_to), GREEN)


if __name__ == "__main__":
    # There is no stdout where it was closed.
    if sys.stdout is None:
        sys.exit(TROUBLE)
    try:
        status = main(sys.argv[1:])
        sys.stdout.flush()
    except (LibraryError, OSError) as error:
        sys.stderr.write(f"kilteshva.py: {error}\n")
        # At once, since Python would try to write the lines again, and exit with a status of its own.
        os._exit(TROUBLE)
    sys.exit(status)
