"""Compares a program with the second program, and both with the standards and the documents.

    python3 reference/compare.py PROGRAM    compares the executable PROGRAM
    python3 reference/compare.py --self     checks the second program alone

The status is 0 where every check held, and 1 otherwise.
"""

import hmac
import io
import random
import re
import subprocess
import sys
import tempfile
from collections import Counter
from collections.abc import Callable, Iterator
from functools import partial
from itertools import zip_longest
from pathlib import Path
from typing import NamedTuple

import detzorb
import keys
import message_scripts
import messages
import method_answers
import method_mistakes
import method_scripts
import script
import scripts

_DOCUMENT = Path(__file__).resolve().parent.parent / "docs" / "SCRIPTS.md"
_SECONDS = 300  # after which a program counts as hanging
_MOST_SHOWN = 3  # differences of one script that are printed
_SEED = 1


class Failure(Exception):
    """A check that does not hold; the message says how."""


class Run(NamedTuple):
    """What came out of a program, and its status; below 0 where a signal ended it."""

    output: bytes
    errors: bytes
    status: int


class SecondProgram:
    """The second program, as a module."""

    def run(self, text: bytes) -> Run:
        """Answers a script."""
        output = io.BytesIO()
        readable = detzorb.answer_script(io.BytesIO(text), output)
        return Run(output.getvalue(), b"", 0 if readable else 1)

    def compared(self, text: bytes, run: Run) -> str:
        """Nothing: there is no other program to compare it with."""
        return ""


class Program:
    """A program that is run as a process."""

    def __init__(self, *words: str) -> None:
        self._words = words

    def start(self, *arguments: str, text: bytes = b"") -> Run:
        """Runs it with these arguments and this standard input."""
        try:
            done = subprocess.run(
                [*self._words, *arguments],
                input=text,
                capture_output=True,
                timeout=_SECONDS,
                check=False,
            )
        except subprocess.TimeoutExpired:
            raise Failure(f"the program did not end within {_SECONDS} seconds") from None
        except OSError as error:
            raise Failure(f"the program cannot be run: {error}") from None
        return Run(done.stdout, done.stderr, done.returncode)

    def run(self, text: bytes) -> Run:
        """Answers a script, which is given on the standard input and again as a file."""
        run = self.start(text=text)
        with tempfile.NamedTemporaryFile() as file:
            file.write(text)
            file.flush()
            of_file = self.start(file.name)
        if (of_file.output, of_file.status) != (run.output, run.status):
            raise Failure(
                "the answers to a file differ from those to the standard input: "
                f"{len(of_file.output)} bytes and status {of_file.status}, "
                f"{len(run.output)} bytes and status {run.status}{_said(of_file)}{_said(run)}"
            )
        return run

    def compared(self, text: bytes, run: Run) -> str:
        """Compares its answers to a script with those of the second program."""
        _compare(text, run)
        return ", equal"


Answering = SecondProgram | Program


def _shown(line: bytes | None) -> str:
    if line is None:
        return "(nothing)"
    return repr(line)[1:] if len(line) <= 200 else f"{repr(line[:200])[1:]} .. ({len(line)} bytes)"


def _said(run: Run) -> str:
    """The end of what a program said on the standard error, for a failure's message."""
    said = run.errors.decode(errors="backslashreplace").strip()
    return f"\n  standard error: {said[-500:]}" if said else ""


def _compare(text: bytes, run: Run) -> None:
    """Compares the answers to a script, line by line, and the status with the second program's."""
    lines = text.split(b"\n")
    expected: list[bytes] = []
    numbers: list[int] = []  # of the script line that each line of an answer belongs to
    status = 0
    for answer in script.answers(io.BytesIO(text), detzorb.all_commands()):
        expected += [line.encode() for line in answer.lines]
        numbers += [answer.number] * len(answer.lines)
        status |= not answer.readable
    given = run.output.split(b"\n")
    unended = given.pop()  # what follows the last line feed
    if unended:
        given.append(unended)
    wrong: list[str] = []
    differences = 0
    for place, (theirs, ours) in enumerate(zip_longest(given, expected)):
        if theirs == ours:
            continue
        differences += 1
        if differences <= _MOST_SHOWN:
            asked = "after the last answer"
            if place < len(numbers):
                asked = f"line {numbers[place]}: {_shown(lines[numbers[place] - 1])}"
            wrong.append(f"{asked}\n  program: {_shown(theirs)}\n  second:  {_shown(ours)}")
    if differences:
        wrong.append(
            f"{differences} lines of answers differ; "
            f"{len(given)} from the program, {len(expected)} from the second"
        )
    if unended:
        wrong.append("the last line of the program's answers has no line feed")
    if run.status != status:
        wrong.append(f"the program's status is {run.status}, that of the second {status}")
    if wrong:
        raise Failure("\n".join(wrong) + _said(run))


def _check_known(
    program: Answering, asked: list[scripts.Vector], source: str, status: int = 0
) -> str:
    """Checks the answers to lines of which the source says what is to be answered."""
    text = b"".join(vector.line + b"\n" for vector in asked)
    run = program.run(text)
    wrong = scripts.check_vectors(asked, run.output)
    if len(wrong) > _MOST_SHOWN:
        wrong[_MOST_SHOWN:] = [f"and {len(wrong) - _MOST_SHOWN} more not as in {source}"]
    if run.status != status:
        wrong.append(f"the status is {run.status}, not {status}")
    try:
        verdict = program.compared(text, run)
    except Failure as failure:
        wrong.append(str(failure))
    if wrong:
        raise Failure("\n".join(wrong))
    return f"{len(asked)} lines, {len(asked)} answers as in {source}{verdict}"


def check_vectors(program: Answering) -> str:
    """The vectors of the standards."""
    return _check_known(program, scripts.vectors() + method_answers.vectors(), "the standards")


def check_known_messages(program: Answering) -> str:
    """Names and messages, with the answers that the documents give them."""
    return _check_known(program, message_scripts.known_answers(), "the documents")


def check_known_methods(program: Answering) -> str:
    """Methods and requests, with the answers that the documents give them."""
    return _check_known(program, method_answers.known_answers(), "the documents")


def check_random(program: Answering) -> str:
    """Random lines that can be read."""
    lines = scripts.random_lines(_SEED)
    text = b"".join(line.line for line in lines)
    counts = Counter(line.command for line in lines if line.command)
    run = program.run(text)
    verdict = program.compared(text, run)
    answered = run.output.count(b"\n")
    expected = counts["sha256"] + counts["hmac"] + 15 * counts["derive"]
    if answered != expected or run.status != 0:
        raise Failure(
            f"{answered} lines of answers and status {run.status}, "
            f"not {expected} and 0{_said(run)}"
        )
    kinds = ", ".join(f"{command} {counts[command]}" for command in ("sha256", "hmac", "derive"))
    silent = len(lines) - counts.total()
    asked = f"{counts.total()} lines and {silent} silent ones"
    return f"{asked}, {answered} lines of answers{verdict} ({kinds})"


_KINDS_OF_MISTAKES = {
    "unknown command": rb"unknown command '.+', try help",
    "no field": rb"[a-z0-9]+ has no field '.+'",
    "twice": rb"[a-z]+ stands twice",
    "unexpected word": rb"unexpected word '.+'",
    "missing": rb"[a-z]+ is missing",
    "no digit": rb"[a-z]+ has no hexadecimal digit at place [1-9][0-9]*",
    "odd": rb"[a-z]+ has an odd number of digits",
    "not 16": rb"[a-z]+ has [0-9]+ bytes, not 16",
    "too many": rb"[a-z]+ has [0-9]+ bytes, more than 65535",
}


def check_written_mistakes(program: Answering) -> str:
    """Lines that cannot be read, with what the document says of each."""
    asked = scripts.written_mistakes()
    run = program.run(b"".join(mistake.line + b"\n" for mistake in asked))
    given = run.output.split(b"\n")[:-1]
    wrong: list[str] = []
    for number, (mistake, line) in enumerate(zip_longest(asked, given), 1):
        expected = None if mistake is None else f"line {number}: {mistake.wrong}".encode()
        if line != expected and len(wrong) < _MOST_SHOWN:
            asking = _shown(None if mistake is None else mistake.line)
            wrong.append(
                f"line {number}: {asking}\n  answer: {_shown(line)}\n  wanted: {_shown(expected)}"
            )
    if run.status != 1:
        wrong.append(f"the status is {run.status}, not 1")
    if wrong:
        raise Failure("\n".join(wrong) + _said(run))
    return f"{len(asked)} lines, all refused as the document says"


_KINDS_OF_METHOD_MISTAKES = {
    **_KINDS_OF_MISTAKES,
    "no method": rb"no method is started, use card or scripted",
    "no row": rb"no row can be added, only to a recorded card or scripted method not yet used",
    "not with": rb"[a-z]+ does not go with [a-z-]+",
    "not one of": rb"[a-z]+ is not one of [a-z-]+(, [a-z-]+)+",
    "not a number": rb"[a-z]+ is not a number from 0 to [0-9]+",
    "not 14": rb"auts has [0-9]+ bytes, not 14",
    "too few": rb"suci has 0 bytes, fewer than 1",
    "too many": rb"[a-z]+ has [0-9]+ bytes, more than (44|128|255|65535)",
}


def check_written_method_mistakes(program: Answering) -> str:
    """Lines about methods that cannot be read, with what the document says of each."""
    asked = method_mistakes.written_mistakes()
    return _check_known(program, asked, "the document", status=1)


def _check_mistakes(program: Answering, text: bytes, kinds_of_mistakes: dict[str, bytes]) -> str:
    """Checks a script of lines that cannot be read, with some that can."""
    run = program.run(text)
    verdict = program.compared(text, run)
    counts = Counter(
        kind
        for line in run.output.split(b"\n")
        for kind, pattern in kinds_of_mistakes.items()
        if re.fullmatch(rb"line [0-9]+: " + pattern, line)
    )
    refused = len(re.findall(rb"^line ", run.output, re.MULTILINE))
    fewest = min(counts[kind] for kind in kinds_of_mistakes)
    if refused != counts.total() or fewest < 5 or run.status != 1:
        raise Failure(
            f"status {run.status}, {refused} lines refused, "
            f"of these kinds: {dict(counts)}{_said(run)}"
        )
    kinds = ", ".join(f"{kind} {counts[kind]}" for kind in kinds_of_mistakes)
    lines = len(text.split(b"\n"))
    return f"{lines} lines, {refused} refused{verdict} ({kinds})"


def check_mistakes(program: Answering) -> str:
    """Lines that cannot be read, in one script with damaged lines."""
    return _check_mistakes(program, scripts.mistakes(_SEED), _KINDS_OF_MISTAKES)


def check_method_mistakes(program: Answering) -> str:
    """Damaged lines about methods."""
    return _check_mistakes(program, method_mistakes.mistakes(_SEED), _KINDS_OF_METHOD_MISTAKES)


def check_edges(program: Answering) -> str:
    """Whole scripts, with what the document says of each."""
    asked = scripts.edges()
    for edge in asked:
        run = program.run(edge.script)
        if (run.output, run.status) != (edge.answer, edge.status):
            raise Failure(
                f"{edge.name}: {_shown(edge.script)}\n"
                f"  answer: {_shown(run.output)} and status {run.status}\n"
                f"  wanted: {_shown(edge.answer)} and status {edge.status}{_said(run)}"
            )
        program.compared(edge.script, run)
    return f"{len(asked)} scripts, all as the document says"


_KINDS_OF_MESSAGES = {
    "request": rb"AUTHENTICATION REQUEST, [0-9]+ bytes",
    "success": rb"AUTHENTICATION RESULT \(success\), [0-9]+ bytes",
    "failure": rb"AUTHENTICATION RESULT \(failure\), [0-9]+ bytes",
    "reject": rb"AUTHENTICATION REJECT, [0-9]+ bytes",
    "refused 6:": rb"refused: number 6, layer 2 .*",
    "7:": rb"refused: number 7, layer 2 .*",
    "8:": rb"refused: number 8, layer 2 .*",
    "9:": rb"refused: number 9, layer 2 .*",
    "10:": rb"refused: number 10, layer 3 .*",
    "11:": rb"refused: number 11, layer 3 .*",
    "12 at 3:": rb"refused: number 12, layer 2 \(message\), place 3: .*",
    "12 elsewhere:": rb"refused: number 12, layer 2 \(message\), place (?!3:).*",
}

_KINDS_OF_NAMES = {
    "public": rb"serving network name of a public network",
    "private": rb"serving network name of a private network",
    "refused": rb"refused: number 2, layer 1 .*",
}


def _check_kinds(
    program: Answering, lines: list[bytes], kinds: dict[str, bytes], fewest: int
) -> str:
    """Checks lines that can be read, the answer to each of which begins with one line of a kind.

    Fails where a kind occurs fewer times than the fewest.
    """
    text = b"".join(lines)
    run = program.run(text)
    verdict = program.compared(text, run)
    counts = Counter(
        kind
        for line in run.output.split(b"\n")
        for kind, pattern in kinds.items()
        if re.fullmatch(pattern, line)
    )
    told = ", ".join(f"{kind} {counts[kind]}" for kind in kinds)
    if counts.total() != len(lines) or min(counts[kind] for kind in kinds) < fewest:
        raise Failure(
            f"{counts.total()} answers to {len(lines)} lines, not all of the kinds "
            f"at least {fewest} times: {told}{_said(run)}"
        )
    if run.status != 0:
        raise Failure(f"the status is {run.status}, not 0{_said(run)}")
    return f"{len(lines)} lines{verdict} ({told})"


def check_messages(program: Answering) -> str:
    """Random messages, many of them damaged."""
    lines = message_scripts.random_messages(_SEED)
    return _check_kinds(program, lines, _KINDS_OF_MESSAGES, fewest=50)


def check_names(program: Answering) -> str:
    """Random network names, many of them damaged."""
    lines = message_scripts.random_names(_SEED)
    return _check_kinds(program, lines, _KINDS_OF_NAMES, fewest=20)


_KINDS_OF_USES = {
    "started": rb"EAP-AKA' with a (test|recorded) card|scripted method, [0-9]+ bytes of store",
    "row": rb"row [0-9]+",
    "cleared": rb"cleared",
    "block": rb"block = [0-9a-f]{256}",
    "no block": rb"no block",
    "not taken": rb"refused: not an EAP request of type [0-9]+ with 5 to 2048 bytes",
    "go on": rb"verdict 1 \(go on\)",
    "granted": rb"verdict 2 \(granted\)",
}


def _unproven(number: int, place: bytes = rb"[0-9]+") -> bytes:
    """The pattern of the line that tells this reason."""
    layer = rb"layer 4 \(EAP method\)"
    return rb"verdict 3 \(unproven\): number %d, %b, place %b: .*" % (number, layer, place)


_KINDS_OF_AKA = {
    **_KINDS_OF_USES,
    "unproven 21:": _unproven(21, rb"0"),
    "22:": _unproven(22),
    "23:": _unproven(23),
    "24 at 0:": _unproven(24, rb"0"),
    "24 elsewhere:": _unproven(24, rb"[1-9][0-9]*"),
    **{f"{number}:": _unproven(number) for number in range(25, 33)},
}

_KINDS_OF_SCRIPTED = {
    **_KINDS_OF_USES,
    "unproven 33:": _unproven(33, rb"0"),
    "34:": _unproven(34, rb"0"),
}


def check_aka(program: Answering) -> str:
    """Random requests of EAP-AKA', many of them damaged."""
    lines = method_scripts.random_aka(_SEED)
    return _check_kinds(program, lines, _KINDS_OF_AKA, fewest=50)


def check_scripted(program: Answering) -> str:
    """Random requests for the scripted method."""
    lines = method_scripts.random_scripted(_SEED)
    return _check_kinds(program, lines, _KINDS_OF_SCRIPTED, fewest=50)


class Example(NamedTuple):
    """An example of the document: lines of a script, and the lines of the answers to them."""

    command: str
    script: list[str]
    answer: list[str]


_PROMPT = "> "


def _with_prompts(command: str, block: list[str]) -> Iterator[Example]:
    """The examples of a block whose lines of a script begin with `> `.

    There is one for each such line: the script up to it, with all the answers so far.
    """
    asked: list[str] = []
    answers: list[str] = []
    for place, line in enumerate(block):
        if line.startswith(_PROMPT):
            asked.append(line.removeprefix(_PROMPT))
        else:
            answers.append(line)
        if place + 1 == len(block) or block[place + 1].startswith(_PROMPT):
            yield Example(command, asked[:], answers[:])


def _examples() -> Iterator[Example]:
    """The examples of the document.

    A block in a command's section that begins with the command is a line and its answer. One that
    begins with `> ` is a script of several lines, which begin so, with the answers between them.
    The block in the section of `help` is the answer to that word.
    """
    command: str | None = None
    block: list[str] = []
    for line in [*_DOCUMENT.read_text(encoding="utf-8").split("\n"), ""]:
        if line.startswith("    "):
            block.append(line[4:])
            continue
        if block and command == "help":
            yield Example(command, [command], block)
        elif block and command and block[0].startswith(_PROMPT):
            yield from _with_prompts(command, block)
        elif block and command and block[0].split()[0] == command:
            yield Example(command, block[:1], block[1:])
        block = []
        heading = re.match(r"#+ (?:`([^ `]+))?", line)
        if heading:
            command = heading[1]


def _sections() -> set[str]:
    """The commands that have a section in the document."""
    return set(re.findall(r"^### `([^ `]+)", _DOCUMENT.read_text(encoding="utf-8"), re.MULTILINE))


def _as_in_example(given: str, wanted: str) -> bool:
    """Whether a line is as in an example, where `the 32 bytes` stands for any 32 bytes."""
    cut = re.fullmatch(r"(.*= )the ([0-9]+) bytes", wanted)
    if not cut:
        return given == wanted
    return bool(re.fullmatch(re.escape(cut[1]) + "[0-9a-f]{%d}" % (2 * int(cut[2])), given))


def check_examples(program: Answering) -> str:
    """The examples of the document."""
    examples = list(_examples())
    without = _sections() - {example.command for example in examples}
    if without or not examples:
        lacking = ", ".join(sorted(without)) or "any command"
        raise Failure(f"{len(examples)} examples in {_DOCUMENT}, none for {lacking}")
    unlisted = _sections() ^ {name.decode() for name in detzorb.all_commands()}
    if unlisted:
        names = ", ".join(sorted(unlisted))
        raise Failure(f"not both in {_DOCUMENT} and in the second program: {names}")
    for example in examples:
        text = "".join(f"{line}\n" for line in example.script).encode()
        run = program.run(text)
        given = run.output.decode("ascii", errors="backslashreplace").split("\n")
        wanted = [*example.answer, ""]
        same = len(given) == len(wanted) and all(map(_as_in_example, given, wanted))
        if not same or run.status != 0:
            raise Failure(
                "\n".join(example.script)
                + f"\n  status {run.status}, answer:\n{run.output.decode('latin-1')}"
                + "\n".join(["  in the document:", *example.answer])
                + _said(run)
            )
        program.compared(text, run)
    return f"{len(examples)} examples of {_DOCUMENT.name}, answered as they stand there"


def check_arguments(program: Program) -> str:
    """`--help`, and arguments and files that are refused."""
    run = program.start("--help", text=b"sha256\n")
    if run.status != 0 or b"FILE" not in run.output or b"line 1" in run.output:
        raise Failure(f"--help: status {run.status}, output {_shown(run.output)}{_said(run)}")
    with tempfile.TemporaryDirectory() as directory:
        readable = Path(directory, "script")
        readable.write_bytes(b"sha256 -\n")
        refused = {
            "a missing file": (str(Path(directory, "missing")),),
            "a directory": (directory,),
            "two files": (str(readable), str(readable)),
            "an unknown option": ("--no-such-option",),
        }
        for what, arguments in refused.items():
            run = program.start(*arguments, text=b"sha256 -\n")
            if run.status != 1 or run.output or not run.errors:
                raise Failure(
                    f"{what}: status {run.status}, output {_shown(run.output)}, "
                    f"standard error {_shown(run.errors)}; "
                    "wanted status 1, no output, and a message on the standard error"
                )
    return f"--help, and {len(refused)} refusals ({', '.join(refused)})"


def check_hmac() -> str:
    """The second program's HMAC against that of Python's library, which is made in another way."""
    rng = random.Random(_SEED)
    lengths = range(301)
    for length in lengths:
        key, message = rng.randbytes(length), rng.randbytes(rng.randrange(301))
        if keys.hmac(key, message) != hmac.digest(key, message, "sha256"):
            raise Failure(f"HMAC differs for the key {key.hex()} and the message {message.hex()}")
    return f"{len(lengths)} keys of different lengths, equal to the library's"


def check_responses() -> str:
    """What the second program writes, against bytes that follow from the document."""
    written = {
        "identity": (messages.identity_response(9, b"suci"), "02 09 0009 01 73756369"),
        "no identity": (messages.identity_response(0, b""), "02 00 0005 01"),
        "long identity": (messages.identity_response(1, b"0" * 251), "02 01 0100 01" + "30" * 251),
        "notification": (messages.notification_response(255), "02 ff 0005 02"),
        "Nak": (messages.nak_response(7, 50), "02 07 0006 03 32"),
        "response": (
            messages.authentication_response(messages.nak_response(7, 253)),
            "7e 00 57 78 0006 02 07 0006 03 fd",
        ),
    }
    for what, (given, wanted) in written.items():
        if given != bytes.fromhex(wanted):
            raise Failure(f"{what}: {given.hex(' ')} is not {wanted}")
    response = messages.authentication_response(messages.notification_response(3))
    for room in range(len(response) + 3):
        before = bytes(range(100, 100 + room))
        buffer = bytearray(before)
        fits = messages.put_in_front(buffer, response)
        wanted_bytes = response + before[len(response) :] if room >= len(response) else before
        if buffer != wanted_bytes or fits != (room >= len(response)):
            raise Failure(f"a response in a buffer of {room} bytes: {fits}, {buffer.hex(' ')}")
    return f"{len(written)} as the document says, and one in buffers of every length"


def _holds(name: str, check: Callable[[], str]) -> bool:
    """Makes a check, prints how it went, and tells whether it held."""
    try:
        print(f"{name}: {check()}", flush=True)
    except Failure as failure:
        print(f"{name}: FAILED\n{failure}", flush=True)
        return False
    return True


_CHECKS: dict[str, Callable[[Answering], str]] = {
    "vectors": check_vectors,
    "random": check_random,
    "written mistakes": check_written_mistakes,
    "mistakes": check_mistakes,
    "edges": check_edges,
    "examples": check_examples,
    "known messages": check_known_messages,
    "messages": check_messages,
    "names": check_names,
    "known methods": check_known_methods,
    "EAP-AKA'": check_aka,
    "scripted method": check_scripted,
    "written mistakes with methods": check_written_method_mistakes,
    "mistakes with methods": check_method_mistakes,
}


def _all_hold(program: Answering) -> bool:
    # A list, so that a check that does not hold keeps none of the others from being made.
    return all([_holds(name, partial(check, program)) for name, check in _CHECKS.items()])


def check_second_program() -> bool:
    """Checks the second program alone."""
    print("the second program")
    process = Program(sys.executable, str(Path(__file__).with_name("detzorb.py")))
    held = [
        _holds("hmac", check_hmac),
        _holds("responses", check_responses),
        _all_hold(SecondProgram()),
        _holds("arguments", partial(check_arguments, process)),
        _holds("as a process", partial(check_edges, process)),
    ]
    return all(held)


def check_program(path: str) -> bool:
    """Compares the program at this path with the second program."""
    print(path)
    program = Program(str(Path(path).resolve()))
    return all([_all_hold(program), _holds("arguments", partial(check_arguments, program))])


def main(arguments: list[str]) -> int:
    """Does what the arguments ask for and returns the status."""
    if len(arguments) != 1 or (arguments[0].startswith("-") and arguments[0] != "--self"):
        print(__doc__, file=sys.stderr)
        return 1
    if arguments[0] != "--self" and not Path(arguments[0]).is_file():
        print(f"compare: there is no program {arguments[0]}", file=sys.stderr)
        return 1
    # A comparison says nothing where the second program is itself wrong, so it is checked first.
    held = check_second_program()
    if held and arguments[0] != "--self":
        held = check_program(arguments[0])
    print("everything held" if held else "NOT everything held")
    return 0 if held else 1


if __name__ == "__main__":
    sys.exit(main(sys.argv[1:]))
