"""Reads a script and answers each line, as docs/SCRIPTS.md says.

    python3 reference/detzorb.py [FILE]
"""

import sys
from collections.abc import Iterable
from typing import BinaryIO

import keys
import messages
from script import Command, Commands, answers, table

_USAGE = """\
detzorb FILE      answers the script in the file
detzorb           answers the script on the standard input
detzorb --help    explains this

A script has a command on each line; the answers go to the standard output, in the
order of the lines. The status is 0 where every line could be read, and 1 otherwise.

"""

_NOTATION = (
    "HEX: two hexadecimal digits to a byte, - for no bytes. TEXT: a word. # starts a comment."
)


def all_commands() -> Commands:
    """The table of commands, in the order of the list that `help` answers with.

    It is made anew for each script, so that a command may keep what an earlier line told it.
    """
    commands: list[Command] = [*keys.commands(), *messages.commands()]

    def answer_help() -> list[str]:
        return [line for command in commands for line in command.explanation] + [_NOTATION]

    commands.append(
        Command(
            name="help",
            values=(),
            answer=answer_help,
            explanation=("help                         this list",),
        )
    )
    return table(commands)


def answer_script(script: Iterable[bytes], output: BinaryIO) -> bool:
    """Writes the answers to a script's lines. Returns whether every line could be read."""
    all_readable = True
    for answer in answers(script, all_commands()):
        all_readable &= answer.readable
        output.write(("\n".join(answer.lines) + "\n").encode("ascii"))
    return all_readable


def usage() -> str:
    """What `--help` prints."""
    return _USAGE + "\n".join(all_commands()[b"help"].answer()) + "\n"


def _complain(what: str) -> int:
    print(f"detzorb: {what}", file=sys.stderr)
    return 1


def main(arguments: list[str]) -> int:
    """Does what the arguments ask for and returns the status."""
    if arguments == ["--help"]:
        sys.stdout.write(usage())
        return 0
    if len(arguments) > 1 or (arguments and arguments[0].startswith("-")):
        return _complain("the arguments are not understood, try --help")
    try:
        # Iterating over a binary file gives line after line, so no more than one is held. The
        # output has a buffer of its own, written out here, where a failure can still be told.
        with (
            open(arguments[0] if arguments else 0, "rb") as script,
            open(1, "wb", closefd=False) as output,
        ):
            all_readable = answer_script(script, output)
    except OSError as error:
        return _complain(str(error))
    return 0 if all_readable else 1


if __name__ == "__main__":
    sys.exit(main(sys.argv[1:]))
