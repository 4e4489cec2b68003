"""The language of scripts: lines, words, fields, values and refusals.

A line is a command and its values. A value is written as a field (`name=value`) or as a plain
word. This module knows what a command is, not which commands there are: a table of them is handed
to `answers`.
"""

import re
from abc import ABC, abstractmethod
from binascii import unhexlify
from collections.abc import Callable, Iterable, Iterator, Mapping
from dataclasses import dataclass
from functools import cached_property
from typing import Any, NamedTuple

# Only these separate words: other white space of ASCII (0B, 0C) and the byte 00 are bytes of a
# word like any other. A line feed stands only at the end of a line.
_WORD = re.compile(rb"[^ \t\r\n]+")
_NO_HEXADECIMAL_DIGIT = re.compile(rb"[^0-9A-Fa-f]")
_NUMBER = re.compile(rb"[0-9]+")
_LONGEST_QUOTED = 40


class Refusal(Exception):
    """What is wrong with a line that cannot be read, without `line N: `."""


@dataclass(frozen=True, kw_only=True)
class Value(ABC):
    """A value that a command takes: as the field of this name, or as its one plain word.

    `only_with` are the words of the choice before it with which it is taken; without it the value
    is always taken.
    """

    name: str
    plain: bool = False
    only_with: tuple[str, ...] | None = None

    @abstractmethod
    def read(self, written: bytes) -> Any:
        """The value that is written so. Raises a Refusal where nothing is."""


@dataclass(frozen=True, kw_only=True)
class Bytes(Value):
    """Bytes: `size` is their number where it is fixed, `least` and `most` where it is bounded."""

    size: int | None = None
    least: int = 0
    most: int | None = None

    def measured(self, value: bytes) -> bytes:
        """The value itself, if it has a number of bytes that it may have."""
        if self.size is not None and len(value) != self.size:
            raise Refusal(f"{self.name} has {len(value)} bytes, not {self.size}")
        if len(value) < self.least:
            raise Refusal(f"{self.name} has {len(value)} bytes, fewer than {self.least}")
        if self.most is not None and len(value) > self.most:
            raise Refusal(f"{self.name} has {len(value)} bytes, more than {self.most}")
        return value


@dataclass(frozen=True, kw_only=True)
class Hex(Bytes):
    """HEX: two hexadecimal digits to a byte. As a plain word, `-` is no bytes at all."""

    def read(self, written: bytes) -> bytes:
        if self.plain and written == b"-":
            written = b""
        stranger = _NO_HEXADECIMAL_DIGIT.search(written)
        if stranger:
            raise Refusal(f"{self.name} has no hexadecimal digit at place {stranger.start() + 1}")
        if len(written) % 2:
            raise Refusal(f"{self.name} has an odd number of digits")
        return self.measured(unhexlify(written))


@dataclass(frozen=True, kw_only=True)
class Text(Bytes):
    """TEXT: the bytes of a word, taken as they are."""

    def read(self, written: bytes) -> bytes:
        return self.measured(written)


@dataclass(frozen=True, kw_only=True)
class Number(Value):
    """N: a decimal number from 0 to `most`; zeros may stand in front of it."""

    most: int

    def read(self, written: bytes) -> int:
        digits = written.lstrip(b"0")
        # A number of more digits than the bound is above it, and is not computed.
        if _NUMBER.fullmatch(written) and len(digits) <= len(str(self.most)):
            number = int(digits or b"0")
            if number <= self.most:
                return number
        raise Refusal(f"{self.name} is not a number from 0 to {self.most}")


@dataclass(frozen=True, kw_only=True)
class Choice(Value):
    """One of some words."""

    words: tuple[str, ...]

    def read(self, written: bytes) -> str:
        for word in self.words:
            if written == word.encode():
                return word
        raise Refusal(f"{self.name} is not one of {', '.join(self.words)}")


@dataclass(frozen=True)
class Command:
    """A command: its values in the order of its list, and how they are answered.

    `answer` is the function from the values to the lines of the answer, and `explanation` are the
    command's lines in the answer to `help`. Of a command that depends on the lines before, `now`
    gives what stands for it after them, or raises a Refusal where it cannot be used.
    """

    name: str
    values: tuple[Value, ...]
    answer: Callable[..., list[str]]
    explanation: tuple[str, ...]
    now: Callable[[], "Command"] | None = None

    @cached_property
    def fields(self) -> dict[bytes, str]:
        """The names of the fields, by their bytes on a line."""
        return {value.name.encode(): value.name for value in self.values if not value.plain}

    @cached_property
    def takes_plain_word(self) -> bool:
        """Whether one of the values is a plain word."""
        return any(value.plain for value in self.values)


Commands = Mapping[bytes, Command]


class Answer(NamedTuple):
    """The answer to the line of this number, and whether that line could be read."""

    number: int
    lines: list[str]
    readable: bool


def table(commands: Iterable[Command]) -> Commands:
    """The commands by the word that calls them."""
    return {command.name.encode(): command for command in commands}


def words_of(line: bytes) -> list[bytes]:
    """The words of a line, without its comment."""
    words: list[bytes] = _WORD.findall(line)
    for place, word in enumerate(words):
        if word.startswith(b"#"):
            return words[:place]
    return words


def quoted(word: bytes) -> str:
    """A word of a line as a refusal shows it; its bytes are counted before they are escaped."""
    shown = "".join(
        chr(byte) if 0x21 <= byte <= 0x7E else f"\\x{byte:02x}" for byte in word[:_LONGEST_QUOTED]
    )
    return f"'{shown}..'" if len(word) > _LONGEST_QUOTED else f"'{shown}'"


def values_of(command: Command, words: Iterable[bytes]) -> list[Any]:
    """The values that the words after the command give it, in the order in which it lists them."""
    written: dict[str, bytes] = {}
    plain_word: bytes | None = None
    for word in words:
        name, equals, value = word.partition(b"=")
        if equals and name:
            known = command.fields.get(name)
            if known is None:
                raise Refusal(f"{command.name} has no field {quoted(name)}")
            if known in written:
                raise Refusal(f"{known} stands twice")
            written[known] = value
        elif command.takes_plain_word and plain_word is None:
            plain_word = word
        else:
            raise Refusal(f"unexpected word {quoted(word)}")
    values: list[Any] = []
    choice: str | None = None
    for asked in command.values:
        found = plain_word if asked.plain else written.get(asked.name)
        if asked.only_with is not None and choice not in asked.only_with:
            if found is not None:
                raise Refusal(f"{asked.name} does not go with {choice}")
            values.append(None)
            continue
        if found is None:
            raise Refusal(f"{asked.name} is missing")
        values.append(asked.read(found))
        if isinstance(asked, Choice):
            choice = values[-1]
    return values


def answer_to(words: list[bytes], commands: Commands) -> list[str]:
    """The answer to the words of a line. Raises a Refusal where they cannot be read."""
    command = commands.get(words[0])
    if command is None:
        raise Refusal(f"unknown command {quoted(words[0])}, try help")
    if command.now is not None:
        command = command.now()
    return command.answer(*values_of(command, words[1:]))


def answers(script: Iterable[bytes], commands: Commands) -> Iterator[Answer]:
    """The answers to the lines of a script; there is none for a line without words."""
    for number, line in enumerate(script, 1):
        words = words_of(line)
        if not words:
            continue
        try:
            yield Answer(number, answer_to(words, commands), True)
        except Refusal as refusal:
            yield Answer(number, [f"line {number}: {refusal}"], False)
