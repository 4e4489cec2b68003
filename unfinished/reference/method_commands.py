"""The commands that start an EAP method and use it."""

from collections.abc import Callable
from dataclasses import replace

from aka import (
    LARGEST_SEQUENCE,
    AkaPrime,
    Good,
    Out,
    Outcome,
    RecordedCard,
    RecordedRow,
    Stale,
    TestCard,
    Wrong,
)
from methods import Method, Row, Saying, Scripted, Subscription, Verdict
from script import Choice, Command, Hex, Number, Refusal, Text

_LONGEST_STORE = 65_535

_VERDICTS = {
    Verdict.GO_ON: "verdict 1 (go on)",
    Verdict.GRANTED: "verdict 2 (granted)",
    Verdict.UNPROVEN: "verdict 3 (unproven)",
}

_RECORDED_VALUES = (
    Hex(name="rand", size=16),
    Hex(name="autn", size=16),
    Choice(name="outcome", words=("out", "wrong", "stale", "good")),
    Hex(name="auts", size=14, only_with=("stale",)),
    Hex(name="res", size=16, only_with=("good",)),
    Hex(name="ck", size=16, only_with=("good",)),
    Hex(name="ik", size=16, only_with=("good",)),
)
_SCRIPTED_VALUES = (
    Number(name="identifier", most=255),
    Choice(name="outcome", words=tuple(saying.value for saying in Saying)),
    Number(name="at", most=_LONGEST_STORE, only_with=(Saying.GRANTED.value,)),
)


class _Session:
    """The method that was started last.

    As long as rows can be added the method is not made: `_make` makes it, and `_row` is the
    command that adds a row. A test card takes none.
    """

    def __init__(self) -> None:
        self._method: Method | None = None
        self._make: Callable[[], Method] | None = None
        self._row: Command | None = None

    def _start(self, make: Callable[[], Method], row: Command | None) -> None:
        self._method, self._make, self._row = None, make, row

    def _used(self) -> Method:
        """The method, which takes no rows from here on."""
        if self._method is None:
            assert self._make is not None
            self._method = self._make()
        self._row = None
        return self._method

    def _if_started(self, command: Command) -> Command:
        """The command, for which a method must be started."""

        def now() -> Command:
            if self._make is None:
                raise Refusal("no method is started, use card or scripted")
            return command

        return replace(command, now=now)

    def _row_now(self) -> Command:
        if self._make is None:
            raise Refusal("no method is started, use card or scripted")
        if self._row is None:
            raise Refusal(
                "no row can be added, only to a recorded card or scripted method not yet used"
            )
        return self._row

    def _answer_card(self, kind: str, key: bytes | None, sequence: int | None) -> list[str]:
        if key is not None and sequence is not None:
            card_key, own = key, sequence
            self._start(lambda: AkaPrime(TestCard(card_key, own)), None)
        else:
            rows: list[RecordedRow] = []

            def answer_row(
                rand: bytes,
                autn: bytes,
                outcome: str,
                auts: bytes | None,
                res: bytes | None,
                ck: bytes | None,
                ik: bytes | None,
            ) -> list[str]:
                said: Outcome = Out() if outcome == "out" else Wrong()
                if auts is not None:
                    said = Stale(auts)
                elif res is not None and ck is not None and ik is not None:
                    said = Good(res, ck, ik)
                rows.append(RecordedRow(rand, autn, said))
                return [f"row {len(rows)}"]

            self._start(
                lambda: AkaPrime(RecordedCard(rows)),
                Command("row", _RECORDED_VALUES, answer_row, ()),
            )
        return [f"EAP-AKA' with a {kind} card"]

    def _answer_scripted(self, store: bytes) -> list[str]:
        rows: list[Row] = []

        def answer_row(identifier: int, outcome: str, at: int | None) -> list[str]:
            rows.append(Row(identifier, Saying(outcome), at))
            return [f"row {len(rows)}"]

        self._start(
            lambda: Scripted(rows, store), Command("row", _SCRIPTED_VALUES, answer_row, ())
        )
        return [f"scripted method, {len(store)} bytes of store"]

    def _answer_process(self, snn: bytes, supi: bytes, suci: bytes, packet: bytes) -> list[str]:
        method = self._used()
        if not method.takes(packet):
            wanted = f"an EAP request of type {method.eap_type} with 5 to 2048 bytes"
            return [f"refused: not {wanted}"]
        verdict, reply, reason = method.process(packet, Subscription(snn, supi), suci)
        return [
            _VERDICTS[verdict] + (f": {reason.reason()}" if reason else ""),
            f"  reply = {reply.hex()}",
            "  no block held" if method.block is None else "  block held",
        ]

    def _answer_clear(self) -> list[str]:
        self._used().clear()
        return ["cleared"]

    def _answer_block(self) -> list[str]:
        block = self._used().block
        return ["no block" if block is None else f"block = {block.hex()}"]

    def commands(self) -> list[Command]:
        """The commands that share this session."""
        return [
            Command(
                name="card",
                values=(
                    Choice(name="kind", plain=True, words=("test", "recorded")),
                    Hex(name="key", size=16, only_with=("test",)),
                    Number(name="sequence", most=LARGEST_SEQUENCE, only_with=("test",)),
                ),
                answer=self._answer_card,
                explanation=(
                    "card test key=HEX sequence=N starts EAP-AKA' with a test card",
                    "card recorded                "
                    "starts EAP-AKA' with a recorded card that has no rows yet",
                ),
            ),
            Command(
                name="scripted",
                values=(Hex(name="store", most=_LONGEST_STORE),),
                answer=self._answer_scripted,
                explanation=(
                    "scripted store=HEX           "
                    "starts the scripted method with this store and no rows yet",
                ),
            ),
            Command(
                name="row",
                values=(),
                answer=list,
                explanation=(
                    "row rand=HEX autn=HEX outcome=out|wrong|stale|good"
                    " [auts=HEX] [res=HEX ck=HEX ik=HEX]",
                    "                             adds a row to the recorded card",
                    "row identifier=N outcome=go-on|granted|refuse [at=N]",
                    "                             adds a row to the scripted method",
                ),
                now=self._row_now,
            ),
            self._if_started(
                Command(
                    name="process",
                    values=(
                        Text(name="snn", most=44),
                        Text(name="supi", most=128),
                        Text(name="suci", least=1, most=255),
                        Hex(name="packet", plain=True),
                    ),
                    answer=self._answer_process,
                    explanation=(
                        "process snn=TEXT supi=TEXT suci=TEXT HEX",
                        "                             hands a packet to the method: "
                        "verdict, reply, and whether it holds a block",
                    ),
                )
            ),
            self._if_started(
                Command(
                    name="clear",
                    values=(),
                    answer=self._answer_clear,
                    explanation=("clear                        clears the method",),
                )
            ),
            self._if_started(
                Command(
                    name="block",
                    values=(),
                    answer=self._answer_block,
                    explanation=(
                        "block                        the key block that the method holds, if any",
                    ),
                )
            ),
        ]


def commands() -> list[Command]:
    """The commands of this module, for one script."""
    return _Session().commands()
