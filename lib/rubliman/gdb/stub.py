"""Answers GDB's packets."""
from __future__ import annotations

import re
from collections.abc import Callable
from pathlib import Path

from ..asking.monitor import Monitor, Refused
from . import registers
from .files import SYMBOLS, Files
from .machine import Machine
from .memory import Memory, Unreadable
from .packets import PACKET_SIZE, Bad, Connection, Ended, numbers
from .points import Points
from .running import Runner
from .stops import INTERRUPTED, Stop
from .windows import laid_over, save_areas
from .words import Place, Words

_OFFERED = (
    f"PacketSize={PACKET_SIZE:x};QStartNoAckMode+;swbreak+;hwbreak+;ReverseStep+;ReverseContinue+;vContSupported+;"
    "qXfer:features:read+;qXfer:exec-file:read+;error-message+;ConditionalBreakpoints+"
)
_NO_REGISTERS = "E.registers belong to the run: poke memory, edit the source, or go to another step"
_BAD, _UNREADABLE = "E01", "E14"
_FIXED = {
    "QStartNoAckMode": "OK",
    "!": "OK",
    "qC": "QC1",
    "qfThreadInfo": "m1",
    "qsThreadInfo": "l",
    "qAttached": "1",
    "vCont?": "vCont;c;C;s;S",
}
_MOST_TEXT = 1000
_Answer = str | bytes


class Stub:
    """A session with GDB."""

    def __init__(self, connection: Connection, monitor: Monitor, folder: Path) -> None:
        self._connection, self._monitor = connection, monitor
        self._memory, self._points, self._place = Memory(monitor), Points(), Place()
        self._runner = Runner(monitor, self._memory, self._points, connection.is_interrupted)
        self._files = Files(monitor, folder)
        # GDB may run the machine again when it has detached.
        self._is_extended = False
        self._words = Words(monitor, self._memory, self._runner.catches, self._place, self._files.change)
        # Packets by what they begin with. Each takes what stands behind that.
        self._answers: dict[str, Callable[[str], _Answer]] = {
            "qSupported": lambda rest: _OFFERED,
            "qXfer:features:read:target.xml:": lambda rest: _part(registers.description().encode(), rest),
            "qXfer:exec-file:read:": lambda rest: _part(SYMBOLS.encode(), rest.rpartition(":")[2]),
            "qRcmd,": self._command,
            "vFile:": self._files.answer,
            "vCont;": lambda rest: self._resume(rest[:1].lower()),
            "vRun": self._run,
            "vKill": lambda rest: "OK",
            "?": lambda rest: Stop(self._place.step).packet(),
            "g": lambda rest: "".join(map(registers.text, self._registers()[: registers.OWN_FROM])),
            "p": self._register,
            "G": lambda rest: _NO_REGISTERS,
            "P": lambda rest: _NO_REGISTERS,
            "m": self._read,
            "M": lambda rest: self._write(*_data(rest, bytes.fromhex)),
            "X": lambda rest: self._write(*_data(rest, lambda text: text.encode("latin-1"))),
            "c": lambda rest: self._resume("c"),
            "C": lambda rest: self._resume("c"),
            "s": lambda rest: self._resume("s"),
            "S": lambda rest: self._resume("s"),
            "bs": lambda rest: self._went(self._runner.one_back),
            "bc": lambda rest: self._went(self._runner.back),
            "H": lambda rest: "OK",
            "T": lambda rest: "OK",
            "D": lambda rest: "OK",
        }

    def serve(self) -> None:
        """Answers packets until GDB goes."""
        try:
            while self._serve_one(self._connection.packet().decode("latin-1")):
                pass
        except Ended:
            pass

    def _serve_one(self, packet: str) -> bool:
        """Answers a packet. Gives whether more may come."""
        if packet == "k":
            return False
        if packet.startswith("R"):
            # To this one alone no reply is due.
            self._run("")
            return True
        reply = self._reply(packet)
        self._connection.send(reply if isinstance(reply, bytes) else reply.encode("latin-1"))
        if packet == "QStartNoAckMode":
            self._connection.acknowledges = False
        self._is_extended = self._is_extended or packet == "!"
        return self._is_extended or not packet.startswith("D")

    def _reply(self, packet: str) -> _Answer:
        """What a packet is answered; nothing where it is not known."""
        try:
            if packet in _FIXED:
                return _FIXED[packet]
            if re.match("[Zz][0-4]", packet):
                self._points.take(packet)
                return "OK"
            begin = next((it for it in self._answers if packet.startswith(it)), None)
            return self._answers[begin](packet[len(begin) :]) if begin else ""
        except Unreadable:
            return _UNREADABLE
        except Refused as refused:
            return f"E.{refused}"
        except (Bad, ValueError):
            return _BAD

    # ---- registers and memory

    def _machine(self) -> Machine:
        return Machine.at(self._monitor, self._place.step)

    def _registers(self) -> list[int | None]:
        return registers.values(self._machine())

    def _register(self, text: str) -> str:
        """One register, of all."""
        found, (number,) = self._registers(), numbers(text, 1)
        return registers.text(found[number]) if number < len(found) else _BAD

    def _read(self, text: str) -> str:
        """Memory: no more than a packet holds."""
        address, count = numbers(text, 2)
        data = self._memory.read(self._place.step, address, min(count, PACKET_SIZE // 2))
        if self._place.shows_windows:
            data = laid_over(data, address, save_areas(self._monitor, self._machine()))
        return data.hex()

    def _write(self, address: int, data: bytes) -> str:
        """Pokes at the present step. With no data GDB asks whether it may."""
        self._memory.write(self._place.step, address, data)
        return "OK"

    # ---- running

    def _resume(self, kind: str) -> str:
        """Runs on, or one step."""
        if kind not in ("c", "s"):
            return ""
        runs, place = self._runner.forward if kind == "c" else self._runner.one_forward, self._place
        return self._went(lambda step: runs(step, place.end, place.shows_console))

    def _went(self, runs: Callable[[int], Stop]) -> str:
        """Goes where this leads, and tells of it. Where the present machine is another one than GDB knows, it is told
        of that first, by a stop where it stands."""
        step = self._place.step
        if self._place.is_moved:
            stop = Stop(step, said=f"step {step}\n")
        else:
            try:
                stop = runs(step)
            except Refused as refused:
                stop = Stop(step, INTERRUPTED, said=f"{refused}\n")
        self._place.go(stop.step)
        self._say(stop.said)
        return stop.packet()

    def _run(self, rest: str) -> str:
        """`run`, from the first step or from the one that its word names. GDB takes its points for gone."""
        words = [bytes.fromhex(it).decode("latin-1") for it in rest.split(";")[2:] if it]
        step = int(words[0]) if words and re.fullmatch("[0-9]{1,7}", words[0]) else 0
        self._points.clear()
        self._place.go(min(step, self._place.end))
        return Stop(self._place.step).packet()

    # ---- the user

    def _command(self, rest: str) -> str:
        """A command behind `monitor`."""
        self._say(self._words.answer(bytes.fromhex(rest).decode("latin-1")))
        return "OK"

    def _say(self, text: str) -> None:
        """Text that GDB shows."""
        for at in range(0, len(text), _MOST_TEXT):
            self._connection.send(b"O" + text[at : at + _MOST_TEXT].encode("latin-1").hex().encode())


def _part(data: bytes, text: str) -> bytes:
    """A part of a text that is read piece by piece."""
    offset, count = numbers(text, 2)
    return (b"m" if offset + count < len(data) else b"l") + data[offset : offset + count]


def _data(text: str, read: Callable[[str], bytes]) -> tuple[int, bytes]:
    """An address, and the data that are to stand there. Raises `Bad` where they are not as many as is said."""
    place, _, rest = text.partition(":")
    address, count = numbers(place, 2)
    data = read(rest)
    if len(data) != count:
        raise Bad
    return address, data
