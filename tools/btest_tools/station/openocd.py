"""OpenOCD as the player of a station.

One OpenOCD plays all texts of an attempt. It reads the names of the texts from its standard input,
so no name is part of a script. It runs in a session of its own, so Ctrl-C doesn't reach it.
"""

from __future__ import annotations

import os
import pathlib
import re
import select
import subprocess
import tempfile
import time
from collections.abc import Iterator
from typing import IO, Optional

from btest_tools.station.folder import CABLE, RESET
from btest_tools.station.player import Compared, Interrupted, PlayerFailed
from btest_tools.station.stop import Stop

# It opens no ports, so that several stations run on one computer, and looks at no chain by itself.
SCRIPT = """
gdb_port disabled
tcl_port disabled
telnet_port disabled
proc jtag_init {} {}
init
puts "ready [version]"
flush stdout
while {[gets stdin name] >= 0} {
    set status [catch {capture {svf -quiet -ignore_error $name}} said]
    puts $said
    puts "played $status"
    flush stdout
}
shutdown
"""
CAME = re.compile(r"^tdo check error at line (\d+)\n\s*READ = 0x([0-9a-f]+)", re.M)
KNOWN = re.compile(r"(svf processing|tdo check error at|\s*(READ|WANT|MASK) = ).*|\s*")
WRONG = re.compile(r"error|fail|unable|can'?t|cannot|time.?out|no such|invalid", re.I)
WAIT = 3.0  # seconds in which a text that was stopped may come to its end
START = 20.0  # seconds for a new OpenOCD to open the cable and to reset
AFTER = 8.0  # seconds for a text that is played after the reset


class OpenOcd:
    """OpenOCD with the cable of a folder."""

    def __init__(self, folder: pathlib.Path, stop: Stop, program: str, limit: float) -> None:
        self.folder, self.stop, self.program, self.limit = folder, stop, program, limit
        self.version = ""
        self.is_playing = False
        self.may_stop = True
        self.process: Optional[subprocess.Popen[bytes]] = None
        self.said: Optional[IO[bytes]] = None
        self.pending = b""

    def start(self) -> None:
        """Starts it. It opens the cable before it reads the first name."""
        # pylint: disable=consider-using-with  # it lives longer than this function
        self.close()
        self.said = tempfile.TemporaryFile()
        self.pending, self.is_playing = b"", False
        try:
            self.process = subprocess.Popen(
                [self.program, "-f", CABLE, "-c", SCRIPT],
                cwd=self.folder,
                stdin=subprocess.PIPE,
                stdout=subprocess.PIPE,
                stderr=self.said,
                start_new_session=True,
            )
        except OSError as error:
            raise PlayerFailed(f"cannot run {self.program}: {error.strerror}") from None

    def failed(self) -> PlayerFailed:
        """Returns what OpenOCD said when it ended, after making sure that it has. Ctrl-C reaches
        an OpenOCD that has no session of its own yet."""
        status = self.end()
        if self.may_stop and self.stop.is_asked:
            raise Interrupted
        said = ""
        if self.said:
            self.said.seek(0)
            said = self.said.read().decode("utf-8", "replace")
        lines = [line[7:] for line in said.splitlines() if line.startswith("Error: ")]
        lines = [line for line in lines if not KNOWN.fullmatch(line)]
        signal = f"it ended by signal {-status}; the cable may have been pulled"
        how = signal if status < 0 else f"it ended with status {status}"
        return PlayerFailed(f"OpenOCD: {lines[0].strip() if lines else how}")

    def lines(self, seconds: float) -> Iterator[str]:
        """Yields the lines that it prints until it ends."""
        assert self.process and self.process.stdout
        end, file = time.monotonic() + seconds, self.process.stdout.fileno()
        watched = [file, self.stop.file] if self.may_stop else [file]
        while True:
            *whole, self.pending = self.pending.split(b"\n")
            yield from (line.decode("utf-8", "replace") for line in whole)
            ready, _, _ = select.select(watched, [], [], max(0.0, end - time.monotonic()))
            if self.stop.file in ready:
                raise Interrupted
            if not ready:
                self.kill()
                raise PlayerFailed(f"OpenOCD didn't answer in {seconds:g} s")
            piece = os.read(file, 1 << 16)
            if not piece:
                return
            self.pending += piece

    def ask(self, name: str, seconds: float) -> str:
        """Plays a text, and returns what it said."""
        if not self.process:
            self.start()
        assert self.process and self.process.stdin
        try:
            self.process.stdin.write(name.encode("ascii") + b"\n")
            self.process.stdin.flush()
        except OSError:
            raise self.failed() from None
        self.is_playing = True
        said = self.answer(seconds)
        wrong = [line for line in said[:-1] if not KNOWN.fullmatch(line) and WRONG.search(line)]
        if wrong or said[-1] != "played 0":
            raise PlayerFailed(f"OpenOCD: {wrong[0] if wrong else f'{name} was not played'}")
        return "\n".join(said)

    def answer(self, seconds: float) -> list[str]:
        """Returns the lines that it prints of a text, the last of which says how that ended."""
        said = []
        for line in self.lines(seconds):
            if line.startswith("ready "):
                self.version = line[len("ready ") :]
                continue
            said.append(line)
            if line.startswith("played "):
                self.is_playing = False
                return said
        raise self.failed()

    def play(self, name: str, statements: list[Compared]) -> list[Optional[int]]:
        """Plays a text. Returns for each statement that compares the bits that came back, or None
        if all compared bits are the expected ones."""
        came = {int(line): int(bits, 16) for line, bits in CAME.findall(self.ask(name, self.limit))}
        bits = [came.pop(one.line, None) for one in statements]
        if came:
            raise PlayerFailed(f"OpenOCD: line {min(came)} of {name} compares nothing")
        return bits

    def reset(self) -> None:
        """Brings the TAP controllers to reset. A text in play may come to its end, for a while.
        What doesn't answer is ended, and another OpenOCD is started for the reset. From then on
        nothing is stopped any more, and no text is waited for as long as before."""
        self.may_stop = False
        self.limit = AFTER
        try:
            if self.process:
                if self.is_playing:
                    self.answer(WAIT)
                self.ask(RESET, WAIT)
                return
        except PlayerFailed:
            self.kill()
        self.ask(RESET, START)

    def kill(self) -> None:
        """Ends it at once."""
        if self.process:
            self.process.kill()
            self.end()

    def end(self) -> int:
        """Lets it end, which gives the cable back, and returns its status."""
        if not self.process:
            return 0
        assert self.process.stdin and self.process.stdout
        try:
            self.process.stdin.close()
        except OSError:
            pass  # it has ended, and a name was not read
        try:
            status = self.process.wait(WAIT)
        except subprocess.TimeoutExpired:
            self.process.kill()
            status = self.process.wait()
        self.process.stdout.close()
        self.process = None
        return status

    def close(self) -> None:
        """Ends it."""
        self.end()
        if self.said:
            self.said.close()
            self.said = None
