"""The folder of a product: the files of a board, the texts that btest made of them, the record.

`FINGERPRINTS` has the SHA-256 of every file in the form of sha256sum. Its own SHA-256 is the
fingerprint of the test. A folder is made once and never changed.
"""

from __future__ import annotations

import errno
import hashlib
import json
import os
import pathlib
import re
import shutil
import tempfile
from collections.abc import Iterator, Sequence
from dataclasses import dataclass
from typing import Optional

from btest_tools.board import read_board
from btest_tools.btest import Btest
from btest_tools.files import BadInput, read
from btest_tools.netlists.layout import read_places
from btest_tools.places import Places
from btest_tools.station import record

FINGERPRINTS = "fingerprints.sha256"
PRODUCT = "product.json"
CABLE = "cable.cfg"
RESET = "reset.svf"
IDENT = "ident.svf"
COMMANDS = {"chain.svf": "chain", IDENT: "ident", "board.svf": "svf", "walk.svf": "walk"}
COVER = "cover.txt"
RESET_TEXT = "TRST OFF;\nSTATE RESET;\n"
VERSION = pathlib.Path(__file__).resolve().parents[3] / "VERSION"
UNDESCRIBED = ": part without a description"  # why a chain has no test of identification codes


Words = Sequence[str]


class NotWhole(BadInput):
    """What is wrong with a folder, in one line."""


@dataclass(frozen=True)
class Sources:
    """The files that a folder is made of. `board` has the chain file, the net file and the BSDL
    texts, `places` says where the pins are, if anything does."""

    board: Words
    cable: str
    places: Optional[str] = None

    @property
    def words(self) -> Words:
        """The files about the board, which are copied under their own names."""
        return [*self.board, *([self.places] if self.places else [])]


@dataclass(frozen=True)
class Product:
    """A folder that is whole. The files are names below it."""

    folder: pathlib.Path
    chain: str
    nets: str
    bsdls: tuple[str, ...]
    layout: Optional[str]
    btest: str
    test: str

    @property
    def files(self) -> list[str]:
        """The words of a btest command about the board."""
        return [str(self.folder / name) for name in (self.chain, self.nets, *self.bsdls)]

    @property
    def layout_file(self) -> Optional[str]:
        """The file that says where the pins are, if there is one."""
        return str(self.folder / self.layout) if self.layout else None

    @property
    def places(self) -> Optional[Places]:
        """Where the pins are, if the folder has a file that says so. It is read each time."""
        return read_places(self.layout_file) if self.layout_file else None

    @property
    def has_ident(self) -> bool:
        """Whether there is a test of the identification codes."""
        return (self.folder / IDENT).exists()

    @property
    def record(self) -> pathlib.Path:
        """The file of the record."""
        return self.folder / record.NAME

    def text(self, name: str) -> str:
        """Returns the text of a file of the folder."""
        return read(str(self.folder / name)).text


def mark_of(path: pathlib.Path) -> str:
    """Returns the SHA-256 of a file."""
    sum_of_it = hashlib.sha256()
    try:
        with open(path, "rb") as file:
            for piece in iter(lambda: file.read(1 << 20), b""):
                sum_of_it.update(piece)
    except OSError:
        raise BadInput(f"cannot read {path}") from None
    return sum_of_it.hexdigest()


def version_of(btest: Btest) -> str:
    """Returns the version of the sources beside the tools, and the mark of the program."""
    version = VERSION.read_text("ascii").strip() if VERSION.exists() else "of no version"
    path = shutil.which(btest.program)
    if not path:
        raise BadInput(btest.missing(FileNotFoundError(errno.ENOENT, os.strerror(errno.ENOENT))))
    return f"{version} sha256:{mark_of(pathlib.Path(path))}"


# Making one


def names_of(words: Words) -> list[str]:
    """Returns a name below the folder for each file: its own, as far as that is plain."""
    names: list[str] = []
    for word in words:
        plain = re.sub(r"[^A-Za-z0-9._+-]", "_", os.path.basename(word)) or "_"
        name, count = f"board/{plain}", 1
        while name in names:
            count += 1
            name = f"board/{count}-{plain}"
        names.append(name)
    return names


def make_texts(btest: Btest, draft: pathlib.Path, names: Words, words: Words) -> None:
    """Writes what btest makes of the files of a board."""
    (draft / COVER).write_text(made(btest, "cover", draft, names, words), "latin-1")
    for name, command in COMMANDS.items():
        try:
            (draft / name).write_text(made(btest, command, draft, names, words), "latin-1")
        except BadInput as wrong:
            if command != "ident" or not str(wrong).endswith(UNDESCRIBED):
                raise
    (draft / RESET).write_text(RESET_TEXT)


def made(btest: Btest, command: str, draft: pathlib.Path, names: Words, words: Words) -> str:
    """Returns what a command of btest prints. A refusal names the files by `words`."""
    files = [names[0], *names[2:]] if command in ("chain", "ident") else names
    try:
        return btest.run(command, *(str(draft / name) for name in files))
    except BadInput as wrong:
        line = str(wrong)
        for name, word in zip(names, words):
            line = line.replace(str(draft / name), word)
        raise BadInput(line) from None


def files_below(draft: pathlib.Path) -> list[str]:
    """Returns the files that are fingerprinted."""
    others = {FINGERPRINTS, record.NAME}
    paths = (path for path in draft.rglob("*") if path.is_file())
    return sorted({path.relative_to(draft).as_posix() for path in paths} - others)


def fill(draft: pathlib.Path, btest: Btest, sources: Sources) -> None:
    """Writes all files of a product into an empty folder."""
    names = names_of(sources.words)
    board = names[: len(sources.board)]
    (draft / "board").mkdir()
    for name, word in zip([*names, CABLE], [*sources.words, sources.cable]):
        (draft / name).write_bytes(read(word).text.encode("latin-1"))
    make_texts(btest, draft, board, sources.board)
    about: dict[str, object] = {"btest": version_of(btest)}
    about |= {"chain": board[0], "nets": board[1], "bsdls": board[2:]}
    if sources.places:
        check_places(sources.board, sources.places)
        about["places"] = names[-1]
    (draft / PRODUCT).write_text(json.dumps(about, indent=1) + "\n")
    lines = [f"{mark_of(draft / name)}  {name}\n" for name in files_below(draft)]
    (draft / FINGERPRINTS).write_text("".join(lines))
    for path in (draft / name for name in (*files_below(draft), FINGERPRINTS)):
        path.chmod(0o444)
    record.create(draft / record.NAME)


def placed_pins(files: Words, places: Places) -> tuple[int, int]:
    """Returns how many pins of a board's nets have a place, and how many pins there are."""
    chain, nets, *bsdls = files
    pins = read_board(chain, nets, bsdls).net_of
    return sum(bool(places.of(pin)) for pin in pins), len(pins)


def check_places(board: Words, name: str) -> None:
    """Refuses a file of places that is of another board."""
    if not placed_pins(board, read_places(name))[0]:
        raise BadInput(f"{name} has no place of a pin of {board[1]}")


def prepare(folder: pathlib.Path, btest: Btest, sources: Sources) -> Product:
    """Makes the folder of a product, whole or not at all."""
    if os.path.lexists(folder):
        raise BadInput(f"{folder} is there already; a new revision of a board is a new folder")
    try:
        draft = pathlib.Path(tempfile.mkdtemp(prefix=f".{folder.name}.", dir=folder.parent))
        try:
            fill(draft, btest, sources)
            draft.chmod(0o755)
            os.rename(draft, folder)
        finally:
            shutil.rmtree(draft, ignore_errors=True)
    except OSError as error:
        raise BadInput(f"{folder} can't be written: {error.strerror}") from None
    return load(folder)


# Reading one


def fingerprints(folder: pathlib.Path) -> Iterator[tuple[str, str]]:
    """Yields the files that the folder has to have, with their marks."""
    for line in read(str(folder / FINGERPRINTS)).text.splitlines():
        mark, _, name = line.partition("  ")
        if not re.fullmatch("[0-9a-f]{64}", mark) or not name or ".." in name:
            raise NotWhole(f"{folder}/{FINGERPRINTS} is no list of fingerprints")
        yield name, mark


def faults(folder: pathlib.Path) -> Iterator[str]:
    """Yields a line for each thing that is wrong with a folder."""
    try:
        for name, mark in fingerprints(folder):
            path = folder / name
            if not path.is_file():
                yield f"{path} is missing"
            elif mark_of(path) != mark:
                yield f"{path} was changed"
        if not (folder / record.NAME).is_file():
            yield f"{folder / record.NAME} is missing"
    except BadInput as wrong:
        yield str(wrong)


def load(folder: pathlib.Path) -> Product:
    """Returns the product of a folder that is whole."""
    if not (folder / FINGERPRINTS).is_file():
        raise NotWhole(f"{folder} is no folder that station.py prepare made")
    for fault in faults(folder):
        raise NotWhole(f"{fault}; the folder isn't whole")
    try:
        about = json.loads(read(str(folder / PRODUCT)).text)
        return Product(
            folder,
            str(about["chain"]),
            str(about["nets"]),
            tuple(map(str, about["bsdls"])),
            str(about["places"]) if "places" in about else None,
            str(about["btest"]),
            mark_of(folder / FINGERPRINTS),
        )
    except (ValueError, KeyError, TypeError):
        raise NotWhole(f"{folder / PRODUCT} can't be read; the folder isn't whole") from None


def check_btest(product: Product, btest: Btest) -> str:
    """Returns the version of btest, which has to make the very test that the folder has."""
    version = version_of(btest)
    if version.split()[-1] != product.btest.split()[-1]:
        if btest.run("svf", *product.files) != product.text("board.svf") or (
            btest.run("walk", *product.files) != product.text("walk.svf")
        ):
            raise NotWhole(f"this btest makes another test than {product.folder} has: prepare anew")
    return version
