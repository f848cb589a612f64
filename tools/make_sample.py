#!/usr/bin/env python3
"""Make a sample pack, as image and as disk, and the catalogue text of it.

Writes, under the repository root (or the directory given as argument):

    crates/pack/data/sample.pack         an image in the Coleco ADAM EOS layout
    crates/pack/data/sample.disk         the same blocks as a sector disk
    crates/pack/data/bad-directory.disk  that disk, its directory block bad
    crates/pack/stdout                   what `pack catalogue` should print

A sector disk is 320 records of 513 bytes: the 512 data bytes of a sector and a
status byte, 0 for a good record.  Block b is sectors 2b and 2b + 1.  Sector q
lies in record 8t + (5r mod 8), where t is q div 8 and r is q mod 8.

In sample.disk the second sector of block 150 has status 10h.  No file has that
block, so the catalogue of the disk is that of the image.  In bad-directory.disk
the second sector of block 1, the directory, has status 01h besides.

The script is an independent check of the product: it shares no code with it
and reads nothing of it.  The catalogue text comes from the table of files
below, never from the image or a disk.
"""

from __future__ import annotations

import argparse
from dataclasses import dataclass
from datetime import date
from pathlib import Path

BLOCK = 1024
ENTRY = 26
ENTRIES_PER_BLOCK = 39
NAME_FIELD = 12
FIRST_FILE_ENTRY = 3
ETX = b"\x03"

SECTOR = 512
SECTORS_PER_BLOCK = 2
SECTORS_PER_TRACK = 8
STEP = 5
DISK_BLOCKS = 160

LOCKED = 0x80
WRITE_PROTECTED = 0x40
READ_PROTECTED = 0x20
USER = 0x10
SYSTEM = 0x08
DELETED = 0x04
EXECUTE_PROTECTED = 0x02
BLOCKS_LEFT = 0x01
ATTRIBUTE_LETTERS = "LWRUSDXB"

VOLUME_MARK = bytes([0x55, 0xAA, 0x00, 0xFF])


def used_and_last(length: int) -> tuple[int, int]:
    """The used blocks of a length, and the bytes in the last of them."""
    if length == 0:
        return 0, 0
    used = -(-length // BLOCK)
    return used, length - BLOCK * (used - 1)


@dataclass(frozen=True)
class File:
    """One file of a pack; `tail` is what stands behind the name's ETX."""

    name: str
    attributes: int
    room: int
    length: int
    dated: date | None
    sentence: str
    tail: bytes = b""

    def __post_init__(self) -> None:
        if not 2 <= len(self.name) <= 11:
            raise ValueError(f"{self.name!r}: 2 to 11 characters")
        if not all(" " <= c <= "~" for c in self.name):
            raise ValueError(f"{self.name!r}: printable characters only")
        if not self.name[-1].isalpha():
            raise ValueError(f"{self.name!r}: the type must be a letter")
        if self.room < used_and_last(self.length)[0]:
            raise ValueError(f"{self.name!r}: longer than its room")

    @property
    def deleted(self) -> bool:
        return bool(self.attributes & DELETED)


@dataclass(frozen=True)
class Pack:
    """A volume: its size and directory in blocks, and its files in order."""

    name: str
    blocks: int
    directory: int
    dated: date | None
    files: tuple[File, ...]

    def __post_init__(self) -> None:
        entries = FIRST_FILE_ENTRY + len(self.files) + 1
        if entries > self.directory * ENTRIES_PER_BLOCK:
            raise ValueError("the directory is too small for its entries")
        if self.left_from > self.blocks:
            raise ValueError("the files are larger than the pack")

    @property
    def placed(self) -> list[tuple[int, int, File]]:
        """Each file with its entry number and first block."""
        result = []
        block = 1 + self.directory
        for entry, file in enumerate(self.files, FIRST_FILE_ENTRY):
            result.append((entry, block, file))
            block += file.room
        return result

    @property
    def left_from(self) -> int:
        return 1 + self.directory + sum(file.room for file in self.files)

    @property
    def left(self) -> int:
        return self.blocks - self.left_from


SAMPLE = Pack(
    name="SAMPLE PACK",
    blocks=160,
    directory=1,
    dated=date(1984, 2, 29),
    files=(
        File("LETTERh", USER, 3, 2310, date(1984, 3, 1),
             "Dear Aunt May, thank you for the printer ribbon. "),
        File("LETTERH", USER, 3, 2874, date(1984, 3, 4),
             "Dear Aunt May, thank you so much for the two printer ribbons. "),
        File("LOGA", USER, 1, 612, date(1984, 5, 17),
             "Tape wound back, drive cleaned, all well. "),
        File("LOGH", USER, 2, 1500, date(1984, 5, 18),
             "Log of the second drive: no faults were seen today. "),
        File("OLDNOTEA", USER | DELETED, 2, 1724, date(1984, 6, 2),
             "This note is out of date and may be thrown away. "),
        File("MEMOA", USER, 1, 345, date(1984, 9, 10),
             "Remember to buy a box of blank data packs. ",
             tail=b"LDTEA"),
        File("NEWGAMEA", USER, 2, 0, date(1984, 11, 30), ""),
        File("EXACTA", USER, 1, 1024, date(1984, 12, 31),
             "This file fills its one block to the last byte. "),
        File("ONEOVERA", USER, 2, 1025, None,
             "This file needs one byte more than a block. "),
        File("TAX 1985H", LOCKED | WRITE_PROTECTED | USER, 6, 4200,
             date(1985, 4, 15),
             "Income, expenses and the sum that is due in April. "),
        File("BASICPGMH", USER | SYSTEM, 30, 28416, date(1985, 8, 9),
             "10 PRINT \"HELLO FROM THE ADAM\": 20 GOTO 10 "),
        File("PAYROLLA", USER | EXECUTE_PROTECTED, 8, 7169, date(1986, 1, 5),
             "Hours worked, rate of pay, and the wage for each week. "),
    ),
)


@dataclass(frozen=True)
class Disk:
    """A pack on a sector disk; `statuses` has those sectors whose is not 0."""

    pack: Pack
    statuses: dict[int, int]

    def __post_init__(self) -> None:
        if self.pack.blocks != DISK_BLOCKS:
            raise ValueError(f"a disk has {DISK_BLOCKS} blocks")
        for sector, status in self.statuses.items():
            if not 0 <= sector < DISK_BLOCKS * SECTORS_PER_BLOCK:
                raise ValueError(f"sector {sector}: not on the disk")
            if not 1 <= status <= 255:
                raise ValueError(f"sector {sector}: no status of a bad record")


FREE_BLOCK = 150
DIRECTORY_BLOCK = 1

if not SAMPLE.left_from <= FREE_BLOCK < SAMPLE.blocks:
    raise ValueError(f"block {FREE_BLOCK} is not free")

SAMPLE_DISK = Disk(SAMPLE, {2 * FREE_BLOCK + 1: 0x10})
BAD_DIRECTORY_DISK = Disk(
    SAMPLE, {**SAMPLE_DISK.statuses, 2 * DIRECTORY_BLOCK + 1: 0x01})


def name_bytes(name: str, tail: bytes = b"") -> bytes:
    field = name.encode("ascii") + ETX + tail
    if len(field) > NAME_FIELD:
        raise ValueError(f"{name!r}: does not fit its field")
    return field.ljust(NAME_FIELD, b"\0")


def date_bytes(dated: date | None) -> bytes:
    if dated is None:
        return bytes(3)
    return bytes([dated.year - 1900, dated.month, dated.day])


def entry_bytes(name: bytes, attributes: int, first: int, room: int,
                used: int, last: int, dated: date | None) -> bytes:
    return (
        name
        + bytes([attributes])
        + first.to_bytes(4, "little")
        + room.to_bytes(2, "little")
        + used.to_bytes(2, "little")
        + last.to_bytes(2, "little")
        + date_bytes(dated)
    )


def volume_entry(pack: Pack) -> bytes:
    return (
        name_bytes(pack.name)
        + bytes([LOCKED + pack.directory])
        + VOLUME_MARK
        + pack.blocks.to_bytes(4, "little")
        + bytes(2)
        + date_bytes(pack.dated)
    )


def directory_entries(pack: Pack) -> list[bytes]:
    d = pack.directory
    entries = [
        volume_entry(pack),
        entry_bytes(name_bytes("BOOT"), LOCKED | SYSTEM,
                    0, 1, 1, BLOCK, pack.dated),
        entry_bytes(name_bytes("DIRECTORY"), LOCKED | WRITE_PROTECTED | SYSTEM,
                    1, d, d, BLOCK, pack.dated),
    ]
    for _, first, file in pack.placed:
        used, last = used_and_last(file.length)
        entries.append(entry_bytes(name_bytes(file.name, file.tail),
                                   file.attributes, first, file.room,
                                   used, last, file.dated))
    entries.append(entry_bytes(name_bytes("BLOCKS LEFT"), BLOCKS_LEFT,
                               pack.left_from, pack.left, 0, 0, pack.dated))
    return entries


def contents(file: File) -> bytes:
    """The file's sentence, repeated and cut to its length."""
    if file.length == 0:
        return b""
    text = file.sentence.encode("ascii")
    return (text * (file.length // len(text) + 1))[:file.length]


def image_bytes(pack: Pack) -> bytes:
    image = bytearray(pack.blocks * BLOCK)

    def put(at: int, data: bytes) -> None:
        image[at:at + len(data)] = data

    for e, entry in enumerate(directory_entries(pack)):
        block, place = divmod(e, ENTRIES_PER_BLOCK)
        put((1 + block) * BLOCK + place * ENTRY, entry)
    for _, first, file in pack.placed:
        put(first * BLOCK, contents(file))
    return bytes(image)


def record_of(sector: int) -> int:
    """The record in which a sector lies."""
    track, place = divmod(sector, SECTORS_PER_TRACK)
    return SECTORS_PER_TRACK * track + STEP * place % SECTORS_PER_TRACK


def disk_bytes(disk: Disk) -> bytes:
    image = image_bytes(disk.pack)
    records = {}
    for sector in range(len(image) // SECTOR):
        data = image[sector * SECTOR:(sector + 1) * SECTOR]
        status = disk.statuses.get(sector, 0)
        records[record_of(sector)] = data + bytes([status])
    return b"".join(records[record] for record in range(len(records)))


def counted(number: int, thing: str) -> str:
    return f"{number} {thing}" if number == 1 else f"{number} {thing}s"


def attribute_text(attributes: int) -> str:
    return "".join(
        letter if attributes & (0x80 >> place) else "-"
        for place, letter in enumerate(ATTRIBUTE_LETTERS)
    )


def file_line(entry: int, first: int, file: File) -> str:
    state = "deleted" if file.deleted else "live"
    length = "-" if file.deleted else str(file.length)
    dated = file.dated.isoformat() if file.dated else "-"
    return (
        f"{entry:>5}  {file.name[:-1]:<10} {file.name[-1]}  {state:<7}  "
        f"{attribute_text(file.attributes):<10}  {first:>5}  {file.room:>5}  "
        f"{length:>8}  {dated}"
    )


def catalogue_text(pack: Pack) -> str:
    """What `pack catalogue` should print for the pack."""
    directory = counted(pack.directory, "directory block")
    dated = f"dated {pack.dated.isoformat()}" if pack.dated else "no date"
    deleted = sum(file.deleted for file in pack.files)
    lines = [
        f"Volume {pack.name}: {counted(pack.blocks, 'block')}, "
        f"{directory}, {dated}.",
        "entry  name          state    attributes  first   room    length  date",
        *(file_line(*placed) for placed in pack.placed),
        f"Blocks left: {pack.left} from block {pack.left_from}.",
        f"Read {directory} and found {counted(len(pack.files), 'file')}, "
        f"{deleted} of them deleted.",
    ]
    return "".join(line + "\n" for line in lines)


def write_image(pack: Pack, path: Path) -> None:
    path.parent.mkdir(parents=True, exist_ok=True)
    path.write_bytes(image_bytes(pack))


def write_disk(disk: Disk, path: Path) -> None:
    path.parent.mkdir(parents=True, exist_ok=True)
    path.write_bytes(disk_bytes(disk))


def write_catalogue(pack: Pack, path: Path) -> None:
    path.parent.mkdir(parents=True, exist_ok=True)
    path.write_bytes(catalogue_text(pack).encode("ascii"))


def main() -> None:
    parser = argparse.ArgumentParser(
        description="Write the sample pack, as image and as disk, "
                    "and its catalogue text.")
    parser.add_argument("root", nargs="?", type=Path,
                        default=Path(__file__).resolve().parent.parent,
                        help="output root (default: the repository root)")
    root = parser.parse_args().root
    data = root / "crates/pack/data"
    write_image(SAMPLE, data / "sample.pack")
    write_disk(SAMPLE_DISK, data / "sample.disk")
    write_disk(BAD_DIRECTORY_DISK, data / "bad-directory.disk")
    write_catalogue(SAMPLE, root / "crates/pack/stdout")


if __name__ == "__main__":
    main()
