"""Reads Windows Prefetch (SCCA) files with the proved library libhivesaddle.so.

Uncompressed files of versions 17, 23, 26 and 30, on x86-64 Linux. A file is its bytes:

>>> with open("examples/samples/small.pf", "rb") as opened:
...     file = opened.read()
>>> record = read_file(file)
>>> record.version, record.name, record.run_count
(23, 'CHAMBER.EXE', 42)
>>> found = find_path(file)
>>> names(file)[found.entry]
'\\\\DEVICE\\\\HARDDISKVOLUME1\\\\PROGRAM FILES\\\\CHAMBER\\\\CHAMBER.EXE'
>>> times(file)
[datetime.datetime(2024, 11, 16, 1, 30, tzinfo=datetime.timezone.utc)]

One that is damaged, or that is no Prefetch file, is refused:

>>> try:
...     read_file(file[:1000])
... except Refused as refusal:
...     print(refusal.number, refusal)
16 refused 16: the file ends too early, at 12

Every function takes any bytes and comes to an end. Files of unknown origin can be made to take long: `cost` says so
beforehand. Nothing is kept between calls, and calls may run in several threads at the same time.

The library is looked for in the folder HIVESADDLE_LIB_DIR, beside this file, and in ../lib.
"""

import array
import ctypes
import datetime
import operator
import os
from typing import Iterable, List, NamedTuple, Optional, Tuple, Union

__version__ = "1.0.0"

#: The number of the interface that this file was written for, HS_INTERFACE of the C header.
INTERFACE = 1

Buffer = Union[bytes, bytearray, memoryview]


class Refused(ValueError):
    """A file was refused: number, index and file offset, as the README's table has them.

    >>> str(Refused(13, 4, 352))
    'refused 13: the links from trace entry 4 lead back to it, at 352'
    """

    def __init__(self, number: int, index: int, offset: int) -> None:
        # With all of them, so that a refusal can be handed from one process to another.
        super().__init__(number, index, offset)
        self.number = number
        self.index = index
        self.offset = offset

    def __str__(self) -> str:
        return "refused {}: {}, at {}".format(self.number, _words(_WORDS, self.number).format(self.index), self.offset)


class YearRefused(ValueError):
    """There is no year's table: the number, and the place of the line or start at fault, from 1; 0 for 26.

    >>> str(YearRefused(18, 2))
    'refused 18: not a catalogue line, at place 2'
    """

    def __init__(self, number: int, place: int) -> None:
        super().__init__(number, place)
        self.number = number
        self.place = place

    def __str__(self) -> str:
        return "refused {}: {}, at place {}".format(self.number, _words(_YEAR_WORDS, self.number), self.place)


def _words(words: dict, number: int) -> str:
    return words.get(number, "the README has the words")


_WORDS = {
    1: "the version is not 17, 23, 26 or 30; a file that begins with MAM is compressed, unpack it first",
    2: "no SCCA after the version",
    3: "the declared size is impossible",
    4: "the program name has no end",
    5: "section {} lies outside the file",
    6: "section {} lies on another",
    8: "more volumes than their section has room for",
    9: "the name of metrics entry {} runs past the strings",
    10: "the name of metrics entry {} has a zero inside it, or none behind it",
    11: "trace entry {} leads to an entry that is not there",
    12: "two trace entries or more lead to trace entry {}",
    13: "the links from trace entry {} lead back to it",
    14: "something of volume {} runs past the volumes, or its references do not fit their size",
    15: "a directory of volume {} does not end in a zero",
    16: "the file ends too early",
    17: "the file goes on behind its declared size",
    21: "the metrics of a version 30 file start at another place than 304",
}

_YEAR_WORDS = {
    18: "not a catalogue line",
    24: "a 1,025th stored hash",
    26: "more than 1,048,576 lines or starts",
}


class Record(NamedTuple):
    """What an accepted file says of itself."""

    version: int
    declared_size: int
    #: The program name; units that are no text stay as lone surrogates.
    name: str
    stored_hash: int
    #: FILETIMEs as they stand, the latest first: one for versions 17 and 23, eight for 26 and 30. See `times`.
    run_times: Tuple[int, ...]
    run_count: int
    metrics_count: int
    trace_count: int
    volume_count: int
    #: 0 for version 30, whose trace entries have no next index.
    chain_count: int


class Volume(NamedTuple):
    """A volume that can be shown."""

    path: str
    serial_number: int
    #: A FILETIME as it stands, see `filetime`.
    creation_time: int
    references: int
    directories: int


class Reference(NamedTuple):
    """An NTFS file reference: 48 bits and 16."""

    entry_index: int
    sequence_number: int


class FoundPath(NamedTuple):
    """The metrics entry whose name has the stored hash, and what the /prefetch switch added to it, from 0 to 8."""

    entry: int
    number: int


class Cost(NamedTuple):
    """Bytes that a file has its reader look at."""

    names: int
    directories: int


class Readings(NamedTuple):
    """Readings of a row, in tenths of a degree. The mean is rounded down, below zero too."""

    count: int
    lowest: int
    highest: int
    sum: int
    mean: int
    remainder: int


class YearRow(NamedTuple):
    """What the year's table says of one stored hash; no readings where no start has one."""

    stored_hash: int
    lines: int
    run_counts: int
    readings: Optional[Readings]


def read_file(file: Buffer) -> Record:
    """What a complete file says of itself. Raises `Refused`.

    >>> file = bytearray(148)
    >>> file[0], file[4:8], file[12], file[16], file[76], file[144] = 17, b"SCCA", 148, 65, 65, 1
    >>> read_file(file)[:6]
    (17, 148, 'A', 65, (0,), 1)
    >>> read_file(file[:147])
    Traceback (most recent call last):
    hivesaddle.Refused: refused 16: the file ends too early, at 12
    >>> read_file(b"MAM\\x04")
    Traceback (most recent call last):
    hivesaddle.Refused: refused 1: the version is not 17, 23, 26 or 30; a file that begins with MAM is compressed, unpack it first, at 0
    """
    file = _bytes(file)
    # As many slots as the file needs, so that refusal 7 never comes.
    places = _ask(_library.hs_places, file, 1) or [0]
    predecessors = (ctypes.c_uint32 * places[0])()
    out = (ctypes.c_uint64 * _READER_OUT)()
    answer = _library.hs_read_file(file, len(file), predecessors, len(predecessors), out, len(out))
    if answer != 0:
        raise Refused(out[0], out[1], out[13])
    return Record(
        version=out[3],
        declared_size=out[4],
        name=_text(file[16:16 + 2 * out[5]]),
        stored_hash=out[6],
        run_times=((out[7],) + tuple(out[15:22]))[:out[14]],
        run_count=out[8],
        metrics_count=out[9],
        trace_count=out[10],
        volume_count=out[11],
        chain_count=out[12],
    )


def times(file: Buffer) -> List[Optional[datetime.datetime]]:
    """The run times of a file, the latest first, each as `filetime` has it. Raises `Refused`."""
    return [filetime(number) for number in read_file(file).run_times]


def filetime(number: int) -> Optional[datetime.datetime]:
    """A FILETIME in UTC, down to the microsecond. None for 0, which is no time, and past the year 9999.

    >>> filetime(133761942000000009)
    datetime.datetime(2024, 11, 16, 1, 30, tzinfo=datetime.timezone.utc)
    >>> filetime(0), filetime(2**64 - 1)
    (None, None)
    """
    try:
        return _EPOCH + datetime.timedelta(microseconds=number // 10) if number else None
    except OverflowError:
        return None


def names(file: Buffer) -> List[Optional[str]]:
    """The names of the files that were loaded, one for each metrics entry in these bytes, None for one that is damaged.

    The rest of the file may be damaged. Where not even its head is sound, so that there are no entries, `Refused` is raised.

    >>> names(b"")
    Traceback (most recent call last):
    hivesaddle.Refused: refused 16: the file ends too early, at 12
    """
    file = _bytes(file)
    parts = [_ask(_library.hs_entry_name, file, 2, i) for i in range(_count(file, 88, _LEAST_METRICS))]
    return [None if part is None else _text(file[part[0]:part[0] + part[1]]) for part in parts]


def volumes(file: Buffer) -> List[Optional[Volume]]:
    """The volumes of a file, None for one that is damaged. The rest of the file is as for `names`.

    >>> with open("examples/samples/small.pf", "rb") as opened:
    ...     file = opened.read()
    >>> [(volume.path, hex(volume.serial_number)) for volume in volumes(file)]
    [('\\\\DEVICE\\\\HARDDISKVOLUME1', '0x5c0a70e1'), ('\\\\DEVICE\\\\HARDDISKVOLUME2', '0x5c0a70e2')]
    """
    file = _bytes(file)
    return [_volume(file, _ask(_library.hs_volume, file, 6, i)) for i in range(_count(file, 112, _LEAST_VOLUME))]


def directories(file: Buffer, volume: int) -> List[str]:
    """The directories of a volume in their order; none where the volume can't be shown.

    >>> with open("examples/samples/small.pf", "rb") as opened:
    ...     file = opened.read()
    >>> directories(file, 0)[0]
    '\\\\DEVICE\\\\HARDDISKVOLUME1\\\\WINDOWS\\\\SYSTEM32\\\\000'
    >>> directories(file, 2)
    []
    """
    file = _bytes(file)
    pairs = _pairs(_library.hs_directories, ctypes.c_uint32, file, volume)
    return [_text(file[offset:offset + 2 * units]) for offset, units in pairs]


def references(file: Buffer, volume: int) -> List[Reference]:
    """The file references of a volume in their order; none where the volume can't be shown.

    >>> with open("examples/samples/small.pf", "rb") as opened:
    ...     file = opened.read()
    >>> references(file, 0)[:2]
    [Reference(entry_index=40, sequence_number=1), Reference(entry_index=43, sequence_number=2)]
    """
    pairs = _pairs(_library.hs_references, ctypes.c_uint64, _bytes(file), volume)
    return [Reference(*pair) for pair in pairs]


def find_path(file: Buffer) -> Optional[FoundPath]:
    """The file loaded that is the program itself, by the stored hash. None where no name has it.

    >>> with open("examples/samples/small.pf", "rb") as opened:
    ...     find_path(opened.read())
    FoundPath(entry=2, number=0)
    """
    found = _ask(_library.hs_find_path, _bytes(file), 2)
    return None if found is None else FoundPath(*found)


def find_path_from(file: Buffer, volume: int, start: str) -> Optional[FoundPath]:
    """As `find_path`, with a start in place of the volume's path.

    Windows 10 writes names that begin with \\\\VOLUME{..}, and takes the hash from another start:

    >>> with open("examples/samples/small.pf", "rb") as opened:
    ...     file = opened.read()
    >>> find_path_from(file, 0, r"\\DEVICE\\HARDDISKVOLUME1")
    FoundPath(entry=2, number=0)
    >>> find_path_from(file, 0, r"\\DEVICE\\HARDDISKVOLUME2") is None
    True
    """
    file, text = _bytes(file), start.encode("utf-16-le", "surrogatepass")
    found = _ask(_library.hs_find_path_from, file, 2, volume, text)
    return None if found is None else FoundPath(*found)


def cost(file: Buffer) -> Optional[Cost]:
    """What a file costs to look at. None where not even its head is sound.

    Where the names are more than the file has bytes, they are shared, and looking at all of them takes long:

    >>> with open("examples/samples/small.pf", "rb") as opened:
    ...     file = opened.read()
    >>> cost(file)
    Cost(names=864, directories=24)
    >>> cost(file[:100]) is None
    True
    """
    found = _ask(_library.hs_cost, _bytes(file), 2)
    return None if found is None else Cost(*found)


def year_table(lines: Buffer, starts: Iterable[Tuple[int, Optional[int]]]) -> List[YearRow]:
    """A row for each stored hash of catalogue lines and program starts, in rising order. Raises `YearRefused`.

    A start is a stored hash and the temperature of its reading in tenths of a degree, None where it has none:

    >>> rows = year_table(b"00000094000000410000000211\\n", [(65, -4), (65, -1), (7, None)])
    >>> rows[0]
    YearRow(stored_hash=7, lines=0, run_counts=0, readings=None)
    >>> rows[1].run_counts, rows[1].readings
    (2, Readings(count=2, lowest=-4, highest=-1, sum=-5, mean=-3, remainder=1))
    >>> year_table(b"00000094000000410000000211", [])
    Traceback (most recent call last):
    hivesaddle.YearRefused: refused 18: not a catalogue line, at place 1
    >>> year_table(b"", [(1 << 32, None)])
    Traceback (most recent call last):
    ValueError: a start is a hash of 32 bits and tenths of 16: (4294967296, None)
    """
    lines = _bytes(lines)
    hashes, answers = array.array("I"), array.array("Q")
    for start in starts:
        stored_hash, tenths = start
        if not 0 <= stored_hash < 1 << 32 or not -32768 <= (tenths or 0) < 32768:
            raise ValueError("a start is a hash of 32 bits and tenths of 16: {}".format(start))
        hashes.append(stored_hash)
        answers.extend((tenths is not None, 0, 0, (tenths or 0) & 0xFFFF))
    rows, out = (ctypes.c_uint64 * (_ROW * _MOST_ROWS))(), (ctypes.c_uint64 * 2)()
    number = _library.hs_year_table(
        lines, len(lines), _lent(hashes, ctypes.c_uint32), len(hashes), _lent(answers, ctypes.c_uint64), len(answers),
        rows, len(rows), out, len(out))
    if number != 0:
        raise YearRefused(number, out[0])
    return [_row(rows[_ROW * k:_ROW * (k + 1)]) for k in range(out[1])]


_EPOCH = datetime.datetime(1601, 1, 1, tzinfo=datetime.timezone.utc)
#: HS_READER_OUT, HS_YEAR_ROW_LENGTH and HS_YEAR_MOST_ROWS of the C header.
_READER_OUT, _ROW, _MOST_ROWS = 22, 9, 1024
#: Bytes of the smallest entries.
_LEAST_METRICS, _LEAST_VOLUME = 20, 40


def _bytes(file: Buffer) -> bytes:
    """What the library reads: bytes do not change during a call, anything else is copied."""
    return file if type(file) is bytes else bytes(memoryview(file).cast("B"))


def _text(units: bytes) -> str:
    return units.decode("utf-16-le", "surrogatepass")


def _index(number: int) -> int:
    """An index as 64 bits; one that is too large for them is too large for every list."""
    number = operator.index(number)
    if number < 0:
        raise ValueError("an index is not below 0: {}".format(number))
    return min(number, (1 << 64) - 1)


def _lent(numbers: array.array, element: type) -> ctypes.Array:
    return (element * len(numbers)).from_buffer(numbers)


def _ask(function, file: bytes, numbers: int, *more) -> Optional[List[int]]:
    """So many numbers, or None for a no. Between file and out stand an index, or an index and a text with its length."""
    out = (ctypes.c_uint64 * numbers)()
    words: list = []
    for word in more:
        words += [word, len(word)] if isinstance(word, bytes) else [_index(word)]
    return list(out) if function(file, len(file), *words, out, len(out)) else None


def _pairs(function, element: type, file: bytes, volume: int) -> List[Tuple[int, int]]:
    """All pairs of a volume: asked for their number first."""
    volume = _index(volume)
    pairs = (element * (2 * function(file, len(file), volume, (element * 0)(), 0)))()
    function(file, len(file), volume, pairs, len(pairs))
    return list(zip(pairs[0::2], pairs[1::2]))


def _count(file: bytes, field: int, least: int) -> int:
    """A count of the head, as far as there are bytes for so many entries; the refusal of the file where the head has one."""
    if _ask(_library.hs_places, file, 1) is None:
        read_file(file)
    return min(int.from_bytes(file[field:field + 4], "little"), len(file) // least)


def _volume(file: bytes, numbers: Optional[List[int]]) -> Optional[Volume]:
    if numbers is None:
        return None
    created, serial, references, directories, offset, length = numbers
    return Volume(_text(file[offset:offset + length]), serial, created, references, directories)


def _row(numbers: List[int]) -> YearRow:
    signed = [number - (1 << 64) if number >> 63 else number for number in numbers]
    readings = Readings(*signed[3:]) if numbers[3] else None
    return YearRow(numbers[0], numbers[1], numbers[2], readings)


def _load() -> ctypes.CDLL:
    here = os.path.dirname(os.path.abspath(__file__))
    folders = [os.environ.get("HIVESADDLE_LIB_DIR"), here, os.path.join(here, os.pardir, "lib")]
    for folder in filter(None, folders):
        path = os.path.join(folder, "libhivesaddle.so")
        if os.path.exists(path):
            return _declared(_opened(path), path)
    raise ImportError("no libhivesaddle.so in HIVESADDLE_LIB_DIR, beside hivesaddle.py or in ../lib")


def _opened(path: str) -> ctypes.CDLL:
    try:
        return ctypes.CDLL(path)
    except OSError as error:
        raise ImportError("{} (it is for x86-64 Linux alone)".format(error)) from error


def _declared(library: ctypes.CDLL, path: str) -> ctypes.CDLL:
    """With the declarations of include/hivesaddle.h; it must be the library that they are for."""
    if library.hs_interface() != INTERFACE:
        raise ImportError("{} has interface {}, not {}".format(path, library.hs_interface(), INTERFACE))
    size, number, wide = ctypes.c_size_t, ctypes.c_uint32, ctypes.c_uint64
    numbers, wides = ctypes.POINTER(number), ctypes.POINTER(wide)
    file, out = [ctypes.c_char_p, size], [wides, size]
    for name, result, arguments in [
        ("hs_places", number, file + out),
        ("hs_read_file", number, file + [numbers, size] + out),
        ("hs_entry_name", number, file + [wide] + out),
        ("hs_volume", number, file + [wide] + out),
        ("hs_directories", wide, file + [wide, numbers, size]),
        ("hs_references", wide, file + [wide, wides, size]),
        ("hs_find_path", number, file + out),
        ("hs_find_path_from", number, file + [wide, ctypes.c_char_p, size] + out),
        ("hs_cost", number, file + out),
        ("hs_year_table", number, file + [numbers, size] + [wides, size] * 3),
    ]:
        function = getattr(library, name)
        function.restype, function.argtypes = result, arguments
    return library


_library = _load()
