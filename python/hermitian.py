"""The proved decoder of the Hermitian code with 64 places over GF(16), from Python, by ctypes alone.

A frame with one wrong symbol, sent at rate 39 and received as hard decisions:

    >>> import hermitian
    >>> word = bytearray(hermitian.encode(39, [0, 1] + [0] * 37))
    >>> word[7] ^= 5
    >>> costs = [[0 if symbol == received else 40 for symbol in range(16)] for received in word]
    >>> message, report = hermitian.decode_table(39, costs, doubt=0)
    >>> message[:3], report.total, report.changed, report.margin, report.mark
    (b'\\x00\\x01\\x00', 40, 1, None, True)

Every call of the library is here under its name without 'hermitian_':

    encode(rate, message)                          the codeword, 64 bytes
    encode_into(rate, message, frame, start)       the same into 64 bytes of a bytearray
    read_back(rate, word)                          the message of a codeword
    decode_table(rate, table, doubt)               message and report of a table of costs
    decode_table_below(rate, table, threshold, most)   with as many doubtful places as gaps ask for
    decode_bits(rate, values, doubt)               from the bit values of a BPSK demapper
    build_superframe(rate, messages)               eight codewords in one frame, 516 bytes
    take_superframe_apart(superframe)              the eight messages, None for one that is beyond repair
    decode_capture(capture)                        message and report of a capture
    sort_capture(capture)                          the capture with its records in place order
    make_capture(rate, doubtful, table)            a capture

Messages and words are handed back as bytes, a symbol each; they are given as bytes or as any sequence of
numbers 0 to 15. A table is 2,048 bytes, or 64 columns of 16 costs, 0 to 65535 (table_of makes the one from
the other, table_of_bits makes it from bit values). What the library refuses raises Refused, with the
refusal's number and text. What no caller can mean raises TypeError or ValueError before the library is
called: another type, another length, a number out of range.

The shared library is found by HERMITIAN_LIBRARY, beside an installed module, or where the README's command
puts it in the repository; load() takes its path.
"""

import ctypes
import operator
import os
import pathlib
from typing import NamedTuple, Optional, Tuple

VERSION = "1.0.0"

PLACES = 64
SYMBOLS = 16
BITS = 4
TABLE_BYTES = 2048
BIT_VALUES = 256
REPORT_BYTES = 14
LEAST_RATE = 6
MOST_RATE = 52
MOST_DOUBT = 12
SUPERFRAME_BYTES = 516
SUPERFRAME_WORDS = 8
LEAST_CAPTURE_BYTES = 2117
MOST_CAPTURE_BYTES = LEAST_CAPTURE_BYTES + MOST_DOUBT

REFUSALS = {
    1: "rate not one of 6 to 52",
    2: "a buffer of the wrong size, or no 64 bytes from the start",
    3: "a symbol above 15",
    4: "doubt above 12, a maximum of 0 or above 12, or a faulty doubtful list",
    5: "a place above 63",
    6: "a place already taken",
    7: "writing or closing with a place missing",
    8: "not a codeword",
    9: "none near",
    10: "capture version not 1 or 2",
    11: "capture size or length wrong",
    12: "too many blank places",
    13: "a place that is not taken",
    14: "a superframe not of 516 bytes, or its version or length wrong",
}


class Refused(Exception):
    """The library refused a call: its number, and what that means."""

    def __init__(self, number):
        self.number = number
        self.text = REFUSALS.get(number, "no refusal of this library")
        super().__init__(f"refused with {number}: {self.text}")


class LibraryMissing(OSError):
    """No shared library was found, or it has not the calls."""


class Report(NamedTuple):
    """What a decoding reports. The margin is None where no other codeword is near."""

    total: int
    tests: int
    pinned: int
    changed: int
    margin: Optional[int]
    mark: bool

    @classmethod
    def of(cls, report):
        """From the library's 14 bytes."""
        report = _bytes("report", report, REPORT_BYTES)

        def number(start, end):
            return int.from_bytes(report[start:end], "big")

        margin = number(9, 13) if report[8] else None
        return cls(number(0, 4), number(4, 6), report[6], report[7], margin, bool(report[13]))


class Decoded(NamedTuple):
    """A message, a symbol a byte, and its report."""

    message: bytes
    report: Report


class Apart(NamedTuple):
    """The messages of a superframe, None where no codeword is near, and the status byte, in which word v counts 2^v."""

    messages: Tuple[Optional[bytes], ...]
    status: int


# ---- what is given

_SIZE_LIMIT = 1 << (8 * ctypes.sizeof(ctypes.c_size_t))


def _number(name, value, limit=_SIZE_LIMIT, least=0):
    """A whole number from least to limit - 1."""
    if isinstance(value, bool):
        raise TypeError(f"{name} is a number, not a truth value")
    try:
        number = operator.index(value)
    except TypeError:
        raise TypeError(f"{name} is a whole number, not {type(value).__name__}") from None
    if not least <= number < limit:
        raise ValueError(f"{name} is {number}, and not {least} to {limit - 1}")
    return number


def _is_bytes(value):
    return isinstance(value, (bytes, bytearray, memoryview))


def _sequence(name, value, length=None):
    """The elements of a sequence, as many as wanted."""
    if isinstance(value, (str, dict, set, frozenset)):
        raise TypeError(f"{name} is a sequence of numbers, not {type(value).__name__}")
    try:
        elements = list(value)
    except TypeError:
        raise TypeError(f"{name} is a sequence of numbers, not {type(value).__name__}") from None
    if length is not None and len(elements) != length:
        raise ValueError(f"{name} has {len(elements)} elements, and not {length}")
    return elements


def _bytes(name, value, length=None):
    """Bytes, given as such."""
    if not _is_bytes(value):
        raise TypeError(f"{name} is bytes, not {type(value).__name__}")
    held = bytes(value)
    if length is not None and len(held) != length:
        raise ValueError(f"{name} has {len(held)} bytes, and not {length}")
    return held


def _numbers(name, value, length, limit, least=0):
    return [_number(f"{name}[{i}]", x, limit, least) for i, x in enumerate(_sequence(name, value, length))]


def _symbols(name, value, length):
    return bytes(_numbers(name, value, length, SYMBOLS))


def _rate(value):
    """A number; whether it is a rate is the library's to say. And how many symbols a message of it has, if it is one."""
    rate = _number("rate", value)
    return rate, rate if LEAST_RATE <= rate <= MOST_RATE else None


def _table(value):
    if _is_bytes(value):
        return _bytes("table", value, TABLE_BYTES)
    return table_of(value)


def table_of(columns):
    """The 2,048 bytes of a table: 64 columns, place 0 first, of 16 costs, symbol 0 first."""
    columns = _sequence("table", columns)
    if len(columns) != PLACES:
        raise ValueError(f"table has {len(columns)} columns, and not {PLACES}: it is 2,048 bytes, or 64 columns of 16 costs")
    table = bytearray()
    for place, column in enumerate(columns):
        for cost in _numbers(f"table[{place}]", column, SYMBOLS, 1 << 16):
            table += cost.to_bytes(2, "big")
    return bytes(table)


def _values(value):
    if _is_bytes(value):
        raise TypeError("values are numbers -128 to 127, not bytes")
    return _numbers("values", value, BIT_VALUES, 128, -128)


def table_of_bits(values):
    """The table that bit values make: a symbol costs the magnitudes of those of its four values that it contradicts.
    decode_bits does this in the library; here it is for captures."""
    values = _values(values)

    def cost(place, symbol):
        bits = [symbol >> (BITS - 1 - i) & 1 for i in range(BITS)]
        four = values[BITS * place : BITS * (place + 1)]
        return sum(abs(value) for value, bit in zip(four, bits) if value and bit != (value < 0))

    return table_of([[cost(place, symbol) for symbol in range(SYMBOLS)] for place in range(PLACES)])


# ---- the library

_SIZE, _IN, _OUT = ctypes.c_size_t, ctypes.c_char_p, ctypes.POINTER(ctypes.c_uint8)
_CALLS = {
    "encode": [_SIZE, _IN, _SIZE, _OUT, _SIZE, _SIZE],
    "read_back": [_SIZE, _IN, _SIZE, _OUT, _SIZE],
    "decode_table": [_SIZE, _IN, _SIZE, _SIZE, _OUT, _SIZE, _OUT, _SIZE],
    "decode_table_below": [_SIZE, _IN, _SIZE, ctypes.c_uint16, _SIZE, _OUT, _SIZE, _OUT, _SIZE],
    "decode_bits": [_SIZE, _IN, _SIZE, _SIZE, _OUT, _SIZE, _OUT, _SIZE],
    "build_superframe": [_SIZE, _IN, _SIZE, _OUT, _SIZE],
    "take_superframe_apart": [_IN, _SIZE, _OUT, _SIZE, _OUT],
    "decode_capture": [_IN, _SIZE, _OUT, _SIZE, _OUT, _SIZE],
    "sort_capture": [_IN, _SIZE, _OUT, _SIZE],
    "make_capture": [_SIZE, _IN, _SIZE, _IN, _SIZE, _OUT, _SIZE],
}
_loaded = None


def _places_to_look():
    name = f"libhermitian.so.{VERSION.split('.', maxsplit=1)[0]}"
    here = pathlib.Path(__file__).resolve().parent
    named = os.environ.get("HERMITIAN_LIBRARY")
    if named:
        return [named]
    beside = [here.parent.parent / "lib" / name, here.parent / "target" / "dist" / "lib" / name]
    return [str(path) for path in beside if path.exists()] + [name]


def load(path=None):
    """Loads the shared library, by its path or from where it is found, and hands it back."""
    global _loaded
    tried = [os.fspath(path)] if path is not None else _places_to_look()
    for candidate in tried:
        try:
            library = ctypes.CDLL(candidate)
        except OSError:
            continue
        for name, arguments in _CALLS.items():
            call = getattr(library, f"hermitian_{name}", None)
            if call is None:
                raise LibraryMissing(f"{candidate} has no hermitian_{name}: it is not version {VERSION} of the library")
            call.argtypes, call.restype = arguments, ctypes.c_uint8
        _loaded = library
        return library
    raise LibraryMissing(
        f"no shared library at {', '.join(tried)}: run 'dist/make x86-64 target/dist' in the repository, or set HERMITIAN_LIBRARY to its path"
    )


def _call(name, *arguments):
    number = getattr(_loaded or load(), f"hermitian_{name}")(*arguments)
    if number:
        raise Refused(number)


def _room(size):
    """A buffer to write into; its address is one also where it is empty."""
    return (ctypes.c_uint8 * max(size, 1))()


def _decode(name, symbols, *arguments):
    message, report = _room(symbols), _room(REPORT_BYTES)
    _call(name, *arguments, message, symbols, report, REPORT_BYTES)
    return Decoded(bytes(message)[:symbols], Report.of(bytes(report)))


# ---- its calls


def encode(rate, message):
    """The codeword of a message of as many symbols as the rate says."""
    frame = bytearray(PLACES)
    encode_into(rate, message, frame, 0)
    return bytes(frame)


def encode_into(rate, message, frame, start=0):
    """Writes the codeword into frame[start] to frame[start + 63]; frame is a bytearray, and its other bytes stay."""
    rate, symbols = _rate(rate)
    given = _symbols("message", message, symbols)
    if not isinstance(frame, bytearray):
        raise TypeError(f"frame is a bytearray, not {type(frame).__name__}")
    start = _number("start", start)
    if start + PLACES > len(frame):
        raise ValueError(f"frame has {len(frame)} bytes, and no {PLACES} from {start} on")
    room = _room(len(frame))
    ctypes.memmove(room, bytes(frame), len(frame))
    _call("encode", rate, given, len(given), room, len(frame), start)
    frame[:] = bytes(room)[: len(frame)]


def read_back(rate, word):
    """The message of a word of 64 symbols; refused with 8 where it is no codeword."""
    rate, symbols = _rate(rate)
    given = _symbols("word", word, PLACES)
    message = _room(symbols or 0)
    _call("read_back", rate, given, PLACES, message, symbols or 0)
    return bytes(message)[:symbols]


def decode_table(rate, table, doubt=0):
    """Message and report of a table of costs, with the doubt places of smallest gap doubtful."""
    rate, symbols = _rate(rate)
    given, doubt = _table(table), _number("doubt", doubt)
    return _decode("decode_table", symbols or 0, rate, given, len(given), doubt)


def decode_table_below(rate, table, threshold, most=MOST_DOUBT):
    """The same with as many doubtful places as have a gap below the threshold, one at least and no more than most."""
    rate, symbols = _rate(rate)
    given, threshold, most = _table(table), _number("threshold", threshold, 1 << 16), _number("most", most)
    return _decode("decode_table_below", symbols or 0, rate, given, len(given), threshold, most)


def decode_bits(rate, values, doubt=0):
    """Message and report from 256 bit values, -128 to 127, four a symbol and the highest bit first: a positive value favours bit 0."""
    rate, symbols = _rate(rate)
    given, doubt = bytes(value & 255 for value in _values(values)), _number("doubt", doubt)
    return _decode("decode_bits", symbols or 0, rate, given, len(given), doubt)


def build_superframe(rate, messages):
    """The superframe of eight messages."""
    rate, symbols = _rate(rate)
    words = _sequence("messages", messages, SUPERFRAME_WORDS)
    given = b"".join(_symbols(f"messages[{v}]", word, symbols) for v, word in enumerate(words))
    frame = _room(SUPERFRAME_BYTES)
    _call("build_superframe", rate, given, len(given), frame, SUPERFRAME_BYTES)
    return bytes(frame)


def take_superframe_apart(superframe):
    """The eight messages of a superframe, each decoded by itself, and the status byte."""
    given = _bytes("superframe", superframe)
    rate = given[3] if len(given) > 3 else 0
    messages, status = _room(SUPERFRAME_WORDS * rate), _room(1)
    _call("take_superframe_apart", given, len(given), messages, SUPERFRAME_WORDS * rate, status)
    words = [bytes(messages)[rate * v : rate * (v + 1)] for v in range(SUPERFRAME_WORDS)]
    return Apart(tuple(None if status[0] >> v & 1 else word for v, word in enumerate(words)), status[0])


def decode_capture(capture):
    """Message and report of a capture, by its rate and doubtful list."""
    given = _bytes("capture", capture)
    rate = given[3] if len(given) > 3 else 0
    return _decode("decode_capture", rate, given, len(given))


def sort_capture(capture):
    """The capture with its records in place order."""
    given = _bytes("capture", capture)
    out = _room(len(given))
    _call("sort_capture", given, len(given), out, len(given))
    return bytes(out)[: len(given)]


def make_capture(rate, doubtful, table):
    """The capture of a rate, a doubtful list (places 0 to 63, rising, 12 at most) and a table."""
    rate, _ = _rate(rate)
    places = bytes(_numbers("doubtful", doubtful, None, PLACES))
    given = _table(table)
    size = LEAST_CAPTURE_BYTES + len(places)
    out = _room(size)
    _call("make_capture", rate, places, len(places), given, len(given), out, size)
    return bytes(out)
