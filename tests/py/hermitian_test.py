"""python/hermitian.py on vectors of the C tests (tests/c), and on what no caller can mean, which has to be told before the library is called."""

import os
import pathlib
import random
import sys
import unittest
from unittest import mock

ROOT = pathlib.Path(__file__).resolve().parent.parent.parent
sys.path.insert(0, os.environ.get("HERMITIAN_MODULE", str(ROOT / "python")))

import hermitian  # noqa: E402
from hermitian import Refused, Report  # noqa: E402


def frame_s(m):
    """The bench sheet's S(m): the first m of places 0, 10, .. lean to symbol 1."""

    def column(place):
        wrong = place % 10 == 0 and place // 10 < m
        return [0 if symbol == wrong else 30 if wrong and symbol == 0 else 40 for symbol in range(16)]

    return [column(place) for place in range(64)]


def frame_of_two(gap):
    """tests/c/table.c: with eight doubtful places two codewords are near at rate 49, and their totals differ by 8 gaps."""
    columns = frame_s(0)
    ten = [6, 7, 34, 35, 42, 43, 50, 51, 62, 63]
    for i, place in enumerate(ten):
        columns[place][place // 4] = gap if i < 8 else 6 if i == 8 else 0
    columns[63][0] = 6
    return columns


def alone(rate, symbol):
    return hermitian.encode(rate, [int(i == symbol) for i in range(rate)])


class Vectors(unittest.TestCase):
    def refused(self, number, call, *arguments):
        with self.assertRaises(Refused) as caught:
            call(*arguments)
        self.assertEqual(caught.exception.number, number)
        self.assertEqual(caught.exception.text, hermitian.REFUSALS[number])
        self.assertIn(caught.exception.text, str(caught.exception))

    def test_encoding(self):
        for rate in range(6, 53):
            self.assertEqual(list(alone(rate, 1)), [place // 4 for place in range(64)])
            self.assertEqual(list(alone(rate, 2)[:12]), [0, 1, 6, 7, 2, 3, 4, 5, 10, 11, 12, 13])
            self.assertEqual(alone(rate, 2)[63], 5)

    def test_round_trips(self):
        draw = random.Random(1)
        for rate in range(6, 53):
            message = bytes(draw.randrange(16) for _ in range(rate))
            word = hermitian.encode(rate, message)
            self.assertEqual(hermitian.read_back(rate, word), message)
            self.assertEqual(hermitian.read_back(rate, list(word)), message)
            wrong = bytearray(word)
            wrong[draw.randrange(64)] ^= draw.randrange(1, 16)
            self.refused(8, hermitian.read_back, rate, wrong)
            frame = bytearray(b"\xee" * 100)
            hermitian.encode_into(rate, message, frame, 20)
            self.assertEqual(frame, b"\xee" * 20 + word + b"\xee" * 16)

    def test_bench_sheet(self):
        def report(rate, columns, doubt):
            message, told = hermitian.decode_table(rate, columns, doubt)
            self.assertEqual(message, bytes(rate))
            return told

        self.assertEqual(report(39, frame_s(6), 0), Report(180, 1, 0, 6, None, True))
        self.refused(9, hermitian.decode_table, 39, frame_s(7), 0)
        self.assertEqual(report(39, frame_s(7), 1), Report(210, 1, 0, 7, None, True))
        self.assertEqual(report(39, frame_s(7), 2)[:5], (210, 3, 0, 7, None))
        self.assertEqual(report(49, frame_s(1), 0)[:5], (30, 1, 0, 1, None))
        self.refused(9, hermitian.decode_table, 49, frame_s(2), 0)
        self.refused(12, hermitian.decode_table, 39, bytes(2048), 0)
        self.assertEqual(report(49, frame_of_two(5), 8)[:5], (6, 2, 0, 1, 40))
        self.assertEqual(report(49, frame_of_two(0), 8).margin, 0)
        self.assertIs(report(49, frame_of_two(0), 7).margin, None)

    def test_by_threshold(self):
        """As with a doubt of so many places as have a gap below it: seven of S(7) have 30, the others 40."""
        table = hermitian.table_of(frame_s(7))
        for threshold, most, doubt in [(0, 12, 1), (30, 12, 1), (31, 12, 7), (31, 3, 3), (65535, 12, 12)]:
            by_doubt = hermitian.decode_table(39, table, doubt)
            self.assertEqual(hermitian.decode_table_below(39, table, threshold, most), by_doubt)
        self.refused(4, hermitian.decode_table_below, 39, table, 31, 0)
        self.refused(4, hermitian.decode_table_below, 39, table, 31, 13)

    def test_from_bits(self):
        """As the table that the values make, with both ends and zeros among them."""
        draw = random.Random(2)
        word = hermitian.encode(20, [draw.randrange(16) for _ in range(20)])
        for strength in [12, 60, 127]:
            values = [draw.randint(0, strength) * (-1 if symbol >> (3 - i) & 1 else 1) for symbol in word for i in range(4)]
            values[:4] = [-128, 127, 0, 1]
            for doubt in range(0, 13, 3):
                table = hermitian.table_of_bits(values)
                self.assertEqual(hermitian.decode_bits(20, values, doubt), hermitian.decode_table(20, table, doubt))

    def test_superframes(self):
        draw = random.Random(3)
        for rate in [6, 39, 52]:
            messages = [bytes(draw.randrange(16) for _ in range(rate)) for _ in range(8)]
            frame = bytearray(hermitian.build_superframe(rate, messages))
            self.assertEqual(bytes(frame[:4]), bytes([1, 2, 1, rate]))
            self.assertEqual(hermitian.take_superframe_apart(frame), (tuple(messages), 0))
            self.assertEqual(bytes(frame[4 + 3 :: 8]), hermitian.encode(rate, messages[3]))
        messages = [bytes([v] * 39) for v in range(8)]
        frame = bytearray(hermitian.build_superframe(39, messages))
        for symbol in range(100, 149):
            frame[4 + symbol] ^= 5
        apart = hermitian.take_superframe_apart(frame)
        self.assertEqual(apart.status, 16)
        self.assertEqual(apart.messages, tuple(None if v == 4 else messages[v] for v in range(8)))
        self.refused(14, hermitian.take_superframe_apart, b"")
        self.refused(14, hermitian.take_superframe_apart, frame[:515])
        frame[3] = 53
        self.refused(1, hermitian.take_superframe_apart, frame)
        frame[3], frame[4] = 39, 16
        self.refused(3, hermitian.take_superframe_apart, frame)

    def test_captures(self):
        table = hermitian.table_of(frame_s(7))
        made = hermitian.make_capture(39, [0], table)
        self.assertEqual(made, (ROOT / "examples" / "r3.capture").read_bytes())
        self.assertEqual(hermitian.decode_capture(made), (bytes(39), Report(210, 1, 0, 7, None, True)))
        nine = (ROOT / "examples" / "nine.capture").read_bytes()
        self.assertEqual(hermitian.make_capture(39, range(9), frame_s(7)), nine)
        self.assertEqual(hermitian.decode_capture(nine).report[:4], (210, 1, 0, 7))
        six = (ROOT / "examples" / "six.capture").read_bytes()
        self.assertEqual(hermitian.decode_capture(six).message, bytes(6))
        records = [made[6 + 33 * i : 39 + 33 * i] for i in range(64)]
        random.Random(4).shuffle(records)
        shuffled = made[:6] + b"".join(records)
        self.assertNotEqual(shuffled, made)
        self.assertEqual(hermitian.sort_capture(shuffled), made)
        self.assertEqual(hermitian.sort_capture(made), made)
        self.assertEqual(hermitian.decode_capture(shuffled), hermitian.decode_capture(made))

    def test_refused_captures(self):
        made = hermitian.make_capture(39, [0], frame_s(7))

        def spoilt(at, byte):
            return made[:at] + bytes([byte]) + made[at + 1 :]

        cases = [(b"", 11), (made[:-1], 11), (made + b"x", 11), (spoilt(0, 3), 10), (spoilt(2, 0), 11), (spoilt(3, 5), 1)]
        cases += [(spoilt(0, 2), 4), (spoilt(5, 64), 4), (spoilt(6, 64), 5), (spoilt(6, 1), 6)]
        for bytes_given, number in cases:
            self.refused(number, hermitian.decode_capture, bytes_given)
            self.refused(number, hermitian.sort_capture, bytes_given)
        self.refused(9, hermitian.decode_capture, hermitian.make_capture(39, [], frame_s(7)))
        self.refused(12, hermitian.decode_capture, hermitian.make_capture(39, [], bytes(2048)))
        self.refused(4, hermitian.make_capture, 39, [1, 1], frame_s(7))
        self.refused(4, hermitian.make_capture, 39, range(13), frame_s(7))

    def test_what_is_the_librarys_to_refuse(self):
        for rate in [0, 5, 53, 256 + 39, 2**64 - 1]:
            self.refused(1, hermitian.encode, rate, [0] * 39)
            self.refused(1, hermitian.read_back, rate, bytes(64))
            self.refused(1, hermitian.decode_table, rate, frame_s(1), 0)
            self.refused(1, hermitian.decode_table_below, rate, frame_s(1), 5, 1)
            self.refused(1, hermitian.decode_bits, rate, [1] * 256, 0)
            self.refused(1, hermitian.build_superframe, rate, [[0] * 39] * 8)
            self.refused(1, hermitian.make_capture, rate, [], frame_s(1))
        self.refused(4, hermitian.decode_table, 39, frame_s(1), 13)
        self.refused(4, hermitian.decode_bits, 39, [1] * 256, 2**64 - 1)


class BadInput(unittest.TestCase):
    """Each is told by its kind and in words that name the argument, and nothing is called."""

    def setUp(self):
        self.call = mock.patch.object(hermitian, "_call", side_effect=AssertionError("the library was called"))
        self.call.start()
        self.addCleanup(self.call.stop)

    def told(self, kind, words, call, *arguments):
        with self.assertRaises(kind) as caught:
            call(*arguments)
        self.assertIn(words, str(caught.exception))

    def test_types(self):
        for bad in [None, "39", 39.0, [39], True, 1j]:
            self.told(TypeError, "rate", hermitian.encode, bad, [0] * 39)
            self.told(TypeError, "rate", hermitian.make_capture, bad, [], bytes(2048))
            self.told(TypeError, "doubt", hermitian.decode_table, 39, bytes(2048), bad)
            self.told(TypeError, "threshold", hermitian.decode_table_below, 39, bytes(2048), bad)
            self.told(TypeError, "most", hermitian.decode_table_below, 39, bytes(2048), 5, bad)
            self.told(TypeError, "message[1]", hermitian.encode, 39, [0, bad] + [0] * 37)
        for bad in [None, 5, "0" * 39, {0: 1}, {1, 2}]:
            self.told(TypeError, "message", hermitian.encode, 39, bad)
            self.told(TypeError, "word", hermitian.read_back, 39, bad)
            self.told(TypeError, "table", hermitian.decode_table, 39, bad)
            self.told(TypeError, "values", hermitian.decode_bits, 39, bad)
            self.told(TypeError, "messages", hermitian.build_superframe, 39, bad)
            self.told(TypeError, "doubtful", hermitian.make_capture, 39, bad, bytes(2048))
            self.told(TypeError, "capture", hermitian.decode_capture, bad)
            self.told(TypeError, "capture", hermitian.sort_capture, bad)
            self.told(TypeError, "superframe", hermitian.take_superframe_apart, bad)
        self.told(TypeError, "values", hermitian.decode_bits, 39, bytes(256))
        self.told(TypeError, "frame", hermitian.encode_into, 39, [0] * 39, bytes(64))
        self.told(TypeError, "table[0]", hermitian.decode_table, 39, [5] * 64)

    def test_lengths(self):
        for length in [0, 38, 40, 64]:
            self.told(ValueError, "message", hermitian.encode, 39, [0] * length)
            self.told(ValueError, "messages[7]", hermitian.build_superframe, 39, [[0] * 39] * 7 + [[0] * length])
        for length in [0, 63, 65]:
            self.told(ValueError, "word", hermitian.read_back, 39, bytes(length))
            self.told(ValueError, "table", hermitian.decode_table, 39, frame_s(1) + frame_s(1) if length > 64 else frame_s(1)[:length])
        for length in [0, 2047, 2049]:
            self.told(ValueError, "table", hermitian.decode_table, 39, bytes(length))
            self.told(ValueError, "table", hermitian.make_capture, 39, [], bytes(length))
        for length in [0, 255, 257]:
            self.told(ValueError, "values", hermitian.decode_bits, 39, [0] * length)
        for count in [0, 7, 9]:
            self.told(ValueError, "messages", hermitian.build_superframe, 39, [[0] * 39] * count)
        self.told(ValueError, "table[63]", hermitian.decode_table, 39, frame_s(1)[:63] + [[0] * 15])
        self.told(ValueError, "frame", hermitian.encode_into, 39, [0] * 39, bytearray(63), 0)
        self.told(ValueError, "frame", hermitian.encode_into, 39, [0] * 39, bytearray(100), 37)
        self.told(ValueError, "report", Report.of, bytes(13))

    def test_ranges(self):
        for symbol in [-1, 16, 255, 10**30]:
            self.told(ValueError, "message[38]", hermitian.encode, 39, [0] * 38 + [symbol])
            self.told(ValueError, "word[0]", hermitian.read_back, 39, [symbol] + [0] * 63)
        self.told(ValueError, "message[0]", hermitian.encode, 39, b"\x10" + bytes(38))
        for number in [-1, 2**64]:
            self.told(ValueError, "rate", hermitian.encode, number, [0] * 39)
            self.told(ValueError, "doubt", hermitian.decode_table, 39, bytes(2048), number)
            self.told(ValueError, "start", hermitian.encode_into, 39, [0] * 39, bytearray(64), number)
        for threshold in [-1, 65536]:
            self.told(ValueError, "threshold", hermitian.decode_table_below, 39, bytes(2048), threshold)
        for value in [-129, 128]:
            self.told(ValueError, "values[255]", hermitian.decode_bits, 39, [0] * 255 + [value])
        for cost in [-1, 65536]:
            self.told(ValueError, "table[63][15]", hermitian.decode_table, 39, frame_s(1)[:63] + [[0] * 15 + [cost]])
        for place in [-1, 64]:
            self.told(ValueError, "doubtful[0]", hermitian.make_capture, 39, [place], bytes(2048))


class Loading(unittest.TestCase):
    def test_missing(self):
        with mock.patch.dict(os.environ, {"HERMITIAN_LIBRARY": "/nowhere/libhermitian.so"}), mock.patch.object(hermitian, "_loaded", None):
            with self.assertRaises(hermitian.LibraryMissing) as caught:
                hermitian.encode(39, [0] * 39)
        self.assertIn("/nowhere/libhermitian.so", str(caught.exception))
        self.assertIn("dist/make", str(caught.exception))

    def test_another_library(self):
        with mock.patch.object(hermitian, "_loaded", None):
            with self.assertRaises(hermitian.LibraryMissing) as caught:
                hermitian.load("libc.so.6")
        self.assertIn("hermitian_encode", str(caught.exception))


if __name__ == "__main__":
    unittest.main()
