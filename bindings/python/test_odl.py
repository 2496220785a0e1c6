"""Tests of odl.py; the expected values stand in the documents.

    python3 bindings/python/test_odl.py
"""

import contextlib
import copy
import datetime
import io
import os
import pickle
import re
import tempfile
import threading
import unittest
import unittest.mock
from decimal import Decimal

import odl
import weekdays
import zones
from odl import Attribute, Block, Mark, Moment, Pointer, Quantity, Set, Symbol, Unit, Zone

ROOT = os.path.join(os.path.dirname(os.path.abspath(__file__)), "..", "..")
UTC = datetime.timezone.utc

CAMERA = b"""object = cam /* rig 4 */ ignored
 start = 1990-158T15:24:12
 hold = 1.50 <sec**1>
end_object
END
"""

CANONICAL = b"""OBJECT = CAM\r
  START = 1990-06-07T15:24:12Z\r
  HOLD = 1.5 <SEC>\r
END_OBJECT = CAM\r
END\r
"""


def zone(minutes):
    """A signed zone."""
    return Zone(Mark.SIGNED_ZONE, datetime.timedelta(minutes=minutes))


def value(written):
    (statement,) = odl.read(b"A=" + written + b" END")
    return statement.value


def listed(file):
    """Name and label of each example in the list, and what stands behind them."""
    escapes = {b"n": b"\n", b"r": b"\r", b"t": b"\t", b'"': b'"'}

    def byte(match):
        mark = match[1]
        return bytes([int(mark[1:], 16)]) if mark[:1] == b"x" else escapes[mark]

    with open(os.path.join(ROOT, "examples", file), "rb") as stream:
        for line in stream.read().split(b"\n"):
            if line and not line.startswith(b"#"):
                name, _, label, *rest = line.split(b"\t")
                label = re.sub(rb'\\(x[0-9A-F]{2}|[nrt"])', byte, label)
                yield name.decode(), label, [field.decode() for field in rest]


class Reading(unittest.TestCase):
    def test_blocks(self):
        start = datetime.datetime(1990, 6, 7, 15, 24, 12, tzinfo=UTC)
        hold = Quantity(Decimal("1.5"), (Unit("", "SEC", 1),))
        self.assertEqual(
            odl.read(CAMERA),
            [Block("OBJECT", "CAM", [Attribute("START", start), Attribute("HOLD", hold)])],
        )
        self.assertEqual(
            odl.read(b"GROUP=g OBJECT=o A=1 END_OBJECT=O ^P=2 END_GROUP B=3 END"),
            [
                Block("GROUP", "G", [Block("OBJECT", "O", [Attribute("A", 1)]), Pointer("P", 2)]),
                Attribute("B", 3),
            ],
        )
        self.assertEqual(odl.read(b"END"), [])

    def test_attributes_and_pointers_differ(self):
        self.assertEqual(odl.read(b"^IMAGE=40 END"), [Pointer("IMAGE", 40)])
        self.assertNotEqual(Pointer("A", 1), Attribute("A", 1))

    def test_integers(self):
        self.assertEqual(value(b"16#-4B#"), -75)
        self.assertEqual(value(b"9223372036854775807"), 2**63 - 1)
        self.assertEqual(value(b"-9223372036854775807"), 1 - 2**63)
        self.assertIs(type(value(b"2#-0#")), int)

    def test_reals_are_exact(self):
        self.assertEqual(value(b"1.9200"), Decimal("1.92"))
        self.assertEqual(value(b"-.999999999999999999"), Decimal("-0.999999999999999999"))
        self.assertEqual(value(b"0.1E1000"), Decimal("1E999"))
        self.assertEqual(value(b"1.0E-999"), Decimal("1E-999"))
        self.assertEqual(value(b"0E5000"), Decimal(0))
        self.assertIs(type(value(b"5.")), Decimal)

    def test_dates_and_times(self):
        self.assertEqual(value(b"1990-07"), datetime.date(1990, 1, 7))
        self.assertEqual(value(b"2000-366"), datetime.date(2000, 12, 31))
        self.assertEqual(value(b"10:00-00:30"), datetime.time(10, 0, tzinfo=zone(-30)))
        self.assertEqual(value(b"10:00").utcoffset(), datetime.timedelta(0))
        moment = value(b"1990-07-04T12:00:03.25+12:59")
        self.assertEqual(moment.isoformat(), "1990-07-04T12:00:03.250000+12:59")
        self.assertEqual(moment, datetime.datetime(1990, 7, 4, 12, 0, 3, 250000, zone(779)))
        self.assertEqual(value(b"0001-1-1T0:0+12:59").year, 1)

    def test_times_past_the_microsecond(self):
        self.assertEqual(
            value(b"1990-07T23:59:59.999999999Z"),
            Moment(datetime.date(1990, 1, 7), 23, 59, 59, 999999999, Zone(Mark.Z)),
        )
        self.assertEqual(value(b"1:2:3.0000001-1"), Moment(None, 1, 2, 3, 100, zone(-60)))

    def test_texts_are_reassembled(self):
        self.assertEqual(value(b'"Jupi-\n  ter\r\n\tring"'), "Jupiter ring")
        self.assertEqual(value(b'"Jupi- \nter"'), "Jupi- ter")
        self.assertEqual(value(b'"\n"'), " ")
        self.assertEqual(value(b'"-\n"'), "")
        self.assertEqual(value(b'""'), "")
        self.assertEqual(value(b'"a\x00-\x7f\nb  c"'), "ab  c")

    def test_texts_and_symbols_differ(self):
        self.assertIs(type(value(b'"IO"')), str)
        self.assertIs(type(value(b"io")), Symbol)
        self.assertEqual(value(b"io"), "IO")
        self.assertEqual(repr(value(b"'it is'")), "Symbol('IT IS')")

    def test_units(self):
        speed = value(b"-2 <km*sec**-2/deg>")
        units = (Unit("", "KM", 1), Unit("*", "SEC", -2), Unit("/", "DEG", 1))
        self.assertEqual(speed, Quantity(-2, units))
        self.assertEqual(str(speed), "-2 <KM*SEC**-2/DEG>")

    def test_sequences_and_sets(self):
        self.assertEqual(value(b"(1, B, \"c\")"), [1, "B", "c"])
        self.assertEqual(value(b"((1, 2), (3))"), [[1, 2], [3]])
        self.assertEqual(value(b"(1 <M>, 2)"), [Quantity(1, (Unit("", "M", 1),)), 2])
        self.assertEqual(value(b"{2, 1, 2}"), Set([2, 1, 2]))
        self.assertIs(type(value(b"{}")), Set)
        self.assertEqual(len(value(b"{}")), 0)

    def test_long_labels(self):
        members = b"1," * 20000
        self.assertEqual(value(b"(" + members + b"1)"), [1] * 20001)
        texts = b"A=\"x\n y\"\n" * 6000
        self.assertEqual(odl.read(texts + b"END"), [Attribute("A", "x y")] * 6000)
        nested = b"OBJECT=X " * 80 + b"END_OBJECT " * 80 + b"END"
        block = odl.read(nested)
        for _ in range(80):
            (block,) = block
            self.assertEqual(block.name, "X")
            block = block.statements

    def test_other_buffers(self):
        self.assertEqual(odl.read(bytearray(b"A=1 END")), [Attribute("A", 1)])
        self.assertEqual(odl.read(memoryview(b"A=1 END")), [Attribute("A", 1)])
        for wrong in ["A=1 END", 7, None]:
            with self.assertRaises(TypeError):
                odl.read(wrong)

    def test_threads(self):
        def work():
            for _ in range(50):
                if odl.relabel(CAMERA) != CANONICAL:
                    wrong.append(1)

        wrong = []
        threads = [threading.Thread(target=work) for _ in range(4)]
        for thread in threads:
            thread.start()
        for thread in threads:
            thread.join()
        self.assertEqual(wrong, [])


class Zones(unittest.TestCase):
    def test_zones_are_told_apart(self):
        for given, expected, text in [
            (b"", Zone(Mark.NO_ZONE), "no zone"),
            (b"Z", Zone(Mark.Z), "Z"),
            (b"z", Zone(Mark.Z), "Z"),
            (b"+0", zone(0), "+00:00"),
            (b"-00:00", zone(0), "+00:00"),
            (b"+7", zone(420), "+07:00"),
            (b"-00:30", zone(-30), "-00:30"),
            (b"-12:59", zone(-779), "-12:59"),
        ]:
            for time in [b"10:00", b"1990-07T10:00:00.5", b"2000-366T23:59"]:
                with self.subTest(time + given):
                    read = value(time + given)
                    self.assertEqual(read.tzinfo, expected)
                    self.assertEqual((str(read.tzinfo), read.tzname()), (text, text))
                    self.assertEqual(read.utcoffset(), expected.offset)
            for time in [b"1:2:3.0000001", b"1990-07T1:2:3.123456789"]:
                with self.subTest(time + given):
                    self.assertEqual(value(time + given).zone, expected)

    def test_marks(self):
        given = [value(b"10:00" + zone).tzinfo.mark for zone in (b"", b"Z", b"+0")]
        self.assertEqual(given, [Mark.NO_ZONE, Mark.Z, Mark.SIGNED_ZONE])
        self.assertEqual(given, [0, 1, 2])
        self.assertIs(type(given[0]), Mark)

    def test_a_bare_date_has_no_zone_at_all(self):
        self.assertIs(type(value(b"1990-07")), datetime.date)

    def test_the_canonical_label_has_a_zone_with_every_time(self):
        for given, expected in [
            (b"10:00", Zone(Mark.Z)),
            (b"10:00z", Zone(Mark.Z)),
            (b"10:00+0", Zone(Mark.Z)),
            (b"1990-07T10:00", Zone(Mark.Z)),
            (b"1990-07T10:00-00:30", zone(-30)),
        ]:
            with self.subTest(given):
                (statement,) = odl.read(odl.relabel(b"A=" + given + b" END"))
                self.assertEqual(statement.value.tzinfo, expected)

    def test_times_compare_by_their_offset(self):
        for times in [
            [b"10:00", b"10:00Z", b"10:00+0"],
            [b"1990-07T10:00", b"1990-07T10:00Z", b"1990-07T10:00+0"],
            [b"1:2:3.0000001", b"1:2:3.0000001Z", b"1:2:3.0000001+0"],
        ]:
            none, utc, signed = (value(time) for time in times)
            self.assertEqual((none, utc), (utc, signed))
            self.assertEqual(len({none, utc, signed}), 1)
            self.assertNotEqual(none, value(times[0] + b"+1"))
        self.assertLess(value(b"10:00+1"), value(b"10:00"))
        self.assertNotEqual(value(b"1:2:3.0000001"), value(b"1:2:3.0000002"))
        self.assertNotEqual(value(b"1:2:3.0000001"), value(b"1990-07T1:2:3.0000001"))
        self.assertNotEqual(value(b"1:2:3.0000001"), "1:2:3.0000001")

    def test_arithmetic(self):
        none, east = value(b"1990-07T10:00"), value(b"1990-07T10:00+7:30")
        self.assertEqual(none - east, datetime.timedelta(hours=7, minutes=30))
        later = none + datetime.timedelta(days=1)
        self.assertEqual(later.tzinfo, Zone(Mark.NO_ZONE))
        self.assertEqual(none.isoformat(), "1990-01-07T10:00:00+00:00")
        self.assertEqual(value(b"10:00-0:30").isoformat(), "10:00:00-00:30")
        moved = none.astimezone(east.tzinfo)
        self.assertEqual((moved.hour, moved.minute, moved.tzinfo), (17, 30, zone(450)))
        self.assertEqual(moved, none)
        self.assertEqual(east.astimezone(UTC).isoformat(), "1990-01-07T02:30:00+00:00")
        self.assertEqual(none.timestamp(), 631706400)
        self.assertIsNone(none.dst())

    def test_zones_compare_by_mark_and_offset(self):
        none, utc = Zone(Mark.NO_ZONE), Zone(Mark.Z)
        self.assertEqual(len({none, utc, zone(0), zone(30), zone(-30)}), 5)
        self.assertEqual(none, Zone(Mark.NO_ZONE))
        self.assertEqual(hash(zone(30)), hash(zone(30)))
        self.assertNotEqual(utc, UTC)
        self.assertIn("NO_ZONE", repr(value(b"10:00")))

    def test_zones_are_kept_when_copied(self):
        for given in [b"10:00", b"1990-07T10:00Z", b"10:00+0", b"10:00-0:30"]:
            read = value(given)
            protocols = range(pickle.HIGHEST_PROTOCOL + 1)
            pickled = (pickle.loads(pickle.dumps(read, number)) for number in protocols)
            for copied in [copy.copy(read), copy.deepcopy(read), *pickled]:
                self.assertEqual((copied, copied.tzinfo), (read, read.tzinfo))
        moment = value(b"1:2:3.0000001+0")
        self.assertEqual(pickle.loads(pickle.dumps(moment)).zone, zone(0))

    def test_zones_cannot_be_changed_or_made_wrong(self):
        with self.assertRaises(AttributeError):
            value(b"10:00").tzinfo.mark = Mark.Z
        for mark, minutes in [(Mark.NO_ZONE, 1), (Mark.Z, -30), (3, 0), (Mark.SIGNED_ZONE, -780)]:
            with self.assertRaises(ValueError):
                Zone(mark, datetime.timedelta(minutes=minutes))
        self.assertIs(Zone(2, datetime.timedelta(minutes=779)).mark, Mark.SIGNED_ZONE)


class Refusing(unittest.TestCase):
    def refused(self, label, code, place, call=odl.read):
        with self.assertRaises(odl.OdlError) as caught:
            call(label)
        self.assertEqual((caught.exception.code, caught.exception.place), (code, place))
        return caught.exception

    def test_checked_examples(self):
        for label, code, place in [
            (b"", 10, 0),
            (b"A=1990-366 END", 5, 2),
            (b"A='' END", 4, 2),
            (b"A=() END", 6, 3),
            (b"A=((1)(2)) END", 6, 6),
            (b"OBJECT=X END_OBJECT=Y END", 7, 20),
            (b"END;", 9, 0),
            (b"A=1 /*/ END", 3, 4),
            (b"A=9223372036854775808 END", 5, 2),
            (b"OBJECT=X " * 81 + b"END", 8, 9 * 80),
            (b"\x00", 2, 0),
            (b"END".ljust(65536), 1, 65535),
        ]:
            self.refused(label, code, place)
            self.refused(label, code, place, odl.relabel)

    def test_reason(self):
        error = self.refused(b"END;", 9, 0)
        self.assertEqual(error.reason, "END without spacing or a line end after it")
        self.assertEqual(str(error), "code 9 at 0: END without spacing or a line end after it")
        self.assertIsNone(error.label)
        self.assertIsInstance(error, ValueError)

    def test_table_too_long_for_relabel(self):
        label = b"A=(" + b"1," * 10000 + b"1)END"
        self.assertEqual(len(odl.read(label)[0].value), 10001)
        self.refused(label, 11, len(label), odl.relabel)

    def test_written_too_long(self):
        self.refused(b"A={} " * 9360 + b"END", 13, 65535, odl.relabel)


class Relabelling(unittest.TestCase):
    def test_example(self):
        self.assertEqual(odl.relabel(CAMERA), CANONICAL)
        self.assertEqual(odl.relabel(CANONICAL), CANONICAL)

    def test_rows(self):
        written = b"A = ((1, 2), (3, 4))\r\nEND\r\n"
        self.assertEqual(odl.relabel(b"A=((1,2),(3,4)) END"), written)
        self.assertEqual(odl.relabel(written), written)

    def test_reals(self):
        for real, form in [
            (b"1.50", b"1.5"),
            (b"15E-3", b"0.015"),
            (b"-.5", b"-0.5"),
            (b"-15.", b"-15.0"),
            (b"-0E5", b"0.0"),
            (b"1E-18", b"0.000000000000000001"),
            (b"-123456789012345678E-17", b"-1.23456789012345678"),
            (b"1E-19", b"1.E-19"),
            (b"15E-30", b"15.E-30"),
            (b"1E17", b"100000000000000000.0"),
            (b"12E16", b"120000000000000000.0"),
            (b"12E17", b"12.E17"),
            (b"1E18", b"1.E18"),
            (b"-9999999999999999990.", b"-999999999999999999.E1"),
        ]:
            with self.subTest(real):
                written = b"A = " + form + b" <SEC>\r\nEND\r\n"
                self.assertEqual(odl.relabel(b"A=" + real + b"<sec> END"), written)
                self.assertEqual(odl.relabel(written), written)
                # The written form is exact too.
                self.assertEqual(value(form), Decimal(real.decode()))

    def test_reading_back_gives_the_same(self):
        with open(os.path.join(ROOT, "examples", "camera.lbl"), "rb") as stream:
            label = stream.read()
        written = odl.relabel(label)
        self.assertEqual(odl.read(written), odl.read(label))
        self.assertEqual(odl.relabel(written), written)


class Comparing(unittest.TestCase):
    def answers(self, pairs, expected):
        for one, other in pairs:
            with self.subTest(one=one, other=other):
                self.assertIs(odl.same(one, other), expected)
                self.assertIs(odl.same(other, one), expected)

    def values(self, pairs, expected):
        labels = [(b"A=" + one + b" END", b"A=" + other + b" END") for one, other in pairs]
        self.answers(labels, expected)

    def refused(self, one, other, label, code, place):
        with self.assertRaises(odl.OdlError) as caught:
            odl.same(one, other)
        error = caught.exception
        self.assertEqual((error.label, error.code, error.place), (label, code, place))
        return error

    def test_layout_has_no_meaning(self):
        plain = b'OBJECT=CAM A=(1,2) F={} N="a  b" END_OBJECT=CAM END'
        relaid = (
            b"/* a remark */ END\r\nOBJECT\t= CAM\r\n\n  A = ( 1 ,\x0c 2 /* of 2 */\n )\r\n"
            b'  F = { /* none */ }\x0b }\r\n  N\n=\n"a  b"\r\nEND_OBJECT = CAM\r\n'
            b'END\r\nand frames \xff"'
        )
        self.answers([(plain, relaid), (CAMERA, CANONICAL), (b"END", b" END &")], True)
        self.values([(b"((1),(2))", b"( (1) /* a row */\n, (2) )")], True)

    def test_case_and_closing_names_have_no_meaning(self):
        folded = b"GROUP=RIG A=IO B='NEAR-IR' C=1<KM> END_GROUP=RIG END"
        mixed = b"group=Rig a='io' b='near-IR' c=1<km> End_Group end"
        self.answers([(folded, mixed)], True)

    def test_spelling_has_no_meaning(self):
        pairs = [
            (b"16#-4B#", b"-75"),
            (b"+0099", b"99"),
            (b"1.50", b"15.E-1"),
            (b"0E5000", b"-0.0"),
            (b"1E-18", b"0.000000000000000001"),
            (b"1E18", b"1000000000000000000.0"),
            (b"1990-158", b"1990-06-07"),
            (b"10:00", b"10:00:00.000Z"),
            (b"10:00", b"10:00+00:00"),
            (b"10:00z", b"10:00-0"),
            (b"-2 <DEG/SEC**1>", b"-2<deg/sec>"),
            (b'"Jupi-\n  ter\r\n\tring"', b'"Jupiter ring"'),
            (b'"near\ninfrared"', b'"near infrared"'),
        ]
        self.values(pairs, True)

    def test_other_values_have_another_meaning(self):
        pairs = [
            (b"1", b"2"),
            (b"1", b"1."),
            (b"1.5", b"-1.5"),
            (b"1E17", b"1E18"),
            (b"1 <M>", b"1 <S>"),
            (b"{1, 2}", b"{2, 1}"),
            (b"{1}", b"(1)"),
            (b"((1, 2))", b"((1), (2))"),
            (b"'A'", b'"A"'),
            (b'"io"', b'"IO"'),
            (b'"Jupi-\nter"', b'"Jupi- \nter"'),
            (b'"near-\ninfrared"', b'"near-infrared"'),
            (b'"near\ninfrared"', b'"near  infrared"'),
            (b"1 <M/S>", b"1 <M*S**-1>"),
            (b"1990-07", b"1990-07-01"),
            (b"10:00+01", b"09:00Z"),
        ]
        self.values(pairs, False)

    def test_other_statements_have_another_meaning(self):
        pairs = [
            (b"A=1 END", b"B=1 END"),
            (b"A=1 END", b"^A=1 END"),
            (b"A=1 B=1 END", b"B=1 A=1 END"),
            (b"OBJECT=X END_OBJECT END", b"GROUP=X END_GROUP END"),
            (b"END", b"A=1 END"),
        ]
        self.answers(pairs, False)

    def test_a_refused_label_is_named(self):
        for label, code, place in [
            (b"END".ljust(65536), 1, 65535),
            (b"A=& END", 2, 2),
            (b"A=1 /*/ END", 3, 4),
            (b"A='' END", 4, 2),
            (b"A=1990-366 END", 5, 2),
            (b"A=() END", 6, 3),
            (b"OBJECT=X END_OBJECT=Y END", 7, 20),
            (b"OBJECT=X " * 81 + b"END", 8, 9 * 80),
            (b"END;", 9, 0),
            (b"", 10, 0),
        ]:
            with self.subTest(code=code):
                self.refused(label, b"END", "first", code, place)
                self.refused(b"END", label, "second", code, place)
                # The same bytes twice are refused too.
                self.refused(label, label, "first", code, place)

    def test_the_first_is_judged_whole_before_the_second(self):
        long = b'A="' + b"x" * 65523 + b'" END'
        self.refused(b"END;", b"A=() END", "first", 9, 0)
        self.refused(b"A=() END", b"END;", "first", 6, 3)
        self.refused(long, b"END;", "first", 13, 65535)

    def test_canonical_label_over_the_limit(self):
        # `A = "xx..x"`, `END` and their line ends: 13 bytes more than the text.
        longest, over = (b'A="' + b"x" * length + b'" END' for length in (65522, 65523))
        self.answers([(longest, longest)], True)
        self.answers([(longest, b"END")], False)
        self.refused(over, b"END", "first", 13, 65535)
        self.refused(b"END", over, "second", 13, 65535)
        self.refused(over, over, "first", 13, 65535)

    def test_a_long_table_is_no_hindrance(self):
        # 7 + 9 * 7,281 + 3 = 65,539 bytes of table.
        label = b"A=(" + b"1," * 7280 + b"1) END"
        with self.assertRaises(odl.OdlError) as caught:
            odl.relabel(label)
        self.assertEqual((caught.exception.code, caught.exception.label), (11, None))
        self.answers([(label, label.replace(b",", b", "))], True)
        self.answers([(label, label.replace(b"1)", b"2)"))], False)

    def test_messages(self):
        reason = "END without spacing or a line end after it"
        first = self.refused(b"END;", b"END", "first", 9, 0)
        self.assertEqual(str(first), f"code 9 at 0 of the first label: {reason}")
        second = self.refused(b"END", b"END;", "second", 9, 0)
        self.assertEqual(str(second), f"code 9 at 0 of the second label: {reason}")

    def test_other_buffers(self):
        self.answers([(bytearray(b"A=1 END"), memoryview(b"a=1 end"))], True)
        for one, other in [("END", b"END"), (b"END", "END")]:
            with self.assertRaises(TypeError):
                odl.same(one, other)


class Books(unittest.TestCase):
    def refused(self, book, label, code, place):
        """The label is refused, and the book unchanged."""
        before = book.counts
        with self.assertRaises(odl.OdlError) as caught:
            book.take(label)
        self.assertEqual((caught.exception.code, caught.exception.place), (code, place))
        self.assertEqual(book.counts, before)
        return caught.exception

    def test_counters(self):
        for label, expected in [
            (b"START_TIME=1979-07-08 END", "Sunday"),
            (b"START_TIME=1979-07-09 END", "Monday"),
            (b"START_TIME=1979-07-10 END", "Tuesday"),
            (b"START_TIME=1979-07-11 END", "Wednesday"),
            (b"START_TIME=1979-07-12 END", "Thursday"),
            (b"START_TIME=1979-07-13 END", "Friday"),
            (b"START_TIME=1979-07-14 END", "Saturday"),
            (b"START_TIME=1979-07-08T05:19:11 END", "Sunday"),
            (b"start_time=1979-07-08T23:30-12:59 END", "Sunday"),
            (b"START_TIME=1979-07-08T00:10+12:59 END", "Sunday"),
            (b"START_TIME=1990-07 END", "Sunday"),
            (b"START_TIME=1990-158T1:2:3.123456789 END", "Thursday"),
            (b"START_TIME=2000-366 START_TIME=10:00 END", "Sunday"),
            (b"START_TIME=10:00 START_TIME=2000-366 END", "undated"),
            (b"START_TIME=(1990-07) END", "undated"),
            (b"START_TIME={1990-07} END", "undated"),
            (b'START_TIME="1990-07" END', "undated"),
            (b"^START_TIME=1990-07 END", "undated"),
            (b"OBJECT=X START_TIME=1990-07 END_OBJECT END", "undated"),
            (b"END", "undated"),
        ]:
            with self.subTest(label):
                book = odl.Book()
                self.assertEqual(book.take(label), expected)
                self.assertEqual(book, odl.Book({expected: 1}))

    def test_calendar(self):
        # The first day of each month and the day before it, over 400 years, after
        # which weekdays come back: 146,097 days are 20,871 weeks.
        book = odl.Book()
        for year in range(1800, 2200):
            for month in range(1, 13):
                first = datetime.date(year, month, 1)
                for day in (first, first - datetime.timedelta(days=1)):
                    name = book.take(b"START_TIME=" + day.isoformat().encode() + b" END")
                    self.assertEqual(name, odl.COUNTERS[day.weekday()], day)
        self.assertEqual(sum(book.counts.values()), 400 * 12 * 2)

    def test_counts(self):
        book = odl.Book()
        self.assertEqual(list(book.counts), list(odl.COUNTERS))
        self.assertEqual(set(book.counts.values()), {0})
        for label in [b"START_TIME=1979-07-08 END", b"END", b"END"]:
            book.take(label)
        expected = {**dict.fromkeys(odl.COUNTERS, 0), "Sunday": 1, "undated": 2}
        self.assertEqual(book.counts, expected)
        book.counts["Sunday"] = 7
        self.assertEqual(book.counts, expected)
        self.assertEqual(repr(book), f"Book({expected})")

    def test_counts_that_were_kept(self):
        kept = {name: number for number, name in enumerate(odl.COUNTERS, 1)}
        book = odl.Book(kept)
        self.assertEqual(book.counts, kept)
        self.assertEqual(odl.Book(dict(reversed(kept.items()))), book)
        book.take(b"START_TIME=1979-07-09 END")
        self.assertEqual(book.counts, {**kept, "Monday": 2})
        self.assertEqual(kept["Monday"], 1)
        for copied in [copy.copy(book), copy.deepcopy(book), pickle.loads(pickle.dumps(book))]:
            self.assertEqual(copied, book)
            copied.take(b"END")
            self.assertNotEqual(copied, book)
        self.assertNotEqual(book, book.counts)

    def test_counts_that_no_book_has(self):
        for counts in [{"sunday": 1}, {8: 1}, {"Sunday": -1}, {"Sunday": 2**32}]:
            with self.assertRaises(ValueError):
                odl.Book(counts)
        for counts in [{"Sunday": 1.5}, {"Sunday": "1"}, {"Sunday": None}, [1] * 8, [], "", 0]:
            with self.assertRaises(TypeError):
                odl.Book(counts)

    def test_refused_labels(self):
        for book in [odl.Book(), odl.Book({"Friday": 3}), odl.Book({"Friday": 1000000})]:
            self.refused(book, b"", 10, 0)
            self.refused(book, b"START_TIME=1979-366 END", 5, 11)
            self.refused(book, b"START_TIME=1979-07-08 END;", 9, 22)
            self.refused(book, b"END".ljust(65536), 1, 65535)

    def test_a_full_book(self):
        for counts in [
            {"Monday": 1000000},
            {"undated": 1000001},
            dict.fromkeys(odl.COUNTERS, 125000),
            {"Monday": 2**32 - 1, "Tuesday": 1},
            dict.fromkeys(odl.COUNTERS, 2**32 - 1),
        ]:
            error = self.refused(odl.Book(counts), b"START_TIME=1979-07-08 END", 16, 0)
            self.assertEqual(error.reason, "the book is full")
            self.assertEqual(str(error), "code 16 at 0: the book is full")
        book = odl.Book({"Monday": 999999})
        self.assertEqual(book.take(b"END"), "undated")
        self.refused(book, b"END", 16, 0)

    def test_a_long_table_is_taken_once(self):
        label = b"A=(" + b"1," * 20000 + b"1) START_TIME=1979-07-08 END"
        book = odl.Book()
        self.assertEqual(book.take(label), "Sunday")
        self.assertEqual(book, odl.Book({"Sunday": 1}))
        self.refused(odl.Book({"Sunday": 1000000}), label, 16, 0)

    def test_other_buffers(self):
        book = odl.Book()
        self.assertEqual(book.take(bytearray(b"END")), "undated")
        self.assertEqual(book.take(memoryview(b"END")), "undated")
        for wrong in ["END", 7, None]:
            with self.assertRaises(TypeError):
                book.take(wrong)
        self.assertEqual(book, odl.Book({"undated": 2}))

    def test_threads(self):
        def work(label, name):
            for _ in range(200):
                if book.take(label) != name:
                    wrong.append(name)

        book, wrong = odl.Book(), []
        sessions = [(b"END", "undated"), (b"START_TIME=1979-07-08 END", "Sunday")] * 2
        threads = [threading.Thread(target=work, args=session) for session in sessions]
        for thread in threads:
            thread.start()
        for thread in threads:
            thread.join()
        self.assertEqual((book, wrong), (odl.Book({"undated": 400, "Sunday": 400}), []))


class Listed(unittest.TestCase):
    def test_answers(self):
        count = 0
        for name, label, (answer, _) in listed("vectors.txt"):
            code, place, _ = map(int, answer.split())
            with self.subTest(name):
                count += 1
                try:
                    odl.read(label)
                    self.assertEqual(code, 0)
                    self.assertEqual(odl.read(odl.relabel(label)), odl.read(label))
                except odl.OdlError as error:
                    self.assertEqual((error.code, error.place), (code, place))
        self.assertGreater(count, 200)

    def test_sessions(self):
        count = 0
        for name, label, (room, before, answer, counter, _) in listed("sessions.txt"):
            if room != "ample":
                continue  # A taking has all the room that it needs.
            code, place, _ = map(int, answer.split())
            counts = [0] * 8 if before == "empty" else map(int, before.split())
            counts = dict(zip(odl.COUNTERS, counts))
            book = odl.Book(counts)
            with self.subTest(name):
                count += 1
                try:
                    self.assertEqual(book.take(label), counter)
                    self.assertEqual(code, 0)
                    counts[counter] += 1
                except odl.OdlError as error:
                    self.assertEqual((error.code, error.place), (code, place))
                self.assertEqual(book.counts, counts)
        self.assertGreater(count, 100)


def run(program, labels):
    """The program's status, its files and its lines; there is no file for None."""
    with tempfile.TemporaryDirectory() as directory:
        files = []
        for label in labels:
            files.append(os.path.join(directory, f"{len(files)}.lbl"))
            if label is not None:
                with open(files[-1], "wb") as stream:
                    stream.write(label)
        printed = io.StringIO()
        with contextlib.redirect_stdout(printed):
            status = program.main(files)
    return status, files, printed.getvalue().splitlines()


class Weekdays(unittest.TestCase):
    def test_program(self):
        labels = [b"START_TIME=1979-07-08 END", b"END", b"END;", None]
        status, files, lines = run(weekdays, labels)
        self.assertEqual(status, 1)
        self.assertEqual([line.split()[-1] for line in lines[:8]], list("00000011"))
        self.assertEqual(
            lines[8], f"refused {files[2]}: code 9 at 0: END without spacing or a line end after it"
        )
        self.assertTrue(lines[9].startswith(f"refused {files[3]}: "))
        self.assertEqual(len(lines), 10)

    def test_a_full_book_is_a_refusal_as_any_other(self):
        book = odl.Book({"Monday": 999999})
        with unittest.mock.patch.object(odl, "Book", return_value=book):
            status, files, lines = run(weekdays, [b"END", b"END", b"END;"])
        self.assertEqual(status, 1)
        self.assertEqual(lines[0].split(), ["Monday", "999999"])
        self.assertEqual(lines[7].split(), ["undated", "1"])
        self.assertEqual(lines[8], f"refused {files[1]}: code 16 at 0: the book is full")
        self.assertTrue(lines[9].startswith(f"refused {files[2]}: code 9 at 0: "))


class ZonesOfSessions(unittest.TestCase):
    def test_zones(self):
        for label, expected in [
            (b"START_TIME=1979-07-08T05:19:11 END", "no zone"),
            (b"start_time=1979-07-08T05:19:11z END", "Z"),
            (b"START_TIME=1979-07-08T05:19:11+7 END", "+07:00"),
            (b"START_TIME=1979-07-08T05:19:11-0 END", "+00:00"),
            (b"START_TIME=1990-158T1:2:3.123456789 END", "no zone"),
            (b"START_TIME=1990-158T1:2:3.123456789-0:30 END", "-00:30"),
            (b"START_TIME=10:00 START_TIME=10:00Z END", "no zone"),
            (b"START_TIME=1990-07 START_TIME=10:00Z END", "no time"),
            (b"START_TIME=(10:00) END", "no time"),
            (b'START_TIME="10:00" END', "no time"),
            (b"^START_TIME=10:00 END", "no time"),
            (b"OBJECT=X START_TIME=10:00 END_OBJECT END", "no time"),
            (b"END", "no time"),
        ]:
            self.assertEqual(zones.zone(label), expected)

    def test_program(self):
        labels = [b"START_TIME=10:00 END", b"END;", b"START_TIME=10:00-7 END", None]
        status, files, lines = run(zones, labels)
        self.assertEqual(status, 1)
        self.assertEqual(lines[:2], [f"{files[0]}: no zone", f"{files[2]}: -07:00"])
        self.assertEqual(
            lines[2], f"refused {files[1]}: code 9 at 0: END without spacing or a line end after it"
        )
        self.assertTrue(lines[3].startswith(f"refused {files[3]}: "))
        self.assertEqual(len(lines), 4)

    def test_status_when_none_is_refused(self):
        for program in [weekdays, zones]:
            self.assertEqual(run(program, [b"START_TIME=1990-07T10:00 END"])[0], 0)


if __name__ == "__main__":
    unittest.main()
