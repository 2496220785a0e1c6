#!/usr/bin/env python3
"""Times the library's reader against GDAL's parser of PDS labels.

    bindings/python/build && python3 bench/gdal.py

Needs libgdal (Debian: gdal-bin or python3-gdal). Both are called in the same
way, on the same labels in memory, and take turns. GDAL's parser gathers a list
of names and values; the library's reader fills a table.

The parser is no public call of GDAL. Where libgdal exports it all the same, as
Debian's does, it is timed by itself, given its label as a file in memory.
Otherwise only the opening of the whole file can be timed, and this program
says so.
"""

import ctypes
import ctypes.util
import os
import sys
import time

ROOT = os.path.join(os.path.dirname(os.path.abspath(__file__)), "..")
sys.path.insert(0, os.path.join(ROOT, "bindings", "python"))

SIZES = [1024, 4096, 16384, 65000]
TURNS = 60
TURN = 0.001  # seconds

# What GDAL's PDS driver asks of a label, so that the file can be opened too.
HEAD = [
    ("PDS_VERSION_ID", "PDS3"),
    ("RECORD_TYPE", "FIXED_LENGTH"),
    ("RECORD_BYTES", "512"),
    ("^IMAGE", '"FRAME.IMG"'),
]
IMAGE = [("LINES", "8"), ("LINE_SAMPLES", "8"), ("SAMPLE_TYPE", "UNSIGNED_INTEGER"), ("SAMPLE_BITS", "8")]
STATEMENTS = [
    ("SPACECRAFT_NAME", "VOYAGER_2"),
    ("TARGET_NAME", "IO"),
    ("START_TIME", "1979-07-08T05:19:11.25Z"),
    ("EXPOSURE_DURATION", "1.9200 <SECONDS>"),
    ("NOTE", '"Routine multispectral longitude coverage, 1 of 7 frames"'),
    ("FILTERS", "(CLEAR, VIOLET, BLUE, GREEN, ORANGE)"),
    ("LINES_OF_SIGHT", "-600"),
]


def dense(name, value):
    return f"{name}={value}\r\n"


def padded(name, value):
    return f"{f'  {name:<28}= {value}':<78}\r\n"


def label(size, line):
    head = "".join(line(*statement) for statement in HEAD)
    tail = "".join(
        [dense("OBJECT", "IMAGE")]
        + [line(*statement) for statement in IMAGE]
        + [dense("END_OBJECT", "IMAGE"), "END\r\n"]
    )
    body = ""
    number = 0
    while True:
        name, value = STATEMENTS[number % len(STATEMENTS)]
        # Names of their own, since GDAL keeps one value for each name.
        following = line(f"{name}_{number}", value)
        if len(head) + len(body) + len(following) + len(tail) > size:
            return (head + body + tail).encode("ascii")
        body += following
        number += 1


def load_gdal():
    name = ctypes.util.find_library("gdal")
    if name is None:
        sys.exit("skipped: libgdal is not installed")
    gdal = ctypes.CDLL(name)
    gdal.GDALVersionInfo.restype = ctypes.c_char_p
    gdal.GDALVersionInfo.argtypes = [ctypes.c_char_p]
    gdal.VSIFileFromMemBuffer.restype = ctypes.c_void_p
    gdal.VSIFileFromMemBuffer.argtypes = [
        ctypes.c_char_p,
        ctypes.c_char_p,
        ctypes.c_uint64,
        ctypes.c_int,
    ]
    gdal.VSIFOpenL.restype = ctypes.c_void_p
    gdal.VSIFOpenL.argtypes = [ctypes.c_char_p, ctypes.c_char_p]
    gdal.VSIFCloseL.argtypes = [ctypes.c_void_p]
    gdal.GDALOpenEx.restype = ctypes.c_void_p
    gdal.GDALOpenEx.argtypes = [
        ctypes.c_char_p,
        ctypes.c_uint,
        ctypes.POINTER(ctypes.c_char_p),
        ctypes.c_void_p,
        ctypes.c_void_p,
    ]
    gdal.GDALClose.argtypes = [ctypes.c_void_p]
    gdal.GDALAllRegister()
    return gdal


def parser(gdal):
    """A call that parses an open file by GDAL's label parser, if it is there."""
    try:
        begin = gdal["_ZN18NASAKeywordHandlerC1Ev"]
        ingest = gdal["_ZN18NASAKeywordHandler6IngestEP8_IO_FILEi"]
        end = gdal["_ZN18NASAKeywordHandlerD1Ev"]
    except AttributeError:
        return None
    begin.argtypes = end.argtypes = [ctypes.c_void_p]
    ingest.argtypes = [ctypes.c_void_p, ctypes.c_void_p, ctypes.c_int]
    # Far more than the parser's own fields take.
    handler = ctypes.create_string_buffer(65536)

    def parse(file):
        begin(handler)
        done = ingest(handler, file, 0) & 0xFF
        end(handler)
        return done

    return parse


def best_times(calls):
    """The best time of each call, in nanoseconds; they take turns."""
    counts = []
    for call in calls:
        start, count = time.perf_counter(), 0
        while time.perf_counter() - start < TURN:
            call()
            count += 1
        counts.append(count)
    best = [float("inf")] * len(calls)
    for _ in range(TURNS):
        for which, call in enumerate(calls):
            start = time.perf_counter_ns()
            for _ in range(counts[which]):
                call()
            best[which] = min(best[which], (time.perf_counter_ns() - start) / counts[which])
    return best


def main():
    gdal = load_gdal()
    import odl

    parse = parser(gdal)
    print(gdal.GDALVersionInfo(b"--version").decode())
    if parse is None:
        print("This libgdal does not export its label parser: only the whole opening is timed.")
    print("Times are nanoseconds per byte; speed is the library's, as a multiple of GDAL's.")
    print()
    print("| label | bytes | library | GDAL's parser | speed | GDAL's opening | speed |")
    print("|---|---|---|---|---|---|---|")
    image = b"\x01" * 512
    gdal.VSIFileFromMemBuffer(b"/vsimem/FRAME.IMG", image, len(image), 0)
    only_pds = (ctypes.c_char_p * 2)(b"PDS", None)
    for line in (dense, padded):
        for size in SIZES:
            data = label(size, line)
            name = b"/vsimem/frame.lbl"
            gdal.VSIFCloseL(gdal.VSIFileFromMemBuffer(name, data, len(data), 0))
            file = gdal.VSIFOpenL(name, b"rb")
            room = ctypes.create_string_buffer(5 * len(data))
            place, length = ctypes.c_size_t(), ctypes.c_size_t()

            def read():
                return odl._library.odl_read(data, len(data), room, len(room), place, length)

            def open_whole():
                dataset = gdal.GDALOpenEx(name, 0, only_pds, None, None)
                if not dataset:
                    return False
                gdal.GDALClose(dataset)
                return True

            calls = [read, open_whole] + ([lambda: parse(file)] if parse else [])
            if read() != 0 or not all(call() for call in calls[1:]):
                sys.exit("a label of the bench is refused")
            times = [one / len(data) for one in best_times(calls)]
            shown = [f"{times[2]:.2f}", f"{times[2] / times[0]:.1f}"] if parse else ["-", "-"]
            print(
                f"| {line.__name__} | {len(data)} | {times[0]:.2f} | {shown[0]} | {shown[1]} "
                f"| {times[1]:.2f} | {times[1] / times[0]:.1f} |"
            )
            gdal.VSIFCloseL(file)


if __name__ == "__main__":
    main()
