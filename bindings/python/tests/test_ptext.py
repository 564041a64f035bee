"""Tests of the module. Run them in python/ with `python3 -m unittest discover tests`."""
import array
import asyncio
import codecs
import concurrent.futures
import contextlib
import copy
import csv
import gzip
import io
import itertools
import mmap
import os
import pathlib
import pickle
import shutil
import signal
import subprocess
import sys
import tempfile
import threading
import time
import unittest

import ptext

# Runs out of memory: the output is far longer than the inputs. It prints whether `out` of the exception is a beginning.
NO_MEMORY = """
import resource
import sys
import ptext
resource.setrlimit(resource.RLIMIT_AS, (400 << 20,) * 2)
lines = b"k 0123456789\\n" * int(sys.argv[1])
try:
    ptext.join("a", "b", files={"a": lines, "b": lines})
except MemoryError as error:
    line = b"k 0123456789 0123456789\\n"
    print(error, len(error.out) > 24, error.out == (line * (len(error.out) // 24 + 1))[: len(error.out)])
"""

# Has memory for its input, and not for the line that the library keeps.
LONG_LINE = """
import resource
import ptext
resource.setrlimit(resource.RLIMIT_AS, (400 << 20,) * 2)
try:
    ptext.uniq(stdin=bytes(250 << 20))
except MemoryError as error:
    print(error, len(error.out))
"""


def fails(number):
    return ptext.cut("-q", str(number))


class Tools(unittest.TestCase):
    def test_each_tool(self):
        self.assertEqual(ptext.cut("-d", ":", "-f", "1", stdin="root:x\nbin:y\n"), b"root\nbin\n")
        self.assertEqual(ptext.paste("-", "b", stdin=b"1\n2\n", files={"b": b"x\ny\n"}), b"1\tx\n2\ty\n")
        self.assertEqual(ptext.join("-", "b", stdin=b"1 ann\n", files={"b": "1 tea\n"}), b"1 ann tea\n")
        self.assertEqual(ptext.comm("-12", "a", "b", files={"a": b"1\n2\n", "b": b"2\n3\n"}), b"2\n")
        self.assertEqual(ptext.uniq("-c", stdin=b"a\na\nb\n"), b"2 a\n1 b\n")
        self.assertEqual(ptext.tr("a-z", "A-Z", stdin="to be\n"), b"TO BE\n")

    def test_inputs(self):
        self.assertEqual(ptext.cut("-b", "1", stdin=io.BytesIO(b"ab\n")), b"a\n")
        self.assertEqual(ptext.cut("-b", "1", stdin=memoryview(b"ab\n")), b"a\n")
        self.assertEqual(ptext.cut("-b", "1", "f", "g", files={"g": b"c\n", "f": b"ab\n"}), b"a\nc\n")
        self.assertEqual(ptext.cut("-b", "1"), b"")

    def test_names_that_are_paths(self):
        with tempfile.TemporaryDirectory() as room:
            path = pathlib.Path(room, "f")
            path.write_bytes(b"ab\n")
            self.assertEqual(ptext.cut("-b", "1", path, files={path: path}), b"a\n")
            self.assertEqual(ptext.cut("-b", "1", str(path), "g", files={path: b"cd\n", "g": path}), b"c\na\n")
            self.assertEqual(list(ptext.stream(["cut", "-b", "1", path], files={path: path})), [b"a\n"])
        self.assertRaises(TypeError, ptext.cut, "-b", "1", "5", files={5: b"", path: b""})

    def test_more_bytes_than_are_run_at_once(self):
        lines = b"".join(b"%d some words\n" % (number // 2) for number in range(100_000))
        self.assertEqual(ptext.uniq(stdin=lines), b"".join(lines.splitlines(True)[::2]))
        once = iter([lines, b"end"])
        files = {"a": once, "b": once, "c": b"x\n"}
        wanted = b"".join(b"%b\t%b\n" % (line, line) for line in (lines + b"end").splitlines())
        self.assertEqual(ptext.paste("a", "b", files=files), wanted)
        with self.assertRaises(ptext.Error) as caught:
            ptext.run(["cut", "-d", " ", "-f", "1", "-", "x"], io.BytesIO(lines))
        error, wanted = caught.exception, b"".join(b"%d\n" % (number // 2) for number in range(100_000))
        self.assertEqual((error.status, error.message), (1, "cut: x: cannot be opened"))
        self.assertEqual((error.unknown, error.out), (("x",), wanted))

    def test_open_file_that_is_named_twice(self):
        for words, wanted in [
            (["join", "a", "a"], b"k 1 1\n"),
            (["paste", "a", "b", "a"], b"k 1\tx\tk 1\n"),
            (["cut", "-b", "1", "a", "a"], b"k\nk\n"),
        ]:
            files = {"a": io.BytesIO(b"k 1\n"), "b": io.BytesIO(b"x\n")}
            self.assertEqual(ptext.run(words, files=files), wanted)

    def test_iterator_that_has_two_names(self):
        once = iter([b"k 1\n"])
        self.assertEqual(ptext.run(["join", "a", "b"], files={"a": once, "b": once}), b"k 1 1\n")
        once = io.BytesIO(b"x\n")
        self.assertEqual(ptext.run(["paste", "-", "a"], once, {"a": once}), b"x\tx\n")

    def test_file_that_is_not_named_is_not_read(self):
        other = io.BytesIO(b"x\n")
        ptext.cut("-b", "1", "a", files={"a": b"k\n", "b": other})
        self.assertEqual(other.tell(), 0)

    def test_output_is_longer_than_the_input(self):
        lines = b"a\n" * 100_000
        out = ptext.paste("-d", "\\0", "-", "-", stdin=lines)
        self.assertEqual(out, b"aa\n" * 50_000)
        out = ptext.join("a", "b", files={"a": b"k 0123456789\n" * 300, "b": b"k abcdefghij\n" * 300})
        self.assertEqual(out, b"k 0123456789 abcdefghij\n" * 90_000)

    def test_texts_are_utf_8(self):
        self.assertEqual(ptext.cut("-b", "1-", stdin="aé€\n"), "aé€\n".encode())
        self.assertEqual(ptext.cut("-b", "1-", "ä", files={"ä": "é\n"}), "é\n".encode())
        out = ptext.join("-a", "1", "-e", "é", "-o", "0,2.2", "-", "f", stdin="k\n", files={"f": ""})
        self.assertEqual(out, "k é\n".encode())

    def test_names_of_each_length_and_each_byte(self):
        names = ["x" * length for length in range(1, 70)] + [f"y{chr(code)}y" for code in range(1, 256)]
        files = {name: f"{number}\n".encode() for number, name in enumerate(names)}
        self.assertEqual(ptext.cut("-b", "1-", *names, files=files), b"".join(files.values()))
        self.assertEqual(ptext.names(["paste", *names]), (names, None))

    def test_output_with_byte_0(self):
        self.assertEqual(ptext.cut("-z", "-b", "1", stdin=b"ab\0cd\0"), b"a\0c\0")
        self.assertEqual(ptext.tr("a", r"\0", stdin=b"bab\n"), b"b\0b\n")

    def test_names(self):
        self.assertEqual(ptext.names(["join", "a b", "-"]), (["a b"], None))
        self.assertEqual(ptext.names(["uniq", "in", "out"]), (["in"], "out"))
        self.assertEqual(ptext.names(["uniq", "-q"]), ([], None))


class Failures(unittest.TestCase):
    def refused(self, words, **inputs):
        with self.assertRaises(ptext.Error) as caught:
            ptext.run(words, **inputs)
        return caught.exception

    def test_words_that_are_no_command(self):
        error = self.refused(["cut", "-q"])
        self.assertEqual((error.status, error.message), (2, "cut: unknown option in -q"))
        self.assertEqual(self.refused([]).status, 2)
        self.assertEqual(self.refused(["cut", "-f", "1", "\udcff"]).message, "ptext: a word is not UTF-8")
        self.assertRaises(ValueError, ptext.run, ["cut\0"])
        self.assertRaises(TypeError, ptext.run, "cut")

    def test_file_that_is_not_there(self):
        error = self.refused(["cut", "-b", "1", "f", "g"], files={"g": b"ab\n"})
        self.assertEqual((error.status, error.message, error.out), (1, "cut: f: cannot be opened", b"a\n"))

    def test_name_that_files_lacks_is_said(self):
        error = self.refused(["cut", "-b", "1", "/etc/passwd"])
        self.assertIn("`files` has no '/etc/passwd'", str(error))
        self.assertEqual(error.unknown, ("/etc/passwd",))
        self.assertEqual(self.refused(["paste", "x", "y", "x", "g"], files={"g": b""}).unknown, ("x", "y"))
        self.assertEqual(str(self.refused(["cut", "-q", "x"])), "cut: unknown option in -q")

    def test_inputs_that_are_none(self):
        for given, says in [(5, "int, and not bytes"), (io.StringIO("x"), "text mode"), ([1, 2], "gave int")]:
            with self.assertRaisesRegex(TypeError, says):
                ptext.cut("-b", "1", stdin=given)
            with self.assertRaisesRegex(TypeError, says):
                list(ptext.stream(["cut", "-b", "1", "f"], files={"f": given}))
        for out, says in [(io.StringIO(), "text mode"), ("f", "str, and not a file open in binary mode")]:
            with self.assertRaisesRegex(TypeError, says):
                ptext.stream(["cut", "-b", "1"], out=out)
        for call in (ptext.run, ptext.stream):
            with self.assertRaisesRegex(TypeError, "list, and not a mapping"):
                call(["cut", "-b", "1", "f"], files=["f"])
            self.assertRaisesRegex(TypeError, "words are a list", call, None)
        with codecs.open(os.devnull, "r", "utf-8") as text:
            self.assertRaisesRegex(TypeError, "text mode", ptext.stream, ["cut", "-b", "1"], text)
        with self.assertRaises(FileNotFoundError):
            ptext.stream(["cut", "-b", "1"], stdin=pathlib.Path("/none/such"))

    def test_input_that_is_not_sorted(self):
        error = self.refused(["comm", "-", "f"], stdin=b"b\na\n", files={"f": b""})
        self.assertEqual((error.status, error.out), (1, b"b\n"))
        self.assertIn("line 2 is out of order", error.message)

    def test_error_passes_from_process_to_process(self):
        error = pickle.loads(pickle.dumps(ptext.Error(1, "a message", b"output")))
        self.assertEqual((error.status, error.message, error.out, str(error)), (1, "a message", b"output", "a message"))
        with concurrent.futures.ProcessPoolExecutor(1) as pool:
            caught = pool.submit(fails, 1).exception(timeout=60)
        self.assertIsInstance(caught, ptext.Error)
        self.assertEqual((caught.status, caught.message), (2, "cut: unknown option in -q"))

    def test_no_memory(self):
        for lines in ("5000", "100000"):
            did = subprocess.run([sys.executable, "-c", NO_MEMORY, lines], capture_output=True, text=True)
            self.assertEqual(did.stdout, "ptext: out of memory True True\n", did.stderr[-500:])
        did = subprocess.run([sys.executable, "-c", LONG_LINE], capture_output=True, text=True)
        self.assertEqual(did.stdout, "ptext: out of memory 0\n", did.stderr[-500:])


class Threads(unittest.TestCase):
    def test_calls_at_the_same_time(self):
        text = b"".join(b"%d some words\n" % number for number in range(20_000))
        wanted, found = ptext.cut("-d", " ", "-f", "1", stdin=text), []
        threads = [
            threading.Thread(target=lambda: found.append(ptext.cut("-d", " ", "-f", "1", stdin=text))) for _ in range(8)
        ]
        for thread in threads:
            thread.start()
        for thread in threads:
            thread.join()
        self.assertEqual(found, [wanted] * 8)


class Streams(unittest.TestCase):
    """Inputs and outputs in pieces."""

    def joined(self, words, **inputs):
        return b"".join(ptext.stream(words, **inputs))

    def test_all_kinds_of_inputs(self):
        with tempfile.TemporaryFile() as file, tempfile.NamedTemporaryFile() as named:
            for each in (file, named):
                each.write(b"ab\ncd\n")
                each.flush()
                each.seek(0)
            with mmap.mmap(named.fileno(), 0, access=mmap.ACCESS_READ) as mapped:
                every_second = memoryview(b"a.b.\n.c.d.\n.")[::2]
                texts = [b"ab\ncd\n", bytearray(b"ab\ncd\n"), "ab\ncd\n", array.array("B", b"ab\ncd\n"), every_second]
                files = [file, io.BytesIO(b"ab\ncd\n"), pathlib.Path(named.name), mapped]
                pieces = [[b"a", b"", b"b\nc", b"d\n"], iter([b"ab\n", bytearray(b"cd\n")])]
                for given in texts + files + pieces:
                    self.assertEqual(self.joined(["cut", "-b", "2"], stdin=given), b"b\nd\n", given)
                for given in texts + [pathlib.Path(named.name), mapped, pieces[0]]:
                    self.assertEqual(self.joined(["cut", "-b", "2", "f"], files={"f": given}), b"b\nd\n", given)
                    self.assertEqual(ptext.run(["cut", "-b", "2"], stdin=given), b"b\nd\n", given)
                    self.assertEqual(self.joined(["join", "f", "f"], files={"f": given}), b"ab\ncd\n")

    def test_tools_compose(self):
        with tempfile.TemporaryFile() as out:
            fields = ptext.stream(["cut", "-d", ",", "-f", "2"], stdin=(b"x,%d\n" % (n // 2) for n in range(1000)))
            ptext.stream(["uniq", "-c"], stdin=fields, out=out)
            out.seek(0)
            self.assertEqual(out.read(), b"".join(b"2 %d\n" % n for n in range(500)))

    def test_inputs_are_read_as_they_are_needed(self):
        taken = []
        pieces = (taken.append(n) or b"some text\n" * 1000 for n in itertools.count())
        with ptext.stream(["tr", "a-z", "A-Z"], stdin=pieces) as output:
            self.assertEqual(next(output)[:10], b"SOME TEXT\n")
            self.assertLess(len(taken), 20)
        self.assertEqual(list(output), [])
        self.assertLess(len(taken), 20)

    def test_a_line_is_there_before_the_next_one_is_read(self):
        begin, end = os.pipe()
        with os.fdopen(begin, "rb") as file, ptext.stream(["cut", "-b", "1"], stdin=file) as output:
            for letter in b"ab":
                os.write(end, b"%cx\n" % letter)
                self.assertEqual(next(output), b"%c\n" % letter)
            os.close(end)
            self.assertEqual(list(output), [])

    def test_an_error_comes_after_the_output(self):
        output = ptext.stream(["cut", "-b", "1", "f", "g"], files={"g": b"ab\n"})
        self.assertEqual(next(output), b"a\n")
        with self.assertRaises(ptext.Error) as caught:
            next(output)
        self.assertEqual((caught.exception.status, caught.exception.message), (1, "cut: f: cannot be opened"))
        self.assertEqual(list(output), [])

    def test_what_an_input_raises_comes_through(self):
        def broken():
            yield b"ab\n"
            raise RuntimeError("broken")

        output = ptext.stream(["cut", "-b", "1"], stdin=broken())
        self.assertEqual(next(output), b"a\n")
        self.assertRaisesRegex(RuntimeError, "broken", next, output)
        self.assertEqual(list(output), [])
        with self.assertRaises(OSError), open("/dev/full", "wb", buffering=0) as full:
            ptext.stream(["cut", "-b", "1"], stdin=b"ab\n", out=full)

    def test_a_file_without_bytes_yet_has_not_ended(self):
        begin, end = os.pipe()
        os.set_blocking(begin, False)
        for buffering in (0, -1):
            with open(begin, "rb", buffering, closefd=False) as file:
                os.write(end, b"ab\n")
                with ptext.stream(["cut", "-b", "1"], stdin=file) as output:
                    self.assertEqual(next(output), b"a\n")
                    self.assertRaisesRegex(BlockingIOError, "stdin has no bytes yet", next, output)
                self.assertRaisesRegex(BlockingIOError, "stdin has no bytes yet", ptext.cut, "-b1", stdin=file)
        os.close(begin)
        os.close(end)

    def test_a_file_that_says_that_it_gave_more_than_there_was_room_for(self):
        class Wrong(io.RawIOBase):
            def readinto(self, room):
                return len(room) + self.beyond

        for beyond in (64, 1 << 40, -(1 << 20)):
            file = Wrong()
            file.beyond = beyond
            with self.assertRaisesRegex(OSError, "stdin gave -?[0-9]+ bytes"):
                ptext.stream(["tr", "a", "b"], stdin=file, out=io.BytesIO())

    def test_files_of_io_that_have_only_read(self):
        for base in (io.IOBase, io.RawIOBase, io.BufferedIOBase):
            kind = type("Given", (base,), {"read": lambda self, size=-1: self.left.read(size)})
            for run in (ptext.run, self.joined):
                file = kind()
                file.left = io.BytesIO(b"ab\ncd\n")
                self.assertEqual(run(["cut", "-b", "1"], stdin=file), b"a\nc\n")

    def test_a_stream_is_not_copied(self):
        output = ptext.stream(["tr", "a", "b"], b"a\n")
        for call in (copy.copy, copy.deepcopy, pickle.dumps):
            self.assertRaisesRegex(TypeError, "neither copied nor sent", call, output)
        self.assertEqual(list(output), [b"b\n"])

    def test_what_can_be_read_once_is_named_once(self):
        once = io.BytesIO(b"a\n")
        for words, stdin, files in [
            (["paste", "f", "f"], b"", {"f": once}),
            (["paste", "f", "g"], b"", {"f": once, "g": once}),
            (["paste", "-", "f"], once, {"f": once}),
        ]:
            with self.assertRaisesRegex(ValueError, "an input twice"):
                ptext.stream(words, stdin, files)

    def test_streams_that_are_done_or_dropped_leave_nothing(self):
        def count_files():
            return len(os.listdir("/proc/self/fd"))

        def count_pages():
            with open("/proc/self/statm", "rb") as file:
                return int(file.read().split()[0])

        def make():
            return ptext.stream(["cut", "-b", "1"], stdin=pathlib.Path(__file__))

        make().close()
        files, pages, open_ones = count_files(), count_pages(), []
        for end in (list, ptext.Stream.close, lambda stream: stream.file().close(), next):
            for _ in range(100):
                stream = make()
                self.assertEqual(count_files(), files + 1)
                end(stream)
                # (`next` is not the end: the stream is dropped.)
                open_ones.append(stream if end is not next else None)
                del stream
                self.assertEqual(count_files(), files)
        # (A run has a stack of 256 KiB.)
        self.assertLess((count_pages() - pages) * 4, 8_000)

    def test_limit_of_memory(self):
        lines = b"k 0123456789\n" * 20_000
        files = {"a": lines, "b": lines}
        taken = 0
        with self.assertRaises(MemoryError):
            for piece in ptext.stream(["join", "a", "b"], files=files, memory=100_000):
                taken += len(piece)
        self.assertEqual(self.joined(["cut", "-b", "1", "a"], files=files, memory=100_000), b"k\n" * 20_000)
        for memory in (0, -1):
            self.assertRaisesRegex(ValueError, "above 0", ptext.stream, ["tr", "a", "b"], memory=memory)
        self.assertRaisesRegex(TypeError, "`memory` is str", ptext.stream, ["tr", "a", "b"], memory="5")
        self.assertEqual(self.joined(["cut", "-b", "1", "a"], files=files, memory=(1 << 64) + 1), b"k\n" * 20_000)

    def test_streams_are_used_by_one_at_a_time(self):
        def itself():
            yield b"ab\n"
            next(output)

        output = ptext.stream(["cut", "-b", "1"], stdin=itself())
        self.assertRaisesRegex(ValueError, "in use", lambda: list(output))

    def test_streams_in_threads(self):
        def run(number):
            lines = (b"%d,%d\n" % (number, line) for line in range(20_000))
            return self.joined(["cut", "-d", ",", "-f", "1"], stdin=lines) == b"%d\n" % number * 20_000

        with concurrent.futures.ThreadPoolExecutor(4) as pool:
            self.assertTrue(all(pool.map(run, range(8))))

    def test_output_that_is_taken_byte_by_byte(self):
        class Slow:
            text = b""

            def write(self, data):
                self.text += data[:1]
                return 1

        slow = Slow()
        ptext.stream(["cut", "-b", "1-3"], stdin=b"abcd\n", out=slow)
        self.assertEqual(slow.text, b"abc\n")

    def test_output_of_which_nothing_is_taken(self):
        class Taken:
            def __init__(self, count):
                self.count = count

            def write(self, data):
                return self.count

        for count in (0, -1, 6):
            with self.assertRaisesRegex(OSError, f"`out` took {count} bytes of 5"):
                ptext.stream(["cut", "-b", "1-4"], stdin=b"abcd\n", out=Taken(count))

    def test_output_that_cannot_be_written_yet(self):
        begin, end = os.pipe()
        os.set_blocking(end, False)
        with open(begin, "rb", 0), open(end, "wb", 0) as out:
            with self.assertRaisesRegex(BlockingIOError, "`out` takes no bytes now"):
                ptext.stream(["cut", "-b", "1-"], stdin=b"ab\n" * 100_000, out=out)

    def test_output_that_a_file_may_not_keep(self):
        class Keeps(io.RawIOBase):
            def write(self, data):
                self.kept = data
                return len(data)

        file = Keeps()
        ptext.stream(["cut", "-b", "1-4"], stdin=b"abcd\n", out=file)
        self.assertRaisesRegex(ValueError, "released", bytes, file.kept)
        # (A file in a file is no file of `io`, and may say nothing of what it took.)
        written = []
        wrapper = type("Wrapper", (), {"fileno": file.fileno, "write": lambda self, data: written.append(data)})
        ptext.stream(["cut", "-b", "1-4"], stdin=b"abcd\n", out=wrapper())
        self.assertEqual(written, [b"abcd\n"])

    def test_output_is_a_copy_where_it_is_kept(self):
        class Kept(list):
            write = list.append

        lines = [b"%d\n" % number for number in range(50_000)]
        kept, copied = Kept(), io.BytesIO()
        for out in (kept, copied):
            ptext.stream(["uniq"], stdin=lines, out=out)
        self.assertEqual(b"".join(kept), b"".join(lines))
        self.assertEqual(copied.getvalue(), b"".join(lines))

    def test_memory_and_interrupts(self):
        # (An input of 64 GiB: its pages are only read, so all are one page of zeros in memory.)
        long = "mmap.mmap(-1, 1 << 36, mmap.MAP_PRIVATE, mmap.PROT_READ)"
        for command in ('"a", "b"], stdin=itertools.repeat(b"a\\n" * 50_000)', f'"-d", r"\\0"], stdin={long}'):
            with self.subTest(command):
                self.is_interrupted(command)

    def is_interrupted(self, command):
        code = f"""
import itertools, mmap, resource, sys, ptext
before = resource.getrusage(resource.RUSAGE_SELF).ru_maxrss
count = sum(map(len, ptext.stream(["tr", "a", "b"], stdin=itertools.repeat(b"a" * 99_999 + b"\\n", 3000))))
print(count, resource.getrusage(resource.RUSAGE_SELF).ru_maxrss - before < 16_000, flush=True)
for piece in ptext.stream(["tr", {command}):
    pass
"""
        with subprocess.Popen(
            [sys.executable, "-c", code], stdout=subprocess.PIPE, stderr=subprocess.PIPE, env=environment()
        ) as child:
            self.assertEqual(child.stdout.readline(), b"300000000 True\n")
            time.sleep(0.2)
            began = time.monotonic()
            child.send_signal(signal.SIGINT)
            self.assertIn(b"KeyboardInterrupt", child.communicate(timeout=60)[1])
            self.assertLess(time.monotonic() - began, 4)


class Files(unittest.TestCase):
    """Streams that are read as files."""

    def test_lines_and_blocks(self):
        lines = [b"%d some words\n" % number for number in range(50_000)]

        def make():
            return ptext.stream(["cut", "-d", " ", "-f", "1,3"], stdin=lines).file()

        wanted = b"".join(b"%d words\n" % number for number in range(50_000))
        self.assertEqual(b"".join(make()), wanted)
        self.assertEqual(make().read(), wanted)
        self.assertEqual(b"".join(iter(lambda file=make(): file.read(1000), b"")), wanted)
        file = make()
        self.assertEqual([file.readline(), file.peek(1)[:2], file.read(3)], [b"0 words\n", b"1 ", b"1 w"])
        self.assertEqual(file.read(), wanted[11:])
        self.assertEqual(file.read(), b"")

    def test_readers_of_the_standard_library(self):
        table = "id,name,price\n" + "".join(f'{number},"n ""{number}"" é",5\n' for number in range(20_000))
        with io.TextIOWrapper(ptext.stream(["cut", "-d", ",", "-f", "1,2"], stdin=table).file(), "utf-8") as text:
            rows = list(csv.reader(text))
        self.assertEqual(rows[0], ["id", "name"])
        self.assertEqual(rows[1:], [[str(number), f'n "{number}" é'] for number in range(20_000)])
        packed = gzip.compress(table.encode())
        same = ptext.stream(["tr", "a", "a"], stdin=packed)
        upper = ptext.stream(["tr", "a-z", "A-Z"], stdin=gzip.open(same.file()))
        self.assertEqual(b"".join(upper), table.encode().upper())

    def test_line_is_there_before_the_next_one_is_read(self):
        begin, end = os.pipe()
        with os.fdopen(begin, "rb") as given, ptext.stream(["cut", "-b", "1"], stdin=given).file() as file:
            os.write(end, b"ab\n")
            self.assertEqual(file.readline(), b"a\n")
            os.close(end)
            self.assertEqual(file.readline(), b"")

    def test_errors_and_the_end(self):
        file = ptext.stream(["cut", "-b", "1", "f", "g"], files={"g": b"ab\n"}).file()
        self.assertEqual(file.readline(), b"a\n")
        self.assertRaisesRegex(ptext.Error, "cut: f: cannot be opened", file.readline)
        stream = ptext.stream(["tr", "a", "b"], stdin=itertools.repeat(b"a\n" * 10_000))
        with stream.file() as file:
            self.assertEqual(file.read(2), b"b\n")
        self.assertEqual(next(stream, None), None)


class Async(unittest.IsolatedAsyncioTestCase):
    """Streams in an event loop."""

    async def asyncSetUp(self):
        # (Otherwise the loop reports each turn of 0.1 seconds, as any is on a busy machine.)
        asyncio.get_running_loop().slow_callback_duration = 60

    async def collect(self, words, stdin=b"", files=None):
        return b"".join([piece async for piece in ptext.stream(words, stdin, files)])

    async def make_lines(self, count):
        for number in range(count):
            yield b"%d\n" % (number // 2)
            if number % 100 == 0:
                yield b""
                await asyncio.sleep(0)

    async def test_each_kind_of_input(self):
        reader = asyncio.StreamReader()
        reader.feed_data(b"ab\n" * 30_000 + b"x" * 100_000)
        reader.feed_eof()
        self.assertEqual(await self.collect(["cut", "-b", "1"], reader), b"a\n" * 30_000 + b"x\n")
        for given in [b"ab\n", "ab\n", io.BytesIO(b"ab\n"), [b"a", b"b\n"], iter([b"ab\n"])]:
            self.assertEqual(await self.collect(["cut", "-b", "1"], given), b"a\n")
        wanted = b"".join(b"2 %d\n" % number for number in range(500))
        self.assertEqual(await self.collect(["uniq", "-c"], self.make_lines(1000)), wanted)
        files = {"f": self.make_lines(4), "g": b"0 x\n1 y\n"}
        self.assertEqual(await self.collect(["join", "f", "g"], files=files), b"0 x\n0 x\n1 y\n1 y\n")

    async def test_streams_compose(self):
        async def run(number):
            inner = ptext.stream(["uniq"], stdin=self.make_lines(200))
            for _ in range(10):
                inner = ptext.stream(["cut", "-b", "1-"], stdin=inner)
            return await self.collect(["tr", "0-9", f"{number % 10}*"[:1] * 10], inner)

        # (More streams than the executor has threads.)
        outputs = await asyncio.wait_for(asyncio.gather(*map(run, range(40))), 60)
        for number, output in enumerate(outputs):
            self.assertEqual((len(output), output[:1]), (290, b"%d" % (number % 10)))

    async def test_loop_goes_on_while_an_input_waits(self):
        begin, end = os.pipe()
        self.addCleanup(os.close, begin)
        async with ptext.stream(["cut", "-b", "1"], stdin=open(begin, "rb", closefd=False)) as stream:
            for letter in b"ab":
                waiting = asyncio.ensure_future(anext_of(stream))
                await asyncio.sleep(0.05)
                self.assertFalse(waiting.done())
                os.write(end, b"%cx\n" % letter)
                self.assertEqual(await waiting, b"%c\n" % letter)
            os.close(end)
            self.assertEqual([piece async for piece in stream], [])

    async def test_loop_goes_on_while_a_command_computes(self):
        zeros = mmap.mmap(-1, 1 << 28, mmap.MAP_PRIVATE, mmap.PROT_READ)
        computing = asyncio.ensure_future(self.collect(["tr", "-d", r"\0"], zeros))
        turns = 0
        while not computing.done():
            turns += 1
            await asyncio.sleep(0.001)
        self.assertGreater(turns, 10)
        self.assertEqual(await computing, b"")

    async def test_errors(self):
        async def broken():
            yield b"ab\n"
            raise RuntimeError("broken")

        stream = ptext.stream(["cut", "-b", "1"], stdin=broken())
        self.assertEqual(await anext_of(stream), b"a\n")
        with self.assertRaisesRegex(RuntimeError, "broken"):
            await anext_of(stream)
        self.assertEqual([piece async for piece in stream], [])
        with self.assertRaisesRegex(ptext.Error, "cannot be opened"):
            await self.collect(["cut", "-b", "1", "f"])
        with self.assertRaisesRegex(TypeError, "stdin gave str"):
            await self.collect(["cut", "-b", "1"], of_texts())
        once = self.make_lines(2)
        with self.assertRaisesRegex(ValueError, "an input twice"):
            ptext.stream(["paste", "-", "f"], once, {"f": once})
        for call in (list, lambda stream: stream.file().read(), lambda stream: stream._write_to(io.BytesIO())):
            with self.assertRaisesRegex(TypeError, "an input is async"):
                call(ptext.stream(["cut", "-b", "1"], stdin=self.make_lines(2)))
        with self.assertRaisesRegex(TypeError, "async_generator, and not bytes"):
            ptext.cut("-b", "1", stdin=self.make_lines(2))

    async def test_cancelled_wait_ends_the_command(self):
        begin, end = os.pipe()
        os.write(end, b"ab\n")
        self.addCleanup(os.close, begin)
        # (Then the thread that reads the pipe ends, and with it the run.)
        self.addCleanup(os.close, end)
        gone = []

        async def never():
            try:
                yield b"ab\n"
                await asyncio.sleep(60)
            finally:
                gone.append(True)

        for given in (open(begin, "rb", closefd=False), never()):
            async with ptext.stream(["cut", "-b", "1"], stdin=given) as stream:
                self.assertEqual(await anext_of(stream), b"a\n")
                with self.assertRaises(asyncio.TimeoutError):
                    await asyncio.wait_for(anext_of(stream), 0.1)
                self.assertEqual([piece async for piece in stream], [])
                stream.close()
        self.assertEqual(gone, [True])

    async def test_use_by_two(self):
        begin, end = os.pipe()
        with open(begin, "rb") as given, open(end, "wb"):
            stream = ptext.stream(["cut", "-b", "1"], stdin=given)
            waiting = asyncio.ensure_future(anext_of(stream))
            await asyncio.sleep(0.05)
            with self.assertRaisesRegex(ValueError, "in use"):
                await anext_of(stream)
            self.assertRaisesRegex(ValueError, "in use", stream.close)
            os.write(end, b"ab\n")
            self.assertEqual(await waiting, b"a\n")
            await stream.aclose()
            self.assertEqual(list(stream), [])


async def anext_of(stream):
    """The next piece. (`anext` is new in Python 3.10.)"""
    return await stream.__anext__()


async def of_texts():
    yield "a text"


def environment():
    """That of a process which imports this module of ptext."""
    path = os.pathsep.join(os.path.abspath(folder) for folder in sys.path if folder)
    return {**os.environ, "PYTHONPATH": path}


class Program(unittest.TestCase):
    """`python3 -m ptext`, in a folder with the files f and g."""

    def setUp(self):
        room = tempfile.TemporaryDirectory()
        self.addCleanup(room.cleanup)
        self.room = room.name
        for name, text in [("f", b"ab\ncd\n"), ("g", b"x\n")]:
            with open(f"{self.room}/{name}", "wb") as file:
                file.write(text)

    def never(self):
        """An input that never ends."""
        begin, end = os.pipe()
        self.addCleanup(os.close, begin)
        self.addCleanup(os.close, end)
        return begin

    def is_so(self, command, wanted, **more):
        """Runs a command by a shell. `ptext` is the module. Compares the status, the output and the messages."""
        words = command.replace("ptext", f"exec {sys.executable} -m ptext", 1)
        how = {"capture_output": True, "cwd": self.room, "timeout": 60, "env": environment()}
        did = subprocess.run(["sh", "-c", words], **how, **({"input": b""} | more))
        self.assertEqual((did.returncode, did.stdout.decode(), did.stderr.decode()), wanted, command)

    def test_inputs(self):
        self.is_so("ptext cut -b 1", (0, "a\n", ""), input=b"ab\n")
        self.is_so("ptext cut -b 1 f g", (0, "a\nc\nx\n", ""))
        self.is_so("ptext paste f - g", (0, "ab\t1\tx\ncd\t2\t\n", ""), input=b"1\n2\n")
        self.is_so("ptext paste f f", (0, "ab\tab\ncd\tcd\n", ""))

    def test_output_file(self):
        for lines in (1000, 2):
            self.is_so("ptext uniq -c - made", (0, "", ""), input=b"a\n" * lines)
            with open(f"{self.room}/made", "rb") as file:
                self.assertEqual(file.read(), b"%d a\n" % lines)
        self.is_so("ptext uniq none made2", (1, "", "uniq: none: cannot be opened\n"))
        self.assertFalse(os.path.exists(f"{self.room}/made2"))
        self.is_so("ptext uniq - none/made", (1, "", "uniq: none/made: cannot be opened\n"))
        self.is_so("ptext uniq f /dev/full", (1, "", "uniq: output: write failed\n"))

    def test_more_messages_than_the_first_room_holds(self):
        names = [f"none{number:0200}" for number in range(300)]
        messages = "".join(f"cut: {name}: cannot be opened\n" for name in names)
        self.is_so(f"ptext cut -b 1 {' '.join(names)}", (1, "", messages))

    def test_no_memory(self):
        self.is_so("ulimit -v 400000; ptext uniq </dev/zero", (1, "", "uniq: out of memory\n"))

    def test_interrupt(self):
        words = [sys.executable, "-m", "ptext", "tr", "a", "b"]
        with subprocess.Popen(words, stdin=subprocess.PIPE, stdout=subprocess.PIPE, env=environment()) as child:
            child.stdin.write(b"a\n")
            child.stdin.flush()
            self.assertEqual(child.stdout.readline(), b"b\n")
            child.send_signal(signal.SIGINT)
            try:
                self.assertEqual(child.wait(30), -signal.SIGINT)
            finally:
                child.kill()

    def test_library_that_is_named(self):
        package = f"{self.room}/ptext"
        shutil.copytree(os.path.dirname(ptext.__file__), package, ignore=shutil.ignore_patterns("*.so", "__pycache__"))
        with open(f"{package}/libptext.so", "wb") as file:
            file.write(b"no library")
        how = {"capture_output": True, "cwd": self.room, "text": True}
        named = ptext._library.LIBRARY._name
        for path, wanted in [(named, "x\n"), ("", "")]:
            words = [sys.executable, "-m", "ptext", "cut", "-b", "1", "g"]
            did = subprocess.run(words, env={**os.environ, "PTEXT_LIBRARY": path}, **how)
            self.assertEqual(did.stdout, wanted, did.stderr)

    def test_file_that_may_not_grow(self):
        with open(f"{self.room}/long", "wb") as file:
            file.write(b"x" * 10_000)
        self.is_so("ulimit -f 1; ptext cut -b 1- long >made", (1, "", "cut: output: write failed\n"))

    def test_failures(self):
        self.is_so("ptext", (2, "", "ptext: first word: cut, paste, join, comm, uniq or tr\n"))
        self.is_so("ptext cut -b 1 f none", (1, "a\nc\n", "cut: none: cannot be opened\n"))
        self.is_so("ptext cut -b 1 f .", (1, "a\nc\n", "cut: .: read failed\n"))
        self.is_so("ptext join - none", (1, "", "join: none: cannot be opened\n"), input=None, stdin=self.never())
        self.is_so("ptext cut -b 1 <&-", (1, "", "cut: standard input: read failed\n"))
        self.is_so("ptext cut -b 1 f <&-", (0, "a\nc\n", ""))
        self.is_so("ptext cut -b 1 f >&-", (1, "", "cut: output: write failed\n"))
        self.is_so("ptext cut -b 1 f >/dev/full", (1, "", "cut: output: write failed\n"))
        self.is_so("ptext cut -b 1 f none 2>&-", (1, "a\nc\n", ""))

    def test_user(self):
        user = os.path.join(os.path.dirname(os.path.abspath(__file__)), "user.py")
        how = {"cwd": self.room, "capture_output": True, "text": True, "env": environment()}
        did = subprocess.run([sys.executable, user, "g"], **how)
        wanted = "1 x\n21 b'xabcdxxef\\n' 1: comm: x: line 2 is out of order (['in'], 'out')\n7 2 b'x\\nx\\n'\n"
        self.assertEqual(did.stdout, wanted, did.stderr)

    def test_does_not_wait_for_an_input_that_it_does_not_read(self):
        never = {"input": None, "stdin": self.never()}
        self.is_so("ptext cut -q", (2, "", "cut: unknown option in -q\n"), **never)
        self.is_so("ptext cut -d - -f 1 f", (0, "ab\ncd\n", ""), **never)


if __name__ == "__main__":
    unittest.main()
