"""Tests that nothing is said to be out of memory without a cause: an output beyond the usual room, and the greatest
number of files."""
import unittest

import ptext


class Large(unittest.TestCase):
    def test_output_beyond_the_room(self):
        # (Each line of the one file is paired with each of the other: 100 MB from 20 KB.)
        few = b"k 0123456789012345\n" * 1_600
        out = ptext.join("a", "b", files={"a": few, "b": few})
        self.assertEqual(len(out), 1_600 * 1_600 * (2 * len("0123456789012345") + len("k  \n")))
        self.assertEqual(out[-36:], out[:36])

    def test_as_many_files_as_a_command_takes(self):
        names = [f"f{number}" for number in range(512)]
        files = {name: f"{number}\n" for number, name in enumerate(names)}
        with ptext.stream(["paste", "-d", ",", *names], files=files) as pieces:
            out = b"".join(pieces)
        self.assertEqual(out, ",".join(map(str, range(512))).encode() + b"\n")


if __name__ == "__main__":
    unittest.main()
