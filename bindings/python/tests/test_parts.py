"""Tests of parts of files, in one process, that are disturbed: files that change or end early, programs that are killed,
two machines at one part, and a folder that is the user's. (parallel.sh, slurm.sh and on_dask.py run whole commands.)"""
import concurrent.futures
import io
import os
import stat
import sys
import tempfile
import unittest
from unittest import mock

import ptext.dask
from ptext import parts

PROGRAM = os.environ.get("PTEXT_PROGRAM") or f"{os.path.dirname(ptext._library.LIBRARY._name)}/ptext"
WORDS = ["tr", "a-z", "A-Z"]


def change(path):
    """Lets a file be newer."""
    os.utime(path, ns=(0, os.stat(path).st_mtime_ns + 1))


class Room(unittest.TestCase):
    """A folder with a file, and the plan of three parts of it."""

    def setUp(self):
        room = tempfile.TemporaryDirectory()
        self.addCleanup(room.cleanup)
        self.room, self.file = room.name, f"{room.name}/file"
        with open(self.file, "wb") as file:
            file.write(b"some words\n" * 3000)
        environment = mock.patch.dict(os.environ, PTEXT_PROGRAM=PROGRAM)
        environment.start()
        self.addCleanup(environment.stop)
        self.plan = parts.make_plan(WORDS, 3, self.file)


class Disturbed(Room):
    def run_by(self, script):
        """Runs a part by a script instead of the program."""
        path = f"{self.room}/program"
        with open(path, "w", encoding="ascii") as file:
            file.write(f"#!/bin/sh\n{script}\n")
        os.chmod(path, stat.S_IRWXU)
        with mock.patch.dict(os.environ, PTEXT_PROGRAM=path), tempfile.TemporaryFile() as out:
            parts.run_part(self.plan, 1, out)
            return out.tell()

    def test_file_that_changes_while_it_is_read(self):
        self.assertGreater(self.run_by(f'exec "{PROGRAM}" "$@"'), 10_000)
        with self.assertRaisesRegex(parts.PartsError, "it has changed since it was cut"):
            self.run_by(f'touch -d 2001-01-01 "{self.file}"; exec "{PROGRAM}" "$@"')

        class Changing(io.BytesIO):
            def write(self, data):
                change(path)
                return super().write(data)

        path, self.plan = self.file, parts.make_plan(WORDS, 3, self.file)
        with self.assertRaisesRegex(parts.PartsError, "it has changed since it was cut"):
            ptext.dask._run_part(self.plan, 1, Changing())

    def test_file_that_ends_before_its_part(self):
        size = os.path.getsize(self.file)
        plan = self.plan._replace(parts=[[(0, size + 1)]])
        for run in (parts.run_part, ptext.dask._run_part):
            with tempfile.TemporaryFile() as out:
                with self.assertRaisesRegex(parts.PartsError, "it ended before its part did"):
                    run(plan, 1, out)

    def test_part_that_is_there_of_a_file_that_has_changed(self):
        for _ in range(2):
            parts.put_part(self.plan, 1, self.room)
        change(self.file)
        with self.assertRaisesRegex(parts.PartsError, "it has changed since it was cut"):
            parts.put_part(self.plan, 1, self.room)

    def test_program_that_is_killed(self):
        with self.assertRaisesRegex(parts.PartsError, "tr was ended by signal 9"):
            self.run_by("kill -9 $$")

    def test_two_machines_that_write_a_part(self):
        path = f"{self.room}/part"

        def write(file):
            file.write(b"of one ")
            with mock.patch("os.uname", return_value=mock.Mock(nodename="other")):
                parts.put_whole(path, lambda other: other.write(b"of the other\n"))
            file.write(b"machine\n")

        parts.put_whole(path, write)
        with open(path, "rb") as file:
            self.assertEqual(file.read(), b"of one machine\n")
        self.assertEqual(sorted(os.listdir(self.room)), ["file", "part"])


class Client:
    """Like a client of a Dask cluster, but it runs each call at once."""

    def __init__(self):
        self.cancelled = []

    def map(self, call, *lists, pure):
        futures = []
        for arguments in zip(*lists):
            futures.append(concurrent.futures.Future())
            try:
                futures[-1].set_result(call(*arguments))
            except (ptext.Error, parts.PartsError) as why:
                futures[-1].set_exception(why)
        return futures

    def cancel(self, futures):
        self.cancelled += futures


class ByDask(Room):
    """Runs by ptext.dask, on no cluster."""

    def setUp(self):
        super().setUp()
        modules = mock.patch.dict(sys.modules, distributed=concurrent.futures)
        modules.start()
        self.addCleanup(modules.stop)

    def test_folder_with_a_file_of_the_user(self):
        folder, result = f"{self.room}/folder", f"{self.room}/result"
        os.mkdir(folder)
        with open(f"{folder}/mine", "wb") as file:
            file.write(b"mine\n")
        ptext.dask.run(Client(), WORDS, result, parts=4, stdin=self.file, folder=folder)
        with open(result, "rb") as file:
            self.assertEqual(file.read(), b"SOME WORDS\n" * 3000)
        self.assertEqual(os.listdir(folder), ["mine"])

    def test_parts_are_cancelled_after_a_failure(self):
        with open(self.file, "wb") as file:
            file.write(b"b\na\n" * 1000)
        words = ["comm", self.file, self.file]
        for run in (
            lambda client: ptext.dask.run(client, words, f"{self.room}/result", parts=4),
            lambda client: list(ptext.dask.read(client, words, parts=4)),
        ):
            client = Client()
            self.assertRaisesRegex(ptext.Error, "out of order", run, client)
            self.assertEqual(len(client.cancelled), 4)
        self.assertFalse(os.path.exists(f"{self.room}/result"))


if __name__ == "__main__":
    unittest.main()
