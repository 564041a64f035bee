#!/usr/bin/env python3
"""Runs the six tools by ptext.dask on a scheduler and three workers of this machine, over loopback, and compares the
outputs with one run over the whole.

  python3 bindings/python/tests/on_dask.py PROGRAM [MEGABYTES]
  python3 bindings/python/tests/on_dask.py --inputs MEGABYTES       only writes the inputs

A worker is killed in the middle of a command. Then commands that fail: files out of order, a full disk, no law, words
that the program refuses. It needs the packages dask and distributed, and the library (PTEXT_LIBRARY, or
build/libptext.so).
"""
import filecmp
import os
import re
import resource
import signal
import subprocess
import sys
import tempfile
import textwrap
import threading
import time

sys.dont_write_bytecode = True
TOP = os.path.realpath(os.path.join(os.path.dirname(os.path.realpath(__file__)), "../../.."))
sys.path[:0] = [f"{TOP}/tools", f"{TOP}/bench", f"{TOP}/bindings/python"]

from project import Failed, read_text, run_script, say

WORKERS = 3
COMMANDS = [
    (["cut", "-d", " ", "-f", "1,3", "log"], None),
    (["tr", "-s", "a-z", "A-Z"], "log"),
    (["uniq", "-c", "words"], None),
    (["paste", "log", "left"], None),
    (["comm", "left", "right"], None),
    (["join", "-a", "1", "-a", "2", "left", "right"], None),
]


def write_inputs(megabytes):
    """Files of this size: lines of a log, runs of equal words, and two sorted files."""
    from parts import make_log_line, write_lines

    size = megabytes << 20
    write_lines("log", size, make_log_line)
    write_lines("words", size, lambda number: f"{number // 9}\n" if number % 100 < 90 else "equal\n" * 9)
    write_lines("left", size, lambda number: f"{number * 2:010} first__________ second_________\n")
    write_lines("right", size, lambda number: f"{number * 3:010} first__________ second_________\n")


def start_cluster(room):
    """The scheduler and the workers, as processes, and the address of the scheduler."""
    environment = {
        **os.environ,
        "PYTHONPATH": f"{TOP}/bindings/python",
        "PYTHONDONTWRITEBYTECODE": "1",
        "DASK_TEMPORARY_DIRECTORY": room,
        "DASK_DISTRIBUTED__COMM__TIMEOUTS__CONNECT": "60s",
    }

    def start(name, *words):
        with open(f"{room}/{name}.log", "wb") as log:
            return subprocess.Popen([sys.executable, "-m", *words], env=environment, stdout=log, stderr=log, cwd=room)

    scheduler = start(
        "scheduler",
        "distributed.cli.dask_scheduler",
        "--host",
        "127.0.0.1",
        "--port",
        "0",
        "--no-dashboard",
        "--scheduler-file",
        f"{room}/cluster.json",
    )
    workers = [
        start(
            f"worker{number}",
            "distributed.cli.dask_worker",
            "--scheduler-file",
            f"{room}/cluster.json",
            "--nthreads",
            "1",
            "--no-dashboard",
            "--host",
            "127.0.0.1",
            "--local-directory",
            room,
        )
        for number in range(WORKERS)
    ]
    return [scheduler, *workers]


def compare_files(what):
    """That the result is what one run wrote, and that nothing else is left."""
    if not filecmp.cmp("wanted", "result", shallow=False) or os.path.exists("result.parts"):
        raise Failed(f"differs from one run, or left its parts: {what}")
    os.remove("result")


def compare(client, program, words, stdin, parts, during=None):
    """Runs a command in parts and as a whole, and returns how long each took."""
    from ptext import dask

    began = time.monotonic()
    with open(stdin or os.devnull, "rb") as text, open("wanted", "wb") as wanted:
        subprocess.run([program, *words], stdin=text, stdout=wanted, check=True)
    middle = time.monotonic()
    if during:
        during.start()
    dask.run(client, words, "result", parts=parts, stdin=stdin)
    if during:
        during.join()
    taken = time.monotonic() - middle
    compare_files(" ".join(words))
    say(f"equal: {' '.join(words)}: one process {middle - began:.2f} s, in {parts} parts {taken:.2f} s")


def kill_worker(client, killed):
    """Kills the first worker that runs a part, with what it has written of it."""
    pids = client.run(os.getpid)
    deadline = time.monotonic() + 60
    while not killed and time.monotonic() < deadline:
        busy = [address for address, tasks in client.processing().items() if tasks]
        folder = os.listdir("result.parts") if os.path.isdir("result.parts") else []
        begun = [name for name in folder if name.startswith(".")]
        if busy and begun:
            os.kill(pids[busy[0]], signal.SIGKILL)
            killed.append(busy[0])
        time.sleep(0.01)


def expect_failure(wanted, call):
    """That a call raises an error with this text, and leaves no result."""
    from ptext import Error, dask

    try:
        call()
    except (Error, dask.PartsError) as why:
        if wanted not in str(why).replace(os.getcwd() + "/", "") or os.path.exists("result"):
            raise Failed(f"not {wanted}: {why}") from why
        say(f"refused: {wanted}")
        return
    raise Failed(f"no error: {wanted}")


def run_page():
    """Runs the commands of docs/PARALLEL.md as they are, and compares the result with one run."""
    text = read_text(f"{TOP}/docs/PARALLEL.md")
    block = re.search(r"(?:^    .*\n|^\n)*^    import ptext\.dask\n(?:^    .*\n|^\n)*", text, re.M)[0]
    names = {}
    exec(textwrap.dedent(block), names)  # pylint: disable=exec-used
    names["client"].close()
    compare_files("what docs/PARALLEL.md has")


def limit_files(size):
    """On a worker: lets it write files of at most this size."""
    resource.setrlimit(resource.RLIMIT_FSIZE, (size, resource.RLIM_INFINITY))


def check_failures(client):
    from ptext import dask

    with open("disorder", "w", encoding="ascii") as file:
        file.write("".join(f"{number:05}\n" for number in [*range(2000), 0, *range(2000, 3000)]))
    words = ["comm", "disorder", "disorder"]
    disorder = "disorder: line 2001 is out of order (part 4 of 5)"
    expect_failure(disorder, lambda: dask.run(client, words, "result", parts=5))
    expect_failure(disorder, lambda: list(dask.read(client, words, parts=5)))
    expect_failure("parts_of_paste", lambda: dask.run(client, ["paste", "-s", "log"], "result"))
    expect_failure("cut: unknown option in -q", lambda: dask.run(client, ["cut", "-q", "log"], "result"))
    expect_failure("has to be given", lambda: dask.run(client, ["uniq"], "result"))
    # (A limit on the size of files is like a full disk.)
    client.run(limit_files, 1 << 20)
    expect_failure("result.parts: File too large (part", lambda: dask.run(client, ["cut", "-c", "1-", "log"], "result"))
    client.run(limit_files, resource.RLIM_INFINITY)


def check(client, program):
    from ptext import dask

    client.wait_for_workers(WORKERS, timeout=120)
    for words, stdin in COMMANDS:
        compare(client, program, words, stdin, parts=12)
    if b"".join(dask.read(client, ["tr", "a-z", "A-Z"], stdin="words", parts=7)) != open("words", "rb").read().upper():
        raise Failed("the chunks of tr are not those of the whole")
    killed = []
    compare(
        client, program, *COMMANDS[-1], parts=40, during=threading.Thread(target=kill_worker, args=(client, killed))
    )
    if not killed:
        raise Failed("no worker was killed")
    say(f"a worker was killed: {killed[0]}")
    run_page()
    check_failures(client)


def main():
    if len(sys.argv) < 2:
        return __doc__
    if sys.argv[1] == "--inputs":
        write_inputs(int(sys.argv[2]))
        return 0
    try:
        from distributed import Client
    except ImportError:
        print("left out: Dask (there is no python3-distributed)")
        return 1 if os.environ.get("PTEXT_GATE") == "all" else 0
    program = os.path.abspath(sys.argv[1])
    os.environ.setdefault("PTEXT_LIBRARY", f"{TOP}/build/libptext.so")
    os.environ["PTEXT_PROGRAM"] = program
    with tempfile.TemporaryDirectory() as room:
        os.chdir(room)
        write_inputs(int(sys.argv[2]) if len(sys.argv) > 2 else 64)
        started = start_cluster(room)
        try:
            with Client(scheduler_file=f"{room}/cluster.json", timeout=60) as client:
                check(client, program)
        finally:
            for process in reversed(started):
                process.terminate()
            for process in reversed(started):
                process.wait()
            os.chdir(TOP)
    print("bindings/python/tests/on_dask.py: six tools in parts, a killed worker and six failures")
    return 0


if __name__ == "__main__":
    run_script(main)
