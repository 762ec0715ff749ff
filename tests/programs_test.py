"""The two programs, run: document 01's on its worked run and on vectors, and the replay of whole lists; and the command that
proves the first and runs it, with a stand-in for the prover.

Run after `rt ci`, or `rt run` in crates/offer_book and in crates/replay, which build them into the crate's out/."""
import fcntl
import os
import signal
import socket
import struct
import subprocess
import tempfile
import termios
import time
import unittest

HERE = os.path.dirname(os.path.abspath(__file__))
ROOT = os.path.dirname(HERE)
OFFER_BOOK = os.path.join(ROOT, "crates", "offer_book", "out", "offer_book")
REPLAY = os.path.join(ROOT, "crates", "replay", "out", "replay")
VECTORS = os.path.join(HERE, "vectors")


def read(*path):
    with open(os.path.join(*path), "rb") as f:
        return f.read()


def run(program, data):
    return subprocess.run([program], input=data, stdout=subprocess.PIPE, timeout=120, check=True).stdout


class Vectors(unittest.TestCase):
    def test_worked_run(self):
        self.assertEqual(run(OFFER_BOOK, read(ROOT, "samples", "worked-run.records")), read(ROOT, "samples", "worked-run.txt"))

    def test_programs_lists(self):
        names = sorted(n[:-3] for n in os.listdir(VECTORS) if "program" in n and n.endswith(".in"))
        self.assertEqual(len(names), 11)
        for name in names:
            with self.subTest(name):
                self.assertEqual(run(OFFER_BOOK, read(VECTORS, name + ".in")), read(VECTORS, name + ".out"))

    def test_whole_lists(self):
        for name in ("one_service", "five_services", "every_byte", "k1_calls", "k2_calls", "k3_calls", "k3_every_byte", "k5_calls",
                     "k5_every_byte", "k7_calls"):
            with self.subTest(name):
                self.assertEqual(run(REPLAY, read(VECTORS, name + ".in")), read(VECTORS, name + ".out"))


class WorkedRun(unittest.TestCase):
    """tools/worked-run.sh: the answers last on the screen, and none where the proof fails."""

    def after(self, status):
        """What it ends with where the prover reads its input to the end, says much and ends with this status. The caller's input has no end, as a terminal."""
        with tempfile.TemporaryDirectory() as folder:
            rt = os.path.join(folder, "rt")
            with open(rt, "w") as f:
                f.write('#!/bin/sh\ncat >/dev/null\necho "prover: $*"\nseq 370\necho "last word" >&2\nexit %d\n' % status)
            os.chmod(rt, 0o755)
            environment = dict(os.environ, PATH=folder + os.pathsep + os.environ["PATH"])
            idle, held = os.pipe()
            try:
                return subprocess.run(
                    [os.path.join(ROOT, "tools", "worked-run.sh")], env=environment, stdin=idle, stdout=subprocess.PIPE, stderr=subprocess.PIPE, timeout=60
                )
            finally:
                os.close(idle)
                os.close(held)

    def test_the_answers_are_last_and_the_provers_words_in_the_log(self):
        ended = self.after(0)
        self.assertEqual((ended.returncode, ended.stdout), (0, read(ROOT, "samples", "worked-run.txt")))
        self.assertEqual(ended.stderr.count(b"\n"), 1)
        log = read(ROOT, "target", "worked-run.log").splitlines()
        self.assertEqual((log[0], len(log), log[-1]), (b"prover: run", 372, b"last word"))

    def test_a_proof_that_fails_is_shown_and_nothing_is_answered(self):
        ended = self.after(3)
        self.assertEqual((ended.returncode, ended.stdout), (3, b""))
        self.assertEqual(ended.stderr.splitlines()[-2:], [b"last word", b"offer_book is not proved"])


class StandardInputAndOutput(unittest.TestCase):
    record = read(ROOT, "samples", "worked-run.records")[:112]

    def test_no_input(self):
        self.assertEqual(run(OFFER_BOOK, b""), b"")

    def test_a_short_last_record_is_refused(self):
        for length in (1, 56, 111):
            self.assertEqual(run(OFFER_BOOK, self.record + self.record[:length]), b"0 0 0\n2 0 0\n")

    def test_whole_records_print_no_further_line(self):
        self.assertEqual(run(OFFER_BOOK, self.record * 3), b"0 0 0\n" * 3)

    def test_each_answer_is_out_before_more_input_is_waited_for(self):
        p = subprocess.Popen([OFFER_BOOK], stdin=subprocess.PIPE, stdout=subprocess.PIPE, bufsize=0)
        lines = read(ROOT, "samples", "worked-run.txt").splitlines(keepends=True)
        records = read(ROOT, "samples", "worked-run.records")
        for i, line in enumerate(lines):
            p.stdin.write(records[112 * i : 112 * i + 50])
            p.stdin.write(records[112 * i + 50 : 112 * (i + 1)])
            self.assertEqual(p.stdout.read(len(line)), line)
        p.stdin.close()
        self.assertEqual(p.stdout.read(), b"")
        self.assertEqual(p.wait(timeout=10), 0)
        p.stdout.close()

    def test_a_failed_write_ends_the_run(self):
        with open("/dev/full", "wb") as full:
            p = subprocess.Popen([OFFER_BOOK], stdin=subprocess.PIPE, stdout=full)
        with self.assertRaises(BrokenPipeError):
            for _ in range(10000):
                p.stdin.write(self.record)
        try:
            p.stdin.close()
        except BrokenPipeError:
            pass
        self.assertEqual(p.wait(timeout=10), 0)

    def test_a_failed_read_ends_the_run(self):
        # A folder can be opened but not read.
        folder = os.open(ROOT, os.O_RDONLY)
        try:
            p = subprocess.run([OFFER_BOOK], stdin=folder, stdout=subprocess.PIPE, timeout=10, check=True)
        finally:
            os.close(folder)
        self.assertEqual(p.stdout, b"")

    def wait_for_state(self, process, state):
        for _ in range(2000):
            with open("/proc/%d/stat" % process.pid) as f:
                if f.read().rsplit(")", 1)[1].split()[0] == state:
                    return
            time.sleep(0.01)
        self.fail("the program never came to state " + state)

    def interrupted(self, program, data):
        """What it answers where it has read these bytes, waits for more on a socket with a time limit, and is stopped and continued: its read fails then."""
        near, far = socket.socketpair()
        far.setsockopt(socket.SOL_SOCKET, socket.SO_RCVTIMEO, struct.pack("ll", 600, 0))
        p = subprocess.Popen([program], stdin=far, stdout=subprocess.PIPE)
        far.close()
        try:
            near.sendall(data)
            while struct.unpack("i", fcntl.ioctl(near, termios.TIOCOUTQ, bytes(4)))[0]:
                time.sleep(0.01)
            self.wait_for_state(p, "S")
            p.send_signal(signal.SIGSTOP)
            self.wait_for_state(p, "T")
            p.send_signal(signal.SIGCONT)
            answers = p.communicate(timeout=60)[0]
        finally:
            near.close()
            p.kill()
            p.wait()
        self.assertEqual(p.returncode, 0)
        return answers

    def test_an_interrupted_read_ends_the_run(self):
        self.assertEqual(self.interrupted(OFFER_BOOK, self.record + self.record[:50]), b"0 0 0\n2 0 0\n")
        head = b"".join(x.to_bytes(4, "big", signed=True) for x in (1, 1, -450000, 450000, 450000, 450000, 450000, 450000, 9))
        first = (112).to_bytes(4, "big") + self.record
        line = b"0" + b" 0" * 25 + b"\n"
        for data, answers in ((b"", b""), (head[:20], b""), (head, b""), (head + first[:2], b""), (head + first[:60], b""), (head + first, line), (head + first + first[:4], line)):
            with self.subTest(len(data)):
                self.assertEqual(self.interrupted(REPLAY, data), answers)

    def test_a_list_that_cannot_be_opened_draws_1(self):
        head = b"".join(x.to_bytes(4, "big", signed=True) for x in (65, 1, -450000, 450000, 0, 0, 0, 0, 1))
        zeros = b" 0" * 25
        self.assertEqual(run(REPLAY, head + (112).to_bytes(4, "big") + self.record), b"1" + zeros + b"\n")


if __name__ == "__main__":
    unittest.main()
