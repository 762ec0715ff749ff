"""The gate, .ci/run, with stand-ins for rt and for every test that it names: where something fails, or the run is ended, its status
isn't 0 and 'N passed, 0 failed' is no line of its own."""
import os
import re
import shutil
import signal
import subprocess
import tempfile
import time
import unittest

ROOT = os.path.dirname(os.path.dirname(os.path.abspath(__file__)))
GATE = os.path.join(ROOT, ".ci", "run")


def read(path):
    with open(path) as f:
        return f.read()


def is_running(process):
    try:
        return read("/proc/%d/stat" % process).rpartition(")")[2].split()[0] != "Z"
    except (FileNotFoundError, ProcessLookupError):
        return False


def ignore_no_signal():
    for number in (signal.SIGTERM, signal.SIGHUP, signal.SIGINT):
        signal.signal(number, signal.SIG_DFL)


SCRIPTS = sorted(set(re.findall(r"\b(?:tools|tests)/\w+\.(?:py|sh)\b", read(GATE))))
STEPS = SCRIPTS
OK = "rt: ok; handles allowed: none; must-fail edits: 60 refused"
CLOSING = "44 passed, 0 failed"

# A stand-in says that it ran, prints a count as the tests do, and does what the file 'acts' has for it.
STAND_IN = r"""#!/bin/sh
name='{name}'
[ "$name" != rt ] || name="rt $*"
[ "$name" != "rt version" ] || {{ echo "the kit"; exit; }}
echo "$name" >>'{room}/ran'
act=$(sed -n "s|^$name: ||p" '{room}/acts')
[ "$act" != "no count" ] || exit 0
echo "something of $name"
if [ "$name" = "rt ci" ] && [ "$act" != "not ok" ]; then echo "{ok}$([ "$act" != bad ] || echo ", 1 bad"); every proof and must-fail edit was done in this run"; fi
if [ "$act" = fail ]; then echo "43 passed, 1 failed"; else echo "{closing}"; fi
case $act in
fail | "fail unsaid") exit 1 ;;
"be killed") kill -KILL $$ ;;
wait) echo $$ >'{room}/waits' && exec sleep 60 ;;
esac
"""


class Gate(unittest.TestCase):
    def setUp(self):
        self.room = tempfile.mkdtemp()
        self.addCleanup(shutil.rmtree, self.room)
        for folder in (".ci", "bin", "tools", "tests"):
            os.mkdir(self.path(folder))
        shutil.copy(GATE, self.path(".ci", "run"))
        self.write("README.md", "Kit: `the kit`\n")
        self.write("bin/python3", '#!/bin/sh\nexec sh "$@"\n')
        self.write("bin/rt", STAND_IN.format(name="rt", room=self.room, closing=CLOSING, ok=OK))
        for name in SCRIPTS:
            self.write(name, STAND_IN.format(name=name, room=self.room, closing=CLOSING, ok=OK))

    def write(self, name, text):
        with open(self.path(name), "w") as f:
            f.write(text)
        os.chmod(self.path(name), 0o755)

    def path(self, *parts):
        return os.path.join(self.room, *parts)

    def start(self, acts):
        with open(self.path("acts"), "w") as f:
            f.writelines("%s: %s\n" % act for act in acts.items())
        open(self.path("ran"), "w").close()
        environment = dict(os.environ, PATH=self.path("bin") + os.pathsep + os.environ["PATH"], TMPDIR=self.room)
        with open(self.path("output"), "w") as output:
            return subprocess.Popen(
                [self.path(".ci", "run")], env=environment, stdout=output, stderr=subprocess.STDOUT, preexec_fn=ignore_no_signal
            )

    def ended(self, gate):
        return gate.wait(timeout=60), read(self.path("output")).splitlines()

    def ran(self):
        return read(self.path("ran")).splitlines()

    def assert_not_passed(self, status, lines):
        self.assertNotEqual(status, 0)
        self.assertEqual([line for line in lines if re.fullmatch(r"\d+ passed, 0 failed", line)], [])

    def test_a_pass_closes_with_the_count_of_rt_ci(self):
        status, lines = self.ended(self.start({}))
        self.assertEqual(status, 0, lines)
        self.assertEqual([line for line in lines if re.fullmatch(r"\d+ passed, \d+ failed", line)], [CLOSING])
        self.assertEqual(lines[-1], CLOSING)
        self.assertRegex(lines[-2], r"^rt ci \d+ s, whole run \d+ s: \d+\.\d\d$")
        self.assertEqual(self.ran()[0], "rt ci")
        self.assertEqual(sorted(self.ran()), sorted(["rt ci"] + STEPS))
        for step in STEPS:
            self.assertIn("something of " + step, lines)

    def test_a_failing_step_fails_the_run(self):
        for step in STEPS:
            for act in ("fail", "fail unsaid"):
                with self.subTest(step=step, act=act):
                    self.assert_not_passed(*self.ended(self.start({step: act})))
        self.assert_not_passed(*self.ended(self.start({"tests/run.sh": "be killed"})))

    def test_no_test_runs_where_a_proof_fails(self):
        status, lines = self.ended(self.start({"rt ci": "fail"}))
        self.assert_not_passed(status, lines)
        self.assertEqual(lines[-1], "43 passed, 1 failed")
        self.assertEqual(self.ran(), ["rt ci"])

    def test_no_test_runs_where_rt_ci_ends_otherwise(self):
        for act in ("fail unsaid", "be killed", "no count", "not ok", "bad"):
            with self.subTest(act):
                self.assert_not_passed(*self.ended(self.start({"rt ci": act})))
                self.assertEqual(self.ran(), ["rt ci"])

    def test_a_run_that_is_ended_has_not_passed(self):
        for step in ("rt ci", "tools/staticlib.sh", "tests/run.sh"):
            for number in (signal.SIGTERM, signal.SIGHUP, signal.SIGINT, signal.SIGKILL):
                with self.subTest(step=step, signal=number):
                    gate = self.start({step: "wait"})
                    while not os.path.exists(self.path("waits")) or not read(self.path("waits")):
                        self.assertIsNone(gate.poll())
                        time.sleep(0.01)
                    waits = int(read(self.path("waits")))
                    gate.send_signal(number)
                    gate.wait(timeout=60)
                    if number == signal.SIGKILL:
                        os.kill(waits, signal.SIGTERM)
                    end = time.monotonic() + 20
                    while is_running(waits):
                        self.assertLess(time.monotonic(), end, "a test goes on after the run was ended")
                        time.sleep(0.01)
                    self.assert_not_passed(*self.ended(gate))
                    os.remove(self.path("waits"))


if __name__ == "__main__":
    unittest.main()
