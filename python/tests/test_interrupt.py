"""Ctrl-C ends a long call: the KeyboardInterrupt comes within about a second of processor time."""

import os
import signal
import subprocess
import sys
import time
import unittest

from test_documents import there

# `ready` says that the timed call begins; a process that a shell starts in the background would ignore SIGINT
CODE = """
import signal
import numpy as np
import boruvka

signal.signal(signal.SIGINT, signal.default_int_handler)
points = np.random.default_rng(1).random(({n}, {d}))
print("ready", flush=True)
boruvka.linkage.spanning_tree(points, min_samples={nearest})
print("ended", flush=True)
"""
TICKS = os.sysconf("SC_CLK_TCK")


def used(process):
    """The processor time that it used so far, in seconds."""
    with open(f"/proc/{process.pid}/stat", encoding="ascii") as it:
        user, system = it.read().rsplit(")", 1)[1].split()[11:13]
    return (int(user) + int(system)) / TICKS


class Interrupted(unittest.TestCase):
    def expect_interrupted(self, n, d, nearest=None, before=2.0):
        """After it has run for some time, it ends soon after SIGINT, and not before."""
        path = os.pathsep.join(filter(None, sys.path))
        code = CODE.format(n=n, d=d, nearest=nearest)
        # (BLAS may use other processors, whose time counts as well)
        env = {**os.environ, "PYTHONPATH": path, "OPENBLAS_NUM_THREADS": "1"}
        with subprocess.Popen([sys.executable, "-c", code], env=env, stdout=subprocess.PIPE, stderr=subprocess.PIPE, text=True) as process:
            try:
                self.assertEqual(process.stdout.readline(), "ready\n")
                start = used(process)
                while used(process) < start + before:
                    time.sleep(0.01)
                process.send_signal(signal.SIGINT)
                sent = used(process)
                output = process.stdout.readline()
                # (both streams are closed; the times stay readable until the process is waited for)
                errors = process.stderr.read()
                taken = used(process) - sent
            finally:
                process.kill()
        self.assertEqual((output, errors.splitlines()[-1:]), ("", ["KeyboardInterrupt"]))
        self.assertLess(taken, 1.5)

    @unittest.skipUnless(there("scipy"), "there is no scipy")
    def test_while_trees_are_asked(self):
        self.expect_interrupted(300_000, 8)
        self.expect_interrupted(300_000, 8, nearest=20)

    def test_while_rows_are_looked_at(self):
        self.expect_interrupted(40_000, 60)
        self.expect_interrupted(40_000, 60, nearest=5)


if __name__ == "__main__":
    unittest.main()
