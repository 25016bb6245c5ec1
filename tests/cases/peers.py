"""Peers' own tests, as they are installed, on the package for Python. All of them have to pass.

python/tests/peers/stand_ins.py replaces functions of the peers by those of the package. A suite is skipped if its peer
isn't installed.
"""
import os
import re

from cases.python import PACKAGE, PYTHONS, WITHOUT, borrowed_networkx, site
from cases.running import Skipped, case, run

HAS = "import importlib.util, sys; sys.exit(not all(map(importlib.util.find_spec, sys.argv[1:])))"


def with_packages(*names):
    """The first Python that has all of these packages."""
    for python in filter(os.path.exists, PYTHONS):
        if run([python, "-c", HAS, *names], env=WITHOUT)[0] == 0:
            return python
    raise Skipped(f"no Python has {', '.join(names)}")


def expect_peers_tests(room, python, peer, tests, path=(), **more):
    """Its tests all pass, and the package answered some of their calls."""
    path = os.pathsep.join([site(room), f"{PACKAGE}/tests/peers", *path])
    env = {**WITHOUT, "PYTHONPATH": path, "PYTHONDONTWRITEBYTECODE": "1", "PEER": peer, **more}
    arguments = ["-m", "pytest", "-q", "-ra", "-p", "no:cacheprovider", "-p", "stand_ins", "--pyargs", tests]
    status, output, errors = run([python, *arguments], env=env, cwd=room, seconds=120)
    last = re.search(r"^(\d+) passed(?:, \d+ (?:skipped|warnings?))* in .*\n+(\d+) calls answered by boruvka$", output.decode(), re.M)
    if status or not last or last[1] == "0" or last[2] == "0":
        raise AssertionError((output + errors).decode()[-3000:])


@case
def scipys_own_tests_of_spanning_trees(room):
    expect_peers_tests(room, with_packages("numpy", "pytest", "scipy"), "scipy_trees", "scipy.sparse.csgraph.tests.test_spanning_tree")


@case
def scipys_own_tests_of_linkage(room):
    expect_peers_tests(room, with_packages("numpy", "pytest", "scipy"), "scipy_linkage", "scipy.cluster.tests.test_hierarchy")


@case
def scikit_learns_own_tests_of_agglomerative_clustering(room):
    expect_peers_tests(room, with_packages("numpy", "pytest", "sklearn"), "sklearn", "sklearn.cluster.tests.test_hierarchical")


@case
def networkxs_own_tests_of_spanning_trees(room):
    python = with_packages("numpy", "pytest", "scipy")
    more = {"NETWORKX_TEST_BACKEND": "boruvka", "NETWORKX_FALLBACK_TO_NX": "True"}
    expect_peers_tests(room, python, "networkx", "networkx.algorithms.tree.tests.test_mst", [borrowed_networkx(room, python)], **more)
