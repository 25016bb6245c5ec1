"""A few hundred of the drawn edges that `make soak` tries at length."""

import unittest
import warnings
from unittest import mock

import numpy as np

import drawn_edges


class Drawn(unittest.TestCase):
    def test_each_kind_of_weights_many_times(self):
        kinds = []
        with warnings.catch_warnings():
            warnings.simplefilter("error")
            for seed in range(27 * 14):
                with self.subTest(seed=seed):
                    kinds.append(drawn_edges.expect_edges(np.random.default_rng(seed), drawn_edges.KINDS[seed % 27]))
        self.assertEqual((len({*kinds}), len(kinds)), (27, 27 * 14))

    def test_mismatches_are_reported(self):
        """A function that leaves out an edge, and one that returns the last of parallel edges, are both noticed."""
        own = drawn_edges.minimum_spanning_forest

        def short(*given, **more):
            forest = own(*given, **more)
            return forest._replace(u=forest.u[:-1], v=forest.v[:-1], w=forest.w[:-1], index=forest.index[:-1])

        def late(*given, **more):
            u, v, w = (more.get(it) if it in more else given[place - 3] for place, it in enumerate("uvw"))
            forest = own(*given, **more)
            last = {(*sorted(it[:2]), it[2]): place for place, it in enumerate(zip(np.asarray(u).tolist(), np.asarray(v).tolist(), np.asarray(w).tolist()))}
            return forest._replace(index=np.array([last[it] for it in zip(forest.u.tolist(), forest.v.tolist(), forest.w.tolist())], int))

        for wrong in (short, late):
            output = 0
            with mock.patch.object(drawn_edges, "minimum_spanning_forest", wrong):
                for seed in range(27 * 6):
                    try:
                        drawn_edges.expect_edges(np.random.default_rng(seed))
                    except (AssertionError, ValueError, IndexError):
                        output += 1
            self.assertGreater(output, 5, wrong.__name__)


if __name__ == "__main__":
    unittest.main()
