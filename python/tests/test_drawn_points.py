"""A few of the drawn cases that `make soak` tries at length."""

import unittest

import numpy as np
from drawn_points import SORTS, gaps, heights_of


class Drawn(unittest.TestCase):
    def test_trees_of_points(self):
        for seed in range(250):
            with self.subTest(seed=seed):
                SORTS["trees of points"](np.random.default_rng([1, seed]))

    @unittest.skipUnless(len(SORTS) > 1, "there is no scikit-learn")
    def test_clusters_of_hdbscan(self):
        for seed in range(40):
            with self.subTest(seed=seed):
                SORTS["clusters of HDBSCAN"](np.random.default_rng([2, seed]))

    def test_the_reference_by_a_worked_example(self):
        points = np.array([[0.0, 0.0], [3.0, 4.0], [0.0, 1.0]])
        self.assertEqual(heights_of(gaps(points, "manhattan", 1), None).tolist(), [1, 6])
        self.assertEqual(heights_of(gaps(points, "chebyshev", 1), 3).tolist(), [4, 4])
        np.testing.assert_allclose(heights_of(gaps(points, "euclidean", 2), None).astype(float), [1, 18**0.5], rtol=1e-15)


if __name__ == "__main__":
    unittest.main()
