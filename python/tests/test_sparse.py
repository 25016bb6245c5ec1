"""The replacement for scipy's function on sparse matrices, compared with scipy's own."""

import unittest

import numpy as np
from graphs import Graph, by_key

try:
    from scipy import sparse
    from scipy.sparse import csgraph
except ImportError:
    sparse = None
else:
    from boruvka.linkage import spanning_tree
    from boruvka.sparse import minimum_spanning_tree

# the graph of scipy's own example, and the result that its documentation shows
EXAMPLE = [[0, 8, 0, 3], [0, 0, 2, 5], [0, 0, 0, 6], [0, 0, 0, 0]]
RESULT = [[0, 0, 0, 3], [0, 0, 2, 5], [0, 0, 0, 0], [0, 0, 0, 0]]


def matrix_of(graph, weights):
    """The edges as entries, several of which may have one position."""
    order = np.argsort(graph.u, kind="stable").astype(int)
    starts = np.concatenate([[0], np.cumsum(np.bincount(np.array(graph.u, int), minlength=graph.n))])
    return sparse.csr_matrix((np.array(weights, float)[order], np.array(graph.v, int)[order], starts), shape=(graph.n, graph.n))


@unittest.skipUnless(sparse, "there is no scipy")
class Sparse(unittest.TestCase):
    def expect_scipys(self, given, is_exact):
        """Scipy's result: entry by entry if all weights differ, otherwise the same total."""
        expected, found = csgraph.minimum_spanning_tree(given), minimum_spanning_tree(given)
        self.assertIs(type(found), type(expected))
        self.assertEqual((found.shape, found.dtype, found.indptr.dtype), (expected.shape, expected.dtype, expected.indptr.dtype))
        if is_exact:
            self.assertEqual((found != expected).nnz, 0)
            self.assertEqual(found.indices.tolist(), expected.indices.tolist())
        self.assertEqual(sorted(found.data), sorted(expected.data))
        found.check_format()

    def test_the_documented_example_in_each_form(self):
        dense = np.array(EXAMPLE)
        for given in [EXAMPLE, dense, dense.astype(np.float32), np.asfortranarray(dense), np.ma.masked_equal(np.where(dense, dense, 1), 1)]:
            self.assertEqual(minimum_spanning_tree(given).toarray().tolist(), RESULT)
        for form in ("csr", "csc", "coo", "lil", "dok", "bsr"):
            given = sparse.csr_matrix(dense).asformat(form)
            self.assertEqual(minimum_spanning_tree(given).toarray().tolist(), RESULT)
            self.assertEqual(minimum_spanning_tree(given, overwrite=True).toarray().tolist(), RESULT)

    def test_what_is_no_edge(self):
        inf, nan = np.inf, np.nan
        self.expect_scipys(np.array([[0, inf, 4], [nan, 0, 0], [0, 7, 0]]), True)
        # an entry that is stored as 0 counts, but isn't in the result; a stored infinity is an edge
        stored = sparse.csr_matrix(([0.0, 5.0, inf], [1, 2, 3], [0, 2, 2, 3, 3]), shape=(4, 4))
        self.expect_scipys(stored, True)
        self.assertEqual(minimum_spanning_tree(stored).data.tolist(), [5, inf])
        for empty in (np.zeros((3, 3)), sparse.csr_matrix((3, 3)), sparse.csr_matrix((1, 1))):
            self.expect_scipys(empty, True)

    def test_zeros_that_are_stored(self):
        """A 0 is an edge in each format. It is rejected if it may only fill the format."""
        # a square: 0 to 1 at weight 0, 1 to 2 at 3, 2 to 3 at 0, 0 to 3 at 4
        square = sparse.coo_matrix(([0.0, 3.0, 0.0, 4.0], ([0, 1, 2, 0], [1, 2, 3, 3])), shape=(4, 4))
        for form in ("csr", "csc", "coo", "lil", "dok", "bsr"):
            given = sparse.bsr_matrix(square.tocsr(), blocksize=(1, 1)) if form == "bsr" else square.asformat(form)
            with self.subTest(form=form):
                self.assertEqual(given.nnz, 4)
                found = minimum_spanning_tree(given)
                self.assertEqual((found.nnz, found[1, 2]), (1, 3.0))
                self.assertEqual(sorted(spanning_tree(given).w.tolist()), [0.0, 0.0, 3.0])
                self.assertEqual(minimum_spanning_tree(given, maximum=True).data.tolist(), [4.0, 3.0])
        chain = sparse.csr_matrix(np.diag([1.0, 2.0, 3.0], 1))
        for wrong, output in [(sparse.bsr_matrix(chain, blocksize=(2, 2)), r"\[1, 0\] is a 0 that may be an edge or may only fill the format bsr"), (square.todia(), r"\[0, 1\] is a 0 that may be an edge or may only fill the format dia")]:
            with self.assertRaisesRegex(ValueError, f"^csgraph{output}"):
                minimum_spanning_tree(wrong)
            with self.assertRaisesRegex(ValueError, f"^y{output}"):
                spanning_tree(wrong)
        # zeros on the main diagonal are loops, and zeros outside a dia_matrix aren't entries
        whole = sparse.bsr_matrix(np.array([[0.0, 1, 5, 5], [1, 0, 2, 5], [5, 2, 0, 3], [5, 5, 3, 0]]), blocksize=(2, 2))
        for given in (whole, chain.todia(), sparse.dia_matrix(([[0.0, 1.0, 2.0, 3.0], [0.0] * 4], [1, 0]), shape=(4, 4))):
            before = given.data.tolist()
            self.assertEqual(sorted(minimum_spanning_tree(given).data.tolist()), [1.0, 2.0, 3.0])
            self.assertEqual(sorted(spanning_tree(given).w.tolist()), [1.0, 2.0, 3.0])
            self.assertEqual(given.data.tolist(), before)
        # the remedy in the error
        left = sparse.bsr_matrix(chain, blocksize=(2, 2)).tocsr()
        left.eliminate_zeros()
        self.assertEqual(minimum_spanning_tree(left).data.tolist(), [1.0, 2.0, 3.0])

    def test_a_list_of_masked_rows(self):
        """Numpy would ignore the mask of the edge of weight 1."""
        rows = [np.ma.masked_equal([0, 1, 5], 1), np.ma.array([0, 0, 7]), np.ma.array([0, 0, 0])]
        for given in (rows, tuple(rows)):
            with self.assertRaisesRegex(ValueError, r"^rows of csgraph have masked entries, .*: in numpy\.ma\.array\(csgraph\) masked entries are no edges"):
                minimum_spanning_tree(given)
        # the remedy in the error, without the zeros
        self.expect_scipys(np.ma.masked_equal(np.ma.array(rows), 0), True)
        self.assertEqual(minimum_spanning_tree([it.data for it in rows]).toarray().tolist(), [[0, 1, 5], [0, 0, 0], [0, 0, 0]])

    def test_labels_of_a_frame(self):
        try:
            import pandas
        except ImportError:
            self.skipTest("there is no pandas")
        weights = np.array([[0.0, 2.0], [0.0, 0.0]])
        for rows, columns in [("ab", "ab"), ([0, 1], "ab"), ([0, 1], [0, 1])]:
            found = minimum_spanning_tree(pandas.DataFrame(weights, list(rows), list(columns)))
            self.assertEqual(found.toarray().tolist(), weights.tolist())
        for rows, columns in [("ab", "ba"), ("ab", "bc")]:
            with self.assertRaisesRegex(ValueError, "^csgraph is a frame whose columns have the labels of its rows in another order: "):
                minimum_spanning_tree(pandas.DataFrame(weights, list(rows), list(columns)))

    def test_the_lighter_of_two_directions_keeps_its_position(self):
        given = [[0, 4, 1], [3, 0, 0], [2, 6, 0]]
        self.assertEqual(minimum_spanning_tree(given).toarray().tolist(), [[0, 0, 1], [3, 0, 0], [0, 0, 0]])
        self.expect_scipys(np.array(given), True)

    def test_a_matrix_with_room_behind_its_entries(self):
        given = sparse.csr_matrix(np.array(EXAMPLE, float))
        given.data, given.indices = np.append(given.data, [99.0, 99.0]), np.append(given.indices, [0, 1]).astype(np.int32)
        self.assertEqual(minimum_spanning_tree(given).toarray().tolist(), RESULT)

    def test_drawn_graphs(self):
        for seed in range(300):
            graph = Graph(seed, ("ties", "doubles", "special doubles", "natural"))
            with self.subTest(seed=seed):
                given = matrix_of(graph, graph.w)
                before = [it.tobytes() for it in (given.data, given.indices, given.indptr)]
                self.expect_scipys(given, len(set(graph.w)) == len(graph.w))
                self.assertEqual([it.tobytes() for it in (given.data, given.indices, given.indptr)], before)
                given.sum_duplicates()
                if not np.isnan(given.data).any():
                    self.expect_scipys(given.toarray(), False)
                    self.expect_scipys(given, False)

    def test_maximum_spanning_trees(self):
        for seed in range(200):
            graph = Graph(seed, ("ties", "doubles", "special doubles", "natural"))
            given = matrix_of(graph, graph.w)
            found = minimum_spanning_tree(given, maximum=True)
            expected = sorted(graph.w[it] for it in by_key(graph, maximum=True))
            self.assertEqual(sorted(found.data), [it for it in expected if it != 0])
        dense = np.array([[0, 4, 1], [3, 0, 0], [2, 6, 0]])
        self.assertEqual(minimum_spanning_tree(dense, maximum=True).toarray().tolist(), [[0, 4, 0], [0, 0, 0], [0, 6, 0]])

    def test_rejected(self):
        for wrong in (np.ones((2, 3)), sparse.csr_matrix((2, 3))):
            with self.assertRaisesRegex(ValueError, "square"):
                minimum_spanning_tree(wrong)
        for wrong in (np.ones(3), 1.0):
            with self.assertRaises(ValueError):
                minimum_spanning_tree(wrong)
        with self.assertRaisesRegex(ValueError, "NaN"):
            minimum_spanning_tree(sparse.csr_matrix(([np.nan], [1], [0, 1, 1]), shape=(2, 2)))
        with self.assertRaisesRegex(ValueError, "NaN"):
            minimum_spanning_tree(np.ma.masked_equal([[0, np.nan], [5, 0]], 5))
        for name, wrong in [("indices", [7, 0]), ("indptr", [0, 2, 1])]:
            broken = sparse.csr_matrix(([1.0, 2.0], [1, 0], [0, 1, 2]), shape=(2, 2))
            setattr(broken, name, np.array(wrong, np.int32))
            with self.assertRaises(ValueError) as output:
                minimum_spanning_tree(broken)
            self.assertNotRegex(str(output.exception), "^[uvw]\\[|repeats")


if __name__ == "__main__":
    unittest.main()
