"""`read_gr` and `write_gr` on the texts of the repository's documents, drawn graphs, and files made to do harm."""

import gzip
import os
import random
import struct
import tempfile
import threading
import time
import unittest

import numpy as np

import boruvka
from graphs import Graph

TOP = os.path.dirname(os.path.dirname(os.path.dirname(os.path.abspath(__file__))))
# the forest of the small graph in README.md
SMALL_FOREST = b"p sp 6 5\na 2 5 0\na 3 4 0\na 3 5 0\na 4 6 3\na 1 3 10\n"
MOST, LEAST = 2**63 - 1, -(2**63)

# each error of docs/GR_FORMAT.md, and the line that reports it
ERRORS = [
    (b"x\n", "UnknownLine", 1),
    (b"p sp 2 0\n\xef\xbb\xbfc\n", "UnknownLine", 2),
    (b"from,to,km\n1,2,3\n", "UnknownLine", 1),
    (b"%%MatrixMarket matrix coordinate\n", "UnknownLine", 1),
    (b"\0\0\0\0", "UnknownLine", 1),
    (b"c\np sp 2 0\n\x0c\n", "UnknownLine", 3),
    (b"p sp 2 1\na 1 2 3\nA 1 2 3\n", "UnknownLine", 3),
    (b"arc 1 2 3\n", "UnknownLine", 1),
    (b"c\na 1 2 3\n", "NoProblemYet", 2),
    (b"p sp 2 0\np sp 2 0\n", "SecondProblem", 2),
    (b"p sp two 0\n", "BadProblem", 1),
    (b"p edge 2 1\ne 1 2\n", "BadProblem", 1),
    (b"p sp 2 1 \x0b\na 1 2 3", "BadProblem", 1),
    (b"p sp 67108865 0\n", "TooLarge", 1),
    (b"p sp 2 1073741825\n", "TooLarge", 1),
    (b"p sp " + b"9" * 5000 + b" 1\n", "TooLarge", 1),
    (b"p sp 2 0\na 1 2 3\n", "TooManyArcs", 2),
    (b"p sp 2 1\na 1 2\n", "BadArc", 2),
    (b"p sp 2 1\na 1 2 3.5\n", "BadArc", 2),
    (b"p sp 2 1\na 1 2 +3\n", "BadArc", 2),
    (b"p sp 2 1\na 1 2 3 4\n", "BadArc", 2),
    (b"p sp 2 1\na 1 2 \xd9\xa3\n", "BadArc", 2),
    (b"p sp 2 1\na 1 3 1\n", "EndOutOfRange", 2),
    (b"p sp 2 1\na 0 1 1\n", "EndOutOfRange", 2),
    (b"p sp 2 1\na 4294967298 1 1\n", "EndOutOfRange", 2),
    (b"p sp 2 1\na 1 2 9223372036854775808\n", "WeightOutOfRange", 2),
    (b"p sp 2 1\na 1 2 -9223372036854775809\n", "WeightOutOfRange", 2),
    (b"p sp 2 1\na 1 2 1" + b"0" * 5000 + b"\n", "WeightOutOfRange", 2),
    (b"", "MissingProblem", 1),
    (b"\n\n", "MissingProblem", 3),
    (b"c only words", "MissingProblem", 2),
    (b"p sp 2 1\n", "MissingArcs", 2),
    (b"p sp 2 2\r\na 1 2 3\r\n", "MissingArcs", 3),
]


class InFolder(unittest.TestCase):
    def setUp(self):
        folder = tempfile.TemporaryDirectory()
        self.addCleanup(folder.cleanup)
        self.folder = folder.name

    def written(self, data, name="net.gr"):
        path = f"{self.folder}/{name}"
        with open(path, "wb") as it:
            it.write(data)
        return path

    def read(self, data, name="net.gr"):
        return boruvka.read_gr(self.written(data, name))

    def data(self, path):
        with open(path, "rb") as it:
            return it.read()

    def expect_edges(self, data, n, edges):
        found = self.read(data)
        listed = list(zip(*(it.tolist() for it in found[1:])))
        if len(edges) < 100:
            self.assertEqual((found.n, listed), (n, edges))
        # (unittest takes minutes to show how long lists differ)
        self.assertTrue((found.n, listed) == (n, edges))
        self.assertEqual([it.dtype for it in found[1:]], [np.int32, np.int32, np.int64])


class Read(InFolder):
    def test_the_text_that_the_format_shows(self):
        self.expect_edges(b"c a comment\np sp 4 3\na 1 2 17\na 2 3 -5\na 4 2 0\n", 4, [(0, 1, 17), (1, 2, -5), (3, 1, 0)])

    def test_the_small_net(self):
        edges = boruvka.read_gr(f"{TOP}/examples/small.gr")
        self.assertEqual((edges.n, edges.u.tolist()), (6, [0, 0, 1, 2, 3, 3, 4, 4]))
        forest = boruvka.minimum_spanning_forest(*edges)
        expected = [tuple(map(int, it.split()[1:])) for it in SMALL_FOREST.decode().splitlines()[1:]]
        self.assertEqual(list(zip((forest.u + 1).tolist(), (forest.v + 1).tolist(), forest.w.tolist())), expected)

    def test_what_a_line_may_have(self):
        one = [(0, 1, 7)]
        for text in [
            b"p sp 2 1\r\na 1 2 7\r\n",
            b"p sp 2 1\na 1 2 7",
            b"\n \t\r\n  p\tsp 2\t\t1 \n\ta\r1 2\r7\t\n\n",
            b"cp sp 9 9\ncomment: a 1 2 3\np sp 2 1\nc a 1 2 3 \xff\x00 p\na 1 2 7\nc",
            b"p sp 0002 01\na 001 02 00000000000000000000000000007\n",
            b"p sp " + b"0" * 5000 + b"2 1\na 1 2 " + b"0" * 5000 + b"7\n",
        ]:
            self.expect_edges(text, 2, one)
        self.expect_edges(b"p sp 3 0\n", 3, [])
        self.expect_edges(b"p sp 0 0", 0, [])
        self.expect_edges(b"p sp 67108864 1\na 67108864 1 -0\n", 2**26, [(2**26 - 1, 0, 0)])

    def test_loops_and_parallel_arcs_stay_in_their_order(self):
        text = b"p sp 3 5\na 2 2 -9\na 1 2 4\na 2 1 4\na 1 2 4\na 3 3 0\n"
        self.expect_edges(text, 3, [(1, 1, -9), (0, 1, 4), (1, 0, 4), (0, 1, 4), (2, 2, 0)])

    def test_the_ends_of_64_bits(self):
        self.expect_edges(f"p sp 2 3\na 1 2 {MOST}\na 1 2 {LEAST}\na 2 1 {LEAST + 1}".encode(), 2, [(0, 1, MOST), (0, 1, LEAST), (1, 0, LEAST + 1)])

    def test_more_than_one_piece(self):
        draw = random.Random(1)
        edges = [(draw.randrange(9000), draw.randrange(9000), draw.randint(LEAST, MOST)) for _ in range(250_000)]
        lines = [f"a {u + 1} {v + 1} {w}\n" + ("c a 1 1 1\n" if w % 7 == 0 else "") for u, v, w in edges]
        self.expect_edges(f"p sp 9000 {len(edges)}\n{''.join(lines)}".encode(), 9000, edges)
        # a comment that is longer than what is read at a time
        self.expect_edges(b"c" + b"a 1 2 3 p" * 1_000_000 + b"\np sp 2 1\na 2 1 5\n", 2, [(1, 0, 5)])

    def test_each_error_with_its_line(self):
        for text, name, line in ERRORS:
            for path in [self.written(text), self.written(gzip.compress(text), "packed")]:
                with self.subTest(text=text[:40]):
                    with self.assertRaises(ValueError) as raised:
                        boruvka.read_gr(path)
                    self.assertEqual(str(raised.exception), f"{path}: line {line}: {name}")

    def test_compressed(self):
        text = self.data(f"{TOP}/examples/small.gr")
        plain = boruvka.read_gr(f"{TOP}/examples/small.gr")
        for packed in [gzip.compress(text), gzip.compress(text[:50]) + gzip.compress(text[50:]), gzip.compress(text, 0)]:
            for name in ("net.gr.gz", "net.gr"):
                found = self.read(packed, name)
                self.assertEqual([found.n, *(it.tolist() for it in found[1:])], [plain.n, *(it.tolist() for it in plain[1:])])

    def test_a_pipe_that_gives_its_first_byte_alone(self):
        text = self.data(f"{TOP}/examples/small.gr")
        path = f"{self.folder}/pipe"
        os.mkfifo(path)
        for data in [text, gzip.compress(text)]:

            def feed(data=data):
                with open(path, "wb", buffering=0) as pipe:
                    pipe.write(data[:1])
                    time.sleep(0.2)
                    pipe.write(data[1:])

            writer = threading.Thread(target=feed)
            writer.start()
            found = boruvka.read_gr(path)
            writer.join()
            self.assertEqual((found.n, found.w.tolist()), (6, [17, 10, 2, 0, 0, 3, 0, 20]))

    def test_compressed_data_that_is_truncated_or_damaged(self):
        whole = gzip.compress(self.data(f"{TOP}/examples/small.gr"))
        wrong_sum = whole[:-8] + struct.pack("<I", 5) + whole[-4:]
        cut = [whole[:end] for end in range(2, len(whole))]
        for data in [*cut, wrong_sum, whole[:30] + b"\xff\xff\xff" + whole[33:], whole + b"rest", b"\x1f\x8b" + bytes(100)]:
            with self.assertRaisesRegex(ValueError, "net.gr: its compressed data is truncated or damaged: "):
                self.read(data)

    def test_files_that_cannot_be_read(self):
        with self.assertRaises(FileNotFoundError):
            boruvka.read_gr(f"{self.folder}/none.gr")
        with self.assertRaises(IsADirectoryError):
            boruvka.read_gr(self.folder)

    def test_drawn_bytes(self):
        """Any file is read as the few lines below read it, or rejected with the line of an error."""
        draw = random.Random(3)
        pattern = [b"a 1 2 3\n", b"a 3 2 -1\n", b"\n", b"c x\n", b" ", b"\r", b"0", b"a 1 1 0", b"\xa0", b"a", b"9" * 30, b"\0"]
        counts = {True: 0, False: 0}
        for _ in range(3000):
            kinds = draw.choice([4, 8, len(pattern)])
            after = b"".join(draw.choice(pattern[:kinds]) for _ in range(draw.randrange(6)))
            text = b"p sp 3 %d\n" % draw.choice([after.count(b"a "), 2]) + after
            try:
                found = self.read(text)
            except ValueError as error:
                self.assertRegex(str(error), r"net.gr: line \d+: [A-Z][A-Za-z]+$")
                counts[False] += 1
                continue
            counts[True] += 1
            lines = [it.replace(b"\r", b" ").replace(b"\t", b" ").split(b" ") for it in text.split(b"\n")]
            lines = [[it for it in line if it] for line in lines]
            expected = [tuple(map(int, line[1:])) for line in lines if line[:1] == [b"a"]]
            self.assertEqual([(u + 1, v + 1, w) for u, v, w in zip(*(it.tolist() for it in found[1:]))], expected)
        self.assertGreater(min(counts.values()), 50)


class Write(InFolder):
    def test_the_text_of_a_forest_as_the_program_writes_it(self):
        path = f"{self.folder}/forest.gr"
        boruvka.write_gr(path, boruvka.minimum_spanning_forest(*boruvka.read_gr(f"{TOP}/examples/small.gr")))
        self.assertEqual(self.data(path), SMALL_FOREST)

    def test_edges_in_each_way(self):
        expected = b"p sp 3 2\na 1 2 7\na 3 2 -5\n"
        u, v, w = np.array([0, 2], np.int8), [1, 1], np.array([7, -5], np.int16)
        path = f"{self.folder}/net.gr"
        for given in [(3, u, v, w), (None, u, v, w), (u, v, w), (3, np.array([u, v]).T, w), ([[0, 1], [2, 1]], w)]:
            boruvka.write_gr(path, *given)
            self.assertEqual(self.data(path), expected)
        boruvka.write_gr(path, u=u, v=v, w=w)
        self.assertEqual(self.data(path), expected)
        boruvka.write_gr(path, 2, [0], [1], [True])
        self.assertEqual(self.data(path), b"p sp 2 1\na 1 2 1\n")
        boruvka.write_gr(path, 5, [], [], [])
        self.assertEqual(self.data(path), b"p sp 5 0\n")

    def test_what_is_written_is_read_again(self):
        kinds = ("ties", "natural", "all of 64 bits", "ends of 64 bits", "yes and no")
        for seed in range(150):
            graph = Graph(seed, kinds)
            if graph.held[2].dtype.kind == "f":
                continue
            path = f"{self.folder}/net{'.gz' if seed % 3 == 0 else ''}"
            boruvka.write_gr(path, graph.n, *graph.held)
            self.assertEqual(self.data(path)[:2] == b"\x1f\x8b", seed % 3 == 0)
            found = boruvka.read_gr(path)
            self.assertEqual([found.n, *(it.tolist() for it in found[1:])], [graph.n, graph.u, graph.v, [int(it) for it in graph.w]])
            forest = boruvka.minimum_spanning_forest(*found)
            boruvka.write_gr(path, forest)
            again = boruvka.read_gr(path)
            self.assertEqual([again.u.tolist(), again.v.tolist(), again.w.tolist()], [it.tolist() for it in forest][:3])

    def test_more_than_one_piece(self):
        draw = np.random.default_rng(1)
        edges = 5000, draw.integers(0, 5000, 150_000), draw.integers(0, 5000, 150_000), draw.integers(-9, 10**12, 150_000)
        path = f"{self.folder}/net.gr"
        boruvka.write_gr(path, *edges)
        with open(path, encoding="ascii") as it:
            head, *lines = it.read().splitlines()
        expected = [f"a {u + 1} {v + 1} {w}" for u, v, w in zip(*(it.tolist() for it in edges[1:]))]
        # (unittest takes minutes to show how long lists differ)
        self.assertTrue((head, lines) == ("p sp 5000 150000", expected))

    def test_packed_twice_it_is_the_same(self):
        for name in ("one.gr.gz", "other.gr.gz"):
            boruvka.write_gr(f"{self.folder}/{name}", 3, [0], [2], [5])
        self.assertEqual(self.data(f"{self.folder}/one.gr.gz"), self.data(f"{self.folder}/other.gr.gz"))

    def test_what_is_rejected_leaves_the_file(self):
        path = self.written(b"as it was")
        forest = boruvka.minimum_spanning_forest(3, [0, 1], [1, 2], [0.5, 1.5])
        for error, pattern, given in [
            (TypeError, r"^w has the dtype float64, .*round\(\)\.astype\(int\)", (forest,)),
            (TypeError, "^w has the dtype float32, ", (3, [0], [1], np.array([2], np.float32))),
            (ValueError, r"^w\[0\] is 9223372036854775808, ", (3, [0], [1], np.array([2**63], np.uint64))),
            (ValueError, r"^u\[0\] is 3, ", (3, [3], [1], [1])),
            (ValueError, "^n is ", (2**26 + 1, [0], [1], [1])),
            (ValueError, "differ in length", (3, [0], [1], [1, 2])),
            (TypeError, r"^a Forest isn't an array: forest\.to_frame\(\) makes a frame", (forest, [0], [1])),
            (TypeError, "^5 arguments are passed, but a forest needs n, u, v and w$", (3, [0], [1], [2], 5)),
        ]:
            with self.assertRaisesRegex(error, pattern):
                boruvka.write_gr(path, *given)
            self.assertEqual(self.data(path), b"as it was")
        with self.assertRaises(FileNotFoundError):
            boruvka.write_gr(f"{self.folder}/none/net.gr", 2, [0], [1], [1])


if __name__ == "__main__":
    unittest.main()
