"""Mistakes that people make, and their results: an error that names place, value, rule or remedy, or a right result."""

import decimal
import fractions
import math
import unittest
import warnings

import numpy as np

import boruvka
from boruvka import Forest, from_edges
from boruvka import minimum_spanning_forest as forest_of
from boruvka.linkage import labels, merges, single_linkage, spanning_tree

try:
    import pandas
except ImportError:
    pandas = None
try:
    import networkx
except ImportError:
    networkx = None
try:
    from scipy import sparse

    from boruvka.sparse import minimum_spanning_tree
except ImportError:
    sparse = None

U, V, W = [0, 1], [1, 2], [1, 2]


class Igraph:
    """The method by which a graph of igraph is recognised."""

    def get_edgelist(self):
        return [(0, 1)]


POINTS = np.random.default_rng(0).random((10, 2))
PATH = forest_of(4, [0, 1, 2], [1, 2, 3], [1.0, 2.0, 3.0])

# what is called, and the error that it raises
EDGES = {
    "vertices by names": (lambda: forest_of(3, ["a", "b"], ["b", "c"], W), TypeError, r"^u has the dtype <U1, because u\[0\] is 'a', .*boruvka\.from_edges takes names$"),
    "vertices as floats": (lambda: forest_of(3, [0.0, 1.0], [1.0, 2.0], W), TypeError, r"^u has the dtype float64, but vertices are whole numbers: \.astype\(int\) converts them$"),
    "vertices as fractions": (lambda: forest_of(3, [0.0, 0.5], V, W), TypeError, r"^u has the dtype float64, because u\[1\] is 0\.5, but vertices are whole numbers$"),
    "vertices as floats, one missing": (lambda: forest_of(3, U, [1.0, math.nan], W), TypeError, r"because v\[1\] is nan, but vertices are whole numbers$"),
    "vertices as truths": (lambda: forest_of(3, [True, False], [False, True], W), TypeError, r"^u has the dtype bool, .*\.astype\(int\)"),
    "vertices from 1": (lambda: forest_of(3, [1, 2], [2, 3], W), ValueError, r"^v\[1\] is 3, but a vertex is at least 0 and below n = 3: are they numbered from 1\?$"),
    "too small an n": (lambda: forest_of(2, U, V, W), ValueError, r"^v\[1\] is 2, but a vertex is at least 0 and below n = 2$"),
    "too large an n": (lambda: forest_of(2**27, U, V, W), ValueError, r"^n is 134217728, but has to be from 0 to 2\^26$"),
    "n as a float": (lambda: forest_of(3.0, U, V, W), TypeError, "^n is 3.0, but has to be a whole number: the number of vertices$"),
    "numbers of another kind as vertices": (lambda: forest_of([10**12], [5], [1]), ValueError, r"^u\[0\] is 1000000000000, but vertices are below 2\^26: boruvka\.from_edges"),
    "a negative vertex": (lambda: forest_of(3, [0, -1], V, W), ValueError, r"^u\[1\] is -1, "),
    "columns of different lengths": (lambda: forest_of(3, U, [1], W), ValueError, "^u, v and w differ in length: 2, 1 and 2$"),
    "masked vertices": (lambda: forest_of(3, np.ma.array(U, mask=[0, 1]), V, W), ValueError, r"^u has masked entries, such as u\[1\]: leave these edges out first$"),
    "masked edges": (lambda: forest_of(np.ma.array([[0, 1]], mask=[[0, 1]]), [1]), ValueError, "^edges have masked entries"),
    "rows of which one is masked": (lambda: forest_of([np.ma.array([0, 1], mask=[1, 0]), [1, 2]], W), ValueError, "^edges have masked entries"),
    "masked vertices in a list": (lambda: forest_of(3, [np.ma.array(0), np.ma.array(1, mask=True)], V, W), ValueError, r"^u has masked entries, such as u\[1\]: leave"),
    "single numbers": (lambda: forest_of(3, 0, 1, 2.0), ValueError, "^u is 0, but has to be an array or a list with an entry for each edge$"),
    "edges twice": (lambda: forest_of(3, [U, V], [U, V], W), ValueError, "^u has 2 dimensions, but needs one: pass one array of two columns instead of u and v$"),
    "three columns": (lambda: forest_of(3, [[0, 1, 5], [1, 2, 6]], W), TypeError, r"^edges have the shape \(2, 3\), but need two columns"),
    "nothing at all": (lambda: forest_of(), TypeError, "n may be left out"),
    "a generator": (lambda: forest_of(3, (it for it in U), V, W), TypeError, r"^u is a generator, but has to be an array or a list: list\(u\) makes a list$"),
    "a set": (lambda: forest_of(3, {0, 1}, V, W), TypeError, "^u is a set, "),
    "edges as rows": (lambda: forest_of([[0, 1, 2], [1, 2, 0]], [1, 2, 3]), TypeError, r"^edges have the shape \(2, 3\), but need two columns; edges\.T has two$"),
    "n as a truth": (lambda: forest_of(True, U, V, W), TypeError, "^n is True, but has to be a whole number: the number of vertices$"),
    "n as a truth of numpy": (lambda: forest_of(np.True_, U, V, W), TypeError, r"^n is (np\.)?True_?, but has to be a whole number: the number of vertices$"),
    "maximum as a text": (lambda: forest_of(3, U, V, W, maximum="no"), TypeError, "^maximum is 'no', but has to be True or False$"),
    "maximum as a text, of chunks": (lambda: boruvka.forest_of_chunks(3, [], maximum="False"), TypeError, "^maximum is 'False', but has to be True or False$"),
    "maximum as a column": (lambda: forest_of(3, U, V, W, maximum=np.array([True, False])), TypeError, "^maximum is array"),
    "n last": (lambda: forest_of(U, V, W, 3), TypeError, r"^the last argument is 3: n comes first, as in minimum_spanning_forest\(n, u, v, w\), or is passed by name, n=3$"),
    "n after edges and weights": (lambda: forest_of([[0, 1], [1, 2]], W, 3), TypeError, "^the last argument is 3: n comes first"),
    "u as n": (lambda: forest_of(n=U, u=V, v=W), TypeError, r"^n is \[0, 1\], but has to be a whole number: the number of vertices$"),
    "a single weight": (lambda: forest_of(3, U, V, 1.0), ValueError, r"^w is 1\.0, but each edge needs a weight: numpy\.full\(2, 1\.0\) gives all the same$"),
    "a single weight, without n": (lambda: forest_of(U, V, np.float64(1.0)), ValueError, "^w is .*, but each edge needs a weight: "),
    "no weights": (lambda: forest_of(3, U, V), TypeError, r"^edges have the shape \(2,\), but need two columns; if they are u and v, w is missing$"),
    "values of a dict": (lambda: forest_of(3, dict(a=0, b=1).values(), V, W), TypeError, r"^u is a dict_values, but has to be an array or a list: list\(u\) makes a list$"),
    "keys of a dict": (lambda: forest_of(3, {0: 1, 1: 2}.keys(), V, W), TypeError, r"^u is a dict_keys, but has to be an array or a list: list\(u\) makes a list$"),
    "a dict": (lambda: forest_of({"u": U, "v": V, "w": W}), TypeError, "^a dict is for boruvka.from_edges$"),
    "columns that were put together by zip": (lambda: forest_of(zip(U, V), W), TypeError, r"^edges are a zip, but have to be an array or a list: list\(edges\) makes a list$"),
    "a graph of igraph": (lambda: forest_of(Igraph()), TypeError, r'^a graph of igraph has no columns: minimum_spanning_forest\(g\.vcount\(\), g\.get_edgelist\(\), g\.es\["weight"\]\) takes its edges$'),
    "a matrix of weights": (lambda: forest_of(np.ones((3, 3))), TypeError, "a matrix of weights is for boruvka.sparse.minimum_spanning_tree$"),
    "rows of three": (lambda: forest_of([(0, 1, 2.0), (1, 2, 3.0)]), TypeError, r"rows of three are for boruvka\.from_edges\(numpy\.array\(rows\), 0, 1, weight=2\)$"),
    "too many columns": (lambda: forest_of(3, U, V, W, True), TypeError, "^5 arguments are passed, but a forest needs n, u, v and w$"),
    "u twice": (lambda: forest_of(U, V, W, u=U), TypeError, "^u is passed twice, by name and by position$"),
    "n twice": (lambda: forest_of(3, U, V, W, n=3), TypeError, "^n is passed twice, by name and by position$"),
    "a forest instead of edges": (lambda: forest_of(PATH, V, W), TypeError, r"^a Forest isn't an array: forest\.to_frame\(\) makes a frame, and u, v, w and index are its arrays$"),
    "no threads": (lambda: forest_of(3, U, V, W, threads=0), ValueError, "^threads is 0, but has to be at least 1$"),
    "threads as a text": (lambda: forest_of(3, U, V, W, threads="all"), TypeError, "^threads is 'all', but has to be a whole number$"),
    "a set of vertices": (lambda: forest_of(3, {0, 1}, V, W), TypeError, r"^u is a set, but has to be an array or a list: sorted\(u\) makes a list$"),
    "a dict of weights": (lambda: forest_of(3, U, V, dict(a=1, b=2)), TypeError, r"^w is a dict, but has to be an array or a list: list\(w\.values\(\)\) makes a list of its values$"),
    "a negative n": (lambda: forest_of(-3, U, V, W), ValueError, r"^n is -3, but has to be from 0 to 2\^26$"),
    "rows of different lengths": (lambda: forest_of(3, [[0, 1], [1]], W), ValueError, "^edges can't become an array: "),
}
WEIGHTS = {
    "NaN": ([1, math.nan], ValueError, r"^w\[1\] is NaN, which can't be ordered: leave such edges out first$"),
    "None": ([1, None], TypeError, r"^w has the dtype object, because w\[1\] is None, but weights are whole numbers or floats of up to 64 bits$"),
    "texts": (["1", "2"], TypeError, r"^w has the dtype <U1, because w\[0\] is '1', but weights are .*: \.astype\(float\) converts texts$"),
    "texts with decimal commas": (["1,5", "2,0"], TypeError, r"^w has the dtype <U3, because w\[0\] is '1,5', but weights are .*: pandas\.read_csv\(\.\.\., decimal=','\) reads such texts$"),
    "texts that are no numbers": (["1 km", "2 km"], TypeError, r"^w has the dtype <U4, because w\[0\] is '1 km', but weights are whole numbers or floats of up to 64 bits$"),
    "complex numbers": ([1j, 2], TypeError, "^w has the dtype complex128, but weights are"),
    "long doubles": (np.array(W, np.longdouble), TypeError, "^w has the dtype float128, but weights are"),
    "dates": (np.array(["2020-01-01", "2020-01-02"], "M8[D]"), TypeError, r"^w has the dtype datetime64\[D\], but weights are"),
    "times": (np.array(W, "m8[s]"), TypeError, r"^w has the dtype timedelta64\[s\], but weights are"),
    "decimals": ([1, decimal.Decimal(2)], TypeError, r"^w has the dtype object, because w\[1\] is Decimal\('2'\), but weights are"),
    "past 2^63": (np.array([1, 2**64 - 1], np.uint64), ValueError, r"^w\[1\] is 18446744073709551615, but a weight is at most 2\^63 - 1$"),
    "past 2^64": ([1, 2**64], TypeError, r"because w\[1\] is 18446744073709551616, but weights are"),
    "what doubles round": ([0.5, 2**53 + 1], ValueError, r"^w\[1\] is 9007199254740993, which numpy would round to 9007199254740992.0"),
    "in two dimensions": ([[1], [2]], ValueError, "^w has 2 dimensions, but needs one$"),
}
TABLE = {"u": ["a", "b"], "v": ["b", "c"], "w": [1, 2]}
FRAMES = {
    "a graph of igraph": (lambda: from_edges(Igraph()), TypeError, r"^a graph of igraph isn't a frame: g\.get_edge_dataframe\(\) makes one, with the columns"),
    "a forest": (lambda: from_edges(PATH), TypeError, r"^a Forest isn't a frame: forest\.to_frame\(\) makes one$"),
    "a file": (lambda: from_edges("roads.csv"), TypeError, r"^a str isn't a frame: pandas\.read_csv reads one from a file, and boruvka\.read_gr reads a \.gr file$"),
    "three columns": (lambda: from_edges(TABLE["u"], TABLE["v"], TABLE["w"]), TypeError, r"^u is \['b', 'c'\], but has to be the name of one column of the frame$"),
    "columns instead of their names": (lambda: from_edges(TABLE, TABLE["u"], TABLE["v"]), TypeError, r"^u is \['a', 'b'\], but has to be the name of one column of the frame$"),
    "weights instead of their name": (lambda: from_edges(TABLE, weight=[1, 2]), TypeError, r"^weight is \[1, 2\], but has to be the name of one column of the frame$"),
    "an array of weights": (lambda: from_edges(TABLE, weight=np.ones(2)), TypeError, "^weight is array.*, but has to be the name of one column"),
    "a name in another case": (lambda: from_edges({"U": ["a"], "v": ["b"], "w": [1]}), KeyError, "no column 'u'; it has 'U', 'v', 'w'; did you mean 'U'\?"),
    "a name with a space": (lambda: from_edges({"u": ["a"], "v": ["b"], "w ": [1]}), KeyError, "no column 'w'; it has 'u', 'v', 'w '; did you mean 'w '\?"),
    "one column for both endpoints": (lambda: from_edges(TABLE, "u", "u"), ValueError, "^u and v are both the column 'u': each edge would be a loop$"),
    "keys of a dict": (lambda: from_edges({**TABLE, "u": dict(a=1, b=2).keys()}), TypeError, r"^the column 'u' is a dict_keys, but has to be an array or a list: list\(column\) makes a list$"),
    "values of a dict as weights": (lambda: from_edges({**TABLE, "w": dict(a=1, b=2).values()}), TypeError, r"^the column 'w' is a dict_values, but has to be an array or a list: list\(column\)"),
    "a single weight": (lambda: from_edges({**TABLE, "w": 1}), TypeError, "^the column 'w' is 1, but has to be an array or a list$"),
    "weights as texts": (lambda: from_edges({**TABLE, "w": ["1", "2"]}), TypeError, r"^w has the dtype <U1, because w\[0\] is '1', but .*: \.astype\(float\) converts texts$"),
    "a weight that is NaN": (lambda: from_edges({**TABLE, "w": [1, math.nan]}), ValueError, r"^w\[1\] is NaN, which can't be ordered: leave such edges out first$"),
    "nothing": (lambda: from_edges(None), TypeError, "^a NoneType isn't a frame: it has no columns"),
    "maximum as a text": (lambda: from_edges(TABLE, maximum="yes"), TypeError, "^maximum is 'yes', but has to be True or False$"),
    "names that became floats": (lambda: from_edges({**TABLE, "u": [1e18, 2e18]}), ValueError, r"^row 0 of the column 'u' is 1e\+18, but from 2\^53 on a float may stand for several"),
}
USES = {
    "a forest as a table": (lambda: np.asarray(PATH), TypeError, r"^a Forest isn't an array: forest\.to_frame\(\) makes a frame"),
    "an array of points for a path": (lambda: PATH.path(POINTS, POINTS), ValueError, "^a has 2 dimensions, but needs one$"),
    "labels of what isn't a vertex": (lambda: PATH.labels(clusters=2, of=[0, 9]), ValueError, r"^of\[1\] is 9, but a vertex is at least 0 and below n = 4"),
    "labels of names without names": (lambda: PATH.labels(clusters=2, of=["a"]), TypeError, r"^of has the dtype <U1, because of\[0\] is 'a', but vertices are whole numbers"),
    "labels of one name that isn't there": (lambda: from_edges(TABLE).labels(clusters=1, of=["z"]), ValueError, r"^of\[0\] is 'z', which isn't a vertex: their names are such as 'a', 'b', 'c'$"),
    "replacements without the weights": (lambda: PATH.replacements([0, 1, 2], [1, 2, 3], 1.0), ValueError, r"^w is 1\.0, but each edge needs a weight"),
    "replacements of other edges": (lambda: PATH.replacements([0], [1], [1.0]), ValueError, "^the forest has the edge 2, but only 1 edges are passed: pass all edges of the graph$"),
    "points that are fewer than vertices": (lambda: PATH.plot([[0, 0]]), ValueError, r"^points has the shape \(1, 2\), but has to be \(4, 2\), a point in the plane for each vertex$"),
    "columns instead of chunks": (lambda: boruvka.forest_of_chunks(3, (U, V, W)), TypeError, r"^chunk 0: it has the length 2, but needs three columns: u, v and w$"),
    "three columns of three edges instead of chunks": (lambda: boruvka.forest_of_chunks(3, ([0, 1, 2], [1, 2, 0], [1, 2, 3])), TypeError, r"^chunk 0: it has numbers instead of columns, so it may be a column: \[\(u, v, w\)\] has one chunk$"),
    "a forest instead of chunks": (lambda: boruvka.forest_of_chunks(4, PATH), TypeError, r"^chunks is <Forest of .*: \[\(u, v, w\)\] has one chunk$"),
    "a function instead of chunks": (lambda: boruvka.forest_of_chunks(3, lambda: [(U, V, W)]), TypeError, "^chunks is <function .*, but has to be an iterable"),
    "a forest with names as a chunk": (lambda: boruvka.forest_of_chunks(3, [from_edges(TABLE)]), ValueError, "^chunk 0: it is a forest with names"),
    "a maximum forest as a chunk": (lambda: boruvka.forest_of_chunks(4, [PATH._replace(maximum=True)]), ValueError, "^chunk 0: it is a maximum forest, which lacks edges that a minimum forest may need"),
    "coordinates one after the other": (lambda: boruvka.show([1, 2], None), ValueError, r"^points has the shape \(2,\), but has to be \(n, 2\), .*: numpy\.column_stack\(\[x, y\]\) makes one from two arrays$"),
    "a forest instead of points": (lambda: boruvka.show(PATH), TypeError, "^a Forest isn't an array"),
    "longitude and latitude": (lambda: boruvka.show([[103.8, 1.3]], globe=True), ValueError, r"^the latitude of points\[0\] is 103\.8, .*: the latitude comes first, then the longitude$"),
    "a forest of floats in a file": (lambda: boruvka.write_gr("net.gr", PATH), TypeError, r"^w has the dtype float64, but a \.gr text has whole numbers: scale and round them first"),
    "an estimator of the module": (lambda: boruvka.HDBSCAN, AttributeError, "has no attribute 'HDBSCAN': there is boruvka.cluster.HDBSCAN$"),
    "a function of a module": (lambda: boruvka.spanning_tree, AttributeError, "has no attribute 'spanning_tree': there is boruvka.linkage.spanning_tree$"),
    "scipy's name": (lambda: boruvka.minimum_spanning_tree, AttributeError, "has no attribute 'minimum_spanning_tree': there is boruvka.sparse.minimum_spanning_tree$"),
    "a misspelled name": (lambda: boruvka.minimum_spaning_forest, AttributeError, "has no attribute 'minimum_spaning_forest': there is boruvka.minimum_spanning_forest$"),
    "a name that is like none": (lambda: boruvka.quux, AttributeError, "^module 'boruvka' has no attribute 'quux'$"),
}
CUTS = {
    "a number of clusters without its name": (lambda: labels(4, PATH, 2), TypeError, "positional arguments"),
    "both": (lambda: labels(4, PATH, clusters=2, height=1.0), TypeError, "^pass either `clusters` or `height`, not both$"),
    "neither": (lambda: labels(4, PATH), TypeError, "^pass either `clusters` or `height`, not neither$"),
    "n and forest exchanged": (lambda: labels(PATH, 4, clusters=2), TypeError, "^forest is a int, but has to be a Forest, which `spanning_tree`"),
    "too many clusters": (lambda: labels(4, PATH, clusters=9), ValueError, "^clusters is 9, but has to be from 1 to 4$"),
    "no cluster": (lambda: labels(4, PATH, clusters=0), ValueError, "^clusters is 0, but has to be from 1 to 4$"),
    "fewer clusters than components": (lambda: labels(5, PATH, clusters=1), ValueError, "^clusters is 1, but has to be from 2 to 5$"),
    "a height as a text": (lambda: labels(4, PATH, height="2"), TypeError, "^height is a str, but has to be a real number$"),
    "a linkage matrix": (lambda: labels(10, single_linkage(POINTS), clusters=2), TypeError, "^forest is a ndarray, but has to be a Forest"),
    "a tuple of arrays": (lambda: labels(4, tuple(PATH), clusters=2), TypeError, "^forest is a tuple, but has to be a Forest"),
    "points": (lambda: labels(10, POINTS, clusters=2), TypeError, "^forest is a ndarray, but has to be a Forest"),
    "another n": (lambda: labels(3, PATH, clusters=2), ValueError, "^n is 3, but has to be from 4, the number of the forest's vertices"),
    "merges of several components": (lambda: merges(5, PATH), ValueError, "^3 edges don't connect 5 vertices: a forest of several components has no linkage matrix$"),
    "merges at heights that doubles round": (lambda: forest_of(3, U, V, [2**53 + 1, 2**53]).linkage(), ValueError, r"^forest\.w\[1\] is 9007199254740993, which a double would round: "),
    "n and tree exchanged": (lambda: merges(PATH, 4), TypeError, "^forest is a int, but has to be a Forest"),
    "a forest without places": (lambda: Forest([0], [1], [2]), TypeError, "'index'"),
    "weights as texts": (lambda: Forest([0], [1], ["2"], [0]), TypeError, r"^w has the dtype <U1, because w\[0\] is '2', but weights are real numbers of up to 64 bits$"),
    "weights of a forest that doubles round": (lambda: Forest([0, 1], [1, 2], [0.5, 2**53 + 1], [0, 1]), ValueError, r"^w\[1\] is 9007199254740993, which numpy would round to 9007199254740992.0"),
    "long doubles as weights of a forest": (lambda: Forest([0], [1], np.array([1], np.longdouble), [0]), TypeError, "^w has the dtype float128, but weights are real numbers of up to 64 bits$"),
    "a single weight that is NaN": (lambda: labels(2, Forest([0], [1], [math.nan], [0]), height=1.0), ValueError, r"^forest.w\[0\] is NaN$"),
    "a merge at NaN": (lambda: merges(2, Forest([0], [1], [math.nan], [0])), ValueError, r"^forest.w\[0\] is NaN$"),
    "a weight that is NaN": (lambda: labels(3, Forest([0, 1], [1, 2], [math.nan, 2], [0, 1]), clusters=1), ValueError, r"^forest.w\[0\] is NaN$"),
    "a number of clusters as a text": (lambda: labels(4, PATH, clusters="2"), TypeError, "^clusters is '2', but has to be a whole number$"),
    "several numbers of clusters": (lambda: labels(4, PATH, clusters=np.array([2, 3])), TypeError, r"^clusters is array\(\[2, 3\]\), but has to be a whole number$"),
    "a least size as a float": (lambda: labels(4, PATH, clusters=2, min_size=1.5), TypeError, "^min_size is 1.5, but has to be a whole number$"),
    "n as a text": (lambda: labels("4", PATH, clusters=2), TypeError, "^n is '4', but has to be a whole number$"),
    "n as a float": (lambda: merges(4.0, PATH), TypeError, "^n is 4.0, but has to be a whole number$"),
    "a height as a truth": (lambda: labels(4, PATH, height=True), TypeError, "^height is a bool, but has to be a real number$"),
    "a way between names": (lambda: PATH.path("a", 1), TypeError, "^a is 'a', but has to be a whole number: the forest has no names$"),
    "a way to a float": (lambda: PATH.bottleneck(0, 1.0), TypeError, "^b is 1.0, but has to be a whole number: the forest has no names$"),
    "a forest of half a vertex": (lambda: Forest([0], [1], [2], [0], n=2.5), TypeError, "^n is 2.5, but has to be a whole number$"),
    "ends as fractions": (lambda: Forest([0.5], [1], [2], [0]), TypeError, r"^u has the dtype float64, because u\[0\] is 0\.5, but vertices are whole numbers$"),
    "ends as names": (lambda: Forest([0], ["b"], [2], [0]), TypeError, r"^v has the dtype <U1, because v\[0\] is 'b', but vertices are whole numbers$"),
    "masked weights": (lambda: Forest([0], [1], np.ma.array([2], mask=[1]), [0]), ValueError, r"^w has masked entries, such as w\[0\]: leave them out first$"),
    "a maximum that is a text": (lambda: Forest([0], [1], [2], [0], maximum="no"), TypeError, "^maximum is 'no', but has to be True or False$"),
    "names in no order": (lambda: PATH._replace(names={"a", "b", "c", "d"}), TypeError, "^names is a set, but has to be a list$"),
    "names in a dict": (lambda: PATH._replace(names=dict(a=1, b=2, c=3, d=4)), TypeError, "^names is a dict, but has to be a list$"),
    "a number instead of names": (lambda: PATH._replace(names=4), TypeError, "^names is a int, but has to be a list$"),
    "arrays of different lengths": (lambda: Forest([0, 1], [1], [2], [0]), ValueError, r"^u, v, w and index have the shapes \(2,\), \(1,\)"),
}
OF_POINTS = {
    "a coordinate that is NaN": (lambda: spanning_tree([[0, 0], [math.nan, 1]]), ValueError, r"^a coordinate of the point 1 isn't finite: y\[1, 0\] is nan$"),
    "a masked coordinate": (lambda: spanning_tree(np.ma.masked_equal([[0.0], [1.0]], 1)), ValueError, "masked entries"),
    "points of which one is masked": (lambda: spanning_tree([*np.ma.masked_equal([[0.0, 1.0], [2.0, 3.0]], 3)]), ValueError, "^y has masked entries"),
    "a masked distance in a list": (lambda: spanning_tree([1.0, np.ma.masked, 2.0]), ValueError, "^y has masked entries"),
    "points of one dimension": (lambda: spanning_tree([1.0, 2.0, 3.0, 4.0]), ValueError, r"^y has 4 entries, but no .*: pass points in one dimension as y\[:, None\]$"),
    "objects": (lambda: spanning_tree([None, 1]), TypeError, r"^y has the dtype object, because y\[0\] is None, but has to be real numbers"),
    "a generator": (lambda: single_linkage(it for it in POINTS), TypeError, "^y is a generator, "),
    "no metric": (lambda: spanning_tree(POINTS, metric="euclid"), ValueError, "^there is no metric 'euclid': it is one of euclidean, manhattan, "),
    "a metric that is a function": (lambda: spanning_tree(POINTS, metric=math.dist), ValueError, "^there is no metric <built-in function dist>: it is one of"),
    "an exponent as a text": (lambda: spanning_tree(POINTS, metric="minkowski", p="2"), TypeError, "^p is '2', but has to be a number$"),
    "an exponent of another metric": (lambda: spanning_tree(POINTS, p=3), ValueError, "^p is 3, but only the metric 'minkowski' has an exponent$"),
    "a single text": (lambda: spanning_tree("abc"), TypeError, "^y has the dtype <U3, because y is 'abc', "),
    "objects that are numbers": (lambda: spanning_tree(POINTS.astype(object)), TypeError, r"^y has the dtype object, but .*\.astype\(float\) converts them$"),
    "masked points to be drawn": (lambda: boruvka.show(np.ma.masked_equal([[1.0, 2.0]], 1)), ValueError, "^points has masked entries"),
    "points to be drawn of which one is masked": (lambda: boruvka.show([*np.ma.masked_equal([[1.0, 2.0]], 1)]), ValueError, "^points has masked entries"),
    "complex points to be drawn": (lambda: boruvka.show(np.array([[1j, 2]])), TypeError, "^points has the dtype complex128, but "),
    "points to be drawn that doubles round": (lambda: boruvka.show([[2**53 + 1, 0], [2**53, 0]]), ValueError, r"^points\[0, 0\] is 9007199254740993, which a double would round: subtract the least"),
    "long doubles to be drawn": (lambda: boruvka.show(np.zeros((2, 2), np.longdouble)), TypeError, "^points has the dtype float128, but coordinates are real numbers of up to 64 bits$"),
    "no point": (lambda: spanning_tree(np.empty((0, 2))), ValueError, "^y has no points$"),
    "a distance that is negative": (lambda: spanning_tree([1, -2, 3]), ValueError, r"^y\[1\] is -2.0, but a distance is finite and not negative$"),
    "complex coordinates": (lambda: spanning_tree([[1j], [2]]), TypeError, "^y has the dtype complex128, but has to be real numbers"),
    "long doubles": (lambda: spanning_tree(np.zeros((2, 2), np.longdouble)), TypeError, "^y has the dtype float128, .* of up to 64 bits$"),
    "dates": (lambda: spanning_tree(np.zeros((2, 2), "M8[s]")), TypeError, r"^y has the dtype datetime64\[s\]"),
    "whole numbers that doubles round": (lambda: spanning_tree([[2**53 + 2], [2**53 + 1]]), ValueError, r"^y\[1, 0\] is 9007199254740993, which a double would round: subtract the least"),
    "whole numbers with halves": (lambda: spanning_tree([[2**53 + 1, 0.5], [2**53, 0.5]]), ValueError, r"^y\[0\]\[0\] is 9007199254740993, which numpy would round"),
    "distances that doubles round": (lambda: single_linkage([2**53 + 1, 2**53, 2**53]), ValueError, r"^y\[0\] is 9007199254740993, which a double would round: minimum_spanning_forest takes"),
    "distances, and a metric": (lambda: spanning_tree([1.0, 2.0, 3.0], metric="cosine"), TypeError, r"y\[:, None\] in one dimension$"),
    "more samples than points": (lambda: spanning_tree(POINTS, min_samples=11), ValueError, "^min_samples is 11, but has to be from 1 to 10, the number of points$"),
    "samples as a text": (lambda: spanning_tree(POINTS, min_samples="2"), TypeError, "^min_samples is '2', but has to be a whole number$"),
    "samples as a float": (lambda: single_linkage(POINTS, min_samples=2.0), TypeError, "^min_samples is 2.0, but has to be a whole number$"),
    "samples as a truth": (lambda: spanning_tree(POINTS, min_samples=True), TypeError, "^min_samples is True, but has to be a whole number$"),
    "samples as a truth of numpy": (lambda: spanning_tree(POINTS, min_samples=np.True_), TypeError, r"^min_samples is (np\.)?True_?, but has to be a whole number$"),
    "an exponent past all doubles": (lambda: spanning_tree(POINTS, metric="minkowski", p=10**400), ValueError, r"^p is above the greatest double, 1\.79\S+: use numpy\.inf, or the metric 'chebyshev'$"),
    "a fraction past all doubles": (lambda: spanning_tree(POINTS, metric="minkowski", p=fractions.Fraction(10**400, 3)), ValueError, "^p is above the greatest double"),
    "an exponent that is NaN": (lambda: spanning_tree(POINTS, metric="minkowski", p=math.nan), ValueError, "^p is nan, but has to be at least 1$"),
    "an exponent as a truth": (lambda: spanning_tree(POINTS, metric="minkowski", p=True), TypeError, "^p is True, but has to be a number$"),
    "degrees": (lambda: spanning_tree([[48.1, 11.5], [52.5, 13.4]], metric="haversine"), ValueError, "^the latitude of the point 0 is 48.1, .* numpy.radians"),
}


class Mistakes(unittest.TestCase):
    def expect(self, table):
        for name, (call, error, pattern) in table.items():
            with self.subTest(name), warnings.catch_warnings():
                warnings.simplefilter("error")
                with self.assertRaisesRegex(error, pattern):
                    call()

    def test_edges(self):
        self.expect(EDGES)

    def test_weights(self):
        self.expect({name: (lambda w=w: forest_of(3, U, V, w), *more) for name, (w, *more) in WEIGHTS.items()})

    def test_frames(self):
        self.expect(FRAMES)

    def test_uses(self):
        self.expect(USES)

    def test_cuts(self):
        self.expect(CUTS)

    def test_points(self):
        self.expect(OF_POINTS)

    @unittest.skipUnless(pandas, "there is no pandas")
    def test_of_pandas(self):
        gaps = pandas.array([1.0, None], dtype="Float64")
        named = pandas.DataFrame({"name": ["a", "b"], "x": [1, 2]})
        self.expect({
            "a weight that is NA": (lambda: forest_of(3, U, V, gaps), ValueError, r"^w has masked entries, such as w\[1\]"),
            "a weight that is NA, of a series": (lambda: forest_of(3, U, V, pandas.Series(gaps)), TypeError, r"because w\[1\] is <NA>, but weights are"),
            "a vertex that is NA": (lambda: forest_of(3, pandas.Series([0, None], dtype="Int64"), V, W), TypeError, r"^u has the dtype object, because u\[1\] is <NA>, but vertices are"),
            "a column of names": (lambda: spanning_tree(named), TypeError, r"^y has the dtype object, because y\[0, 0\] is 'a', but has to be real numbers"),
            "a frame instead of edges": (lambda: forest_of(named), TypeError, "^a frame is for boruvka.from_edges$"),
            "whole numbers with halves": (lambda: spanning_tree(pandas.DataFrame({"x": [0.5, 0.5], "y": [2**53, 2**53 + 1]})), ValueError, r"^y\.iloc\[:, 1\]\[1\] is 9007199254740993, which numpy would round"),
            "times as coordinates": (lambda: spanning_tree(pandas.DataFrame({"x": pandas.to_timedelta([1, 2])})), TypeError, r"^y has the dtype timedelta64\[ns\]"),
            "a coordinate that is NA": (lambda: spanning_tree(pandas.DataFrame({"x": gaps, "y": gaps})), TypeError, r"^y has the dtype object, because y\[1, 0\] is <NA>"),
            "categories as weights": (lambda: forest_of(3, U, V, pandas.Categorical(["10", "9"])), TypeError, r"^w has the dtype <U2, because w\[0\] is '10'"),
            "a frame of a forest": (lambda: pandas.DataFrame(PATH), TypeError, r"^a Forest isn't an array: forest\.to_frame\(\) makes a frame"),
            "columns of a frame instead of their names": (lambda: from_edges(named, named["name"], named["x"]), TypeError, "^u is 0 .*, but has to be the name of one column"),
            "a frame instead of chunks": (lambda: boruvka.forest_of_chunks(3, named), TypeError, r"^chunks is a frame, but has to be an iterable of \(u, v, w\): \[\(u, v, w\)\] has one chunk$"),
            "a frame as a chunk": (lambda: boruvka.forest_of_chunks(3, [named]), TypeError, r"^chunk 0: it is a frame, .*: pass \(frame\[\"u\"\], frame\[\"v\"\], frame\[\"w\"\]\)$"),
            "series of different orders": (lambda: forest_of(3, pandas.Series(U), pandas.Series(V), pandas.Series(W)[::-1]), ValueError, "^the columns 'u' and 'w' are Series with different indexes"),
            "one column for both places": (lambda: boruvka.show(pandas.DataFrame({"lat": [1.0], "x": [2.0]}), globe=True), ValueError, "^points has the columns 'lat', 'x', but needs two"),
            "a column that isn't there": (lambda: boruvka.from_edges(named), KeyError, "the frame has no column 'u'; it has 'name', 'x'"),
        })
        for nullable in (pandas.array(U, dtype="Int64"), pandas.Series(U, dtype="Int32"), np.array(U, object)):
            self.assertEqual(forest_of(3, nullable, V, nullable).index.tolist(), [0, 1])

    @unittest.skipUnless(networkx, "there is no networkx")
    def test_of_networkx(self):
        self.expect({"a graph instead of a frame": (lambda: from_edges(networkx.path_graph(3)), TypeError, r"^a graph of networkx isn't a frame: networkx\.to_pandas_edgelist\(G\) makes one, with the columns source, target")})
        self.expect({"a graph": (lambda: forest_of(networkx.path_graph(3)), TypeError, r'minimum_spanning_tree\(G, backend="boruvka"\)$')})

    @unittest.skipUnless(sparse, "there is no scipy")
    def test_of_sparse_matrices(self):
        gap = sparse.csr_matrix(np.array([[0, math.nan], [0, 0]]))
        self.expect({
            "a matrix instead of edges": (lambda: forest_of(sparse.csr_matrix(np.eye(3))), TypeError, "boruvka.sparse.minimum_spanning_tree$"),
            "sparse points": (lambda: spanning_tree(sparse.csr_matrix(POINTS)), ValueError, r"^y has the shape \(10, 2\), .*: pass points as y\.toarray\(\)$"),
            "an oblong array": (lambda: minimum_spanning_tree(np.ones((2, 3))), ValueError, r"^csgraph has the shape \(2, 3\), but the matrix of a graph is square$"),
            "a list": (lambda: minimum_spanning_tree([1, 2, 3]), ValueError, r"^csgraph has the shape \(3,\)"),
            "a NaN that is stored": (lambda: minimum_spanning_tree(gap), ValueError, r"^csgraph\[0, 1\] is NaN$"),
            "complex weights": (lambda: minimum_spanning_tree(np.array([[0, 1j], [0, 0]])), TypeError, "^csgraph has the dtype complex128, but weights are real"),
            "complex weights that are stored": (lambda: minimum_spanning_tree(sparse.csr_matrix(np.eye(2) * 1j)), TypeError, "^csgraph has the dtype complex128"),
            "two entries in one place": (lambda: spanning_tree(sparse.coo_matrix(([2.0, 3.0], ([0, 0], [1, 1])), shape=(2, 2))), ValueError, r"^y stores 2 entries at 1 positions: y\.sum_duplicates\(\)"),
            "a negative distance": (lambda: spanning_tree(sparse.coo_matrix(([-1.0], ([1], [0])), shape=(2, 2))), ValueError, r"^y\[1, 0\] is -1.0, but a distance"),
        })
        self.assertEqual(minimum_spanning_tree(sparse.csr_matrix((0, 0))).shape, (0, 0))
        array = getattr(sparse, "coo_array", sparse.coo_matrix)
        self.assertEqual(minimum_spanning_tree(array(np.diag([2.0, 3.0], 1))).toarray()[[0, 1], [1, 2]].tolist(), [2, 3])

    def test_what_isnt_one(self):
        class Interface:
            """An array by an interface without a method."""

            def __init__(self, array):
                self.array, self.__array_interface__ = array, array.__array_interface__

        self.assertEqual(forest_of(3, *map(Interface, map(np.array, (U, V, W)))), forest_of(3, U, V, W))
        self.assertEqual(forest_of(U, V, W).n, 3)
        self.assertEqual(forest_of(None, U, V, W), forest_of(3, U, V, W))
        self.assertEqual(forest_of(u=[0], v=[1], w=[2]).n, 2)
        self.assertEqual(forest_of(3, np.array([U, V]).T, W), forest_of(3, U, V, W))
        self.assertEqual(forest_of(3, [0, 1, 2], [1, 2, 0], [1, 2, 3], maximum=True).total, 5)
        self.assertEqual(single_linkage([[1.0, 2.0]]).shape, (0, 4))
        for one, other in [("cityblock", "manhattan"), ("l1", "manhattan"), ("l2", "euclidean")]:
            self.assertEqual(spanning_tree(POINTS, metric=one), spanning_tree(POINTS, metric=other))
        # (equal points don't need all pairs)
        self.assertEqual(spanning_tree(np.zeros((60_000, 4))).total, 0)
        with self.assertWarnsRegex(UserWarning, "its rows are taken as points: pass metric"):
            single_linkage(np.abs(POINTS[:, :1] - POINTS[:, 0]))
        # (near the equator, latitudes in degrees are valid in radians)
        with self.assertWarnsRegex(UserWarning, r"^the longitude of the point 0 is 103\.8, beyond a full turn: it is taken as radians"):
            spanning_tree([[1.3, 103.8], [-1.3, 36.8]], metric="haversine")
        self.assertEqual(forest_of(3, [0, 1, 2], [1, 2, 0], [1, 2, 3], maximum=np.True_).total, 5)
        self.assertEqual(forest_of(3, U, V, W, threads=10**6), forest_of(3, U, V, W))
        # for an infinite p the greatest difference counts
        square = [[0.0, 0.0], [3.0, 4.0]]
        self.assertEqual([spanning_tree(square, metric="minkowski", p=it).w.tolist() for it in (1e300, math.inf)], [[4.0], [4.0]])
        self.assertEqual(spanning_tree([[0.0], [-0.0], [2.0]]).w.tolist(), [0.0, 2.0])
        self.assertEqual(spanning_tree(np.asmatrix(square)).w.tolist(), [5.0])


if __name__ == "__main__":
    unittest.main()
