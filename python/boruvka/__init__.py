"""Minimum spanning forests of numpy arrays.

`minimum_spanning_forest` takes edges in arrays, `from_edges` takes edges in a table, and `forest_of_chunks` takes edges
that come in chunks. They call libboruvka, whose results are proved. The package itself is tested, not proved. `read_gr`
and `write_gr` are for the program's files. `show` draws points in a page.

These modules are loaded when they are first used:

- `boruvka.linkage` finds the tree of points, cuts trees into clusters, and computes single linkage. It needs only
  numpy.
- `boruvka.cluster` has single linkage and HDBSCAN as estimators of scikit-learn, which it needs.
- `boruvka.dask` finds the forest of a dask frame, partition by partition.
- `boruvka.sparse` replaces scipy's function for sparse matrices, and needs scipy.
- `boruvka.networkx_backend` is what networkx calls for `backend="boruvka"`.
"""

from typing import TYPE_CHECKING

from boruvka._chunks import forest_of_chunks
from boruvka._forest import minimum_spanning_forest
from boruvka._frames import from_edges
from boruvka._gr import read_gr, write_gr
from boruvka._page import show
from boruvka._result import Forest

__all__ = ["Forest", "forest_of_chunks", "from_edges", "minimum_spanning_forest", "read_gr", "show", "write_gr"]

_MODULES = ("cluster", "dask", "linkage", "networkx_backend", "sparse")
# names that people look for here, and the modules that have them
_IN_MODULES = {"cluster": ("HDBSCAN", "SingleLinkage"), "linkage": ("labels", "merges", "single_linkage", "spanning_tree"), "sparse": ("minimum_spanning_tree",)}

if TYPE_CHECKING:
    from boruvka import cluster as cluster
    from boruvka import dask as dask
    from boruvka import linkage as linkage
    from boruvka import networkx_backend as networkx_backend
    from boruvka import sparse as sparse

    __version__: str
else:

    def __getattr__(name):
        """A module of the package, or the installed version as `__version__`."""
        from importlib import import_module
        from importlib.metadata import PackageNotFoundError, version

        if name in _MODULES:
            return import_module(f"boruvka.{name}")
        if name == "__version__":
            try:
                return version("boruvka")
            except PackageNotFoundError:
                raise AttributeError("module 'boruvka' has no attribute '__version__', because it runs from its sources and isn't installed") from None
        raise AttributeError(f"module 'boruvka' has no attribute {name!r}{_hint(name)}")

    def _hint(name):
        """Where the package has this name, or a similar one."""
        from difflib import get_close_matches

        paths = {it: f"boruvka.{module}.{it}" for module, names in _IN_MODULES.items() for it in names}
        paths.update({it: f"boruvka.{it}" for it in [*__all__, *_MODULES]})
        near = [name] if name in paths else get_close_matches(name, paths, 1, 0.75)
        return f": there is {paths[near[0]]}" if near else ""


def __dir__() -> list[str]:
    return [*__all__, *_MODULES, "__version__"]
