"""What networkx reads about the backend `boruvka` when networkx is imported.

It is outside the package and imports nothing, so networkx starts as fast as without it, and
`import boruvka.networkx_backend` works before networkx is imported.
"""

_FUNCTIONS = ("minimum_spanning_edges", "maximum_spanning_edges", "minimum_spanning_tree", "maximum_spanning_tree")


def info():
    """The description of the backend, also for networkx's documentation."""
    return {
        "backend_name": "boruvka",
        "project": "boruvka",
        "package": "boruvka",
        "short_summary": "Minimum and maximum spanning forests by a library whose calls are proved.",
        "functions": {it: {} for it in _FUNCTIONS},
    }
