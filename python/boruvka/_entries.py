"""Zeros that scipy's sparse formats store only because they store whole blocks or diagonals."""

from __future__ import annotations

from typing import Any


def expect_no_filling(matrix: Any, name: str) -> None:
    """Raise a ValueError if the matrix stores a 0 off its main diagonal that may be an edge or may only fill the
    format.

    The format bsr stores whole blocks, and dia stores whole diagonals. Any other format stores a 0 only if it is an
    entry.
    """
    form = getattr(matrix, "format", None)
    if form == "dia" or form == "bsr" and matrix.blocksize != (1, 1):
        marks = matrix.copy()
        marks.data = matrix.data == 0
        zeros = marks.tocoo()
        is_wrong = zeros.data & (zeros.row != zeros.col)
        if is_wrong.any():
            row, column = (it[is_wrong.argmax()] for it in (zeros.row, zeros.col))
            raise ValueError(
                f"{name}[{row}, {column}] is a 0 that may be an edge or may only fill the format {form}: "
                "convert it by .tocsr(), and drop such zeros by .eliminate_zeros()"
            )
