"""Large caller-provided memory for the library libboruvka_within.a."""
from cases.embedding import INCLUDE, compiler
from cases.running import TESTS, case, expect, run
from cases.within import library


@case
def more_than_64_MiB_of_memory(room):
    made = f"{room}/regions"
    words = [compiler(), "-O1", "-Wall", "-Wextra", "-Werror", INCLUDE, "-o", made, f"{TESTS}/cases/regions.c", library()]
    expect(run(words), 0, b"", b"")
    expect(run([made]), 0, b"", b"")
