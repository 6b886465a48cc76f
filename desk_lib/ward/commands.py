"""The commands that are of wards alone, each in the module that does it. What they need is read only once one of them is given."""
import collections.abc
import importlib
import typing

from desk_lib.given import Given
from desk_lib.program import Program

Run = collections.abc.Callable[[typing.Any, Given, Program], int]


def of(module: str, name: str) -> Run:
    """The command of a module of desk_lib/ward."""

    def run(options: typing.Any, given: Given, roster: Program) -> int:
        does: Run = getattr(importlib.import_module(f"desk_lib.ward.{module}"), name)
        return does(options, given, roster)

    return run


run_new, run_shifts = of("creating", "run_new"), of("creating", "run_shifts")
run_ask, run_asks, run_unask = (of("asking", name) for name in ("run_ask", "run_asks", "run_unask"))
run_repair, run_take, run_publish = (of("rosters", name) for name in ("run_repair", "run_take", "run_publish"))
run_versions, run_undo, run_redo = (of("versions", name) for name in ("run_versions", "run_undo", "run_redo"))
run_diff, run_backup = of("versions", "run_diff"), of("versions", "run_backup")
run_export, run_next = of("months", "run_export"), of("months", "run_next_ward")


def run_serve(options: typing.Any, given: Given, roster: Program) -> int:
    """Shows a ward in a browser."""
    # (other commands start the quicker without this import)
    from desk_lib.serve import starting

    return starting.run_serve(options, given, roster)
