"""Maximum flows, minimum cuts and what-if sessions, by the C library of `dmf` or its program.

>>> import dmf
>>> pipes = [("lake", "mill", 3), ("mill", "sea", 2), ("lake", "sea", 1)]
>>> network = dmf.Network(pipes, source="lake", sink="sea")
>>> network.solve().value, network.cap(("mill", "sea"), 1), network.undo()
(3, 2, 3)

help(dmf.Network)         a network: its changes, flows and cuts; undo
help(dmf.Solution)        a flow: by arcs, as an array, a frame, a matrix, a dictionary
help(dmf.Cut)             the limit: its capacity, its arcs, its two sides
help(dmf.maximum_flow)    of a graph of networkx or igraph, or a matrix of scipy, in one call;
                          also minimum_cut, value alone, and vital: what is
                          lost without each arc; Network.vital_nodes: or node;
                          Network.vital_pairs: or two arcs;
                          Network.gains: what a second arc would bring,
                          Network.gains_of: or new arcs
help(dmf.read)            a network of a file; also from_networkx, from_igraph, from_scipy, and
                          Network.from_arrays, Network.from_frame
help(dmf.open_project)    a project of dmf-plan: its scenarios, compared; its steps
help(dmf.sweep)           thousands of changes, each alone; each_arc_closed,
                          each_node_shut, each_capacity_raised, each_pair_added
help(dmf.Error)           the base of all exceptions; each refusal is one, as
                          dmf.NoSuchArc: dir(dmf) has all names
help(dmf.program)         which program runs; help(dmf.library): or which library

docs/PYTHON.md says what calls cost, and how to come from networkx, scipy and igraph.
"""

from __future__ import annotations

import sys

# The version of the program that this package comes with.
__version__ = "0.2.0"

# A type checker reads these imports. Python loads a module when one of its names is first asked
# for, as the table below says.
TYPE_CHECKING = False
if TYPE_CHECKING:
    from importlib.machinery import ModuleSpec

    from .arcs import Arc as Arc
    from .cut import Cut as Cut
    from .desk.project.comparison import Comparison as Comparison
    from .desk.project.open_project import new_project as new_project
    from .desk.project.open_project import open_project as open_project
    from .desk.project.python_project import OpenProject as OpenProject
    from .desk.project.strict_json import ProjectFault as ProjectFault
    from .errors import AmbiguousArc as AmbiguousArc
    from .errors import ArcBeforeSourceAndSink as ArcBeforeSourceAndSink
    from .errors import ArcIsClosed as ArcIsClosed
    from .errors import ArcIsOpen as ArcIsOpen
    from .errors import CapacitiesPast64Bits as CapacitiesPast64Bits
    from .errors import CountOutOfRange as CountOutOfRange
    from .errors import Error as Error
    from .errors import FlowIsNotGreatest as FlowIsNotGreatest
    from .errors import HistoryOutOfRange as HistoryOutOfRange
    from .errors import JobsOutOfRange as JobsOutOfRange
    from .errors import LineTooLong as LineTooLong
    from .errors import NameNotWritable as NameNotWritable
    from .errors import NeitherSourceNorSink as NeitherSourceNorSink
    from .errors import NoCapacity as NoCapacity
    from .errors import NoMemory as NoMemory
    from .errors import NoProgram as NoProgram
    from .errors import NoSuchArc as NoSuchArc
    from .errors import NoSuchNode as NoSuchNode
    from .errors import NotAMaxProblem as NotAMaxProblem
    from .errors import NotAnArc as NotAnArc
    from .errors import NotANumber as NotANumber
    from .errors import NothingToRedo as NothingToRedo
    from .errors import NothingToUndo as NothingToUndo
    from .errors import NumberTooLarge as NumberTooLarge
    from .errors import ProblemLineExpected as ProblemLineExpected
    from .errors import Refused as Refused
    from .errors import SecondProblemLine as SecondProblemLine
    from .errors import SessionEnded as SessionEnded
    from .errors import SourceAndSinkAreTheSame as SourceAndSinkAreTheSame
    from .errors import SourceOrSinkMissing as SourceOrSinkMissing
    from .errors import TableFault as TableFault
    from .errors import TerminalNamedTwice as TerminalNamedTwice
    from .errors import TooFewArcs as TooFewArcs
    from .errors import TooManyArcs as TooManyArcs
    from .errors import Unbounded as Unbounded
    from .errors import UnknownCommand as UnknownCommand
    from .errors import UnknownLine as UnknownLine
    from .errors import UsedByTwoProcesses as UsedByTwoProcesses
    from .errors import UsedByTwoThreads as UsedByTwoThreads
    from .errors import WrongNumberOfFields as WrongNumberOfFields
    from .gains import NewArcs as NewArcs
    from .gains import SecondArcs as SecondArcs
    from .graph_flows import EdgeFlow as EdgeFlow
    from .graph_flows import MatrixFlow as MatrixFlow
    from .graph_networks import from_igraph as from_igraph
    from .graph_networks import from_networkx as from_networkx
    from .graph_networks import from_scipy as from_scipy
    from .graphs import maximum_flow as maximum_flow
    from .graphs import minimum_cut as minimum_cut
    from .graphs import value as value
    from .graphs import vital as vital
    from .losses import VitalArcs as VitalArcs
    from .losses import VitalNodes as VitalNodes
    from .losses import VitalPairs as VitalPairs
    from .network import Network as Network
    from .network import Row as Row
    from .network import ScaledNetwork as ScaledNetwork
    from .scaled_solution import ScaledSolution as ScaledSolution
    from .session.executable import program as program
    from .session.runners import library as library
    from .solution import Solution as Solution
    from .sweeps.cases import SweepResult as SweepResult
    from .sweeps.cases import each_arc_closed as each_arc_closed
    from .sweeps.cases import each_capacity_raised as each_capacity_raised
    from .sweeps.cases import each_node_shut as each_node_shut
    from .sweeps.cases import each_pair_added as each_pair_added
    from .sweeps.cases import sweep as sweep
    from .tables.network_loader import read_table as read_table
    from .tables.problem_networks import read as read
    from .tables.table_network import TableNetwork as TableNetwork

# The public names of each module. The module `errors` lists those of the exceptions itself.
_NAMES = {
    "arcs": ["Arc"],
    "cut": ["Cut"],
    "desk.project.comparison": ["Comparison"],
    "desk.project.open_project": ["new_project", "open_project"],
    "desk.project.python_project": ["OpenProject"],
    "desk.project.strict_json": ["ProjectFault"],
    "gains": ["NewArcs", "SecondArcs"],
    "graph_flows": ["EdgeFlow", "MatrixFlow"],
    "graph_networks": ["from_igraph", "from_networkx", "from_scipy"],
    "graphs": ["maximum_flow", "minimum_cut", "value", "vital"],
    "losses": ["VitalArcs", "VitalNodes", "VitalPairs"],
    "network": ["Network", "Row", "ScaledNetwork"],
    "scaled_solution": ["ScaledSolution"],
    "session.executable": ["program"],
    "session.runners": ["library"],
    "solution": ["Solution"],
    "sweeps.cases": [
        "SweepResult",
        "each_arc_closed",
        "each_capacity_raised",
        "each_node_shut",
        "each_pair_added",
        "sweep",
    ],
    "tables.network_loader": ["read_table"],
    "tables.problem_networks": ["read"],
    "tables.table_network": ["TableNetwork"],
}
_HOMES = {name: module for module, names in _NAMES.items() for name in names}
if not TYPE_CHECKING:
    # `help(dmf)` would print the full help of every name here, thousands of lines. `dir(dmf)` has
    # all names.
    __all__ = []


class _EarlierModules:
    """Finds the modules that pickles of version 0.1.0 name."""

    @staticmethod
    def find_spec(name: str, path: object = None, target: object = None) -> ModuleSpec | None:
        if not name.startswith(f"{__name__}."):
            return None
        from .earlier import spec_of

        return spec_of(name)


# This finder comes last, so it is asked only for modules that this package does not have.
sys.meta_path.append(_EarlierModules)


def __getattr__(name: str) -> object:
    """Return a public name from its module. Raises an AttributeError for any other name."""
    from importlib import import_module

    home = _HOMES.get(name)
    if home is None and not name.startswith("_"):
        from .errors import PUBLIC

        home = "errors" if name in PUBLIC else None
    if home is None:
        raise AttributeError(f"module {__name__!r} has no attribute {name!r}")
    found: object = getattr(import_module(f".{home}", __name__), name)
    globals()[name] = found
    return found


def __dir__() -> list[str]:
    from .errors import PUBLIC

    return sorted({*globals(), *_HOMES, *PUBLIC})
