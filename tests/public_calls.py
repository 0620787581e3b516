"""The public calls of the package in Python."""

from __future__ import annotations

import inspect
from typing import Any

from client_shared import dmf
from dmf import errors
from dmf.network_changes import ChangeableNetwork
from dmf.network_losses import VitalNetwork
from dmf.network_sessions import RestartableNetwork
from dmf.presentation import Presentable

# What answers in one call, and what makes a network.
ONE_CALL = (
    "value",
    "minimum_cut",
    "maximum_flow",
    "vital",
    "from_networkx",
    "from_igraph",
    "from_scipy",
)
SWEEPS = "sweep", "each_arc_closed", "each_node_shut", "each_capacity_raised", "each_pair_added"
_CALLS = {
    **{
        f"Network.{name}": getattr(dmf.Network, name)
        for kind in (dmf.Network, RestartableNetwork, VitalNetwork, ChangeableNetwork, Presentable)
        for name in vars(kind)
    },
    **{
        f"{kind.__name__}.{name}": getattr(kind, name)
        for kind in (dmf.Solution, dmf.Cut)
        for name in vars(kind)
    },
    **{name: getattr(dmf, name) for name in (*ONE_CALL, *SWEEPS)},
}
CALLS: dict[str, Any] = {name: call for name, call in _CALLS.items() if "._" not in name}
PROJECT_CALLS: dict[str, Any] = {
    **{
        f"OpenProject.{name}": inspect.getattr_static(dmf.OpenProject, name)
        for name in dir(dmf.OpenProject)
        if not name.startswith("_")
    },
    "new_project": dmf.new_project,
    "open_project": dmf.open_project,
}
# All public names except the exceptions, and the attributes of the classes above.
NAMES = {name for name in dmf._HOMES if name not in errors.PUBLIC}
NAMES |= {name.rpartition(".")[2] for name in (*CALLS, *PROJECT_CALLS)}
