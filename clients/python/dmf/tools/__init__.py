"""The tools `dmf-problem`, `dmf-names`, `dmf-dot`, `dmf-sweep`, `dmf-plan` and `dmf-board`, each
with a `main`.

This package may use all others, and none uses it.
Entrances: the `main` of the module that is named after the tool. `command` runs it; `options` and
`desk_options` have the options that the tools share.
"""

# The words by which the command `dmf` runs the tools.
TOOLS = ("plan", "board", "sweep", "problem", "names", "dot")
