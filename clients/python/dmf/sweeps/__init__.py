"""Try many changes, each alone on a solved copy of a network, here or in the processes of an
executor.

This package must not know tables or a desk.
Entrances: `cases` (`sweep` and the functions that make cases); `pool` and `copies` try them, and
`known_values` answers those that leave out one arc or node.
"""
