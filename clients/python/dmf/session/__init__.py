"""How a network is solved: sessions of the C library or of the program, and answers without a
session.

This package knows only the numbers of nodes and arcs, and must not know names, tables or a
`Network`.
Entrances: `base` (`Session`, and what it is asked), `runners` (begins one), `fresh` (answers from
scratch) and `column_texts` (columns as lines, and lines as columns).
"""
