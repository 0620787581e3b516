"""What the pictures of a board and of a report have in common: which arcs they show, where places
lie, and how lines and places look.

It knows the desk, and must not know projects, the terminal or the page.
Entrances: `picture` (a picture that Graphviz draws), `layout` (where places lie), `map_spots` (a
map that a table has) and `looks` (how an arc looks)."""
