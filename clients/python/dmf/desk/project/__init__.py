"""A project: a file with a table and named scenarios, each a list of steps, and a journal that
keeps each act before it is shown.

It knows the desk, and must not know the terminal or the page.
Entrances: `open_project` (`dmf.open_project`), `opener` (for the tools), `scenarios` (a desk that
keeps its steps), `comparison` and `report`."""
