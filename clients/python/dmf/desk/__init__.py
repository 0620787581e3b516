"""A planner's desk: the network of a table, the steps that she makes, and what they change.

It must not know a terminal or a page in HTML; its rooms `plan` and `board` show it, and `project`
keeps it in a file. Entrances: `workspace` (`Desk`), `steps` (what is asked and what was made),
`analysis` (what each arc is worth) and `export`."""
