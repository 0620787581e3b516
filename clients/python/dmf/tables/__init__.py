"""Tables of arcs as people keep them, in CSV files, workbooks and files of other programs: read to
problems and networks, and written again.

It must not know sweeps, a desk or a terminal.
Entrances: `file_kinds` (what reads each kind of file), `network_loader` (`read_table`),
`problem_networks` (`read`), `loader` (the tables that options name) and `table_writer`."""
