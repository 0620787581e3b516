"""The texts of problems, commands, replies and pictures, and how names are spelled in them.

This package must not know a running network, a session, a table's file or a desk.
Entrances: `problem_text` (problems), `session_commands` and `session_replies` (sessions),
`transcript` (both together), `table_comments` (what a problem says about its table), `spelling`
(names), `events` (JSON) and `drawing` (Graphviz).
"""
