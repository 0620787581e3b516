"""The desk at a terminal: commands with names, and their answers as text or JSON.

It knows the desk and projects, and must not know the page.
Entrances: `shell` (runs commands) and `prompt` (a person's keys)."""
