"""The desk in a browser: pictures, lists and what a click does, by a server that only this machine
reaches.

It knows the desk and projects, and must not know the terminal.
Entrances: `routes` (`Board`) and `server` (`Server`); `page/` has what the browser runs."""
