"""How long tests wait for what is to come."""

# So many seconds pass only if something is wrong, also on a slow machine with much else to do.
SECONDS = 300
