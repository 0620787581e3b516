"""A model of a network with trials, and of a desk with scenarios: whole states in lists, as the
second implementation has them for a session. The library, the program, desks and projects are
driven by the same random acts as the model, and compared with it after each."""
