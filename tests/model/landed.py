"""The change requests of document 02 that are in, by number, in the order in which they landed: the one list of them.

A part of the model that a request changes asks `5 in LANDED`; tests/changes holds the notes of docs/changes to it."""

LANDED = [1, 4, 10, 2, 3, 5, 6]
