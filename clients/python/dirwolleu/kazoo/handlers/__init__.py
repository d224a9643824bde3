"""The names of kazoo.handlers for threads."""
