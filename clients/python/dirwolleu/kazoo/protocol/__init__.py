"""The states, events and paths of kazoo.protocol."""
