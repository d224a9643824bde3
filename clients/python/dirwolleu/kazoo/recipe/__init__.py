"""The recipes of kazoo that are here: locks, elections, parties and watchers."""
