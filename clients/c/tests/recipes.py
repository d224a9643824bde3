"""Tests of what is built of calls: the program `recipes`, which has a test for each name, and tells the server in memory what to do."""

import subprocess

from programs import BOUND, Case, program

NAMES = ("paths", "walks_are_cut", "registration", "registration_is_cut", "election", "semaphore", "semaphore_is_cut", "limit", "watches", "hosts", "stats")


class Recipes(Case):
    def passes(self, name):
        """Whether the test of this name passes. Lines that it prints are commands."""
        partner = self.partner()
        pipes = {"stdin": subprocess.PIPE, "stdout": subprocess.PIPE, "text": True}
        with subprocess.Popen([program("tests/recipes"), partner.host, name], **pipes) as run:
            for line in run.stdout:
                run.stdin.write(partner.ask(line.rstrip("\n")) + "\n")
                run.stdin.flush()
        self.assertEqual(run.wait(BOUND), 0, name)


for each in NAMES:
    setattr(Recipes, f"test_{each}", lambda self, name=each: self.passes(name))
