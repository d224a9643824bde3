"""Tests of the example `tree`, over the server in memory and one that does what a test says."""

import signal
import struct
import subprocess
import time

from partner import EXISTS, GET_DATA, PING, STAT, texts
from programs import BOUND, Case, program

PROGRAM = program("tree")
GET_CHILDREN2 = 12


class Tree(Case):
    def show(self, servers, path="/t"):
        self.shown = self.saying(PROGRAM, servers, path)

    def begin(self, *options):
        """A server with a tree, and the program that shows it."""
        partner = self.partner(*options)
        partner.do("create /t root", "create /t/b 2", "create /t/a 1", "create /t/a/x deep", "create /t/a-b 3", "create /other 4")
        self.show(partner.host)
        self.assertEqual(self.subtree(), ['/t "root"', '/t/a "1"', '/t/a/x "deep"', '/t/a-b "3"', '/t/b "2"'])
        return partner

    def subtree(self):
        """The nodes of the next subtree."""
        count, _, _, _, zxid = self.shown.line().split(" ")
        self.zxid = int(zxid)
        return [self.shown.line().removeprefix("  ") for _ in range(int(count))]

    def wait_for(self, is_wanted):
        """The first subtree that is wanted. Zxids do not go back."""
        while True:
            before = self.zxid
            subtree = self.subtree()
            self.assertGreaterEqual(self.zxid, before)
            if is_wanted(subtree):
                return subtree

    def expect_end(self):
        self.shown.process.send_signal(signal.SIGTERM)
        self.assertEqual(self.shown.process.wait(BOUND), 0)

    def test_changes(self):
        partner = self.begin()
        partner.do("set /t/a 9", "delete /t/a/x", "create /t/b/new 7")
        wanted = ['/t "root"', '/t/a "9"', '/t/a-b "3"', '/t/b "2"', '/t/b/new "7"']
        self.wait_for(lambda one: one == wanted)
        partner.do("delete /t/b/new", "create /t/b/new 8")
        self.wait_for(lambda one: one[-1] == '/t/b/new "8"')
        self.expect_end()

    def test_node_that_comes_and_goes(self):
        partner = self.begin()
        for _ in range(20):
            partner.do("delete /t/b", "create /t/b again")
        self.wait_for(lambda one: one[-1] == '/t/b "again"')

    def test_lost_connection_and_expired_session(self):
        partner = self.begin()
        partner.do("drop", "set /t/a 5")
        self.wait_for(lambda one: '/t/a "5"' in one)
        partner.do("down", "create /t/c 6", "up")
        self.wait_for(lambda one: one[-1] == '/t/c "6"')
        partner.do("expire", "delete /t/c")
        self.wait_for(lambda one: one[-1] == '/t/b "2"')
        self.expect_end()

    def test_root_that_is_not_there(self):
        partner = self.partner()
        self.show(partner.host, "/later")
        self.wait_for_words("tree: no node: /later\n")
        partner.do("create /later 1", "create /later/one 2")
        self.zxid = 0
        self.wait_for(lambda one: one == ['/later "1"', '/later/one "2"'])
        partner.do("delete /later/one", "delete /later")
        self.wait_for_words("tree: no node: /later\ntree: no node: /later\n")
        partner.do("create /later 3")
        self.wait_for(lambda one: one == ['/later "3"'])

    def test_tree_below_a_chroot(self):
        partner = self.begin()
        self.show(partner.host + "/t/a", "/")
        self.assertEqual(self.subtree(), ['/ "1"', '/x "deep"'])
        partner.do("create /t/a/y more")
        self.wait_for(lambda one: one == ['/ "1"', '/x "deep"', '/y "more"'])

    def test_pieces(self):
        self.begin("--piece", "1").do("set /t/a 2")
        self.wait_for(lambda one: '/t/a "2"' in one)

    def test_more_nodes_than_are_read_at_once(self):
        partner = self.partner()
        partner.do("create /t root", *(f"create /t/n{number:04} -" for number in range(700)))
        self.show(partner.host)
        self.assertEqual(len(self.subtree()), 701)

    def serve(self, read, kinds=None):
        """A server of /t with the child /t/a, whose data are read by this function of the line and the xid. The kinds of its reads are noted."""

        def serve(_, line):
            line.admit(10_000)
            while True:
                frame = line.take_payload()
                xid, kind = struct.unpack(">ii", frame[:8])
                is_child = b"/t/a" in frame
                if kinds is not None and is_child and kind != GET_CHILDREN2:
                    kinds.append(kind)
                if kind == GET_DATA and is_child:
                    read(line, xid)
                elif kind == GET_DATA:
                    line.answer(xid, 0, struct.pack(">i", 4) + b"root" + STAT)
                elif kind == GET_CHILDREN2:
                    line.answer(xid, 0, texts(*([] if is_child else ["a"])) + STAT)
                else:
                    line.answer(xid, 0, b"" if kind == PING else STAT)
                self.assertIn(kind, (GET_DATA, GET_CHILDREN2, EXISTS, PING))

        server = self.server(serve)
        self.show(server.host)

    def test_refused_reads(self):
        """The program goes on at each code, and reads once a second at most. It says which are no wait for a server that is busy."""
        codes, reads, answers = [-127, -102], [], []

        def read(line, xid):
            reads.append(time.monotonic())
            code = codes.pop() if codes else 0
            answers.append(time.monotonic())
            line.answer(xid, code, b"" if code else struct.pack(">i", 3) + b"one" + STAT)

        self.serve(read)
        self.assertEqual(self.subtree(), ['/t "root"', '/t/a "one"'])
        self.assertGreater(min(after - before for before, after in zip(answers, reads[1:])), 0.95)
        self.wait_for_words("tree: the node's ACL does not admit this client: /t/a\n")
        self.assertNotIn("too much to do", self.said())

    def test_node_that_was_not_there(self):
        """Whether there is one is asked at once, and where there is, it is read again."""
        codes, kinds = [-101], []

        def read(line, xid):
            code = codes.pop() if codes else 0
            line.answer(xid, code, b"" if code else struct.pack(">i", 3) + b"one" + STAT)

        self.serve(read, kinds)
        self.assertEqual(self.subtree(), ['/t "root"', '/t/a "one"'])
        self.assertEqual(kinds, [GET_DATA, EXISTS, GET_DATA])
        self.assertNotIn("/t/a", self.said())

    def test_tree_that_never_settles(self):
        """Each answer is stale at once, until the server is quiet: there is no subtree before."""
        reads = []

        def read(line, xid):
            reads.append(xid)
            reply = struct.pack(">iqi", xid, 5, 0) + struct.pack(">i", 3) + b"one" + STAT
            notice = struct.pack(">iqi", -1, -1, 0) + struct.pack(">iii", 3, 3, 4) + b"/t/a"
            frames = [reply] if len(reads) == 50 else [reply, notice]
            line.send(*frames)

        self.serve(read)
        self.assertEqual(self.subtree(), ['/t "root"', '/t/a "one"'])
        self.assertEqual(len(reads), 50)

    def test_words_that_are_refused(self):
        for status, *words in ((2,), (2, "127.0.0.1:", "/"), (1, "127.0.0.1:1", "t")):
            done = subprocess.run([PROGRAM, *words], capture_output=True, timeout=BOUND, check=False)
            self.assertEqual((done.returncode, done.stdout), (status, b""), words)
