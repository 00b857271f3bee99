"""Standard input and output, terminals that cannot show everything, interrupts, and files made to hurt."""

import csv
import io
import json
import os
import signal
import subprocess
import sys
import time
import unittest
from pathlib import Path

from bahrufaz import Graph

try:
    import resource
except ImportError:  # where there is no such limit
    resource = None

from .commands import CommandCase
from .worlds import CHECKOUT, pattern_a, small_world


def run(*arguments: str, given: bytes = b"", bounded: int = 0, **environment: str) -> subprocess.CompletedProcess:
    """Runs the command in a process of its own, where it has real standard input and output."""
    bound = (lambda: resource.setrlimit(resource.RLIMIT_AS, (bounded, bounded))) if bounded else None
    return subprocess.run(
        [sys.executable, "-m", "bahrufaz", *arguments],
        input=given,
        capture_output=True,
        env={"PATH": os.environ["PATH"], "PYTHONPATH": str(CHECKOUT / "python"), **environment},
        check=False,
        timeout=120,
        preexec_fn=bound,
    )


class Streams(CommandCase):
    def assert_answer(self, done: subprocess.CompletedProcess) -> str:
        self.assertEqual((done.returncode, done.stderr), (0, b""))
        return done.stdout.decode("utf-8")

    def test_standard_input_is_told_by_what_it_is(self):
        feed, store, text = Path("world.feed").read_bytes(), small_world().build().data, Path("a.pat").read_bytes()
        expected = self.answer("list", "world.feed", "a.pat")
        self.assertEqual(self.assert_answer(run("list", "-", "a.pat", given=feed)), expected)
        self.assertEqual(self.assert_answer(run("list", "world.feed", "-", given=text)), expected)
        self.assertEqual(self.assert_answer(run("list", "world.feed", "-", given=pattern_a().encode())).split("\n")[0], expected.split("\n")[0])
        self.assertEqual(self.assert_answer(run("list", "--names", "world.feed", "-", "a.pat", given=store)), expected)
        self.assertIn("standard input is admitted", self.assert_answer(run("admit", "-", given=store)))
        self.assertIn(b"standard input can be read once", run("list", "-", "-", given=feed).stderr)
        self.assertIn(b"standard input:1: expected label", run("list", "-", "a.pat", given=b"knot\nnode a x\n").stderr)

    def test_a_pipe_from_import_to_list(self):
        edges = b"from,to\na,b\n"
        feed = run("import", "-", "--label", "x", "-o", "-", given=edges)
        self.assertEqual(feed.returncode, 0)
        self.assertIn(b"2 nodes, 1 edge, 1 label", feed.stderr)
        Path("x.pat").write_text("node a x\nnode b x\nedge a -> b\n")
        measured = run("measure", "-", "--for", "x.pat", "-o", "-", given=feed.stdout)
        store = run("build", "-", "-o", "-", given=measured.stdout)
        self.assertIn(b"2 nodes", store.stderr)
        Path("n.pat").write_text("label x 1\nnode a x\nnode b x\nedge a -> b\n")
        self.assertIn("1 match", self.assert_answer(run("list", "-", "n.pat", given=store.stdout)))
        graphml = b'<graphml><graph><node id="a"/></graph></graphml>'
        self.assertIn(b"node a  x", run("import", "-", "--label", "x", "-o", "-", given=graphml).stdout)

    @unittest.skipUnless(os.path.exists("/dev/fd") and os.path.exists("/dev/full"), "there are no such devices here")
    def test_pipes_with_names_closed_streams_and_full_disks(self):
        def shell(command: str) -> tuple[int, str]:
            environment = {"PATH": f"{CHECKOUT / 'bin'}:{os.environ['PATH']}"}
            done = subprocess.run(["bash", "-c", command], capture_output=True, env=environment, check=False)
            return done.returncode, (done.stdout + done.stderr).decode()

        expected = self.answer("list", "world.feed", "a.pat")
        self.assertEqual(shell("bahrufaz list <(cat world.feed) <(cat a.pat)"), (0, expected))
        self.assertEqual(shell("mkfifo p; cat p >got.store & bahrufaz build world.feed -o p && wait && bahrufaz admit got.store")[0], 0)
        self.assertEqual(shell("bahrufaz list world.feed a.pat >&-"), (2, "bahrufaz: standard output is closed\n"))
        self.assertEqual(shell("bahrufaz list - a.pat <&-"), (2, "bahrufaz: standard input is closed\n"))
        self.assertEqual(shell("bahrufaz list none.feed a.pat 2>&-"), (2, ""))
        self.assertEqual(shell("bahrufaz list none.feed a.pat 2</dev/null"), (2, ""))
        self.assertEqual(shell("bahrufaz list world.feed a.pat >/dev/full")[0], 2)
        self.assertEqual(shell("bahrufaz build world.feed --draft -o /dev/full"), (2, "bahrufaz: /dev/full: No space left on device\n"))

    def test_bytes_of_a_pattern_to_standard_output(self):
        self.assertEqual(run("pattern", "a.pat", "world.feed", "-o", "-").stdout, pattern_a().encode())

    def test_terminals_without_the_characters(self):
        Path("w.feed").write_text('label x\nnode "Größe 重" x\nconstraint -> x at most 1\n', encoding="utf-8")
        Path("x.pat").write_text("node a x\n")
        plain = {"PYTHONIOENCODING": "ascii", "LC_ALL": "C"}
        for form in ((), ("--csv",), ("--json",)):
            done = run("list", *form, "w.feed", "x.pat", **plain)
            self.assertIn("Größe 重", self.assert_answer(done))  # a pipe gets UTF-8, whatever the locale
        with open(os.devnull, "wb") as nowhere:
            script = "import sys; sys.stdout.isatty = lambda: True; from bahrufaz.command import main; main(['list', '--json', 'w.feed', 'x.pat'])"
            environment = {"PATH": os.environ["PATH"], "PYTHONPATH": str(CHECKOUT / "python"), **plain}
            done = subprocess.run([sys.executable, "-c", script], stdout=subprocess.PIPE, stderr=nowhere, env=environment, check=False)
        self.assertTrue(done.stdout.isascii())
        self.assertEqual(json.loads(done.stdout)["rows"], [["Größe 重"]])

    def test_names_with_escape_sequences_are_shown_visibly(self):
        Path("w.feed").write_text('label x\nnode "\\u001b[31mred" x\nconstraint -> x at most 1\n')
        Path("x.pat").write_text("node a x\n")
        for command in (["list"], ["list", "--json"], ["draw"]):
            self.assertNotIn("\x1b", self.answer(*command, "w.feed", "x.pat"))
        self.assertNotIn("\x1b", self.answer("text", "w.feed"))
        self.assertNotIn("\x1b", self.answer("show", "w.feed"))
        self.assertIn("\\u001b[31mred", self.answer("list", "w.feed", "x.pat"))
        # CSV for a program has the name as it is
        self.assertEqual(list(csv.reader(io.StringIO(self.answer("list", "--csv", "w.feed", "x.pat"))))[1], ["\x1b[31mred"])

    def test_an_interrupt_at_any_time_ends_quietly(self):
        Path("large.feed").write_text("label x 1\n" + "".join(f"node n{place} x\n" for place in range(60_000)))
        script = (
            "import sys; from bahrufaz.__main__ import run; sys.argv[1:] = ['build', 'large.feed', '-o', 'large.store']\n"
            "print('ready', flush=True); status = run(); print('status', status, flush=True); sys.exit(status)"
        )
        environment = {"PATH": os.environ["PATH"], "PYTHONPATH": str(CHECKOUT / "python")}
        for delay in (0.02, 0.1, 0.3, 0.6):
            process = subprocess.Popen(
                [sys.executable, "-c", script], stdout=subprocess.PIPE, stderr=subprocess.PIPE, env=environment
            )
            self.assertEqual(process.stdout.readline(), b"ready\n")
            time.sleep(delay)
            process.send_signal(signal.SIGINT)
            out, err = process.communicate()
            status, told = process.returncode, out.rpartition(b"status ")
            # one that comes after the command has returned may end Python itself: the command's status is then what was printed
            if status == -signal.SIGINT and told[1]:
                status = int(told[2])
            self.assertIn(status, (0, 130), err)
            self.assertEqual(err, b"")
        self.assertFalse([name for name in os.listdir(".") if name.startswith(".bahrufaz-")])


class MadeToHurt(CommandCase):
    def test_an_xml_bomb(self):
        entities = '<!ENTITY a0 "ha">' + "".join(f'<!ENTITY a{n} "{f"&a{n - 1};" * 10}">' for n in range(1, 10))
        Path("bomb.graphml").write_text(f"<?xml version='1.0'?><!DOCTYPE g [{entities}]><graphml><graph><node id='&a9;'/></graph></graphml>")
        self.assert_status(2, "bomb.graphml:1: a document with entities of its own is not read", "import", "bomb.graphml", "--label", "x", "-o", "x.feed")

    def test_one_endless_line(self):
        Path("line.feed").write_text("label x\nnode " + "n" * 3_000_000)
        self.assert_status(2, "line.feed:2: a line has at most 100,000 characters, and this has 3,000,005", "build", "line.feed", "-o", "x.store")

    @unittest.skipUnless(resource, "memory cannot be bounded here")
    def test_memory_is_bounded_for_many_lines(self):
        for name, line in {"same.feed": b"node a x\n", "junk.feed": b"ab\n", "empty.feed": b"\n", "edges.feed": b"edge a -> b\n"}.items():
            Path(name).write_bytes(b"label x\n" + line * ((24 << 20) // len(line)))
            done = run("build", name, "-o", "x.store", bounded=400 << 20)
            self.assertEqual(done.returncode, 2, (name, done.stderr[-300:]))
            self.assertIn(name.encode(), done.stderr)
            self.assertNotIn(b"memory", done.stderr)
            os.remove(name)

    def test_a_name_of_a_megabyte(self):
        name = "n" * (1 << 20)
        Path("e.csv").write_text(f"from,to\n{name},b\n")
        self.assert_status(2, "e.csv:2: ", "import", "e.csv", "--label", "x", "-o", "x.feed")
        Path("g.graphml").write_text(f'<graphml><graph><node id="{name}"/></graph></graphml>')
        self.assert_status(2, "a name has at most 1,000 characters, and this has 1,048,576", "import", "g.graphml", "--label", "x", "-o", "x.feed")

    @unittest.skipUnless(os.path.exists("/dev/zero"), "there is no endless file here")
    def test_an_endless_file(self):
        done = run("show", "/dev/zero")
        self.assertEqual(done.returncode, 1)
        self.assertIn(b"/dev/zero: refused with 1", done.stderr)
        self.assertEqual(run("list", "world.feed", "/dev/zero").returncode, 1)

    def test_deep_and_strange_files_end_in_a_clear_word(self):
        for name, content in {
            "nul.feed": b"label x\0\nnode a x\n",
            "deep.graphml": b"<graphml>" * 5_000,
            "empty.graphml": b"",
            "other.graphml": b"\xff\xfe\x00\x01",
            "empty.csv": b"",
            "nul.csv": b"from,to\n\0,\0\n",
        }.items():
            Path(name).write_bytes(content)
            command = ["build", name, "-o", "x.store"] if name.endswith(".feed") else ["import", name, "--label", "x", "-o", "x.feed"]
            status, _, err = self.run_command(*command)
            self.assertEqual(status, 2, (name, err))
            self.assertIn(name, err)
            self.assertLess(len(err), 300)
            self.assertTrue(err.isprintable() or err.endswith("\n") and err[:-1].isprintable(), err)


class Lists(CommandCase):
    def test_limit(self):
        Path("two.pat").write_text("node a locale\n")
        out = self.answer("list", "--limit", "1", "world.feed", "two.pat")
        self.assertEqual(out, "2 matches, the first 1 shown; 2 entries read of at most 2 (2 for nodes, 0 for edges)\n\na\nenglish\n")
        told = json.loads(self.answer("list", "--limit", "1", "--json", "world.feed", "two.pat"))
        self.assertEqual((told["matches"], told["rows"]), (2, [["english"]]))
        self.assertEqual(self.answer("list", "--limit", "1", "--csv", "world.feed", "two.pat"), "a\nenglish\n")
        self.assertEqual(self.answer("list", "--limit", "2", "world.feed", "two.pat"), self.answer("list", "world.feed", "two.pat"))

    def test_counts_in_every_form(self):
        Path("only.pat").write_text("node a screen\n")
        Path("wrong.pat").write_text("node a scren\nnod b\n")
        paths = ["a.pat", "only.pat", "wrong.pat", "none.pat"]
        status, out, err = self.run_command("list", "--count", "world.feed", *paths)
        self.assertEqual((status, err), (2, ""))
        self.assertEqual(
            out,
            "pattern    answer  matches  read   T\n"
            "a.pat      0             1     8  38\n"
            "only.pat   7                          a pattern node or edge is not covered\n"
            "wrong.pat  wrong                      wrong.pat:2: expected label, node or edge, found 'nod'\n"
            "none.pat   wrong                      none.pat: No such file or directory\n",
        )
        told = json.loads(self.run_command("list", "--count", "--json", "world.feed", *paths)[1])
        self.assertEqual(told["patterns"][0], {"pattern": "a.pat", "answer": 0, "matches": 1, "read": 8, "T": 38})
        self.assertEqual([row["answer"] for row in told["patterns"]], [0, 7, "wrong", "wrong"])
        rows = list(csv.DictReader(io.StringIO(self.run_command("list", "--count", "--csv", "world.feed", *paths)[1])))
        self.assertEqual([row["matches"] for row in rows], ["1", "", "", ""])
        self.assert_status(2, "not allowed with argument", "list", "--json", "--csv", "world.feed", "a.pat")
        self.assert_status(2, "--count shows no matches", "list", "--count", "--limit", "1", "world.feed", "a.pat")

    def test_compare(self):
        Path("some.pat").write_text("node f field value > 100\nnode s format\nedge f -> s\nnode l locale\nedge l -> s\n")
        Path("all.pat").write_text("node f field\nnode s format\nedge f -> s\nnode l locale\nedge l -> s\n")
        out = self.answer("compare", "world.feed", "some.pat", "all.pat", "--by", "f")
        self.assertEqual(out, "by f: 1 in both, 0 only in some.pat, 1 only in all.pat\n\nonly in  f\nall.pat  weight\n")
        self.assertIn("by f, s, l: 1 in both", self.answer("compare", "world.feed", "some.pat", "all.pat"))
        told = json.loads(self.answer("compare", "--json", "world.feed", "all.pat", "some.pat", "--by", "f,l"))
        self.assertEqual((told["both"], told["only"]), (1, [{"in": "all.pat", "row": ["weight", "german"]}]))
        self.assertEqual(self.answer("compare", "--csv", "world.feed", "all.pat", "some.pat", "--by", "f"), "only in,f\nall.pat,weight\n")
        self.assertEqual(self.answer("compare", "world.feed", "all.pat", "all.pat"), "by f, s, l: 2 in both, 0 only in all.pat, 0 only in all.pat\n")
        self.assert_status(2, "no pattern node is named g in both patterns", "compare", "world.feed", "all.pat", "some.pat", "--by", "g")
        self.assert_status(2, "no node of the same name", "compare", "world.feed", "all.pat", "a.pat")

    def test_many_rows_are_all_there(self):
        graph = Graph()
        graph.add_label("x")
        for place in range(300):
            graph.add_node(f"n{place}", "x")
        graph.add_constraint([], "x", 300)
        graph.write("w.feed")
        Path("two.pat").write_text("node a x\nnode b x\n")
        self.assertEqual(len(self.answer("list", "w.feed", "two.pat").split("\n")), 300 * 299 + 4)
        self.assertEqual(len(json.loads(self.answer("list", "--json", "w.feed", "two.pat"))["rows"]), 300 * 299)
