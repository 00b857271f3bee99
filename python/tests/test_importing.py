"""Graphs from CSV, GraphML and networkx."""

import importlib.util
import tempfile
import unittest
from pathlib import Path

from bahrufaz import Graph, Wrong, WrongGraph, WrongText
from bahrufaz.importing import Keys, from_networkx, import_csv, import_graphml, to_networkx

from .worlds import EXAMPLES, SMALL, small_world

IMPORTS = EXAMPLES / "import"
HAS_NETWORKX = importlib.util.find_spec("networkx") is not None


class InDirectory(unittest.TestCase):
    def setUp(self):
        self.directory = tempfile.TemporaryDirectory()
        self.addCleanup(self.directory.cleanup)

    def file(self, name: str, text: str) -> Path:
        path = Path(self.directory.name) / name
        path.write_text(text, encoding="utf-8")
        return path

    def assert_small_world_without_constraints(self, graph: Graph):
        expected = small_world()
        self.assertEqual(graph.nodes, expected.nodes)
        self.assertEqual(graph.edges, expected.edges)
        self.assertEqual(graph.names.nodes, expected.names.nodes)
        self.assertEqual(graph.names.labels, expected.names.labels)
        self.assertEqual(graph.constraints, [])


class Csv(InDirectory):
    def test_the_example_is_the_small_world(self):
        imported = import_csv(IMPORTS / "edges.csv", IMPORTS / "nodes.csv")
        self.assert_small_world_without_constraints(imported.graph)
        self.assertEqual(imported.notes, [])

    def test_edges_alone(self):
        edges = self.file("e.csv", "Source;Target;weight\na;b;1\nb;c;1\na;b;2\n\n")
        imported = import_csv(edges, label="thing")
        self.assertEqual(imported.graph.nodes, [(1, 0)] * 3)
        self.assertEqual(imported.graph.edges, {(0, 1), (1, 2)})
        self.assertEqual(imported.notes, ["1 repeated edges were left out"])

    def test_other_columns_and_quotes(self):
        nodes = self.file("n.csv", 'id,kind,size\n"a, b",x,\n17,y,-5\n')
        edges = self.file("e.csv", 'from\tto\n17\ta, b\n')
        graph = import_csv(edges, nodes, keys=Keys("id", "kind", "size")).graph
        self.assertEqual(graph.nodes, [(1, 0), (2, -5)])
        self.assertEqual(graph.edges, {(1, 0)})
        self.assertEqual(Graph.of_text(graph.text()).draft(), graph.draft())
        self.assertIn('node "17"', graph.text())

    def test_line_feeds_in_a_cell(self):
        nodes = self.file("n.csv", 'name,label\n"two\nlines",x\nb,x\n')
        edges = self.file("e.csv", 'from,to\n"two\nlines",b\nb,none\n')
        with self.assertRaisesRegex(WrongText, "e.csv:4: no node is named none"):
            import_csv(edges, nodes)
        graph = import_csv(self.file("e.csv", 'from,to\r\n"two\r\nlines",b\r\n'), nodes).graph
        self.assertEqual(graph.names.nodes.name(0), "two\nlines")
        self.assertEqual(graph.edges, {(0, 1)})
        self.assertIn('node "two\\nlines"', graph.text())

    def test_an_empty_file_and_an_open_quote(self):
        self.assert_error("e.csv:1: expected a first line with the columns from, to", "")
        self.assert_error("e.csv:3: expected CSV: unexpected end of data", 'from,to\na,b\n"a,b\nb,a\n')
        self.assert_error("e.csv:2: expected CSV: ',' expected after '\"'", 'from,to\n"a"x,b\n')

    def test_values_are_whole_numbers_as_they_are_typed(self):
        for value in ("1_000", "2.0", "٣", "+ 1", "0x10"):
            self.assert_error(f"n.csv:2: a value is a whole number, and {value} is none", "from,to\n", f"name,label,value\na,x,{value}\n")

    def assert_error(self, message: str, edges: str, nodes: str = "name,label,value\na,x,1\nb,x,1\n"):
        with self.assertRaises(WrongText) as caught:
            import_csv(self.file("e.csv", edges), self.file("n.csv", nodes))
        self.assertIn(message, str(caught.exception))

    def test_errors(self):
        self.assert_error("e.csv:1: expected a first line with the columns from, to or source, target", "a,b\n")
        self.assert_error("e.csv:3: no node is named c", "from,to\na,b\na,c\n")
        self.assert_error("e.csv:2: an edge joins two different nodes", "from,to\na,a\n")
        self.assert_error("e.csv:2: expected 2 columns, found 3", "from,to\na,b,c\n")
        self.assert_error("n.csv:3: a value is a whole number, and 2,5 is none", "from,to\n", 'name,label,value\na,x,1\nb,x,"2,5"\n')
        self.assert_error("n.csv:2: the node has no label", "from,to\n", "name,label\na,\n")
        self.assert_error("n.csv:1: expected a first line with the columns name, label", "from,to\n", "name\na\n")
        self.assert_error("n.csv:3: node a is there already", "from,to\n", "name,label\na,x\na,x\n")
        with self.assertRaisesRegex(Wrong, "give --nodes FILE, or --label NAME"):
            import_csv(self.file("e.csv", "from,to\na,b\n"))


class GraphMl(InDirectory):
    def test_the_example_of_networkx_is_the_small_world(self):
        self.assert_small_world_without_constraints(import_graphml(IMPORTS / "networkx.graphml").graph)

    def test_the_example_of_yed(self):
        graph = import_graphml(IMPORTS / "yed.graphml").graph
        self.assertEqual(graph.nodes, [(1, 2), (2, 44), (3, 0)])
        self.assertEqual([name for _, name in graph.names.nodes.items()], ["german", "decimal comma", "weight"])
        self.assertEqual([name for _, name in graph.names.labels.items()], ["locale", "format", "field"])
        self.assertEqual(graph.edges, {(0, 1), (2, 1)})

    def graphml(self, body: str) -> Path:
        return self.file("g.graphml", f'<graphml><key id="k" for="node" attr.name="label"/>{body}</graphml>')

    def test_an_empty_attribute_is_none(self):
        node = '<node id="a"><data key="k"> </data></node>'
        self.assertEqual(import_graphml(self.graphml(f"<graph>{node}</graph>"), label="x").graph.nodes, [(1, 0)])

    def test_undirected_edges_go_both_ways(self):
        nodes = '<node id="a"/><node id="b"/><node id="c"/>'
        edges = '<edge source="a" target="b"/><edge source="b" target="c" directed="true"/>'
        path = self.graphml(f'<graph edgedefault="undirected">{nodes}{edges}</graph>')
        imported = import_graphml(path, label="x")
        self.assertEqual(imported.graph.edges, {(0, 1), (1, 0), (1, 2)})
        self.assertEqual(imported.notes, ["undirected edges were written both ways"])

    def test_errors(self):
        for body, message in {
            "": "g.graphml:1: expected a <graphml> element with one <graph>",
            '<graph><node id="a"/></graph>': "g.graphml:1: node a: the node has no label: give --label NAME",
            '<graph><node id="a"><data key="k">x</data></node><edge source="a" target="b"/></graph>': "g.graphml:1: edge a -> b: "
            "no node is named b",
            "<graph><hyperedge/></graph>": "expected edges between two nodes, found a <hyperedge>",
            "<graph>": "g.graphml:1: expected XML: mismatched tag",
        }.items():
            with self.subTest(body=body), self.assertRaises(Wrong) as caught:
                import_graphml(self.graphml(body))
            self.assertIn(message, str(caught.exception))


@unittest.skipUnless(HAS_NETWORKX, "networkx is not installed")
class Networkx(unittest.TestCase):
    def test_there_and_back(self):
        graph = Graph.read(SMALL)
        network = to_networkx(graph)
        self.assertEqual(network.nodes["weight"], {"label": "field", "value": 100})
        again = from_networkx(network)
        self.assertEqual((again.nodes, again.edges), (graph.nodes, graph.edges))
        self.assertEqual(again.names.nodes, graph.names.nodes)

    def test_what_networkx_writes_is_read(self):
        import networkx

        graph = Graph.read(SMALL)
        with tempfile.TemporaryDirectory() as directory:
            path = Path(directory) / "g.graphml"
            networkx.write_graphml(to_networkx(graph), path)
            again = import_graphml(path).graph
        self.assertEqual((again.nodes, again.edges), (graph.nodes, graph.edges))

    def test_undirected_and_wrong_networks(self):
        import networkx

        network = networkx.MultiGraph()
        network.add_node(0, label="x")
        network.add_node(1, label="x", value=3)
        network.add_edge(0, 1)
        network.add_edge(0, 1)
        self.assertEqual(from_networkx(network).edges, {(0, 1), (1, 0)})
        network.add_node(2)
        with self.assertRaisesRegex(WrongGraph, "node 2 has no attribute 'label'"):
            from_networkx(network)
