"""Plans from networkx graphs, and back."""

import importlib.util
import unittest

from repository import kept_plans

from postman import Arc, Plan, Standing, plan_call

MUST, MAY, CLOSED = Standing.MUST, Standing.MAY, Standing.CLOSED
HAS_NETWORKX = importlib.util.find_spec("networkx") is not None


@unittest.skipUnless(HAS_NETWORKX, "networkx is not installed")
class Graphs(unittest.TestCase):
    def setUp(self) -> None:
        import networkx

        self.networkx = networkx

    def test_a_digraph(self) -> None:
        graph = self.networkx.DiGraph()
        graph.add_edge("mill", "bridge", standing="must", cost=5)
        graph.add_edge("bridge", "church", cost=2)
        graph.add_edge("church", "mill", standing=Standing.MAY, cost=1)
        graph.add_edge("bridge", "mill", standing=2, cost=1)
        plan = Plan.from_networkx(graph)
        self.assertEqual(plan.names, ("mill", "bridge", "church"))
        self.assertEqual(
            plan, Plan(3, [Arc(0, 1, MUST, 5), Arc(1, 2, MAY, 2), Arc(1, 0, CLOSED, 1), Arc(2, 0, MAY, 1)])
        )
        edges = list(graph.edges)
        drive = [edges[arc] for arc in plan_call(plan, 1).drive]
        self.assertEqual(drive, [("mill", "bridge"), ("bridge", "church"), ("church", "mill")])
        self.assertEqual(Plan.from_networkx(plan.to_networkx(multigraph=False)), plan)

    def test_checking_costs_make_it_edition_2(self) -> None:
        graph = self.networkx.MultiDiGraph()
        graph.add_edge(0, 0, standing="must", cost=5, checking=9)
        graph.add_edge(0, 0, standing="may", cost=5)
        plan = Plan.from_networkx(graph)
        self.assertEqual((plan.edition, plan.arcs), (2, (Arc(0, 0, MUST, 5, 9), Arc(0, 0, MAY, 5, 0))))
        self.assertEqual(Plan.from_networkx(graph, edition=1).edition, 1)

    def test_other_names_of_attributes(self) -> None:
        graph = self.networkx.DiGraph()
        graph.add_edge(1, 2, survey="must", length=3, slow=4)
        plan = Plan.from_networkx(graph, standing="survey", cost="length", checking="slow")
        self.assertEqual(plan.arcs, (Arc(0, 1, MUST, 3, 4),))

    def test_every_kept_plan_goes_there_and_back(self) -> None:
        for path in kept_plans():
            plan = Plan.read(path.read_bytes())
            graph = plan.to_networkx()
            self.assertEqual(Plan.from_networkx(graph), plan, path)
            for tail, head, key, attributes in graph.edges(keys=True, data=True):
                arc = plan.arcs[key]
                self.assertEqual((tail, head, attributes["arc"]), (arc.tail, arc.head, key))
                self.assertEqual(attributes["standing"], arc.standing.name.lower())

    def test_names_go_there_and_back(self) -> None:
        plan = Plan(2, [Arc(0, 1, MUST, 5), Arc(1, 0, MAY, 3)], names=("mill", "bridge"))
        graph = plan.to_networkx()
        self.assertEqual(list(graph.edges), [("mill", "bridge", 0), ("bridge", "mill", 1)])
        self.assertEqual(Plan.from_networkx(graph).names, plan.names)

    def test_what_is_no_plan(self) -> None:
        networkx = self.networkx
        with self.assertRaisesRegex(TypeError, "direction"):
            Plan.from_networkx(networkx.Graph([(0, 1)]))
        for attributes, words in (
            ({}, "edge 'a' to 'b' has no 'cost'"),
            ({"cost": 70000}, "edge 'a' to 'b': cost 70000 is above 65535"),
            ({"cost": 1.5}, "edge 'a' to 'b': "),
            ({"cost": 1, "standing": "shut"}, "edge 'a' to 'b': standing 'shut' is none of may, must and closed"),
            ({"cost": 1, "standing": 3}, "edge 'a' to 'b': "),
        ):
            graph = networkx.DiGraph()
            graph.add_edge("a", "b", **attributes)
            with self.assertRaisesRegex(ValueError, words):
                Plan.from_networkx(graph)
        parallel = Plan(2, [Arc(0, 1, MUST, 5), Arc(0, 1, MAY, 3)])
        with self.assertRaisesRegex(ValueError, "arcs 0 and 1 are parallel"):
            parallel.to_networkx(multigraph=False)


if __name__ == "__main__":
    unittest.main()
