"""Plans from networkx graphs, and back. networkx is imported only when it is called for."""

from __future__ import annotations

from typing import TYPE_CHECKING, Any

from .limits import FIRST_EDITION, SECOND_EDITION
from .plan import Arc, Plan, Standing

if TYPE_CHECKING:
    import networkx


def from_networkx(
    graph: networkx.DiGraph,
    *,
    standing: str = "standing",
    cost: str = "cost",
    checking: str = "checking",
    edition: int | None = None,
) -> Plan:
    """The plan of a DiGraph or MultiDiGraph. The three names are those of the edges' attributes.

    Vertices are numbered as `graph.nodes` has them, and their names are kept. Arc k is edge k of `graph.edges`, so that
    `[list(graph.edges)[k] for k in answer.drive]` is the drive in the graph's own edges. Where the edges have an
    attribute `arc` that numbers them from 0 without gaps, as `to_networkx` gives it, they go by that.

    A standing is a `Standing`, its number, or its word: may, must or closed. An edge without one may be driven. An edge
    must have a cost. Where an edge has a checking cost the plan is of edition 2, unless `edition` says another.
    """
    if not graph.is_directed():
        raise TypeError("a plan's streets have a direction: give a DiGraph or a MultiDiGraph (graph.to_directed())")
    names = tuple(graph.nodes)
    number = {name: vertex for vertex, name in enumerate(names)}
    edges = list(graph.edges(data=True))
    if {attributes.get("arc") for *_, attributes in edges} == set(range(len(edges))):
        edges.sort(key=lambda edge: int(edge[2]["arc"]))
    arcs = []
    checked = False
    for tail, head, attributes in edges:
        try:
            arcs.append(
                Arc(
                    number[tail],
                    number[head],
                    _standing(attributes.get(standing, Standing.MAY)),
                    attributes[cost],
                    attributes.get(checking),
                )
            )
        except KeyError as error:
            raise ValueError(f"edge {tail!r} to {head!r} has no {error}") from None
        except (TypeError, ValueError) as error:
            raise ValueError(f"edge {tail!r} to {head!r}: {error}") from None
        checked = checked or checking in attributes
    if edition is None:
        edition = SECOND_EDITION if checked else FIRST_EDITION
    return Plan(len(names), tuple(arcs), edition, names)


def to_networkx(plan: Plan, *, multigraph: bool = True) -> Any:
    """The plan as a MultiDiGraph, whose edges have the arc's number as key; or as a DiGraph.

    Vertices go by their names if the plan has them, else by their numbers. Edges have the attributes `arc`, the arc's
    number, `standing`, as a word, and `cost`; in edition 2 also `checking`. A plan with parallel arcs is no DiGraph.
    """
    import networkx

    names = plan.names or tuple(range(plan.vertices))
    graph = networkx.MultiDiGraph() if multigraph else networkx.DiGraph()
    graph.add_nodes_from(names)
    for k, arc in enumerate(plan.arcs):
        tail, head = names[arc.tail], names[arc.head]
        attributes = {"arc": k, "standing": arc.standing.name.lower(), "cost": arc.cost}
        if plan.edition == SECOND_EDITION:
            attributes["checking"] = arc.checking
        if multigraph:
            graph.add_edge(tail, head, key=k, **attributes)
        elif graph.has_edge(tail, head):
            raise ValueError(f"arcs {graph.edges[tail, head]['arc']} and {k} are parallel: use a MultiDiGraph")
        else:
            graph.add_edge(tail, head, **attributes)
    return graph


def _standing(value: Any) -> Standing:
    if isinstance(value, str):
        try:
            return Standing[value.strip().upper()]
        except KeyError:
            raise ValueError(f"standing {value!r} is none of may, must and closed") from None
    return Standing(value)
