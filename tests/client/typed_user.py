"""A caller's file, which makes every public call, and which `mypy --strict` passes: what a network
gives has the type of its nodes."""

from decimal import Decimal
from typing import Any, List, Tuple

import dmf


def limit(network: dmf.Network[str]) -> list[str]:
    """The names on the source's side of the cut, in the order of the alphabet."""
    network.solve()
    return sorted(network.cut().side)


def busiest(plan: dmf.Solution[str]) -> dmf.Arc[str]:
    """The arc on which most flows."""
    return max(plan, key=lambda arc: plan[arc])


def changes(network: dmf.Network[str]) -> list[str]:
    """The names of the arcs after every change that there is."""
    with network.try_out() as tried:
        values: list[int] = [tried.cap("canal", 3), tried.close("canal"), tried.shut("mill")]
        again: dmf.Arc[str] = tried.open("canal")
        values += [tried.undo(), tried.redo(), tried.undo(2), tried.value, network.capacity(again)]
    first: dmf.Arc[str] = network.arcs[0]
    print(values, first.is_open, first.flow, network.arc(first) is first, network.source)
    with network.copy() as copy:
        for result in dmf.sweep(copy, dmf.each_arc_closed(), jobs=1):
            case: dmf.SweepResult[str] = result
            print(case.value, case.difference, case.refusal)
        lost: dmf.VitalArcs[str] = copy.vital(top=3)
        print([(arc.tail, left, loss) for arc, left, loss in lost], dmf.vital([], "a", "b").value)
        shut: dmf.VitalNodes[str] = copy.vital_nodes(top=3)
        print([(node.upper(), left, loss) for node, left, loss in shut], shut.nodes[0].upper())
        both: dmf.VitalPairs[str] = copy.vital_pairs(top=3)
        print([(one.tail, other.tail, loss) for (one, other), _, loss in both], both.pairs[0])
        for cases in (
            dmf.each_node_shut(),
            dmf.each_capacity_raised(1),
            dmf.each_pair_added([("lake", "sea")], 2),
        ):
            print(sum(result.value or 0 for result in dmf.sweep(copy, cases, jobs=1)))
    return sorted(arc.tail for arc in network.cut().arcs)


def tables(path: str) -> None:
    """A table, and a project of it."""
    try:
        with dmf.read_table(path, source="lake", sink="sea", columns={"tail": "from"}) as table:
            print(table.solve().value, table.unit, table.notes, table.sources, table.limits)
            network: dmf.TableNetwork = table
            print(network.sinks, network.extra["remark"][0].upper())
    except dmf.TableFault as fault:
        print(fault.line, fault.column_name, [other.reason for other in fault.others])
    with dmf.new_project(path) as project, dmf.open_project(project.path) as again:
        compared: dmf.Comparison = again.compare("base", "first")
        print(list(compared.lines()))
        try:
            project_steps(project)
        except dmf.ProjectFault as fault:
            print(str(fault).upper())


def found(network: dmf.Network[str], cut: dmf.Cut[str]) -> dmf.Arc[str]:
    """What new arcs would bring, and the flows in each form; the best arc to have twice."""
    second: dmf.SecondArcs[str] = network.gains(top=1)
    ways: dmf.NewArcs[str] = network.gains_of([("lake", "sea", 3)])
    print([(tail.upper(), head, gain) for (tail, head, _), _, gain in ways], cut.capacity + 1)
    plan = network.solve()
    between: int = plan.between("lake", "sea")
    keys: List[dmf.Arc[str]] = list(plan.keys())
    print(between, keys[0].number + 1, keys[0].given_key, network.flow() == plan)
    print(sum(plan.values()) + 1, network.sink.upper())
    print(plan.array(), plan.frame(), plan.flow_matrix(), network.to_networkx(), network.plot())
    lost: dmf.VitalArcs[str] = network.vital()
    nodes: dmf.VitalNodes[str] = network.vital_nodes()
    pairs: dmf.VitalPairs[str] = network.vital_pairs()
    print(lost.losses, nodes.losses, pairs.losses)
    return second.arcs[0]


def graphs(graph: Any, matrix: Any, frame: Any) -> None:
    """Networks and answers of other packages' types."""
    networks: List[dmf.Network[str]] = [
        dmf.from_networkx(graph, "lake", "sea"),
        dmf.from_igraph(graph, "lake", "sea", infinite=99),
        dmf.Network.from_frame(frame, "from", "to", "most", source="lake", sink="sea"),
    ]
    numbered: dmf.Network[int] = dmf.from_scipy(matrix, 0, 5)
    most: dmf.MatrixFlow = dmf.maximum_flow(matrix, 0, 5)
    edges: dmf.EdgeFlow = dmf.maximum_flow(graph, "lake", "sea")
    print(most.flow_value, most.flow, edges.value, edges.flow[0], numbered.cut().side)
    for network in networks:
        network.end()
    print(dmf.program().upper(), dmf.library() or "no library")


def project_steps(project: dmf.OpenProject) -> None:
    """Every step and question of a project."""
    values: List[Any] = [
        project.add("lake", "sea", 7, "Canal"),
        project.cap("Canal", "+10 %"),
        project.close("Canal"),
        project.open("Canal"),
        project.shut("mill"),
        project.open_place("mill"),
        project.undo(),
        project.redo(),
        project.new("Drought"),
        project.go("base"),
        project.value,
    ]
    project.copy("Other")
    project.rename("Flood")
    project.note("as measured")
    project.delete("Drought")
    project.report("report.html")
    texts: List[str] = [*project.limit, *project.news, project.notes, project.scenario]
    print(values, texts, project.scenarios, project.steps, project.unit, project.flow("Canal"))
    print(project.compare("base", "Flood").lines(), project.cheapest(3, "cost"))
    project.end()


def main() -> None:
    rows = [("lake", "mill", 3), ("lake", "town", 2), ("mill", "sea", 2), ("town", "sea", 3)]
    with dmf.Network(rows, source="lake", sink="sea") as network:
        names: list[str] = limit(network)
        canal: dmf.Arc[str] = network.add("lake", "sea", 7, key="canal")
        plan = network.solve()
        total: int = (
            plan["canal"]
            + plan[canal]
            + plan.get("canal", 0)
            + plan["lake", "mill"]
            + network.cap(canal, 2.0)
        )
        print(
            names,
            total,
            busiest(plan).tail.upper(),
            {arc.head.upper(): flow for arc, flow in plan.items()},
        )
        try:
            network.close("bridge")
        except dmf.NoSuchArc as error:
            print(error, error.line)
    mixed: list[dmf.Row[str]] = [("lake", "sea", 3), ("lake", "sea", 2, "canal")]
    print(dmf.Network(mixed, "lake", "sea").value)
    grid = dmf.Network(
        [((0, 0), (0, 1), 3), ((0, 1), (1, 1), 2, "gate")], source=(0, 0), sink=(1, 1), history=10
    )
    corner: Tuple[int, int] = sorted(grid.nodes)[0]
    print(corner, grid.problem(names=False))
    graph = {"lake": {"mill": 3}, "mill": {"sea": 2}}
    amount, flows = dmf.maximum_flow(graph, "lake", "sea")
    value, (near, far) = dmf.minimum_cut(graph, "lake", "sea")
    sent: int = amount + flows["lake"]["mill"] + value + dmf.value(rows, "lake", "sea")
    banks: list[str] = sorted(near | far)
    with dmf.Network(rows, "lake", "sea") as network, network.copy() as copy:
        network.add_node("pond")
        network.write("problem.max")
        by_ends: dict[str, dict[str, int]] = copy.solve().flow_dict()
        others: frozenset[str] = copy.cut().other_side
        print(sent, banks, by_ends, others, network.begin_again() + 1)
    exact: Decimal = dmf.value([("lake", "sea", 0.3)], "lake", "sea", scale=10)
    most, (_, rest) = dmf.minimum_cut({"lake": {"sea": 0.3}}, "lake", "sea", scale=10)
    columns = ["lake", "mill"], ["mill", "sea"], [0.5, 0.25]
    with dmf.Network.from_arrays(*columns, source="lake", sink="sea", scale=100) as scaled:
        if isinstance(scaled, dmf.ScaledNetwork):
            answer: dmf.ScaledSolution[str] = scaled.solve()
            print(
                exact + most,
                rest,
                answer.value,
                scaled.scale,
                [arc.tail.upper() for arc in scaled.arcs[:2]],
            )
    changes(network)
    with dmf.read("problem.max") as read:
        sides: list[str] = sorted(map(str, read.cut().side))
        print(sides)


if __name__ == "__main__":
    main()
