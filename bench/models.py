"""A project as a model for other programs: FlatZinc, and SMT-LIB. Both minimize `s` and the number of the end."""
from collections.abc import Iterator, Sequence

from projects import Arc, Project


def horizon(durations: Sequence[int], arcs: Sequence[Arc]) -> int:
    """A time that some shortest schedule ends by, if there is a schedule."""
    longest = list(durations)
    for i, _, lag in arcs:
        longest[i] = max(longest[i], lag)
    return sum(longest)


def all_arcs(project: Project) -> Iterator[Arc]:
    end = len(project.durations) - 1
    yield from project.arcs
    for i in range(1, end):
        yield 0, i, 0
        yield i, end, project.durations[i]


def users(project: Project, resource: int) -> list[int]:
    return [i for i, row in enumerate(project.demands) if project.durations[i] and row[resource]]


def flatzinc(project: Project) -> str:
    """The least start first, at its least value."""
    durations, demands, capacities, arcs = project
    names = [f"s{i}" for i in range(len(durations))]
    most = horizon(durations, arcs)
    lists = ", ".join(f"array [int] of var int: {name}" for name in "sdr")
    out = [f"predicate cumulatives({lists}, var int: b);", "var 0..0: s0;"]
    out += [f"var 0..{most}: {name};" for name in names[1:]]
    out.append(f"array [1..{len(names)}] of var int: starts :: output_array([1..{len(names)}]) = [{', '.join(names)}];")
    out += [f"constraint int_lin_le([1,-1],[{names[i]},{names[j]}],{-lag});" for i, j, lag in all_arcs(project)]
    for k, capacity in enumerate(capacities):
        who = users(project, k)
        columns: list[list[object]] = [[names[i] for i in who], [durations[i] for i in who],
                                       [demands[i][k] for i in who]]
        given = ",".join("[" + ",".join(map(str, column)) + "]" for column in columns)
        out.append(f"constraint cumulatives({given},{capacity});")
    search = f"int_search([{','.join(names)}],smallest,indomain_min,complete)"
    out.append(f"solve :: {search} minimize {names[-1]};")
    return "\n".join(out) + "\n"


def smt(project: Project) -> str:
    """Whoever starts while others run has room beside them."""
    durations, demands, capacities, _ = project
    out = [f"(declare-const s{i} Int)" for i in range(len(durations))]
    out.append("(assert (= s0 0))")
    out += [f"(assert (>= (- s{j} s{i}) {number(lag)}))" for i, j, lag in all_arcs(project)]
    for k, capacity in enumerate(capacities):
        who = users(project, k)
        for i in who:
            others = [j for j in who if j != i]
            weights = " ".join(str(demands[j][k]) for j in others)
            running = " ".join(f"(and (<= s{j} s{i}) (< (- s{i} s{j}) {durations[j]}))" for j in others)
            if others:
                out.append(f"(assert ((_ pble {capacity - demands[i][k]} {weights}) {running}))")
    out.append("(check-sat)")
    return "\n".join(out) + "\n"


def number(x: int) -> str:
    return str(x) if x >= 0 else f"(- {-x})"
