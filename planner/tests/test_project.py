import unittest
from dataclasses import replace

from psmax.planner.circles import positive_cycle
from psmax.project import Arc, Kind, Part, with_order, lags_only, parts, with_lag, within, without
from psmax.project_text import ProjectText, parse

from .helpers import EXAMPLES, INPUTS, TWO_JOBS


class Arcs(unittest.TestCase):
    def test_the_deadline_is_one_arc_more(self) -> None:
        """The text of two jobs within 6, and the same made by hand."""
        limited = within(parse(TWO_JOBS.encode()), 6)
        assert limited is not None
        by_hand = (INPUTS / "two-jobs-deadline-6.sch").read_bytes()
        self.assertEqual(ProjectText(limited).text.split(), by_hand.split())
        self.assertEqual(limited.arcs, (Arc(3, 0, -6),))

    def test_no_arc_beyond_the_format(self) -> None:
        """A lag is at most 1,000,000 and there are at most 100,000 arcs (docs/FORMAT.md)."""
        project = parse(TWO_JOBS.encode())
        self.assertIsNotNone(within(project, 1_000_000))
        self.assertIsNone(within(project, 1_000_001))
        self.assertIsNotNone(within(replace(project, arcs=(Arc(1, 2, 0),) * 99_999), 6))
        self.assertIsNone(within(replace(project, arcs=(Arc(1, 2, 0),) * 100_000), 6))

    def test_text_and_back(self) -> None:
        for path in sorted(INPUTS.glob("*.sch")):
            with self.subTest(path.name):
                project = parse(path.read_bytes())
                self.assertEqual(parse(ProjectText(project).text), project)


class Parts(unittest.TestCase):
    def test_what_can_be_left_out(self) -> None:
        """A machine; 2 starts at most 5 after 1; 2 starts with 1; the end is due on day 9. No more: that 2 follows 1,
        or a milestone 3, is a minimum lag."""
        project = parse(b"3 1 0 0\n0 1 0\n1 1 2 2 2 [3] [0]\n2 1 2 1 1 [-5] [0]\n3 1 1 2 [0]\n4 1 1 0 [-9]\n"
                        b"0 1 0 0\n1 1 3 1\n2 1 4 1\n3 1 0 0\n4 1 0 0\n1\n")
        told = [project.arcs[part.number] for part in parts(project) if part.kind is Kind.LAG]
        self.assertEqual(told, [Arc(1, 2, 0), Arc(2, 1, -5), Arc(2, 1, 0), Arc(4, 0, -9)])
        self.assertEqual([part for part in parts(project) if part.kind is not Kind.LAG], [Part(Kind.RESOURCE, 0)])

    def test_without(self) -> None:
        project = parse((EXAMPLES / "building-site.sch").read_bytes())
        eased = without(project, {Part(Kind.RESOURCE, 0), Part(Kind.RESOURCE, 1)})
        self.assertEqual((eased.capacities, eased.demands[9], eased.demands[2]), ((1,), (1,), (0,)))
        self.assertEqual((eased.arcs, eased.durations), (project.arcs, project.durations))
        eased = without(project, {Part(Kind.LAG, 0), Part(Kind.LAG, 2)})
        self.assertEqual(eased.arcs, (project.arcs[1], *project.arcs[3:]))
        self.assertEqual(with_lag(project, 1, -9).arcs[1], project.arcs[1]._replace(lag=-9))

    def test_lags_only(self) -> None:
        project = parse((INPUTS / "two-jobs-close-lags.sch").read_bytes())
        self.assertEqual(lags_only(project, [Arc(1, 2, 5)]).arcs, (Arc(1, 2, 5),))


class Order(unittest.TestCase):
    def test_by_hand(self) -> None:
        """Two jobs of 3 and 4 on one machine keep their order, also where they overlap; on two machines only where they
        do not."""
        project = parse(TWO_JOBS.encode())
        self.assertEqual(with_order(project, {1: 5, 2: 0}).arcs, (Arc(2, 1, 4),))
        self.assertEqual(with_order(project, {1: 2, 2: 0}).arcs, (Arc(2, 1, 4),))
        project = replace(project, capacities=(2,))
        self.assertEqual(with_order(project, {1: 4, 2: 0}).arcs, (Arc(2, 1, 4),))
        self.assertEqual(with_order(project, {1: 2, 2: 0}).arcs, ())

    def test_no_more_arcs_than_the_format_has(self) -> None:
        project = replace(parse(TWO_JOBS.encode()), arcs=(Arc(1, 2, 0),) * 100_000)
        self.assertEqual(len(with_order(project, {1: 5, 2: 0}).arcs), 100_000)


class Cycles(unittest.TestCase):
    def test_positive_cycle(self) -> None:
        """By hand: 1 to 2 is 3, 2 to 3 is -1, 3 to 1 is -1: together 1; with -2 it is 0."""
        arcs = [(0, 1, 0), (1, 2, 3), (2, 3, -1), (3, 1, -1), (0, 3, 7)]
        self.assertEqual(sorted(positive_cycle(arcs, 4)), sorted(arcs[1:4]))
        self.assertEqual(positive_cycle([*arcs[:3], (3, 1, -2)], 4), [])
        self.assertEqual(positive_cycle([(1, 1, 1)], 2), [(1, 1, 1)])
