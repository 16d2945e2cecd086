"""Tests of basin.py: python3 python/test_basin.py, after install/shared-library target/libbasin.so."""
import math
import os
import pickle
import subprocess
import sys
import tempfile
import threading
import unittest
from array import array
from unittest import mock

here = os.path.dirname(os.path.abspath(__file__))
sys.path.insert(0, here)
import basin  # noqa: E402
from basin import Comparison, Refused, State, Trust  # noqa: E402


def example_2(**other):
    """One cell; examples 3, 9 and 10 are made of it."""
    return State(**{**dict(w=1, n=1, kind=0, g=9810, c=10, r=1000, h=[2000], b=[0], u=[100], v=[-50]), **other})


def example_4(**other):
    """Two cells in a row that wraps; example 5 is its step."""
    return State(**{**dict(w=2, n=1, kind=0, g=9810, c=0, r=100_000, h=[2000, 3000], u=[10, 0]), **other})


def dock():
    with open(os.path.join(here, '../examples/dock.rec'), 'rb') as file:
        return file.read()


def lists(state):
    return [list(x) for x in (state.h, state.b, state.u, state.v, state.barriers)]


class Case(unittest.TestCase):
    def refused(self, number, call, **values):
        """The call is refused with this number and these values, and no others."""
        with self.assertRaises(Refused) as caught:
            call()
        self.told(caught.exception, number, **values)
        return caught.exception

    def told(self, refusal, number, **values):
        names = ('field', 'cell', 'pass_', 'offset', 'record', 'steps')
        self.assertEqual((refusal.number, {name: getattr(refusal, name) for name in names}),
                         (number, {**dict.fromkeys(names), **values}))
        self.assertIn(f'refusal {number}: {refusal.cause}', str(refusal))


class WorkedExamples(Case):
    def test_steps(self):
        state = example_2()
        self.assertIsNone(state.step())
        self.assertEqual(lists(state), [[2000], [0], [99], [-51], [0]])
        state = example_4()
        state.step()
        self.assertEqual(lists(state), [[2005, 2995], [0, 0], [108, -98], [0, 0], [0, 0]])

    def test_a_jetty(self):
        state = example_4(barriers=[0, basin.WEST])
        state.step()
        self.assertEqual((list(state.h), list(state.u), state.total_depth()), ([2003, 2997], [108, 0], 5000))

    def test_a_run_with_inflow(self):
        for inflow in ([7, -2], array('q', [7, -2]), {(0, 0): 7, (1, 0): -2}):
            state = example_4()
            self.assertEqual(state.run(100, inflow), (100, None))
            self.assertEqual((list(state.h), list(state.u), state.total_depth()), ([2944, 2556], [-522, 532], 5500))

    def test_tendencies(self):
        state = example_2()
        self.assertEqual(list(state.potential_vorticity()), [328])
        self.assertEqual([list(x) for x in state.tendencies()], [[0], [-1574400000], [-3148800000]])
        state = example_4(r=1000, barriers=[0, basin.WEST])
        self.assertEqual([list(x) for x in state.tendencies([0, 0])], [[50000, -50000], [30859591680000, 0], [0, 0]])

    def test_corners_on_a_wall(self):
        cell = example_2(kind=basin.BASIN, u=[0], v=[0])
        self.assertEqual(list(cell.potential_vorticity()), [328] * 4)
        shoal = dict(w=2, n=2, g=9810, c=100, r=1000, h=[2000, 3000, 50000, 60000], v=[0, 0, 7, -9])
        channel = State(kind=basin.CHANNEL, u=[30, -20, 10, 40], **shoal)
        self.assertEqual(list(channel.potential_vorticity()), [2621, 2621, 310, 55, 119, 119])
        dock = State(kind=basin.BASIN, u=[0, -20, 0, 40], **shoal)
        self.assertEqual(list(dock.potential_vorticity()), [3277, 2621, 2185, 252, 55, 208, 131, 119, 109])
        self.assertEqual((cell.corners, channel.corners, dock.corners, example_4().corners), (4, 6, 9, 2))
        one = State(1, 2, basin.CHANNEL, 10, 0, 1000, [2000, 4000], u=[50, -50], v=[0, 20])
        self.assertEqual([list(x) for x in one.tendencies([1000, 2000, 3000])],
                         [[-120000, 120000], [2160000000, 3600000000], [0, -54514560000]])
        self.assertEqual(one.probe(1, [1000, 2000, 3000]), (Trust.EXACT, 120000.0, 3600000000.0, -54514560000.0))
        turning = State(2, 2, basin.BASIN, 1, 10_000, 50_000, [20000, 30000, 50000, 60000], u=[0, -200, 0, 400], v=[0, 0, 70, -90])
        turning.step()
        self.assertEqual([list(x) for x in (turning.h, turning.u, turning.v)],
                         [[20064, 29995, 49598, 60343], [0, -204, 0, 397], [0, 0, 53, -106]])

    def test_probes(self):
        exact, near = Trust.EXACT, Trust.NEAR
        self.assertEqual(example_2().probe(0), (exact, 0.0, -1574400000.0, -3148800000.0))
        # two cells at the bounds of a narrow grid, and one of them past a bound
        for h, trust, dh, du in ((10_000, exact, 20000000.0, -314572800000000.0), (10_001, near, 20001000.0, -314541342720000.0)):
            state = State(2, 1, 0, 10_000, 0, 1000, [10_000, h], [10_000, 0], [500, -500], [500, -500])
            q = [1_000_000, -1_000_000]
            self.assertEqual(state.probe(0, q), (trust, dh, du, 0.0))
            grid = state.probe_grid(q)
            self.assertEqual(grid.trust, trust)
            self.assertEqual([list(x) for x in grid[1:]], [[float(z) for z in x] for x in state.tendencies(q)])
            self.assertEqual(state.probe(1, q), (trust, grid.dh[1], grid.du[1], grid.dv[1]))
        # numbers that doubles round
        state = State(1, 2, 0, 9810, 0, 1000, [99_999, 87_654], [0, 1], [-4999, -4999], [4997, 4321])
        probe, q = state.probe(0, [2_000_000, 1_999_997]), array('q', [2_000_000, 1_999_997])
        self.assertEqual(probe, (near, 126853428.0, 41965184222088240.0, 44646748085517584.0))
        self.assertEqual([x[0] for x in state.tendencies(q)], [126853428, 41965184222088228, 44646748085517588])
        # still water, and a closed edge: the sign of a zero
        signs = [math.copysign(1, x) for x in State(1, 1, 2, 9810, 0, 1000, [2000]).probe(0)[1:]]
        self.assertEqual(signs, [-1, 1, 1])

    def test_probes_into_lists_that_are_lent(self):
        dh, du, dv = (array('d', [0.5] * 3) for _ in range(3))
        grid = example_4().probe_grid([0, 0], dh, du, dv)
        self.assertTrue(grid.dh is dh and grid.du is du and grid.dv is dv)
        self.assertEqual([list(x) for x in grid[1:]], [[50000, -50000, 0.5], [30859591680000, -30859591680000, 0.5], [0, 0, 0.5]])
        self.assertRaises(TypeError, lambda: example_4().probe_grid(dh=array('q', [0, 0])))
        self.assertRaises(TypeError, lambda: example_4().probe_grid(dv=[0.0, 0.0]))
        self.assertRaises(ValueError, lambda: example_4().probe_grid(du=dh, dv=dh))

    def test_energy(self):
        # a cell at rest, on a bottom of 0: four times a half of g·h²
        self.assertEqual(State(1, 1, 0, 9810, 0, 1000, [2000]).total_energy(), 2 * 9810 * 2000 * 2000)

    def test_records(self):
        state = example_2()
        record = state.write()
        self.assertEqual(record.hex().upper(), '01000301010002000C000026520000000A000003E80300080000000000000000'
                         '040004000007D0050004000000000600020064070002FFCE080002000009000100')
        state.milliseconds = 250
        later = state.write()
        self.assertEqual(basin.compare(record, record), Comparison.SAME)
        self.assertEqual(basin.compare(record, later), Comparison.SECOND_NEWER)
        self.assertEqual(basin.compare(later, record), Comparison.FIRST_NEWER)
        state.h[0] = 2001
        self.assertEqual(basin.compare(later, state.write()), Comparison.CONFLICT)
        # what is lacking is 0
        self.assertEqual(basin.compare(later, later[:61]), Comparison.SAME)
        self.assertEqual(basin.compare(record, bytearray(later[:56])), Comparison.SAME)

    def test_rounding(self):
        self.assertEqual([basin.rnd(a, b) for a, b in ((5, 2), (-5, 2), (7, 3), (2**58, 1))], [3, -3, 2, 2**58])
        for a, b in ((1, 0), (2**58 + 1, 1), (0, 2**43 + 1)):
            self.refused(4, lambda: basin.rnd(a, b))

    def test_version(self):
        self.assertEqual(basin.version(), basin.VERSION)


class Refusals(Case):
    """Each number with its values. A refused call leaves the state as it was."""

    def test_1_the_grid(self):
        for other in (dict(w=0), dict(n=65), dict(w=2**64 - 1, n=2**64 - 1), dict(kind=3), dict(kind=255)):
            state = example_2(**other)
            for call in (state.total_depth, state.total_energy, state.potential_vorticity, state.tendencies, state.step,
                         lambda: state.probe(0), state.probe_grid, lambda: state.run(5), state.write):
                self.refused(1, call)

    def test_2_lengths(self):
        for name in ('h', 'b', 'u', 'v', 'barriers'):
            for length in (0, 1, 3):
                state = example_4(**{name: [0] * length})
                self.refused(2, state.total_depth)
                self.refused(2, state.step)
            self.refused(2, example_2(**{name: []}).total_depth)
        self.refused(2, lambda: example_4().step([0]))
        self.refused(2, lambda: example_4().step(work=array('q', [0] * 15)))
        self.refused(2, lambda: example_4().tendencies([]))
        self.refused(2, lambda: example_4().probe(0, []))
        self.refused(2, lambda: example_4().probe_grid([0]))
        # a q of a number a cell, where there are walls, and of one more than corners
        for kind, u, lengths in ((basin.CHANNEL, [10, 0], (2, 3, 5)), (basin.BASIN, [0, 10], (2, 4, 5, 7))):
            state = example_4(kind=kind, u=u)
            for length in lengths:
                self.refused(2, lambda: state.tendencies([0] * length))
                self.refused(2, lambda: state.probe(0, [0] * length))
                self.refused(2, lambda: state.probe_grid([0] * length))
            self.assertEqual(len(state.potential_vorticity()), state.corners)

    def test_3_constants(self):
        for other in (dict(g=0), dict(c=-10_001), dict(r=999), dict(g=-2**63), dict(r=2**63 - 1)):
            self.refused(3, example_2(**other).step)

    def test_4_values(self):
        for name, value in (('h', 999), ('h', 2**63 - 1), ('b', -1), ('u', 5001), ('v', -5001), ('barriers', 4)):
            state = example_4()
            getattr(state, name)[1] = value
            before = lists(state)
            self.refused(4, state.step, field=name, cell=1)
            self.assertEqual(lists(state), before)
        self.refused(4, lambda: example_4().step([0, 1001]), field='inflow', cell=1)
        self.refused(4, lambda: example_4().run(3, [0, 1001]), field='inflow', cell=1)
        refusal = self.refused(4, lambda: example_4().tendencies([2_000_001, 0]), field='q', cell=0)
        self.assertEqual(str(refusal), 'refusal 4: q outside its bounds, corner 0')
        self.refused(4, lambda: example_4().probe(0, [0, -2_000_001]), field='q', cell=1)
        # of q the corner, here the last one of a dock of two cells
        self.refused(4, lambda: example_4(kind=basin.BASIN, u=[0, 10]).tendencies([0] * 5 + [2_000_001]), field='q', cell=5)

    def test_5_closed_edges(self):
        self.refused(5, example_4(kind=basin.BASIN).step, field='u', cell=0)
        self.refused(5, example_4(kind=basin.CHANNEL, v=[0, 5]).step, field='v', cell=1)
        self.refused(5, example_4(u=[0, 5], barriers=[0, basin.WEST]).total_depth, field='u', cell=1)

    def test_6_a_step_that_leaves_the_bounds(self):
        state = example_4()
        ran = state.run(100, [-100, -100])
        self.assertEqual(ran.steps, 12)
        self.told(ran.stopped, 6, pass_=1, field='h', cell=0, steps=12)
        self.assertEqual(state.total_depth(), 2600)
        self.refused(6, lambda: state.step([-100, -100]), pass_=1, field='h', cell=0)
        self.assertEqual(state.total_depth(), 2600)

    def test_7_damaged_records(self):
        record = example_2().write()
        refusal = self.refused(7, lambda: basin.read(record[:-1]), offset=61)
        self.assertEqual(str(refusal), 'refusal 7: a damaged record, at byte 61')
        self.refused(7, lambda: basin.read(b''), offset=0)
        refusal = self.refused(7, lambda: basin.compare(record, record[:-1]), offset=61, record=2)
        self.assertEqual(str(refusal), 'record 2: refusal 7: a damaged record, at byte 61')
        self.refused(4, lambda: basin.compare(record[:-1] + b'\4', b''), field='barriers', cell=0, record=1)

    def test_8_destinations(self):
        one = array('q', [9])
        self.refused(8, lambda: example_4().potential_vorticity(one))
        self.refused(8, lambda: example_4().tendencies(dv=one))
        self.assertEqual(list(one), [9])
        five = array('q', [9] * 5)
        self.refused(8, lambda: example_4(kind=basin.BASIN, u=[0, 10]).potential_vorticity(five))
        self.assertEqual(list(five), [9] * 5)
        one = array('d', [0.5])
        self.refused(8, lambda: example_4().probe_grid(du=one))
        self.assertEqual(list(one), [0.5])
        self.refused(8, lambda: example_4().write(bytearray(77)))
        self.refused(8, lambda: basin.read(example_4().write(), room=1))
        self.refused(8, lambda: basin.read(example_4().write(), room=0))

    def test_9_milliseconds(self):
        for milliseconds in (1000, 65_536, 2**64 - 1):
            self.refused(9, example_2(milliseconds=milliseconds).write)

    def test_10_cells(self):
        for cell in (2, 3, 4096, 2**32, 2**64 - 1):
            refusal = self.refused(10, lambda: example_4().probe(cell))
            self.assertEqual(str(refusal), 'refusal 10: a probed cell outside the grid')
        # after 5
        self.refused(5, lambda: example_4(kind=basin.BASIN).probe(2, [0] * 6), field='u', cell=0)

    def test_a_refusal_can_be_kept(self):
        refusal = example_4().run(100, [-100, -100]).stopped
        again = pickle.loads(pickle.dumps(refusal))
        self.assertEqual((str(again), vars(again)), (str(refusal), vars(refusal)))


class Runs(Case):
    def test_the_dock_goes_round(self):
        record = dock()
        state = basin.read(record)
        self.assertEqual((state.w, state.n, state.kind), (32, 20, basin.BASIN))
        self.assertEqual(state.write(), record)
        grid = state.probe_grid()
        for place in ((0, 0), (31, 19), (12, 7)):
            cell = state.cell(*place)
            self.assertEqual(state.probe(cell), (grid.trust, grid.dh[cell], grid.du[cell], grid.dv[cell]))
        lent = bytearray(b'\xff' * (len(record) + 1))
        self.assertEqual(state.write(lent), record)
        self.assertEqual(lent, record + b'\xff')
        for room in (640, 641):
            self.assertEqual(basin.read(record, room=room).write(), record)

    def test_total_depth_is_kept_over_25_000_steps(self):
        state = example_4(barriers=[0, basin.WEST], u=[0, 0])
        parts = state.copy()
        self.assertEqual(state.run(25_000), (25_000, None))
        self.assertEqual(state.total_depth(), 5000)
        for steps in (10_000, 10_000, 5_000):
            self.assertEqual(parts.run(steps).steps, steps)
        self.assertEqual(lists(parts), lists(state))

    def test_a_long_run_that_is_stopped_counts_all_its_steps(self):
        # a millimetre a step, from 100,000 mm to the least depth, 1,000
        state = State(1, 1, 0, 9810, 0, 1000, [100_000])
        ran = state.run(100_000, [-1])
        self.assertEqual((ran.steps, ran.stopped.steps, state.total_depth()), (99_000, 99_000, 1000))
        self.assertEqual(state.run(0), (0, None))
        self.refused(3, lambda: example_2(g=0).run(0))

    def test_inflow_is_added_to_the_millimetre(self):
        state = basin.read(dock())
        before = state.total_depth()
        self.assertEqual(state.run(100, {(0, 5): 1, (31, 19): 2}).steps, 100)
        self.assertEqual(state.total_depth() - before, 300)
        self.assertRaises(IndexError, lambda: state.run(1, {(32, 0): 1}))
        # an iterator is gone through once, though a long run is several calls
        self.assertEqual(state.run(10_001, iter([0] * 640)), basin.Ran(10_001, None))

    def test_two_threads(self):
        states = [basin.read(dock()) for _ in range(3)]
        threads = [threading.Thread(target=state.run, args=(500, {(0, k // 2): 1})) for k, state in enumerate(states[:2])]
        for thread in threads:
            thread.start()
        for thread in threads:
            thread.join()
        states[2].run(500, {(0, 0): 1})
        self.assertEqual(lists(states[0]), lists(states[2]))
        self.assertEqual(lists(states[1]), lists(states[2]))


class WhatCWouldCut(Case):
    def test_numbers_that_do_not_fit(self):
        for other in (dict(kind=256), dict(kind=-1), dict(w=-1), dict(n=2**64), dict(g=2**63), dict(c=-2**63 - 1), dict(r=2**64)):
            self.assertRaises(OverflowError, lambda: example_2(**other).total_depth())
        for other in (dict(seconds=-1), dict(seconds=2**64), dict(milliseconds=-1), dict(milliseconds=2**64)):
            self.assertRaises(OverflowError, example_2(**other).write)
        for steps in (-1, 2**64):
            self.assertRaises(OverflowError, lambda: example_2().run(steps))
        self.assertRaises(OverflowError, lambda: basin.rnd(2**63, 1))
        for cell in (-1, 2**64):
            self.assertRaises(OverflowError, lambda: example_2().probe(cell))
        for other in (dict(h=[2**63]), dict(barriers=[256]), dict(barriers=[-1])):
            self.assertRaises(OverflowError, lambda: example_2(**other))
        self.assertRaises(OverflowError, lambda: example_2().step([2**63]))

    def test_what_is_no_number_or_no_list(self):
        for other in (dict(w=1.0), dict(kind='0'), dict(g=None)):
            self.assertRaises(TypeError, lambda: example_2(**other).total_depth())
        for other in (dict(h=[2000.0]), dict(h='x'), dict(h=7), dict(h=array('i', [2000])), dict(h=array('d', [2000])),
                      dict(barriers=array('b', [0])), dict(h=memoryview(array('q', [1, 2, 3, 4]))[::2])):
            self.assertRaises(TypeError, lambda: example_2(**other))
        self.assertRaises(TypeError, lambda: basin.read('text'))
        self.assertRaises(TypeError, lambda: basin.compare(b'', None))
        self.assertRaises(TypeError, lambda: example_2().run(1.5))

    def test_what_is_written_is_a_buffer_of_its_own(self):
        state = example_4()
        state.h = [2000, 3000]
        self.assertEqual(state.total_depth(), 5000)
        self.assertRaises(TypeError, state.step)
        state.h = memoryview(array('q', [2000, 3000])).toreadonly()
        self.assertEqual(state.total_depth(), 5000)
        self.assertRaises(TypeError, state.step)
        self.assertRaises(TypeError, lambda: example_4().write(bytes(100)))
        zeros = array('q', [0, 0])
        shared = example_4(b=zeros, u=zeros)
        self.assertEqual(shared.total_depth(), 5000)
        self.assertRaises(ValueError, shared.step)
        self.assertRaises(ValueError, lambda: example_4(b=zeros).potential_vorticity(zeros))
        # what is written lies inside what is read, with something else that is read between their starts
        both = memoryview(array('q', [0] * 8)).cast('B')
        inside = example_4(b=both[:16].cast('q'), barriers=both[4:6], u=both[8:24].cast('q'))
        self.assertEqual(inside.total_depth(), 5000)
        self.assertRaises(ValueError, inside.step)

    def test_lists_are_kept_and_copied_where_asked(self):
        h = array('q', [2000, 3000])
        state = example_4(h=h)
        other = state.copy()
        state.step()
        self.assertEqual((list(h), list(other.h)), ([2005, 2995], [2000, 3000]))
        state.h = (2000, 3000)
        self.assertEqual(list(state.copy().h), [2000, 3000])


class TheLibrary(unittest.TestCase):
    def load(self, **environment):
        return subprocess.run([sys.executable, '-c', 'import basin'], cwd=here, env={**os.environ, **environment},
                              stderr=subprocess.PIPE, universal_newlines=True)

    def test_none_and_another(self):
        with tempfile.TemporaryDirectory() as folder:
            missing = self.load(BASIN_LIBRARY=os.path.join(folder, 'none.so'))
            self.assertIn('libbasin.so is in none of these places', missing.stderr)
            broken = os.path.join(folder, 'broken.so')
            with open(broken, 'w') as file:
                file.write('no library')
            self.assertIn('is not the library of basin.py', self.load(BASIN_LIBRARY=broken).stderr)

    def test_one_of_another_version(self):
        with mock.patch.object(basin, 'VERSION', basin.VERSION + 1), self.assertRaises(ImportError) as caught:
            basin._load()
        self.assertIn('they do not belong together', str(caught.exception))

    def test_the_one_that_is_named(self):
        self.assertEqual(self.load(BASIN_LIBRARY=basin._library._name).returncode, 0)


if __name__ == '__main__':
    unittest.main()
