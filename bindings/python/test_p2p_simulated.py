"""What the module promises, call by call.  Run by `python3 -m unittest` in this folder."""

import asyncio
import copy
import ctypes
import doctest
import itertools
import multiprocessing.pool
import pickle
import threading
import unittest
from concurrent.futures import ThreadPoolExecutor
from fractions import Fraction

import p2p_simulated
from p2p_simulated import BadLine, Closed, Completion, Flow, FlowIdsUsedUp, MomentTooLate, NumberTooLarge, OutOfTurn
from p2p_simulated import InFlight, Outgoing, State, UnknownPeer, Zeros, allocate, allocate_counted, allocate_routes
from p2p_simulated import arrivals, on_asyncio, planner, run
from p2p_simulated._library import _lib


class Scheduling(unittest.TestCase):
    def test_two_messages_share_a_cap(self):
        with State() as state:
            self.assertEqual(state.limit(0, 1, egress=1000), [])
            self.assertEqual(state.enqueue(0, 1, 2, 7, b"a" * 1000, 500_000_000), [])
            self.assertEqual(state.enqueue(0, 1, 3, 7, bytearray(b"b" * 500)), [])
            self.assertEqual(state.next(), 1_000_000_000)
            self.assertEqual(state.advance(1_000_000_000), [Completion(1, 3, 7, b"b" * 500, 10**9, 10**9)])
            done = Completion(1, 2, 7, b"a" * 1000, deliver_at=2_000_000_000, done_at=1_500_000_000)
            self.assertEqual(state.advance_counted(1_500_000_000), ([done], 1))
            self.assertIsNone(state.next())

    def test_links_zeros_and_dropped_messages(self):
        with State() as state:
            state.limit_link(0, 1, 2, 10)
            state.enqueue_zeros(0, 1, 2, 3, 10, should_deliver=False)
            self.assertEqual(state.advance(state.next()), [Completion(1, 2, 3, Zeros(10), None, 10**9)])
            self.assertEqual(state.limit_link(10**9, 1, 2, None), [])
            self.assertEqual(state.enqueue(10**9, 1, 2, 3, b""), [Completion(1, 2, 3, b"", 10**9, 10**9)])

    def test_a_refused_call_changes_nothing(self):
        with State(first_id=2**64 - 1, strict=False) as state:
            with self.assertRaises(MomentTooLate):
                state.enqueue(1, 1, 2, 3, b"late", latency=2**64 - 1)
            state.limit(0, 1, egress=1)
            with self.assertRaises(FlowIdsUsedUp):
                state.enqueue(0, 1, 2, 3, b"none left")
            self.assertIsNone(state.next())

    def test_numbers_are_not_cut(self):
        with State() as state:
            for wrong in (-1, 2**64):
                for call in (
                    lambda: state.advance(wrong),
                    lambda: state.limit(0, wrong),
                    lambda: state.limit(0, 1, egress=wrong),
                    lambda: state.limit_link(0, 1, 2, wrong),
                    lambda: state.enqueue(0, 1, wrong, 0, b""),
                    lambda: state.enqueue(0, 1, 2, 0, b"", latency=wrong),
                    lambda: state.enqueue_zeros(0, 1, 2, 0, wrong),
                    lambda: State(first_id=wrong),
                ):
                    self.assertRaises(OverflowError, call)
            for wrong in (1.5, "1", None, True):
                self.assertRaises(TypeError, state.advance, wrong)
                self.assertRaises(TypeError, state.enqueue, 0, wrong, 2, 0, b"")
            for wrong in (0, 1, None, "no"):
                self.assertRaises(TypeError, state.enqueue, 0, 1, 2, 0, b"", 0, wrong)
            for wrong in ("text", 7, 1.5, None):
                self.assertRaises(TypeError, state.enqueue, 0, 1, 2, 0, wrong)
            self.assertRaises(TypeError, state.enqueue, 0, 1, 2, 0, 7)
            longest = state.enqueue_zeros(0, 1, 2, 0, 2**64 - 1)
            self.assertEqual(longest, [Completion(1, 2, 0, Zeros(2**64 - 1), 0, 0)])

    def test_a_message_is_any_object(self):
        with State(["oslo", "lima", "rome", "oslo"]) as state:
            block = object()
            state.limit(0, "lima", egress=2000)
            for to in ("oslo", "rome"):
                self.assertEqual(state.enqueue(0, "lima", to, 7, block, 5, to != "rome", length=1000), [])
            done = state.advance(state.next())
            wanted = [("lima", "oslo", 7, block, 10**9 + 5, 10**9), ("lima", "rome", 7, block, None, 10**9)]
            self.assertEqual(done, [Completion(*it) for it in wanted])
            self.assertIs(done[0].message, block)
            self.assertRaises(UnknownPeer, state.enqueue, 10**9, "lima", "quito", 7, b"")
            self.assertEqual((state.next(), state._held), (None, {}))
            self.assertEqual(arrivals(done)["deliver_at"], [10**9 + 5, None])
            self.assertEqual(arrivals(done)["done_at"], [10**9, 10**9])
            self.assertEqual(arrivals([Completion(1, 2, 3, Zeros(4), 5, 4)])["length"], [4])

    def test_a_call_out_of_turn_is_refused(self):
        with State() as state:
            state.limit(5, 1, egress=1000)
            state.enqueue_zeros(5, 1, 2, 7, 1000)
            due = 10**9 + 5
            for call in (
                lambda: state.limit(due, 1),
                lambda: state.limit_link(due, 1, 2, None),
                lambda: state.enqueue(due, 1, 2, 7, b""),
            ):
                with self.assertRaises(OutOfTurn) as caught:
                    call()
                self.assertEqual(str(caught.exception), f"out of turn: an event is due at {due}")
                self.assertEqual((caught.exception.last, caught.exception.due), (5, due))
            for call in (state.advance, state.advance_counted, lambda now: state.limit(now, 1)):
                with self.assertRaises(OutOfTurn) as caught:
                    call(4)
                self.assertEqual(str(caught.exception), "out of turn: the last call was at 5")
                self.assertEqual((caught.exception.last, caught.exception.due), (5, None))
            turns = [state.in_turn(4), state.in_turn(due - 1), state.in_turn(due), state.in_turn(due, False)]
            self.assertEqual(turns, [False, True, False, True])
            self.assertRaises(MomentTooLate, state.enqueue, 6, 1, 2, 7, b"", 2**64 - 6)
            self.assertEqual(state.enqueue(6, 1, 2, 8, b"", 2**64 - 6, False), [])
            self.assertEqual([it.channel for it in state.advance(due)], [7, 8])
        with State(strict=False) as state:
            state.limit(5, 1, egress=1000)
            self.assertEqual(state.limit(4, 1), [])

    def test_many_messages_go_by_one_call(self):
        with State(["lima", "oslo", "rome"]) as state:
            block = object()
            state.limit(0, "lima", egress=2000)
            sent = [Outgoing("lima", "oslo", 7, block, 5, length=1000), ("lima", "rome", 8, b"x" * 1000, 0, False)]
            self.assertEqual(state.enqueue_all(3, sent), [])
            for wrong, why in (
                (("lima", "quito", 7, b""), UnknownPeer),
                (("lima", "oslo", 7, b"", 2**64 - 4), MomentTooLate),
                (("lima", "oslo", 7, "text"), TypeError),
                (("lima", "oslo", -1, b""), OverflowError),
                (("lima", "oslo", 7, b"", 0, 1), TypeError),
            ):
                self.assertRaises(why, state.enqueue_all, 4, [*sent, wrong])
            self.assertRaises(OutOfTurn, state.enqueue_all, 2, sent)
            self.assertEqual(len(state._held), 2)
            done = state.advance(state.next())
            wanted = [("lima", "oslo", 7, block, 10**9 + 8), ("lima", "rome", 8, b"x" * 1000, None)]
            wanted = [(*it, 10**9 + 3) for it in wanted]
            self.assertEqual(done, [Completion(*it) for it in wanted])
            self.assertEqual((state.enqueue_all(10**9 + 3, []), state.next(), state._held), ([], None, {}))

    def test_what_is_in_flight_is_told(self):
        with State(["a", "b", "c"]) as state:
            block = object()
            self.assertEqual((state.in_flight(), state.rated_anew()), ([], 0))
            state.limit(0, "a", egress=1000)
            sent = [("a", "b", 7, block, 0, True, 1000), ("a", "c", 8, b"x" * 500), ("a", "c", 9, b"behind")]
            state.enqueue_all(0, sent)
            self.assertEqual(state.rated_anew(), 2)
            state.limit(400_000_001, "a", egress=1001)
            left, rate = (Fraction(1599999999, 2000000), Fraction(599999999, 2000000)), Fraction(1001, 2)
            wanted = [
                InFlight("a", "b", 7, block, left[0], rate, 400_000_001, True),
                InFlight("a", "c", 8, b"x" * 500, left[1], rate, 400_000_001, True),
            ]
            self.assertEqual(state.in_flight(), wanted)
        with State() as state:
            state.limit(0, 1, egress=10**9)
            for to in range(100):
                state.enqueue_zeros(to, 1, to + 2, 7, 10**6)
            first = state.in_flight()[0]
            self.assertEqual(first, InFlight(1, 2, 7, Zeros(10**6), Fraction(999994), Fraction(10**7), 99, False))

    def test_limit_keeps_what_is_not_named(self):
        with State() as state:
            state.limit(0, 1, egress=1000)
            state.limit(0, 1, ingress=5)
            state.enqueue_zeros(0, 1, 2, 0, 1000)
            self.assertEqual(state.next(), 10**9)
            self.assertEqual(len(state.limit(0, 1, egress=None)), 1)
            state.enqueue_zeros(0, 2, 1, 0, 10)
            self.assertEqual(state.next(), 2 * 10**9)

    def test_numbers_of_any_kind_pass(self):
        class Five:
            def __index__(self):
                return 5

        with State() as state:
            self.assertEqual(state.enqueue(Five(), Five(), 2, 3, memoryview(b"abcd").cast("H"))[0].deliver_at, 5)
        try:
            import numpy
        except ImportError:
            self.skipTest("numpy is not installed")
        with State() as state:
            done = state.enqueue(numpy.int64(5), numpy.uint8(1), 2, 3, b"", numpy.int32(1), numpy.bool_(True))
            self.assertEqual(done[0].deliver_at, 6)
            self.assertRaises(TypeError, state.advance, numpy.bool_(True))

    def test_a_closed_scheduler_says_so(self):
        state = State()
        state.close()
        state.close()
        for call in (state.next, state.in_flight, state.rated_anew, lambda: state.in_turn(1), lambda: state.advance(1)):
            self.assertRaises(Closed, call)
        for call in (lambda: state.limit(0, 1), lambda: state.enqueue_all(0, [(1, 2, 3, b"")])):
            self.assertRaises(Closed, call)

    def test_a_scheduler_is_not_copied(self):
        with State() as state:
            self.assertRaises(TypeError, copy.copy, state)
            self.assertRaises(TypeError, pickle.dumps, state)

    def test_calls_of_threads_take_turns(self):
        with State() as state:
            state.limit(0, 1, egress=10**12)
            threads = [threading.Thread(target=lambda: [state.enqueue_zeros(0, 1, 2, 0, 1) for _ in range(200)]) for _ in range(4)]
            for thread in threads:
                thread.start()
            for thread in threads:
                thread.join()
            self.assertEqual(len(state.advance(10**9)), 800)


class Refusing(unittest.TestCase):
    """Each allocation of each call is refused in turn, where the library has the memory of refusing_heap.c."""

    def setUp(self):
        try:
            self.until_refusal = ctypes.c_long.in_dll(_lib, "p2p_test_until_refusal")
            self.blocks = ctypes.c_long.in_dll(_lib, "p2p_test_blocks")
        except ValueError:
            self.skipTest("its memory cannot be refused")

    def each(self, call):
        for refused in itertools.count():
            self.until_refusal.value = refused
            try:
                return call()
            except MemoryError:
                pass
            finally:
                self.until_refusal.value = -1

    def test_refused_calls_change_nothing(self):
        state = self.each(State)
        now = sent = done = 0
        for peer in range(4):
            self.each(lambda: state.limit(now, peer, egress=1000))
            self.each(lambda: state.limit(now, peer, ingress=700))
        for turn, peer in itertools.product(range(10), range(4)):
            if peer == 0:
                now += 50_000_000
                done += len(self.each(lambda: state.advance(now)))
            next_event = state.next()
            sent += 1

            def send():
                self.assertEqual(state.next(), next_event)
                return state.enqueue(now, peer, (peer + turn) % 4, 7, bytes(100), 5, turn % 5 != 0)

            done += len(self.each(send))
            self.assertEqual(len(state._held), sent - done)
            sent += 2
            both = [(peer, 1, 8, b"x" * 40, 5), (peer, 2, 9, b"x" * 60, 5, False)]
            done += len(self.each(lambda: state.enqueue_all(now, both)))
            self.assertLessEqual(len(self.each(state.in_flight)), sent - done)
        done += len(self.each(lambda: state.advance(now + 10**12)))
        self.assertEqual((done, state._held), (sent, {}))
        state.close()
        self.assertEqual(self.each(lambda: allocate([Flow(1, 1, 2)], {1: 5})), {1: 5})
        self.assertEqual(self.blocks.value, 0)


class Waiting(unittest.TestCase):
    """A network whose messages are waited for."""

    def test_a_task_waits_for_its_message(self):
        async def main():
            net = on_asyncio.Network(speed=100)
            net.limit(1, egress=1000)
            first, second = net.send(1, 2, b"x" * 500), net.send(1, 3, b"y" * 1000, latency=10**8)
            done = await first
            self.assertEqual((done.recipient, done.message), (2, b"x" * 500))
            done = await second
            self.assertEqual(done.message, b"y" * 1000)
            self.assertGreaterEqual(done.deliver_at, 1_600_000_000)
            self.assertIsNone((await net.send(1, 2, b"", should_deliver=False)).deliver_at)

        asyncio.run(main())

    def test_a_process_waits_for_its_message(self):
        try:
            import simpy

            simpy.Environment
        except (ImportError, AttributeError):
            self.skipTest("SimPy 3 or 4 is not installed")
        from p2p_simulated import on_simpy

        def sender(env, net, seen):
            first = net.send(1, 2, b"x" * 500)
            yield env.timeout(500_000_000)
            second = net.send(1, 3, b"y" * 500, latency=7)
            done = yield first
            seen.append((env.now, done.recipient, done.message))
            done = yield second
            seen.append((env.now, done.deliver_at))
            net.limit(1, egress=None)
            done = yield net.send(1, 2, b"z", should_deliver=False)
            seen.append((env.now, done.deliver_at))

        env, seen = simpy.Environment(), []
        net = on_simpy.Network(env, unit=1)
        net.limit(1, egress=1000)
        env.process(sender(env, net, seen))
        env.run()
        self.assertEqual(seen, [(500_000_000, 2, b"x" * 500), (10**9 + 7, 10**9 + 7), (10**9 + 7, None)])
        env, seen = simpy.Environment(), []
        net = on_simpy.Network(env)
        net.limit(1, egress=3)

        def seconds():
            done = yield net.send(1, 2, b"x")
            seen.append((env.now, done.deliver_at))

        env.process(seconds())
        env.run()
        self.assertEqual(seen, [(0.333333334, 333_333_334)])


class Scripts(unittest.TestCase):
    def test_a_script_prints_what_linkrun_prints(self):
        self.assertEqual(run("limit 0 1 1000 -\nenqueue 0 1 2 7 500 0 1\nnext\n"), "next 500000000\n")
        with self.assertRaises(BadLine) as caught:
            run("next\nnext 1\n")
        self.assertEqual((caught.exception.number, caught.exception.printed), (2, "next -\n"))
        self.assertEqual((run(b""), run(b"next\n")), ("", "next -\n"))
        self.assertEqual(len(run("flow 1 1 2 1\nrates\n" * 1000)), 17000)


class Planning(unittest.TestCase):
    def test_rates_are_max_min_fair(self):
        flows = [Flow(1, "a", "b"), Flow(2, "a", "c"), Flow(3, "d", ("e", 5))]
        self.assertEqual(allocate(flows, {"a": 50000, "none": 1}, {"b": 1000}), {1: 1000, 2: 49000, 3: None})
        self.assertEqual(allocate(flows, {"a": 1}, links={("a", "b"): 0}), {1: 0, 2: 1, 3: None})
        self.assertEqual(allocate([Flow(i, 0, i + 1) for i in range(3)], {0: 1}), dict.fromkeys(range(3), Fraction(1, 3)))
        self.assertEqual(allocate([]), {})
        self.assertEqual(allocate([Flow(1, 0, 0, False), Flow(2, 0, 1), Flow(2, 0, 2)], {0: 9}, {0: 0, 2: 1}), {1: 4, 2: 1})
        self.assertEqual(allocate_counted(flows, {"a": 50000}, {"b": 1000})[1], 2)
        self.assertRaises(OverflowError, allocate, flows, {"a": 2**128})

    def test_routes_are_shared_by_weight(self):
        self.assertEqual(allocate_routes([["trunk", "last mile"], ["trunk"], []], {"trunk": 10, "last mile": 4}), [4, 6, None])
        self.assertEqual(allocate_routes([["a"], ["a", "a"]], {"a": 10}, [1, 2]), [Fraction(10, 3), Fraction(20, 3)])
        self.assertEqual(allocate_routes([[1, 2], [1], [1]], {1: 12, 2: 3}, [5, 1, 2]), [3, 3, 6])
        self.assertEqual(allocate_routes([], {}), [])
        self.assertRaises(ValueError, allocate_routes, [[1], [1]], {1: 1}, [1])
        self.assertRaises(ValueError, allocate_routes, [[1], [1]], {1: 1}, [1, 0])
        self.assertRaises(OverflowError, allocate_routes, [[1], [1]], {1: 1}, [1, 2**64 - 1])
        self.assertRaises(OverflowError, allocate_routes, [[1]], {1: 1}, [2**64])
        most = 2**128 - 1
        routes = [[0, 1], [1], [0, 2], [2], [2], [0]]
        self.assertRaises(NumberTooLarge, allocate_routes, routes, {0: most, 1: 2**127 + 1, 2: 2**127 + 2})

    def test_rates_of_128_bits(self):
        most = 2**128 - 1
        self.assertEqual(allocate([Flow(1, 0, 1)], {0: most}), {1: most})
        flows = [Flow(1, 1, 9), Flow(2, 1, 3), Flow(3, 1, 4), Flow(4, 2, 9)]
        self.assertRaises(NumberTooLarge, allocate, flows, {1: 1}, {9: most})

    def test_the_planner_finds_what_holds_flows(self):
        plan = planner.example()
        self.assertEqual(planner.bottlenecks(plan), {("ingress", "oslo"): [1, 2, 5], ("ingress", "rome"): [3, 4]})
        self.assertEqual(planner.doubled(plan, "egress", "lima"), {})
        self.assertEqual(planner.doubled(plan, "ingress", "rome"), {3: Fraction(250000), 4: Fraction(1_000_000) - Fraction(500_000, 3) - 500_000})

    def test_a_sweep_is_the_work_on_each(self):
        plan = planner.example()
        scenarios = [plan._replace(egress={**plan.egress, "lima": n}) for n in range(100)]
        wanted = [planner.rates_of(scenario) for scenario in scenarios]
        self.assertEqual(planner.sweep(scenarios), wanted)
        self.assertEqual(planner.sweep(scenarios, map_over=map), wanted)
        with ThreadPoolExecutor(2) as pool, multiprocessing.pool.ThreadPool(2) as threads:
            self.assertEqual(planner.sweep(scenarios, map_over=pool), wanted)
            self.assertEqual(planner.sweep(scenarios, map_over=threads), wanted)
            submitted = planner.sweep(scenarios, map_over=lambda work, all: [pool.submit(work, it) for it in all])
            self.assertEqual(submitted, wanted)
        self.assertEqual(planner.doubled(plan, "egress", "nobody"), {})

    def test_a_sweep_goes_over_schedules(self):
        sent = [(10**9, "a", "c", 2, b"x" * 10), (0, "a", "b", 1, b"x" * 10)]
        schedules = [planner.Schedule({"a": (cap, None)}, sent) for cap in (5, 10, None)]
        done = planner.sweep(schedules, planner.completions_of, map)
        arrivals = [{it.channel: it.deliver_at for it in each} for each in done]
        self.assertEqual(arrivals, [{1: 3 * 10**9, 2: 4 * 10**9}, {1: 10**9, 2: 2 * 10**9}, {1: 0, 2: 10**9}])

    def test_a_sweep_by_dask(self):
        try:
            from dask.distributed import Client, LocalCluster
        except ImportError:
            self.skipTest("dask.distributed is not installed")
        plan = planner.example()
        scenarios = [plan._replace(egress={**plan.egress, "lima": n}) for n in range(20)]
        two = LocalCluster(n_workers=2, threads_per_worker=1, dashboard_address=None)
        with two as cluster, Client(cluster) as client:
            self.assertEqual(planner.sweep(scenarios, map_over=client), [planner.rates_of(it) for it in scenarios])


def load_tests(loader, tests, pattern):
    tests.addTests(doctest.DocTestSuite(p2p_simulated))
    return tests


if __name__ == "__main__":
    unittest.main()
