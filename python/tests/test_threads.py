"""Pairs that threads share, and what becomes of their ends. Skipped where libstrm_mt isn't there."""
import _thread
import copy
import gc
import io
import os
import select
import signal
import threading
import time
import unittest
import warnings
from concurrent.futures import ThreadPoolExecutor

from strm_words import MASTER, SLAVE, Call, Caller, Choices, Nak, Ready, Refused, Signal, Stopped, Turn

try:
    from strm import Pair
    from strm_threads import TERMINALS, Reader, System, ThreadsLibrary, Writer

    ThreadsLibrary.at()
    MISSING = None
except ImportError as failure:
    MISSING = str(failure)


@unittest.skipIf(MISSING, MISSING)
class Threads(unittest.TestCase):
    def system(self, pairs=1, choices=None, workers=0):
        system = System(pairs, choices or TERMINALS, workers)
        self.addCleanup(system.free)
        return system

    def refused(self, name, call, *arguments):
        with self.assertRaises(Refused) as told:
            call(*arguments)
        self.assertEqual(told.exception.name, name)

    def agrees(self, account):
        """Written and read are what the pair's books say."""
        told, books = account.told, (account.ms, account.sm)
        self.assertEqual(tuple(told.written), tuple(it.written for it in books))
        self.assertEqual(tuple(told.read), tuple(it.gone.get("read", 0) for it in books))
        self.assertTrue(account.ms.balance and account.sm.balance)
        return account

    def floods(self, end):
        """Writes until nothing goes on, as nobody reads: how many bytes were taken."""
        written = 0
        while True:
            try:
                written += end.write(b"x" * 1000)
            except Refused as refusal:
                self.assertTrue(refusal.would_wait)
                if not end.run():
                    return written

    def started(self, function, *arguments):
        """A future of a thread."""
        pool = ThreadPoolExecutor(1)
        self.addCleanup(pool.shutdown)
        return pool.submit(function, *arguments)

    def test_three_threads_at_a_terminal(self):
        master, slave = self.system(3, workers=1).terminal()
        screen = master.split()

        def types():
            keys = Writer(master)
            for number in range(200):
                keys.write(b"line %d\r" % number)

        def sees():
            shown, reader = b"", Reader(screen)
            while not shown.endswith(b"line 199\r\n"):
                shown += reader.read(999)
            return shown

        typing, seeing, shell = self.started(types), self.started(sees), Reader(slave)
        for number in range(200):
            self.assertEqual(shell.read(256), b"line %d\n" % number)
        typing.result()
        self.assertEqual(seeing.result(), b"".join(b"line %d\r\n" % number for number in range(200)))
        account = self.agrees(master.join(screen).join(slave).settle())
        self.assertEqual(account.told.read.from_master, 10 * 7 + 90 * 8 + 100 * 9)
        self.assertGreater(account.told.calls, 400)

    def test_a_wait_has_a_time_out(self):
        system = self.system()
        master, slave = system.terminal()
        began = time.monotonic()
        self.refused("EAGAIN", slave.wait, Ready.CAN_READ, 0.3)
        self.assertGreaterEqual(time.monotonic() - began, 0.3)
        self.refused("EAGAIN", slave.wait, Ready.CAN_READ, 0)
        self.assertIn(Ready.CAN_WRITE, slave.wait(Ready.CAN_WRITE, 0.01))
        slave.timeout = 0.01
        self.refused("EAGAIN", slave.read_wait)
        self.refused("EAGAIN", slave.read)
        reader = Reader(slave)
        with self.assertRaises(TimeoutError) as over:
            reader.read(9)
        self.assertEqual(over.exception.__cause__.name, "EAGAIN")
        self.assertEqual(master.write(b"x\r"), 2)
        self.assertGreater(master.run(), 0)
        self.assertEqual(system.run(master.pair), 0)
        self.assertEqual(reader.read(9), b"x\n")

    def test_who_sleeps_is_woken(self):
        master, slave = self.system(2, workers=2).terminal()
        sleeper = self.started(lambda: (slave.wait(Ready.HAS_SIGNALS), slave.signals()))
        time.sleep(0.05)
        master.write(b"\x03")
        ready, signals = sleeper.result()
        self.assertEqual((bool(ready & Ready.HAS_SIGNALS), signals), (True, [Signal.INT]))
        self.agrees(master.join(slave).settle())

    def test_others_run_while_a_thread_sleeps(self):
        _master, slave = self.system().terminal()
        sleeper = self.started(slave.wait, Ready.CAN_READ, 0.5)
        counted = 0
        while not sleeper.done():
            counted += 1
        self.assertGreater(counted, 1000)
        self.refused("EAGAIN", sleeper.result)

    def test_an_interrupt_ends_a_sleep(self):
        _master, slave = self.system().terminal()
        self.assertIs(threading.current_thread(), threading.main_thread())
        before = signal.signal(signal.SIGINT, signal.default_int_handler)
        self.addCleanup(signal.signal, signal.SIGINT, before)
        for sleeps in (slave.read_wait, slave.wait, lambda: slave.wait(Ready.CAN_READ, 60)):
            interrupts = threading.Timer(0.1, _thread.interrupt_main)
            interrupts.start()
            with self.assertRaises(KeyboardInterrupt):
                sleeps()
            interrupts.join()
        self.refused("EAGAIN", slave.read)

    def test_flow_control_holds_a_writer_back(self):
        text = bytes(range(32, 127)) * 1000
        for modules in ((), ("ldterm",)):
            system = self.system(choices=Choices(128, 64, 16384, 0), workers=1)
            master = system.open()
            master.unlock()
            slave = master.open_slave()
            for module in modules:
                slave.push(module)

            def writes():
                with Writer(slave) as file:
                    return file.write(text)

            writer = self.started(writes)
            with Reader(master) as file:
                self.assertEqual(file.read(), text)
            self.assertEqual(writer.result(), len(text))
            self.assertEqual(system.claim(), 0)

    def test_a_writer_whose_time_is_over_says_how_much_it_wrote(self):
        _master, slave = self.system().terminal()
        slave.timeout = 0.02
        self.assertIn(Writer(slave).write(b"x" * 100_000), range(1, 100_000))
        self.refused("EAGAIN", slave.read)  # a file that is gone leaves its end

    def test_a_split_and_a_join(self):
        system = self.system()
        master, slave = system.terminal()
        whole = master.told().parts
        second = master.split()
        self.assertEqual((second.told().told.calls, second.side, second.pair), (0, MASTER, master.pair))
        self.assertEqual((master.told().parts + second.told().parts, slave.told().parts), (whole, whole))
        self.assertIs(master.join(second), master)
        self.assertEqual(master.told().parts, whole)
        with self.assertRaises(ValueError):
            second.read()
        master.write(b"a\r")
        system.run(0)
        reader, writer = slave.into_halves()
        self.assertEqual(reader.read(9), b"a\n")
        joined = writer.end.join(reader.end)
        self.assertEqual((joined.side, joined.told().told.read.from_master), (SLAVE, 2))
        self.refused("EINVAL", joined.join, joined)
        joined.join(master)  # it calls as the one that opened the pair
        self.assertEqual((joined.side, joined.told().side, joined.told().parts), (MASTER, MASTER, 1 << 63))
        self.agrees(joined.settle())

    def test_a_cut_of_an_end_is_made_again(self):
        master, slave = self.system(choices=TERMINALS._replace(anew=False)).terminal()
        opened = slave.cut()
        self.assertEqual([entry.op for entry in opened.entries], ["open_master", "unlock", "open_slave", "push", "push"])
        before = slave.told()
        master.write(b"pwd\r")
        turns = slave.run()
        self.assertEqual(slave.read(), b"pwd\n")
        typed = master.cut()
        self.assertEqual(len(typed.entries), turns + 2)
        self.assertEqual(slave.told().told.calls, before.told.calls + 1)
        last = slave.cut()
        self.assertEqual(last.entries, [])
        with Pair(image=opened.base) as again:
            for trace, behind in ((opened, typed), (typed, last)):
                self.assertEqual([again.repeat(entry) for entry in trace.entries], trace.entries)
                self.assertEqual(again.image(), behind.base)
        self.agrees(master.join(slave).settle())
        self.assertRaises(ValueError, slave.cut)

    def test_a_cut_lets_a_full_journal_go_on(self):
        system = self.system(choices=Choices(128, 8, 16384, 0, False))
        (master, slave), calls = system.terminal(), 0
        for _ in range(3):
            master.write(b"x\r")
        self.refused("JournalFull", master.write, b"x\r")
        system.start_workers(1)
        self.refused("EAGAIN", slave.wait, Ready.CAN_READ, 0.05)
        while True:
            trace = master.cut()
            self.assertEqual(len(trace.entries), 8)
            calls += sum(isinstance(entry, Call) for entry in trace.entries)
            try:
                slave.wait(Ready.CAN_READ, 1)
                break
            except Refused as refusal:
                self.assertTrue(refusal.would_wait)
        calls += sum(isinstance(entry, Call) for entry in slave.cut().entries)
        self.assertEqual(calls, slave.told().told.calls + master.told().told.calls)

    def test_ends_of_two_systems_stay(self):
        one, other = self.system(2), self.system(2)
        (a, b), (c, d), (e, f) = one.terminal(), other.terminal(), one.terminal()
        self.refused("EINVAL", a.join, c)
        self.refused("EINVAL", a.join, e)
        self.assertEqual([it.pair for it in (a, c, e)], [0, 0, 1])
        for master, slave in ((a, b), (c, d), (e, f)):
            self.agrees(master.join(slave).settle())

    def test_an_end_that_is_no_whole_pair_stays(self):
        master, slave = self.system().terminal()
        self.refused("StillShared", master.settle)
        self.assertEqual(master.write(b"x\r"), 2)
        self.assertEqual(self.agrees(master.join(slave).settle()).told.written.from_master, 2)
        with self.assertRaises(ValueError):
            master.settle()

    def test_freed_ends_are_settled_with_the_rest(self):
        system = self.system()
        master, slave = system.terminal()
        master.write(b"x\r")
        system.run(0)
        self.assertEqual((slave.read(), slave.write(b"y\n")), (b"x\n", 2))
        second = slave.split()
        slave.free()
        system.run(0)
        self.assertEqual(master.read(), b"x\r\ny\r\n")
        self.refused("EAGAIN", master.read)
        second.free()
        self.assertEqual(master.read(), b"")
        account = self.agrees(master.settle())
        self.assertEqual((account.told.read.from_master, account.told.written.from_slave), (2, 2))

    def test_a_pair_that_nothing_names_is_free_again(self):
        system = self.system()
        for order in range(3):
            ends = [*system.terminal()]
            ends.append(ends[0].split())
            self.refused("NoMinor", system.terminal)
            for at in ((0, 0, 0), (2, 1, 0), (1, 1, 0))[order]:
                ends.pop(at).free() if order else ends.pop(at)
            gc.collect()
        with system.open() as end:
            self.refused("NoMinor", system.claim)
            self.assertEqual(end.pair, 0)
        self.assertEqual(system.claim(), 0)
        self.refused("EINVAL", system.release, 1)
        system.release(0)
        self.refused("EINVAL", system.open, 0)

    def test_ends_that_threads_free_at_once(self):
        system = self.system(workers=1)
        with ThreadPoolExecutor(4) as pool:
            for round_ in range(50):
                master, slave = system.terminal()
                ends = [master, slave, master.split(), slave.split()]
                list(pool.map(lambda at: ends[at].free(), [(at + round_) % 4 for at in range(4)]))
        self.assertEqual(system.claim(), 0)

    def test_a_hang_up_is_the_end_of_input(self):
        master, slave = self.system(workers=1).terminal()
        reader, writer = slave.into_halves()
        master.write(b"last\r")
        reading = self.started(reader.readall)
        time.sleep(0.05)
        master.free()
        self.assertEqual(reading.result(), b"last\n")
        with self.assertRaises(OSError) as told:
            writer.write(b"x")
        self.assertEqual(told.exception.__cause__.name, "ENXIO")
        self.assertIn(Ready.HUNG_UP, writer.end.ready())

    def test_what_a_freed_slave_wrote_is_read_to_its_end(self):
        system = self.system()
        master, slave = system.terminal()
        written = self.floods(slave)
        system.start_workers(1)
        slave.timeout = 0.02
        self.refused("EAGAIN", slave.drain)
        reading = self.started(lambda: time.sleep(0.05) or Reader(master).readall())
        slave.free()
        self.assertEqual(len(reading.result()), written)

    def test_who_closes_does_not_linger(self):
        system = self.system(2)
        for closes in (lambda end: (end.close(), end.free()), lambda end: end.free(linger=0)):
            master, slave = system.terminal()
            written, began = self.floods(slave), time.monotonic()
            closes(slave)
            self.assertLess(time.monotonic() - began, 5)
            system.start_workers(1)
            read = len(Reader(master).readall())
            system.stop_workers()
            self.assertTrue(5000 < read < written)  # what stood in the modules is gone
            self.assertGreater(self.agrees(master.settle()).sm.gone["end-closed"], 0)

    def test_a_forked_child_leaves_all(self):
        system = System(1, workers=1)
        ends = system.terminal()
        with warnings.catch_warnings():
            warnings.simplefilter("ignore", DeprecationWarning)  # (of a fork beside threads)
            child = os.fork()
        if not child:
            del system, ends
            gc.collect()
            os._exit(7)
        end = time.monotonic() + 10
        while os.waitpid(child, os.WNOHANG) == (0, 0):
            self.assertLess(time.monotonic(), end)
            time.sleep(0.01)
        self.agrees(ends[0].join(ends[1]).settle())
        system.free()

    def test_a_system_is_there_until_its_ends_are_gone(self):
        system = System(1, workers=1)
        master, slave = system.terminal()
        self.refused("EINVAL", system.start_workers, 1)
        system.stop_workers()
        self.refused("EINVAL", system.stop_workers)
        system.free()
        del system
        gc.collect()
        self.assertEqual(master.write(b"x\r"), 2)
        self.agrees(master.join(slave).settle())
        with System(1) as gone:
            self.refused("EINVAL", gone.start_workers, 0)
        with self.assertRaises(ValueError):
            gone.terminal()

    def test_two_threads_at_one_end_are_told(self):
        _master, slave = self.system().terminal()
        sleeper = self.started(slave.wait, Ready.CAN_READ, 0.3)
        time.sleep(0.1)
        for call in (slave.read, slave.told, slave.free, slave.split):
            with self.assertRaises(RuntimeError):
                call()
        self.refused("EAGAIN", sleeper.result)
        with self.assertRaises(TypeError):
            copy.copy(slave)

    def test_modes_windows_and_groups(self):
        master, slave = self.system(workers=1).terminal()
        modes = slave.tcgetattr()
        modes["ECHO"] = False
        slave.tcsetattr(modes, "TCSETSW")
        self.assertEqual(slave.tcgetattr(), modes)
        master.set_winsize(5, 7)
        self.assertEqual((slave.get_winsize()[:2], slave.signals()), ((5, 7), [Signal.WINCH]))
        with self.assertRaises(Nak):
            slave.ioctl("TCSETS", b"short")
        self.refused("EINVAL", slave.ioctl, "NOSUCH")
        slave.tcsetpgrp(7)
        self.assertEqual(slave.tcgetpgrp(), 7)
        slave.caller = Caller(8)
        self.assertEqual(slave.told().caller, Caller(8))
        self.assertRaises(Stopped, slave.read)
        with self.assertRaises(OSError) as told:
            Reader(slave).read(9)
        self.assertIs(told.exception.__cause__.signal, Signal.TTIN)

    def test_one_ioctl_at_a_time(self):
        system = self.system()
        _master, slave = system.terminal()
        slave.set_winsize(3, 4)
        slave.timeout = 0.02
        slave.write(b"x")
        # no worker carries the output on, before which the first one isn't answered, and the second one waits for it
        self.refused("EAGAIN", slave.drain)
        self.refused("EAGAIN", slave.get_winsize)
        system.start_workers(1)
        slave.timeout = None
        self.assertEqual(slave.get_winsize()[:2], (3, 4))
        asks = [self.started(lambda end: [end.get_winsize()[:2] for _ in range(50)], slave.split()) for _ in range(4)]
        self.assertTrue(all(it.result() == [(3, 4)] * 50 for it in asks))

    def test_messages_and_modules(self):
        system = self.system()
        master = system.open()
        self.refused("EAGAIN", master.open_slave)
        master.unlock()
        slave = master.open_slave()
        self.refused("EINVAL", slave.look)
        self.refused("EINVAL", slave.push, "nosuch")
        slave.push("ptem")
        self.assertEqual(slave.look(), "ptem")
        slave.pop()
        master.put(3, b"control", b"data")
        system.run(0)
        self.assertEqual(slave.nread(), (1, 4))
        self.refused("EBADMSG", slave.read)
        self.assertRaises(OSError, Reader(slave.split()).read, 9)
        message = slave.get()
        self.assertEqual((message.prio, message.control, message.data), (3, b"control", b"data"))
        self.refused("EINVAL", slave.call, "open_master")
        self.assertEqual(slave.call("write", data=b"abc").value, 3)
        self.assertIsInstance(system.turn(0), Turn)
        self.assertIsNone(system.turn(0))
        self.refused("EINVAL", system.turn, 1)
        self.refused("EINVAL", system.run, 1)
        seen = system.audit(0)
        self.assertEqual((seen.told.written.from_slave, seen.sm.queued), (3, 3))
        room = bytearray(2)
        self.assertEqual((master.read_into(room), room), (2, b"ab"))
        slave.srdopt("msgn")
        slave.flush()
        slave.restart()
        system.run(0)
        self.assertEqual(master.nread(), (0, 0))
        self.agrees(master.join(slave).settle())

    def test_files_of_lines(self):
        master, slave = self.system(workers=1).terminal()
        with io.TextIOWrapper(io.BufferedReader(Reader(slave))) as lines, Writer(master) as keys:
            keys.write(b"one\rtwo\r\x04")
            self.assertEqual(list(lines), ["one\n", "two\n"])
            self.assertTrue(lines.buffer.raw.readable() and not lines.buffer.raw.writable() and keys.writable())
        self.assertRaises(ValueError, keys.write, b"x")

    def test_a_descriptor_tells_of_changes(self):
        system = self.system()
        master, slave = system.terminal()

        def is_readable():
            return bool(select.select([slave], [], [], 0)[0])

        self.assertTrue(is_readable())
        self.assertFalse(slave.ready() & Ready.CAN_READ or is_readable())
        master.write(b"x\r")
        system.run(0)
        self.assertTrue(is_readable() and slave.ready() & Ready.CAN_READ)
        self.assertFalse(is_readable())


if __name__ == "__main__":
    unittest.main()
