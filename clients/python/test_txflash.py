"""The client with the built program, and with small programs that end in the middle of a command."""
from __future__ import annotations

import os
import random
import signal
import sys
import tempfile
import threading
import time
import unittest
import unittest.mock
from typing import List

import txflash
from images import write_blank

SMALL = (16, 4, 4, 2, 20, 7)
# Serves a device that has page 0 and replies to each line by itself, but for `finish`.
ENDING = """#!{python}
import os, sys, time
print("serving", flush=True)
for line in sys.stdin:
    words = line.split()
    if words[0] == "finish":
        {at_finish}
    print({{"write": "open " + words[1] + " 1", "read": "blank 0", "step": "wrote 1 1 2"}}[words[0]], flush=True)
"""
KILL, DESK = "os.kill(os.getpid(), 9)", "print('desk fault', flush=True); os._exit(5)"
LATE = "time.sleep(1); print('page 0 41', flush=True); continue"


def setUpModule() -> None:
    try:
        txflash.found_program(None)
    except txflash.NoProgram as problem:
        sys.exit(f"test_txflash: {problem}")


class Room(unittest.TestCase):
    def setUp(self) -> None:
        room = tempfile.TemporaryDirectory()
        self.addCleanup(room.cleanup)
        self.image = os.path.join(room.name, "disk.img")
        write_blank(self.image, "scc", *SMALL)

    def device(self) -> txflash.Device:
        device = txflash.Device(self.image)
        self.addCleanup(device.close)
        return device

    def kill(self, device: txflash.Device) -> None:
        assert device._process
        device._process.kill()
        device._process.wait()

    def is_image(self) -> bool:
        """Whether the file is an image, and no live one."""
        with open(self.image, "rb") as file:
            return file.read(8) == b"TXFLASH1"

    def pages(self, device: txflash.Device, *pages: int) -> List[int]:
        """The first byte of each page, 0 for a blank one."""
        return [(device.read(page) or b"\0")[0] for page in pages]


class Calls(Room):
    def test_pages_change_and_stay(self) -> None:
        with txflash.Device(self.image) as device:
            self.assertEqual((device.page_bytes, device.logical, device.pending, device.protocol), (16, 20, 7, "scc"))
            device.write({3: b"left", 4: b"right", 5: b""})
            self.assertEqual(device.read(3), b"left".ljust(16, b"\0"))
            self.assertEqual((device.read(5), device.read(6)), (bytes(16), None))
            device.discard(3, 5)
        with txflash.Device(self.image) as device:
            self.assertEqual((device.read(3), device.read(4)), (None, b"right".ljust(16, b"\0")))
            self.assertEqual(device.stats()[:3], (1, 0, 0))
            self.assertIn(device.collect(), (True, False))

    def test_transactions_side_by_side(self) -> None:
        device = self.device()
        first, second = device.begin({0: b"a", 1: b"b"}), device.begin({2: b"c", 3: b"d"})
        self.assertFalse(second.step())
        self.assertFalse(first.step())
        self.assertEqual((second.written, device.stats()[:3]), (1, (0, 2, 4)))
        self.assertTrue(second.step())
        self.assertTrue(first.abort())
        self.assertEqual((first.state, second.state), ("aborted", "done"))
        self.assertEqual(self.pages(device, 0, 1, 2, 3), [0, 0, 99, 100])
        self.assertRaises(txflash.Gone, first.finish)

    def test_a_context_finishes_or_aborts(self) -> None:
        device = self.device()
        with device.begin({0: b"a"}) as whole:
            pass
        with self.assertRaises(KeyError), device.begin({0: b"b", 1: b"b"}) as given_up:
            given_up.step()
            raise KeyError
        self.assertEqual((whole.state, given_up.state), ("done", "aborted"))
        self.assertEqual(self.pages(device, 0, 1), [97, 0])

    def test_all_go_on_by_a_page(self) -> None:
        device = self.device()
        one, two = device.begin({0: b"a"}), device.begin({1: b"b", 2: b"c"})
        done: List[txflash.Transaction] = []
        while one.state == "open" or two.state == "open":
            done += device.step_all().finished
        self.assertEqual(done, [one, two])
        self.assertEqual(device.step_all(), txflash.Moved(0, ()))
        self.assertEqual(self.pages(device, 0, 1, 2), [97, 98, 99])

    def test_threads_share_a_device(self) -> None:
        device = self.device()

        def work(page: int) -> None:
            for turn in range(20):
                device.write({page: bytes([turn]), page + 4: bytes([turn])})

        threads = [threading.Thread(target=work, args=(page,)) for page in range(4)]
        for thread in threads:
            thread.start()
        for thread in threads:
            thread.join()
        self.assertEqual(self.pages(device, *range(8)), [19] * 8)


class Refusals(Room):
    def test_each_has_its_class(self) -> None:
        device = self.device()
        device.begin({1: b"a", 2: b"b"})
        with self.assertRaises(txflash.RefusedFull) as full:
            device.write({page: b"c" for page in range(3, 9)})
        self.assertEqual((full.exception.free, str(full.exception)), (5, "refused full 5"))
        with self.assertRaises(txflash.RefusedOverlap) as overlap:
            device.begin({0: b"c", 2: b"c"})
        self.assertEqual(overlap.exception.page, 2)
        with self.assertRaises(txflash.RefusedRange) as beyond:
            device.read(20)
        self.assertEqual(beyond.exception.page, 20)
        self.assertRaises(txflash.RefusedEmpty, device.write, {})
        with self.assertRaises(txflash.RefusedFull) as far_too_full:
            device.write({page: b"c" for page in range(20)})
        self.assertEqual(far_too_full.exception.free, 5)
        self.assertEqual(device.stats()[:3], (0, 1, 2))

    def test_what_no_line_can_say(self) -> None:
        device = self.device()
        for entries in ({-1: b""}, {2**32: b""}, {0: bytes(17)}):
            self.assertRaises(ValueError, device.write, entries)
        for odd in ({1.5: b""}, {0: 5}, {0: "text"}):
            self.assertRaises(TypeError, device.write, odd)
        self.assertRaises(TypeError, device.read, 1.0)
        self.assertRaises(ValueError, device.write, {0: memoryview(bytes(32)).cast("I")})
        self.assertIsNone(device.read(True))
        with self.assertRaises(txflash.RefusedRange) as beyond:
            device.write({page: b"a" for page in range(300000)})
        self.assertEqual(beyond.exception.page, 20)
        self.assertRaises(ValueError, device.arm, "cut", 0)
        self.assertRaises(ValueError, device.arm, "cut", 1, "some")
        self.assertEqual(device.stats()[1], 0)
        device.close()

    def test_no_image_is_too_large(self) -> None:
        self.assertRaises(ValueError, write_blank, self.image + ".large", "scc", 4096, 256, 32768, 16, 20, 7)
        self.assertFalse(os.path.exists(self.image + ".large"))

    def test_devices_that_do_not_open(self) -> None:
        device = self.device()
        with self.assertRaises(txflash.InUse) as in_use:
            txflash.Device(self.image)
        self.assertIn("(in use, status 15): end the session", str(in_use.exception))
        self.assertRaises(txflash.NoImage, txflash.Device, self.image + "x")
        with open(self.image + ".bad", "wb") as file:
            file.write(b"no image" * 100)
        with self.assertRaises(txflash.BadImage) as bad:
            txflash.Device(self.image + ".bad")
        self.assertIn("bad image: magic", str(bad.exception))
        for kind in (txflash.NotServed, txflash.DeskFault):
            self.assertRaises(kind, txflash.Device, os.path.dirname(self.image))
        self.assertRaises(txflash.NoProgram, txflash.Device, self.image, "/no/program")
        with self.assertRaises(txflash.NotServed) as other:
            txflash.Device(self.image, "true")
        self.assertIn("(nothing said, status 0): name flash_serve", str(other.exception))
        device.close()
        self.assertRaises(txflash.NotServed, device.read, 0)


class Ends(Room):
    def test_a_device_that_nobody_closes(self) -> None:
        device = txflash.Device(self.image)
        device.write({0: b"a"})
        with self.assertWarns(ResourceWarning):
            del device
        self.assertTrue(self.is_image())
        self.assertEqual(self.pages(self.device(), 0), [97])

    def test_a_fork_leaves_the_device(self) -> None:
        device = self.device()
        transaction = device.begin({0: b"a", 1: b"b"})
        child = os.fork()
        if not child:
            try:
                device.read(0)
            except txflash.NotServed:
                device.close()
                time.sleep(20)
            finally:
                os._exit(1)
        self.addCleanup(os.waitpid, child, 0)
        self.addCleanup(os.kill, child, signal.SIGKILL)
        transaction.finish()
        self.assertEqual(self.pages(device, 0, 1), [97, 98])
        begun = time.monotonic()
        device.close()
        self.assertLess(time.monotonic() - begun, 10)
        self.assertEqual(os.waitpid(child, os.WNOHANG), (0, 0))

    def test_a_killed_one_is_closed_by_another(self) -> None:
        for is_known in (False, True):
            device = txflash.Device(self.image)
            device.write({0: b"a"})
            transaction = device.begin({1: b"b"})
            self.kill(device)
            self.assertFalse(self.is_image())
            if is_known:
                self.assertRaises(txflash.InDoubt, transaction.finish)
            device.close()
            self.assertTrue(self.is_image())

    def test_an_exception_goes_on_where_the_program_was_killed(self) -> None:
        device = self.device()
        with self.assertRaises(KeyError), device.begin({0: b"a", 1: b"a"}) as transaction:
            self.kill(device)
            raise KeyError
        self.assertEqual((transaction.state, self.pages(device, 0)), ("lost", [0]))


class Names(Room):
    def test_a_script_does_not_start_itself_for_ever(self) -> None:
        script = self.image + ".script"
        with open(script, "w", encoding="ascii") as file:
            file.write(f'#!/bin/sh\nexec "${{FLASH_SERVE_PROGRAM:-{txflash.found_program(None)}}}" "$@"\n')
        os.chmod(script, 0o755)
        with unittest.mock.patch.dict(os.environ, {"FLASH_SERVE_PROGRAM": script}):
            self.device().write({0: b"a"})


class Breaks(Room):
    def test_a_cut_leaves_whole_or_absent(self) -> None:
        device = self.device()
        for outcome, left in (("none", [1, 1]), ("all", [2, 2])):
            device.write({0: b"\1", 1: b"\1"})
            other = device.begin({2: b"\2"})
            device.arm("cut", 2, outcome)
            with self.assertRaises(txflash.PowerCut) as cut:
                device.write({0: b"\2", 1: b"\2"})
            self.assertEqual(cut.exception.pages, (0, 1))
            self.assertEqual(self.pages(device, 0, 1, 2), [*left, 0])
            self.assertEqual(other.state, "lost")

    def test_after_a_fault_the_transaction_goes_on(self) -> None:
        device = self.device()
        transaction = device.begin({0: b"a", 1: b"b"})
        device.arm("fault", 1)
        self.assertRaises(txflash.Fault, transaction.finish)
        transaction.finish()
        self.assertEqual(self.pages(device, 0, 1), [97, 98])

    def test_a_fault_may_hide_that_all_is_there(self) -> None:
        device = self.device()
        transaction = device.begin({0: b"a"})
        device.arm("fault", 1, "all")
        self.assertRaises(txflash.Fault, transaction.finish)
        self.assertFalse(transaction.abort())
        device.arm("fault", 1, "all")
        device.write({1: b"b"})
        device.arm("fault", 1, "none")
        self.assertRaises(txflash.Fault, device.write, {2: b"c"})
        self.assertEqual(self.pages(device, 0, 1, 2), [97, 98, 0])
        device.arm("fault", 1, "all")
        device.arm("badread", 1)
        device.write({3: b"d"})
        self.assertEqual((self.pages(device, 3), device.stats().open), ([100], 0))

    def test_a_fault_of_several_drops_all(self) -> None:
        device = self.device()
        one, two = device.begin({0: b"a"}), device.begin({1: b"b", 2: b"c"})
        device.arm("fault", 1)
        with self.assertRaises(txflash.Dropped) as dropped:
            device.step_all()
        self.assertEqual((dropped.exception.pages, one.state, two.state), ((0,), "in doubt", "lost"))


class Kills(Room):
    def program(self, at_finish: str) -> str:
        path = self.image + ".program"
        with open(path, "w", encoding="ascii") as file:
            file.write(ENDING.format(python=sys.executable, at_finish=at_finish))
        os.chmod(path, 0o755)
        return path

    def test_the_next_call_opens_it_again(self) -> None:
        device = self.device()
        device.write({0: b"a"})
        self.kill(device)
        self.assertEqual(self.pages(device, 0), [97])
        self.kill(device)
        device.write({0: b"b"})
        transaction = device.begin({0: b"c", 1: b"c"})
        self.kill(device)
        self.assertRaises(txflash.Gone, transaction.step)
        self.assertEqual((self.pages(device, 0, 1), transaction.state), ([98, 0], "lost"))

    def test_a_write_without_reply_is_in_doubt(self) -> None:
        with txflash.Device(self.image, self.program(KILL)) as device:
            lost = device.begin({0: b"a", 1: b"a"})
            lost.step()
            with self.assertRaises(txflash.InDoubt) as killed:
                device.write({7: b"b", 8: b"b"})
            self.assertEqual((killed.exception.pages, lost.state), ((7, 8), "lost"))
            self.assertIn("signal 9", str(killed.exception))
            self.assertIsNone(device.read(0))

    def test_a_failed_disk_has_its_words(self) -> None:
        with txflash.Device(self.image, self.program(DESK)) as device:
            with self.assertRaises(txflash.DeskFault) as failed:
                device.write({7: b"b"})
            self.assertIn("desk fault, status 5", str(failed.exception))
            self.assertEqual(failed.exception.pages, (7,))

    def test_no_call_takes_the_reply_of_one_that_was_interrupted(self) -> None:
        def interrupt(*_: object) -> None:
            raise KeyboardInterrupt

        self.addCleanup(signal.signal, signal.SIGALRM, signal.signal(signal.SIGALRM, interrupt))
        with txflash.Device(self.image, self.program(LATE)) as device:
            transaction = device.begin({7: b"b"})
            signal.setitimer(signal.ITIMER_REAL, 0.3)
            self.assertRaises(KeyboardInterrupt, transaction.finish)
            self.assertEqual((transaction.state, device.read(0)), ("in doubt", None))

    def test_a_signal_handler_takes_no_reply(self) -> None:
        refused: List[RuntimeError] = []

        def call(*_: object) -> None:
            for it in (lambda: device.read(0), lambda: device.write({1: b"b"}), device.close):
                with self.assertRaises(RuntimeError) as caught:
                    it()
                refused.append(caught.exception)

        self.addCleanup(signal.signal, signal.SIGALRM, signal.signal(signal.SIGALRM, call))
        with txflash.Device(self.image, self.program(LATE)) as device:
            transaction = device.begin({7: b"b"})
            signal.setitimer(signal.ITIMER_REAL, 0.3)
            transaction.finish()
            self.assertEqual((len(refused), device.read(0)), (3, None))

    def test_interrupts_at_any_moment(self) -> None:
        is_armed = False

        def interrupt(*_: object) -> None:
            if is_armed:
                raise KeyboardInterrupt

        self.addCleanup(signal.signal, signal.SIGALRM, signal.signal(signal.SIGALRM, interrupt))
        device, draw, interrupts = self.device(), random.Random(1), 0
        end = time.monotonic() + 20
        while interrupts < 60 and time.monotonic() < end:
            turn, kind = draw.randrange(1, 256), draw.choice(("write", "step", "step_all"))
            entries = {page: bytes([turn]) for page in range(7)}
            try:
                is_armed = True
                signal.setitimer(signal.ITIMER_REAL, draw.uniform(0.0001, 0.003))
                transaction = None if kind == "write" else device.begin(entries)
                while transaction and transaction.state == "open":
                    device.step_all() if kind == "step_all" else transaction.step()
                if not transaction:
                    device.write(entries)
                is_armed = False
            except KeyboardInterrupt:
                is_armed = False
                interrupts += 1
            self.assertEqual(device.stats().open, len(device._open))
            for it in list(device._open.values()):
                it.abort()
            self.assertEqual(len(set(self.pages(device, *range(7)))), 1)
        self.assertEqual(interrupts, 60)

    def test_kills_at_any_moment(self) -> None:
        device, draw, turn = self.device(), random.Random(1), 0
        for _ in range(20):
            process = device._process
            assert process
            killer = threading.Timer(draw.uniform(0, 0.05), process.send_signal, [signal.SIGKILL])
            killer.start()
            end, is_told = time.monotonic() + 10, False
            while not is_told and time.monotonic() < end:
                turn = turn % 255 + 1
                before = self.pages(device, 0)[0]
                try:
                    device.write({page: bytes([turn]) for page in range(7)})
                except txflash.InDoubt:
                    is_told = True
                    self.assertIn(self.pages(device, *range(7)), ([before] * 7, [turn] * 7))
                else:
                    self.assertEqual(self.pages(device, 0, 6), [turn, turn])
                is_told |= device._process is not process
            killer.join()


if __name__ == "__main__":
    unittest.main()
