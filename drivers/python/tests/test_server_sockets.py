"""The sockets of piql-serve: what it takes for one that was left behind, and what it takes away at its end."""

import os
import shutil
import socket
import stat
import threading
import unittest
from pathlib import Path

from helpers import new_folder
from piql import OperationalError
from piql.server.rights import Place
from piql.server.sockets import Listener, check_beside, check_place, is_listened_at
from served import Served, greeted, stub_program


def left_behind(path: Path) -> None:
    """Makes a socket at which nobody listens."""
    with socket.socket(socket.AF_UNIX) as made:
        made.bind(str(path))


class PlaceTest(unittest.TestCase):
    def setUp(self) -> None:
        self.folder = new_folder(self)
        self.at = self.folder / "socket"

    def test_what_is_no_socket_is_left_as_it_is(self) -> None:
        self.at.write_text("rows")
        (self.folder / "folder").mkdir()
        (self.folder / "link").symlink_to("nothing")
        left_behind(self.folder / "other")
        (self.folder / "link_to_socket").symlink_to("other")
        os.mkfifo(self.folder / "pipe")
        for name in ("socket", "folder", "link", "link_to_socket", "pipe"):
            path = self.folder / name
            before = os.lstat(path)
            for call in (check_place, lambda it: Listener(Place(it))):
                with self.subTest(name), self.assertRaisesRegex(OperationalError, "is no socket"):
                    call(str(path))
            self.assertEqual(os.lstat(path).st_ino, before.st_ino)
        self.assertEqual(self.at.read_text(), "rows")

    def test_one_that_was_left_behind_is_taken_over(self) -> None:
        left_behind(self.at)
        check_place(str(self.at))
        listener = Listener(Place(str(self.at)))
        self.assertTrue(is_listened_at(str(self.at)))
        listener.close()
        self.assertFalse(os.path.lexists(self.at))

    def test_one_at_which_somebody_listens_is_not(self) -> None:
        first = Listener(Place(str(self.at)))
        self.addCleanup(first.close)
        with self.assertRaisesRegex(OperationalError, "listens at"):
            Listener(Place(str(self.at)))
        # A server that stands still, so that its row of clients is full, listens as well.
        waiting = []
        while len(waiting) < 1000:
            client = socket.socket(socket.AF_UNIX)
            self.addCleanup(client.close)
            client.setblocking(False)
            try:
                client.connect(str(self.at))
            except BlockingIOError:
                break
            waiting.append(client)
        with self.assertRaisesRegex(OperationalError, "listens at"):
            Listener(Place(str(self.at)))
        self.assertTrue(first.is_there())

    @unittest.skipUnless(os.geteuid() == 0, "another user's socket can be made by root alone")
    def test_another_users_is_refused(self) -> None:
        left_behind(self.at)
        os.chown(self.at, 65534, 65534)
        with self.assertRaisesRegex(OperationalError, "another user's"):
            Listener(Place(str(self.at)))
        self.assertTrue(os.path.lexists(self.at))

    def test_the_end_takes_only_its_own_away(self) -> None:
        first = Listener(Place(str(self.at)))
        os.unlink(self.at)
        second = Listener(Place(str(self.at)))
        first.close()
        self.assertTrue(second.is_there())
        os.unlink(self.at)
        self.at.write_text("a file")
        second.close()
        self.assertEqual(self.at.read_text(), "a file")

    def test_one_of_many_has_what_was_left_behind(self) -> None:
        left_behind(self.at)
        made: list[Listener] = []
        refused: list[Exception] = []

        def listen() -> None:
            try:
                made.append(Listener(Place(str(self.at))))
            except OperationalError as error:
                refused.append(error)

        threads = [threading.Thread(target=listen) for _ in range(8)]
        for thread in threads:
            thread.start()
        for thread in threads:
            thread.join()
        self.assertEqual((len(made), len(refused)), (1, 7))
        self.assertTrue(made[0].is_there())
        made[0].close()

    def test_the_mode_is_there_from_the_start(self) -> None:
        for mode in (0o600, 0o660):
            listener = Listener(Place(str(self.at), mode=mode))
            self.assertEqual(stat.S_IMODE(os.lstat(self.at).st_mode), mode)
            listener.close()

    def test_beside_the_store_is_no_place(self) -> None:
        store = str(self.folder / "site.db")
        for path in (store, store + "-wal", store + "-shm", f"{self.folder}/./site.db"):
            with self.subTest(path), self.assertRaisesRegex(OperationalError, "the store's own file"):
                check_beside(path, store)
        left_behind(self.at)
        with self.assertRaisesRegex(OperationalError, "is a socket"):
            check_beside(store, str(self.at))
        with self.assertRaisesRegex(OperationalError, "at most 107 bytes"):
            check_place(str(self.folder / ("x" * 120)))


class WordsTest(unittest.TestCase):
    """The words of the command, over what stands for the engine."""

    def setUp(self) -> None:
        self.folder = new_folder(self)
        self.program = stub_program(self.folder)
        self.store, self.at = self.folder / "site.db", self.folder / "site.socket"

    def refused(self, *words: Path) -> str:
        """What a server says that ends at once."""
        before = sorted(it.name for it in self.folder.iterdir())
        server = Served(*words, program=self.program)
        status, errors = server.end()
        self.assertEqual((status, server.said), (1, ""))
        self.assertEqual(sorted(it.name for it in self.folder.iterdir()), before)
        return errors

    def test_swapped_words_touch_nothing(self) -> None:
        self.store.write_text("rows")
        self.assertIn("is no socket", self.refused(self.at, self.store))
        self.assertIn("is no socket", self.refused(self.store, self.store))
        self.assertEqual(self.store.read_text(), "rows")
        new = self.folder / "new.db"
        self.assertIn("the store's own file", self.refused(new, new))
        left_behind(self.at)
        self.assertIn("is a socket", self.refused(self.at, self.folder / "other.socket"))

    def test_a_server_that_was_killed_leaves_its_socket_to_the_next(self) -> None:
        first = Served(self.store, self.at, program=self.program)
        first.process.kill()
        first.end()
        self.assertTrue(self.at.is_socket())
        second = Served(self.store, self.at, program=self.program)
        self.addCleanup(second.end)
        greeted(self, self.at)
        self.assertEqual(second.end()[0], 0)
        self.assertFalse(os.path.lexists(self.at))

    def test_the_socket_of_the_next_server_stays(self) -> None:
        first = Served(self.store, self.at, program=self.program)
        os.unlink(self.at)
        shutil.copy(self.store, self.folder / "other.db")
        second = Served(self.folder / "other.db", self.at, program=self.program)
        self.addCleanup(second.end)
        self.assertEqual(first.end()[0], 0)
        greeted(self, self.at)


if __name__ == "__main__":
    unittest.main()
