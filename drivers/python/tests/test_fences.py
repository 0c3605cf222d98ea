"""Who has a store, a fence that is freed of a dead owner, and servers that may lose what they told."""

import contextlib
import io
import struct
import sys
import unittest
import unittest.mock
from collections.abc import Callable
from typing import NoReturn

from clusters import HAS_ETCD, HAS_POSTGRES, databases, etcd_url, needs_postgres, postgres_url
from piql.__main__ import main
from piql.errors import InterfaceError, OperationalError
from piql.hosts import Backend, Fault, Guard, Held, Host, Op, notices
from piql.hosts.etcd import EtcdStore
from piql.hosts.fence_command import fence
from piql.hosts.fenced import FencedStore
from piql.hosts.postgres_durability import Durability, weaknesses
from piql.hosts.urls import open_store
from piql.hosts.wire import Request

URLS = [make for make, is_there in ((etcd_url, HAS_ETCD), (postgres_url, HAS_POSTGRES)) if is_there]


def said(url: str, typed: str = "", is_freeing: bool = False) -> tuple[int, str]:
    """The status of the command, and what it prints."""
    out = io.StringIO()
    with contextlib.redirect_stdout(out), unittest.mock.patch.object(sys, "stdin", io.StringIO(typed)):
        status = fence(url, is_freeing)
    return status, out.getvalue()


def calls(store: Backend) -> list[object]:
    """What each call of a store does."""
    return [
        lambda: store.get(b"k"),
        lambda: store.range(b"", b"z", 5),
        lambda: store.count(b"", b"z", 5),
        lambda: store.write(b"k", Guard.ANY, b"", b"of the old one"),
        lambda: store.commit(b"an intent", [(b"k", b"of the old one")]),
    ]


class FreedTest(unittest.TestCase):
    """A store whose owner is gone, but whose fence stands."""

    def begun(self, url: str) -> FencedStore:
        store = open_store(url)
        assert isinstance(store, FencedStore)
        self.addCleanup(store.close)
        store.begin()
        return store

    def check(self, url: str) -> None:
        """An owner with a long lease is freed from by his name alone, and has no call from then on."""
        self.assertEqual(said(url), (0, f"nobody has {url}\n"))
        old = self.begun(url)
        old.write(b"k", Guard.ANY, b"", b"of the old one")
        self.assertEqual(said(url), (0, f"{old.owner} has {url}\n"))
        for typed in ("", "\n", "yes\n", old.owner[:-1] + "\n"):
            status, told = said(url, typed, True)
            self.assertEqual(status, 1)
            self.assertIn("nothing was changed", told)
        new = open_store(url)
        self.assertRaisesRegex(Held, old.owner, new.begin)
        new.close()
        status, told = said(url, f"{old.owner}\n", True)
        self.assertEqual((status, told.splitlines()[-1].endswith(f"{url} is free")), (0, True))
        self.assertEqual(said(url, "x\n", True), (0, f"nobody has {url}\n"))
        new = self.begun(url)
        new.write(b"k", Guard.ANY, b"", b"of the new one")
        for call in calls(old):
            old.lost = None
            self.assertRaises(Fault, call)
        self.assertEqual(new.get(b"k"), b"of the new one")

    def test_by_its_owners_name(self) -> None:
        for make in URLS:
            with self.subTest(make.__name__):
                self.check(make("?lease=3600"))

    def test_an_owner_who_lives_and_wasnt_replaced_has_no_calls_either(self) -> None:
        for make in URLS:
            with self.subTest(make.__name__):
                url = make("?lease=3600")
                old = self.begun(url)
                self.assertTrue(old.free(old.owner))
                self.assertFalse(old.free(old.owner))
                for call in calls(old):
                    old.lost = None
                    self.assertRaises(Fault, call)

    @needs_postgres
    def test_a_clock_that_was_set_back(self) -> None:
        url = postgres_url()
        self.begun(url).client.close()  # type: ignore[attr-defined]
        databases().ask(0, "UPDATE piql_fence SET until = until + interval '1 day'")
        other = open_store(url)
        self.addCleanup(other.close)
        self.assertRaises(Held, other.begin)
        owner = said(url)[1].split(" ")[0]
        self.assertEqual(said(url, f"{owner}\n", True)[0], 0)
        other.begin()

    def test_what_is_no_cluster(self) -> None:
        self.assertRaises(InterfaceError, fence, "site.db")
        self.assertRaises(OperationalError, fence, "etcd://127.0.0.1:1/shop?patience=1")
        with contextlib.redirect_stderr(io.StringIO()) as told:
            self.assertEqual(main(["fence", "site.db", "--free"]), 2)
        self.assertIn("only the store of a cluster has a fence", told.getvalue())


class LeftTest(unittest.TestCase):
    """A write that something else than a Fault has ended, as an interrupt at a prompt does."""

    WRITE = Request(Op.WRITE, 0, bytes([Guard.ABSENT, 1]) + struct.pack(">IcI", 1, b"k", 0) + b"v")

    def interrupt_next(self, store: FencedStore, is_sent: bool) -> Callable[[], object]:
        """Has the next write be interrupted, before it is sent or behind its answer; what sends it then, or again."""
        client, name = store.client, "once" if isinstance(store, EtcdStore) else "run"  # type: ignore[attr-defined]
        send = getattr(client, name)
        words: list[object] = []

        def interrupted(*given: object) -> NoReturn:
            words.extend(given)
            setattr(client, name, send)
            if is_sent:
                send(*given)
            raise KeyboardInterrupt

        setattr(client, name, interrupted)
        return lambda: send(*words)

    def check(self, url: str, is_sent: bool) -> None:
        """It is decided by the next run's beginning, and can be made no more behind it."""
        store = open_store(url)
        assert isinstance(store, FencedStore)
        self.addCleanup(store.close)
        store.begin()
        late = self.interrupt_next(store, is_sent)
        self.assertRaises(KeyboardInterrupt, Host([store]).answer, self.WRITE)
        self.assertRaisesRegex(Fault, "a call was left", store.get, b"k")
        self.assertFalse(store.is_begun())
        store.begin()
        self.assertEqual(store.get(b"k"), b"v" if is_sent else None)
        late()
        self.assertEqual(store.get(b"k"), b"v" if is_sent else None)
        self.assertTrue(store.write(b"k", Guard.ANY, b"", b"w"))

    def test_it_can_be_made_no_more(self) -> None:
        for make in URLS:
            for is_sent in (False, True):
                with self.subTest(make.__name__, is_sent=is_sent):
                    self.check(make(), is_sent)


class DurabilityTest(unittest.TestCase):
    """A server that may lose a write that it told."""

    def test_how_it_is_configured(self) -> None:
        for found, words in [
            (Durability("on", "on", "*"), []),
            (Durability("on", "remote_apply", "FIRST 1 (a, b)"), []),
            (Durability("on", "remote_write", "a"), []),
            (Durability("off", "on", "a"), ["fsync"]),
            (Durability("on", "on", ""), ["no standby"]),
            (Durability("on", "on", " "), ["no standby"]),
            (Durability("on", "local", "a"), ["no standby"]),
            (Durability("on", "off", "a"), ["synchronous_commit", "no standby"]),
            (Durability("off", "off", ""), ["fsync", "synchronous_commit", "no standby"]),
        ]:
            told = weaknesses(found)
            self.assertEqual(len(told), len(words), found)
            for word, line in zip(words, told):
                self.assertIn(word, line)

    @needs_postgres
    def test_it_is_told_once_in_one_line_and_refused_where_two_servers_are_wanted(self) -> None:
        url = postgres_url("?options=-c%20synchronous_commit%3Doff")
        notices.notice.cache_clear()
        with contextlib.redirect_stderr(io.StringIO()) as told:
            for _ in range(2):
                store = open_store(url)
                store.begin()
                store.close()
        self.assertRegex(told.getvalue(), r"\Apiql: writes [^\n]*synchronous_commit is off[^\n]*no standby[^\n]*\n\Z")
        store = open_store(url + "&durability=two")
        self.addCleanup(store.close)
        self.assertRaisesRegex(Fault, "^durability=two wants each write on two servers: ", store.begin)
        # It hasn't taken the store.
        self.assertEqual(said(url), (0, f"nobody has {url}\n"))


if __name__ == "__main__":
    unittest.main()
