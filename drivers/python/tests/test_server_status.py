"""How piql-serve is: what it tells outside its queue, the command for it, and the metrics."""

import contextlib
import io
import os
import re
import signal
import time
import unittest
from pathlib import Path

from helpers import needs_file, new_folder, piql
from piql.frames import ENDED, REPORT, STATEMENT, STATUS, read_frame, write_frame
from piql.metrics import METRICS, metrics
from piql.status import ask, main
from served import MARK, MARKED, Served, ServedCase, asked, connected, greeted

SERIES = re.compile(r'piql_[a-z_]+(\{[a-z]+="[A-Za-z0-9_-]+"\})? -?\d+(\.\d+)?(e[+-]\d+)?')


def command(*words: object) -> tuple[int, str, str]:
    """The status of the command, and what it writes."""
    out, errors = io.StringIO(), io.StringIO()
    with contextlib.redirect_stdout(out), contextlib.redirect_stderr(errors):
        status = main([str(word) for word in words])
    return status, out.getvalue(), errors.getvalue()


class StatusTest(ServedCase):
    def told(self) -> dict[str, object]:
        return ask(str(self.at), 30)

    def wait_for(self, key: str, wanted: object) -> dict[str, object]:
        """What is told once this is so."""
        until = time.monotonic() + 30
        while (told := self.told())[key] != wanted and time.monotonic() < until:
            time.sleep(0.02)
        self.assertEqual(told[key], wanted)
        return told

    def test_what_is_told(self) -> None:
        server = self.serve("--clients", 9, "--slow", 0.000001)
        client = greeted(self, self.at)
        for statement in ("INSERT INTO t VALUES (1);", "INSERT INTO t VALUES (1, 'twice');", "RUN none ();"):
            self.assertEqual(asked(client, statement)[0], REPORT)
        self.assertEqual(asked(client, "RUN exit_7 ();")[0], ENDED)
        self.assertEqual(asked(client, "RUN rows_1 ();")[0], REPORT)
        told = self.told()
        wanted = {
            "process": server.process.pid,
            "store": str(self.store),
            "clients": 2,
            "clients_most": 9,
            "clients_refused": 0,
            "waiting": 0,
            "statements": {"INSERT": 2, "RUN": 2},
            "refusals": {"E503": 1, "E401": 1},
            "slow": 4,
            "engine": "open",
            "engine_runs": 2,
            "engine_ends": {"7": 1},
            "lease": None,
            "definitions": 3,
            "definitions_most": 256,
            "indexes": {"t": 1},
            "indexes_most": 16,
        }
        self.assertEqual({key: told[key] for key in wanted}, wanted)
        self.assertRegex(str(told["since"]), r"^\d{4}-\d\d-\d\dT\d\d:\d\d:\d\dZ$")

    def test_it_is_told_outside_the_queue(self) -> None:
        server = self.serve()
        clients = [greeted(self, self.at) for _ in range(3)]
        write_frame(clients[0], STATEMENT, b"RUN hang ();")
        self.wait_for("waiting", 0)
        for client in clients[1:]:
            write_frame(client, STATEMENT, b"RUN rows_1 ();")
        begun = time.monotonic()
        told = self.wait_for("waiting", 2)
        self.assertLess(time.monotonic() - begun, 10)
        at_hand = told["at_hand"]
        assert isinstance(at_hand, dict)
        self.assertEqual((at_hand["statement"], at_hand["name"]), ("RUN", "hang"))
        self.assertGreater(at_hand["seconds"], 0)
        time.sleep(0.3)
        status, _, errors = command(f"unix:{self.at}", "--stuck", 0.2)
        self.assertEqual(status, 1)
        self.assertIn("a statement is at hand for", errors)
        os.kill(server.engine(), signal.SIGKILL)
        self.assertEqual([read_frame(client)[0] for client in clients], [ENDED, REPORT, REPORT])

    def test_a_client_asks_between_its_statements(self) -> None:
        self.serve()
        client = greeted(self, self.at)
        for kind, text in ((STATUS, b""), (STATEMENT, b"RUN rows_1 ();"), (STATUS, b"more")):
            write_frame(client, kind, text)
        self.assertEqual([read_frame(client)[0] for _ in range(3)], [STATUS, REPORT, STATUS])

    def test_one_that_asks_all_the_time_holds_nobody_up(self) -> None:
        self.serve()
        greedy, other = greeted(self, self.at), greeted(self, self.at)
        greedy.sendall(b"\0\0\0\1I" * 13_000)
        begun = time.monotonic()
        self.assertEqual(asked(other, "RUN rows_1 ();")[0], REPORT)
        self.assertLess(time.monotonic() - begun, 5)
        self.assertEqual({read_frame(greedy)[0] for _ in range(13_000)}, {STATUS})

    def test_the_command(self) -> None:
        server = self.serve("--clients", 2)
        status, out, errors = command(f"unix:{self.at}")
        self.assertEqual((status, errors), (0, ""))
        self.assertIn(f"store {self.store}\n", out)
        self.assertIn("\nclients 1\nclients_most 2\n", out)
        self.assertIn("\nindexes.t 1\n", out)
        client = greeted(self, self.at)
        status, _, errors = command(self.at)
        self.assertEqual(status, 1)
        self.assertIn("no more clients are taken", errors)
        self.assertEqual(asked(client, "RUN exit_5 ();")[0], ENDED)
        self.assertIn("the last run of the engine ended", command(self.at)[2])
        connected(self, self.at)
        status, out, errors = command(self.at)
        self.assertEqual((status, out), (2, ""))
        self.assertIn("there are 2 clients already", errors)
        server.end()
        status, _, errors = command(self.at)
        self.assertEqual(status, 2)
        self.assertIn("no server answers", errors)

    def test_a_server_that_is_stopped_is_given_up(self) -> None:
        server = self.serve()
        server.process.send_signal(signal.SIGSTOP)
        begun = time.monotonic()
        self.assertEqual(command(self.at, "--timeout", 0.5)[0], 2)
        self.assertLess(time.monotonic() - begun, 10)
        server.process.send_signal(signal.SIGCONT)

    def test_an_opening_is_told(self) -> None:
        server = self.serve()
        Path(f"{self.store}.slow").write_text("3")
        client = greeted(self, self.at)
        self.assertEqual(asked(client, "RUN exit_5 ();")[0], ENDED)
        self.wait_for("engine", "none")
        write_frame(client, STATEMENT, b"RUN rows_1 ();")
        self.wait_for("engine", "opening")
        self.assertEqual(read_frame(client)[0], REPORT)
        self.wait_for("engine", "open")
        self.assertEqual(server.end()[0], 0)

    def test_metrics(self) -> None:
        self.serve()
        asked(greeted(self, self.at), "RUN none ();")
        status, out, _ = command(self.at, "--metrics")
        self.assertEqual(status, 0)
        self.assertIn('\n# TYPE piql_refusals_total counter\npiql_refusals_total{number="E401"} 1\n', out)
        for line in out.splitlines():
            self.assertTrue(line.startswith("# ") or SERIES.fullmatch(line), line)

    def test_the_most_series(self) -> None:
        many = {f"name{i}": i for i in range(1000)}
        told = {key: many if metric.label else 1 for key, metric in METRICS.items()}
        lines = [line for line in metrics(told | {"lease": {"held": True}}) if not line.startswith("#")]
        self.assertLessEqual(len(lines), 300)
        self.assertIn(f'piql_indexes{{table="others"}} {sum(range(64, 1000))}', lines)
        self.assertNotIn("\n", "".join(metrics({"indexes": {'a"}\nb': 1}})))


class MarkedStatusTest(ServedCase):
    """A marked value in all that a client sends stands in no answer."""

    def test_no_status_has_it(self) -> None:
        server = self.serve("--slow", 0.000001)
        shown = ""
        for statement in (*MARKED, f"RUN hang ('{MARK}');"):
            client = greeted(self, self.at)
            write_frame(client, STATEMENT, statement.encode())
            shown += str(ask(str(self.at), 30))
            if "hang" not in statement:
                read_frame(client)
            shown += "".join(command(self.at)[1:]) + "".join(command(self.at, "--metrics")[1:])
        os.kill(server.engine(), signal.SIGKILL)
        for text in (MARK, MARK.encode().hex(), b"MARKED".hex()):
            self.assertNotIn(text.lower(), shown.lower())


@needs_file
class EngineTest(unittest.TestCase):
    """Over the engine: definitions and indexes as SHOW tells them."""

    def test_the_definitions(self) -> None:
        folder: Path = new_folder(self)
        server = Served(folder / "site.db", folder / "socket")
        self.addCleanup(server.end)
        with piql.connect(f"unix:{folder / 'socket'}") as connection:
            connection.execute("CREATE TABLE t (a INT, b INT, PRIMARY KEY (a))")
            connection.execute("PREPARE by_b AS SELECT x.a FROM t AS x WHERE x.b = [1] ORDER BY x.a LIMIT 3")
            told = ask(str(folder / "socket"), 60)
        self.assertEqual((told["definitions"], told["indexes"]), (2, {"t": 1}))


if __name__ == "__main__":
    unittest.main()
