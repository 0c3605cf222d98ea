"""The turns of piql-serve's clients, by counting: how many statements are made before one that waits."""

import re
import threading
import time
import unittest

from helpers import piql
from piql.frames import HEAD, REPORT, STATEMENT, read_frame, write_frame
from piql.status import ask
from served import ServedCase, greeted

CLIENTS, EACH = 12, 20
NUMBERS = re.compile(r"INSERT (\d+) (\d+)")


def frame(client: int, number: int) -> bytes:
    """A statement that says whose it is."""
    text = f"INSERT {client} {number};".encode()
    return HEAD.pack(len(text) + 1) + STATEMENT + text


class TurnsTest(ServedCase):
    def order(self) -> list[tuple[int, int]]:
        """Whose statements were made, and which of theirs, in order."""
        found = [NUMBERS.fullmatch(line) for line in self.made()]
        return [(int(it[1]), int(it[2])) for it in found if it]

    def test_each_client_has_its_turn(self) -> None:
        self.serve()
        clients = [greeted(self, self.at) for _ in range(CLIENTS)]
        write_frame(clients[0], STATEMENT, b"RUN wait_1000 ();")
        # Each has sent all of its statements before the first one is made.
        for number, client in enumerate(clients):
            client.sendall(b"".join(frame(number, i) for i in range(EACH)))
        for client in clients:
            for _ in range(EACH + (client is clients[0])):
                self.assertEqual(read_frame(client)[0], REPORT)
        order = self.order()
        self.assertEqual(len(order), CLIENTS * EACH)
        for number in range(CLIENTS):
            places = [place for place, (client, _) in enumerate(order) if client == number]
            self.assertEqual([order[place][1] for place in places], list(range(EACH)))
            waits = [later - place for place, later in zip(places, places[1:])]
            self.assertLessEqual(max(waits), CLIENTS)

    def test_those_who_send_all_the_time_starve_nobody(self) -> None:
        self.serve()
        busy, *greedy, modest = (greeted(self, self.at) for _ in range(5))
        for number, client in enumerate(greedy):
            client.sendall(frame(number + 1, 0))
            self.assertEqual(read_frame(client)[0], REPORT)
        write_frame(busy, STATEMENT, b"RUN wait_2000 ();")
        for number, client in enumerate(greedy):
            client.sendall(b"".join(frame(number + 1, i) for i in range(1, EACH)))
        write_frame(modest, STATEMENT, b"INSERT 0 0;")
        until = time.monotonic() + 30
        while ask(str(self.at), 30)["waiting"] != len(greedy) + 1:
            self.assertLess(time.monotonic(), until)
        self.assertEqual([read_frame(client)[0] for client in (busy, modest)], [REPORT, REPORT])
        self.assertLessEqual(self.order()[len(greedy) :].index((0, 0)), len(greedy))

    def test_the_driver_has_them_too(self) -> None:
        self.serve()
        made: list[int] = []

        def work(number: int) -> None:
            with piql.connect(f"unix:{self.at}", prepare=False) as connection:
                for i in range(EACH):
                    connection.execute(f"INSERT {number} {i}")
                    made.append(number)

        threads = [threading.Thread(target=work, args=(number,)) for number in range(CLIENTS)]
        for thread in threads:
            thread.start()
        for thread in threads:
            thread.join()
        self.assertEqual(len(made), CLIENTS * EACH)
        self.assertEqual(sorted(self.order()), [(client, i) for client in range(CLIENTS) for i in range(EACH)])


if __name__ == "__main__":
    unittest.main()
