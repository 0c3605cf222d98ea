"""Each example over each store writes the same bytes, and `used` is as many calls and entries as the host served."""

import pathlib
import re
import tempfile

from common import EXAMPLES, Ran, Trial, ran, stores
from piql.hosts import Host, MemoryStore, SqliteStore, run
from piql.hosts.urls import open_store

USED = re.compile(rb" used (\d+) (\d+)$", re.MULTILINE)
# Cuts between the catalog and the rows, and in the middle of the index entries.
PLACES = [b"", b"\x02\x00\x01", b"\x03\x00\x01\x01"]
WRONG_PLACES = [[], [b"x"], [b"", b"b", b"a"], [b"", b""], [b"", *(b"%02d" % number for number in range(64))]]


def used(output: bytes) -> list[int]:
    """The operations and entries that reports tell."""
    return [sum(map(int, column)) for column in zip(*USED.findall(output))]


def check(trial: Trial, kind: str, path: pathlib.Path, done: Ran) -> None:
    """Compares a run with what the example has to write."""
    wanted = path.with_suffix(".out").read_bytes()
    served = [done.host.calls.total(), done.host.entries]
    trial.expect(done.output == wanted, f"{kind} {path.stem}: another output")
    trial.expect(done.status == int(b" refused " in wanted), f"{kind} {path.stem}: status {done.status}")
    trial.expect(used(done.output) == served, f"{kind} {path.stem}: used {used(done.output)}, served {served}")


def examples(trial: Trial) -> None:
    """Each example over each store."""
    with tempfile.TemporaryDirectory() as folder:
        for kind, make in stores(trial, pathlib.Path(folder)):
            calls, seconds = 0, 0.0
            for path in EXAMPLES:
                store = make()
                done = ran(trial.engine, store, path.read_bytes())
                store.close()
                check(trial, kind, path, done)
                calls, seconds = calls + done.host.calls.total(), seconds + done.seconds
            trial.tell(f"{kind}: {len(EXAMPLES)} examples, {calls} calls, {seconds:.2f} s")


def feed(trial: Trial) -> None:
    """examples/feed.piql over each cluster, with its reports."""
    path = next(path for path in EXAMPLES if path.stem == "feed")
    for kind, url in trial.urls():
        store = open_store(url)
        done = ran(trial.engine, store, path.read_bytes())
        store.close()
        check(trial, kind, path, done)
        print(done.output.decode())
        served = f"{done.host.calls.total()} calls, {done.host.entries} entries, {done.seconds:.2f} s"
        same = "differs from" if trial.strange else "as"
        trial.tell(f"{kind}: the whole of examples/{path.name}: {served}; {same} examples/{path.stem}.out")


def nodes(trial: Trial) -> None:
    """Each example over three stores with the keys of one range each: a file and two clusters, as they are there."""
    if trial.nodes is None:
        trial.tell("skipped: piql_nodes isn't built")
        return
    with tempfile.TemporaryDirectory() as folder:
        for path in EXAMPLES:
            run_nodes(trial, path, folder)
    for places in WRONG_PLACES:
        stored = [MemoryStore() for _ in range(70)]
        status = run(trial.nodes, host := Host(stored, places), lambda _: b"", lambda _: None)
        trial.expect(status == 5 and not host.calls, f"{len(places)} places {places[:3]}: status {status}")


def run_nodes(trial: Trial, path: pathlib.Path, folder: str) -> None:
    """One example over three stores."""
    made = [open_store(url) for _, url in trial.urls()]
    while len(made) < len(PLACES):
        made.append(SqliteStore(f"{folder}/{path.stem}{len(made)}.db"))
    for store in made:
        store.begin()
    host, told, left = Host(made, PLACES), bytearray(), [path.read_bytes()]
    run(trial.nodes or "", host, lambda room: pieces(left, room), told.extend)
    held = [store.range(b"", b"\xff" * 9, 100_000) for store in made]
    for store in made:
        store.close()
    ends = [*PLACES[1:], b"\xff" * 9]
    strays = sum(not low <= key < high for low, high, pairs in zip(PLACES, ends, held) for key, _ in pairs)
    operations, entries = used(told)
    trial.expect(bytes(told) == path.with_suffix(".out").read_bytes(), f"nodes {path.stem}: another output")
    trial.expect(strays == 0, f"nodes {path.stem}: {strays} pairs stand at a node that isn't theirs")
    trial.expect(host.entries == entries and host.calls.total() >= operations, f"nodes {path.stem}: other calls")
    numbers = "/".join(str(len(pairs)) for pairs in held)
    trial.tell(f"{path.stem}: {operations} operations, {host.calls.total()} calls of nodes, pairs {numbers}")


def pieces(left: list[bytes], room: int) -> bytes:
    """The next bytes of a script."""
    piece, left[0] = left[0][:room], left[0][room:]
    return piece
