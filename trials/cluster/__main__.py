"""Trials of the engine over clusters: they start servers on loopback, and end them by their process ids.

    python3 trials/cluster feed      examples/feed.piql over three members of etcd, over PostgreSQL with a standby
    python3 trials/cluster TRIAL..   some of the trials below
    python3 trials/cluster all       all of them; some twenty minutes on a machine that does little else

They install nothing. `apt-get install etcd-server postgresql python3-psycopg2` (Debian) has all that they want; what
isn't there is told and skipped. The programs are those of --engine and --nodes, else the proved builds of piql_host and
piql_nodes, else builds that are made once without proofs. The last line has what was found, and the exit status is 0
where that is nothing.
"""

import argparse
import contextlib
import importlib.util
import os
import signal
import sys
import time

sys.dont_write_bytecode = True

DEBIAN = "/usr/bin/python3"
is_debians = os.path.realpath(sys.executable) == os.path.realpath(DEBIAN)
if not is_debians and not importlib.util.find_spec("psycopg2") and os.access(DEBIAN, os.X_OK):
    # Debian's packages are seen by Debian's Python.
    os.execv(DEBIAN, [DEBIAN, *sys.argv])

import calls  # noqa: E402 - the interpreter is another one now
import deaths  # noqa: E402
import examples  # noqa: E402
import figures  # noqa: E402
import hostile  # noqa: E402
import kills  # noqa: E402
import owners  # noqa: E402
import readers  # noqa: E402
import rounds  # noqa: E402
import stalls  # noqa: E402
from common import Trial, load  # noqa: E402
from databases import PLACES, Databases  # noqa: E402
from members import Members, tool  # noqa: E402

from tools.kept import NotBuilt  # noqa: E402
from tools.programs import find_program  # noqa: E402

TRIALS = {
    "feed": examples.feed,
    "examples": examples.examples,
    "nodes": examples.nodes,
    "calls": calls.calls,
    "lost": calls.lost,
    "deaths": deaths.deaths,
    "owners": owners.owners,
    "readers": readers.readers,
    "loose": readers.loose,
    "stalls": stalls.stalls,
    "hostile": hostile.hostile,
    "figures": figures.figures,
    "rounds": rounds.rounds,
    "kills": kills.kills,
}


def read_words() -> argparse.Namespace:
    """The words of the command."""
    lines = [f"    {name:10} {trial.__doc__}" for name, trial in TRIALS.items()]
    text = "\n".join([__doc__ or "", *lines])
    as_written = argparse.RawTextHelpFormatter
    parser = argparse.ArgumentParser(prog="trials/cluster", description=text, formatter_class=as_written)
    parser.add_argument("trials", nargs="+", choices=[*TRIALS, "all"], metavar="TRIAL")
    parser.add_argument("--engine", default=os.environ.get("PIQL_HOST"), help="the program piql_host")
    parser.add_argument("--nodes", default=os.environ.get("PIQL_NODES"), help="the program piql_nodes")
    parser.add_argument("--times", type=int, help="how often what is random is tried")
    parser.add_argument("--only", choices=["etcd", "postgres", "none"], help="the servers of one kind alone, or none")
    return parser.parse_args()


def found_program(given: str | None, name: str) -> str | None:
    """A program of the engine."""
    try:
        return given or str(find_program(name).path)
    except (NotBuilt, KeyError) as error:
        print(f"{name} is skipped, for there is none: {error}")
        return None


def servers(given: argparse.Namespace, ended: contextlib.ExitStack) -> tuple[Members | None, Databases | None]:
    """The servers that can be started here."""
    members = databases = None
    if given.only in (None, "etcd"):
        if tool("etcd"):
            members = ended.enter_context(Members(3))
            print(f"three members of etcd: {', '.join(members.endpoints)}", flush=True)
        else:
            print("etcd is skipped: apt-get install etcd-server")
    if given.only in (None, "postgres"):
        lacking = [name for name in ("postgres", "initdb", "pg_basebackup", "psql") if not tool(name, PLACES)]
        lacking += [] if importlib.util.find_spec("psycopg2") else ["psycopg2"]
        if lacking:
            print(f"PostgreSQL is skipped, without {', '.join(lacking)}: apt-get install postgresql python3-psycopg2")
        else:
            databases = ended.enter_context(Databases())
            print(f"PostgreSQL with a synchronous standby: {databases.url()}", flush=True)
    return members, databases


def end(*_: object) -> None:
    """Ends the trials on a signal. A second one doesn't stop the servers' end."""
    signal.signal(signal.SIGTERM, signal.SIG_IGN)
    sys.exit(1)


def main() -> int:
    # Whatever ends this process ends the servers first.
    signal.signal(signal.SIGTERM, end)
    signal.signal(signal.SIGINT, signal.default_int_handler)
    given = read_words()
    engine = found_program(given.engine, "piql_host")
    if engine is None:
        return 1
    names = list(TRIALS) if "all" in given.trials else given.trials
    os.environ["PIQL_HOST"] = engine
    nodes = found_program(given.nodes, "piql_nodes") if "nodes" in names or "hostile" in names else None
    with contextlib.ExitStack() as ended:
        members, databases = servers(given, ended)
        strange = []
        for name in names:
            print(f"{name}, {load()}: {TRIALS[name].__doc__}", flush=True)
            begun = time.monotonic()
            trial = Trial(engine, nodes, members, databases, given.times)
            TRIALS[name](trial)
            strange += trial.strange
            print(f"   {time.monotonic() - begun:.0f} s", flush=True)
    print(f"{', '.join(names)}: {len(strange)} strange")
    return 1 if strange else 0


if __name__ == "__main__":
    sys.exit(main())
