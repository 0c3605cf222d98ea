"""The package's commands, `python -m piql WORD ..`. FILE is a file, the URL of a cluster's store, or unix:SOCKET.

    new FOLDER                       makes a small site with its schema and a test, to begin with
    migrate FILE SCHEMA              defines what the schema has and the file lacks; tells the bounds first
    bounds FILE [--write|--check P]  prints each query's bound; writes bounds.lock, or fails where a bound rose
    backup FILE COPY                 makes a whole copy
    restore COPY FILE                puts a copy in the file's place; the file of before gets another name
    verify FILE                      goes over a whole store; 0 sound, 1 with differences, 5 it can't be read
    load FILE TABLE < CSV            inserts rows; the first line names the columns
    rebuild OLD NEW SCHEMA           makes a new file with the old one's rows under another schema
    rebuild OLD SCHEMA --replace     the same; the new file then takes the old one's place
    make NEW SCRIPT ..               makes a new file of scripts, as bin/dump writes them
    fence URL [--free]               tells who has the store of a cluster; frees it, once that name was typed
    status ADDRESS                   how a piql-serve is, and whether it is well; with --metrics for Prometheus
    run URL < SCRIPT                 runs a whole script over the store of a cluster; the status is the engine's
    shell [FILE]                     a prompt
"""

import argparse
import os
import sys

from . import connect, shell, status
from .bounds import BoundsRose, check_bounds, write_bounds
from .counting import counted
from .errors import Error, OtherRecords, ProgrammingError
from .hosts.fence_command import fence
from .hosts.script import run_url
from .load import load
from .making import make
from .marks import mark_path
from .migrate import migrate
from .new_site import make_site
from .rebuild import Values, rebuild
from .restore import restore
from .values import read_literal
from .verify import verify

# Of a store that can't be read, beside the statuses of the other commands.
UNREADABLE = 5


def run_new(given: argparse.Namespace) -> int:
    """Makes a new site."""
    for name in make_site(given.folder):
        print(os.path.join(given.folder, name))
    return 0


def run_migrate(given: argparse.Namespace) -> int:
    """Grows a schema."""
    with connect(given.file, index_rows=given.index_rows) as connection:
        made = migrate(connection, given.schema, out=sys.stdout)
    print(f"{counted(len(made), 'definition')} made")
    return 0


def run_bounds(given: argparse.Namespace) -> int:
    """Prints, writes or compares the bounds."""
    with connect(given.file) as connection:
        if given.check:
            check_bounds(connection, given.check)
            return 0
        bounds = write_bounds(connection, given.write) if given.write else connection.bounds()
    for name, bound in bounds.items():
        print(name, bound)
    return 0


def run_backup(given: argparse.Namespace) -> int:
    """Copies a store."""
    with connect(given.file) as connection:
        connection.backup(given.copy)
    return 0


def run_restore(given: argparse.Namespace) -> int:
    """Puts a copy in a file's place."""
    restore(given.copy, given.file, sys.stdout, is_unchecked=given.unchecked)
    return 0


def run_verify(given: argparse.Namespace) -> int:
    """Goes over a whole store."""
    try:
        return 1 if verify(given.file, sys.stdout, sys.stderr, folder=given.folder).differences else 0
    except (Error, OSError) as error:
        print(f"piql: {error}", file=sys.stderr)
        return UNREADABLE


def run_load(given: argparse.Namespace) -> int:
    """Loads a CSV file."""
    # The lines of a CSV text end as its records say, so they are read as they are; what is no UTF-8 is one record's.
    source = open(sys.stdin.fileno(), newline="", encoding="utf-8", errors="surrogateescape", closefd=False)
    with source, connect(given.file) as connection:
        mark = given.mark or mark_path(given.file, given.table)
        try:
            loaded = load(connection, given.table, source, mark, sys.stderr, given.null)
        except OtherRecords:
            raise
        except (Error, KeyboardInterrupt):
            if os.path.exists(mark):
                print("stopped; the same command goes on from there", file=sys.stderr)
            raise
    return 1 if loaded.refused else 0


def given_values(words: list[str]) -> Values:
    """The values of the words TABLE.COLUMN=VALUE."""
    values = {}
    for word in words:
        name, _, value = word.partition("=")
        table, _, column = name.partition(".")
        values[table.lower(), column.lower()] = read_literal(value)
    return values


def run_rebuild(given: argparse.Namespace) -> int:
    """Rebuilds a store."""
    if (given.new is None) != given.replace:
        raise ProgrammingError("a rebuild makes either the file NEW, or by --replace a file in the place of OLD")
    done = rebuild(given.old, given.new, given.schema, sys.stderr, given_values(given.value))
    return 1 if done.refused else 0


def run_make(given: argparse.Namespace) -> int:
    """Makes a file of scripts."""
    return 1 if make(given.new, given.script, sys.stderr).refused else 0


def run_fence(given: argparse.Namespace) -> int:
    """Tells who has a store, or frees it."""
    return fence(given.url, given.free)


def run_run(given: argparse.Namespace) -> int:
    """Runs a script."""
    return run_url(given.url)


def run_shell(given: argparse.Namespace) -> int:
    """A prompt."""
    return shell.main([given.file] if given.file else [])


def parser() -> argparse.ArgumentParser:
    """The words of the commands."""
    as_written = argparse.RawTextHelpFormatter
    top = argparse.ArgumentParser(prog="python -m piql", description=__doc__, formatter_class=as_written)
    words = top.add_subparsers(required=True, metavar="WORD")

    def command(name: str, run: object, *places: str) -> argparse.ArgumentParser:
        made = words.add_parser(name)
        made.set_defaults(run=run)
        for place in places:
            made.add_argument(place)
        return made

    command("new", run_new, "folder")
    migrating = command("migrate", run_migrate, "file", "schema")
    migrating.add_argument("--index-rows", type=int, default=0, metavar="N", help="if a server allows an index fewer")
    bounds = command("bounds", run_bounds, "file")
    bounds.add_argument("--write", metavar="PATH")
    bounds.add_argument("--check", metavar="PATH")
    command("backup", run_backup, "file", "copy")
    restoring = command("restore", run_restore, "copy", "file")
    restoring.add_argument("--unchecked", action="store_true", help="take a copy in which verify finds differences")
    verifying = command("verify", run_verify, "file")
    verifying.add_argument("--folder", help="where the copy of a server's file lies meanwhile; that of temporary files")
    loading = command("load", run_load, "file", "table")
    loading.add_argument("--null", default="", help="what stands for NULL in nullable columns; an empty cell")
    loading.add_argument("--mark", help="the file that keeps how far it came")
    rebuilding = command("rebuild", run_rebuild, "old")
    rebuilding.add_argument("new", nargs="?")
    rebuilding.add_argument("schema")
    rebuilding.add_argument("--replace", action="store_true", help="put the new file in the place of OLD")
    rebuilding.add_argument("--value", action="append", default=[], metavar="TABLE.COLUMN=VALUE")
    command("make", run_make, "new").add_argument("script", nargs="+")
    command("fence", run_fence, "url").add_argument("--free", action="store_true", help="free it of a dead owner")
    command("run", run_run, "url")
    command("shell", run_shell).add_argument("file", nargs="?")
    return top


def main(words: list[str] | None = None) -> int:
    """The command."""
    words = sys.argv[1:] if words is None else words
    if words[:1] == ["status"]:
        return status.main(words[1:])
    given = parser().parse_args(words)
    try:
        return int(given.run(given))
    except KeyboardInterrupt as interrupt:
        print("\n".join(["", *getattr(interrupt, "__notes__", [])]), file=sys.stderr)
        return 130
    except (Error, BoundsRose, OSError) as error:
        print("\n".join([f"piql: {error}", *getattr(error, "__notes__", [])]), file=sys.stderr)
        return 2


if __name__ == "__main__":
    sys.exit(main())
