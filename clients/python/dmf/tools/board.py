"""Show a network as a page in the browser: what can be sent, what limits it,
and what each change would bring.

    dmf-board pipes.csv
    dmf-board pipes.csv Reservoir Harbour
    dmf-board problem.max
    dmf-board pipes.dmf.json
    dmf-board

FILE is a table of arcs as `dmf-problem` reads it, a problem's file, or a
project, which keeps what was done. If a table is given without a source, the
source is the one place that no arc enters; without a sink, the sink is the one
place that no arc leaves. Without FILE, or if the table leaves something open,
the page first asks for it, and shows the answer meanwhile. The board opens the
page in the browser and prints its address, which only this machine can reach.
The board ends when the page is closed, or at Ctrl-C.
"""

from __future__ import annotations

import argparse
import os
import re
import signal
import sys
from threading import Event, Thread
from typing import TYPE_CHECKING

from ..errors import TableFault
from .command import Status, ToolFault, statuses, warn, write
from .desk_options import add_project_words, close_desk, open_desk, settled_desk
from .options import RaisingParser, add_words, words_of

if TYPE_CHECKING:
    from collections.abc import Sequence

    from ..desk.board.responses import Answering
    from ..desk.board.routes import Board
    from ..desk.board.server import Door, Server
    from ..desk.pictures.layout import Spot
    from ..desk.workspace import Desk

NAME = "dmf-board"
# How long the board waits at its end for an answer that is being computed, in seconds.
PATIENCE = 2


def port(word: str) -> int:
    if not word.isascii() or not word.isdigit() or int(word) > 65_535:
        raise argparse.ArgumentTypeError(f"not a port: {word}")
    return int(word)


def host_name(word: str) -> str:
    if not re.fullmatch(r"([A-Za-z0-9._-]+|\[[0-9A-Fa-f:.]+\])(:[0-9]{1,5})?", word):
        raise argparse.ArgumentTypeError(f"not the name of a machine, alone or with a port: {word}")
    return word


def options(
    given: Sequence[str], made: type[argparse.ArgumentParser] = argparse.ArgumentParser
) -> argparse.Namespace:
    """Return the arguments. A parser of this class reads them."""
    parser = made(
        NAME,
        usage="%(prog)s [OPTION..] [FILE [SOURCE SINK]]",
        description=__doc__,
        formatter_class=argparse.RawDescriptionHelpFormatter,
        epilog=statuses(),
    )
    parser.add_argument(
        "--no-browser",
        action="store_true",
        help="print the address, and do not start a browser",
    )
    parser.add_argument(
        "--port",
        metavar="NUMBER",
        type=port,
        default=0,
        help="the port; by default any free one",
    )
    name = (
        "answer at this name too, such as localhost:9000, for a tunnel from there; may be given "
        "several times"
    )
    parser.add_argument(
        "--host-name",
        metavar="NAME[:PORT]",
        type=host_name,
        action="append",
        default=[],
        help=name,
    )
    parser.add_argument(
        "--map",
        metavar="FILE",
        help="a table of where the places lie in the picture, with columns x and y, or lon and lat",
    )
    parser.add_argument(
        "--import",
        dest="is_import",
        action="store_true",
        help="first show how the table is read, with what it leaves open",
    )
    add_words(parser)
    add_project_words(parser)
    return words_of(parser, [*given], needs_file=lambda words: not may_ask(words))


def may_ask(words: argparse.Namespace) -> bool:
    """Return True if somebody can settle on a page what a table leaves open."""
    is_there = has_screen() or bool(sys.stderr and sys.stderr.isatty())
    return words.is_import or not words.no_browser and is_there


def opened(words: argparse.Namespace) -> Desk:
    """Return the desk for the file and options in the arguments."""
    desk = open_desk(words, with_solve=True, may_follow=True)
    for note in desk.take_news():
        warn(NAME, note)
    return desk


def spots_of(words: argparse.Namespace, desk: Desk) -> dict[int, Spot]:
    """Return where the places lie, if there is a map: one that was named, a table of places with
    the columns of a map, or the file of the network itself."""
    from ..desk.board.maps import NoMap, placed, read_map
    from ..desk.pictures.map_spots import map_of_file

    path = words.map or words.place_table
    try:
        given = map_of_file(desk) if path is None else read_map(path, words.decimal, words.encoding)
        if given is None:
            return {}
        spots, notes = placed(desk, given)
    except TableFault as fault:
        fault.name_path(path or words.path)
        if words.map is None:
            first, *more = fault.lines()
            for line in (
                []
                if isinstance(fault, NoMap)
                else [f"{path or words.path} cannot be used as a map: {first}", *more]
            ):
                warn(NAME, line)
            return {}
        close_desk(NAME, desk)
        raise
    for note in notes:
        warn(NAME, f"{path or words.path}: {note}")
    return spots


def has_screen() -> bool:
    """Return True if this machine has a screen."""
    variables = os.environ.get("DISPLAY"), os.environ.get("WAYLAND_DISPLAY")
    return sys.platform in ("darwin", "win32") or any(variables)


def show(server: Server) -> Door | None:
    """Start the browser, if this machine has a screen."""
    if not has_screen():
        return None
    # Imported here, since most boards on a server need no browser.
    import webbrowser

    from ..desk.board.server import Door

    try:
        door = Door(server.addresses[0])
    except OSError as error:
        warn(NAME, f"no browser was started: {error}")
        return None
    Thread(target=webbrowser.open, args=(door.address,), daemon=True).start()
    return door


def board_of(words: argparse.Namespace, desk: Desk) -> Board:
    """Return the board of a desk. Raises a `TableFault` if the map has a fault."""
    from ..desk.board.routes import Board
    from ..desk.project.opener import beside, keep_project

    offer = beside(words.path) if os.path.isfile(words.path) and not words.keep else ""
    return Board(
        desk,
        spots_of(words, desk),
        keep=lambda path, made: keep_project(path, words, made),
        offer=offer,
    )


def import_of(words: argparse.Namespace) -> Answering:
    """Return the import of the table in the arguments, which need not name one."""
    from ..desk.board.import_options import arguments, command_line, options_of, others_of
    from ..desk.board.table_import import ImportTool, TableImport
    from ..tables.loader import split_path

    def open_board(words: argparse.Namespace, desk: Desk) -> Board:
        desk = settled_desk(words, desk)
        for note in desk.take_news():
            warn(NAME, note)
        board = board_of(words, desk)
        given = arguments(split_path(words.path)[0], options_of(words), others_of(words))
        warn(NAME, f"next time: {command_line(given)}")
        return board

    return TableImport(words, ImportTool(lambda given: options(given, RaisingParser), open_board))


def first_answers(words: argparse.Namespace) -> Answering:
    """Return the board of the file in the arguments; or its import, if they ask for it or name no
    file, or if the table leaves something open that can be settled on a page."""
    from ..desk.project.opener import is_project
    from ..tables.loader import split_path

    is_table = not is_project(words.path) and os.path.isfile(split_path(words.path)[0])
    if words.is_import and words.path and not is_table:
        raise ToolFault(f"--import is for tables in files, and {words.path} is none", Status.USAGE)
    if words.is_import or not words.path:
        return import_of(words)
    may_import = is_table and may_ask(words)
    if may_import and has_screen():
        # The page asks.
        words.ask = None
    try:
        desk = opened(words)
    except TableFault as fault:
        if not may_import:
            raise
        warn(NAME, fault.told())
        return import_of(words)
    return board_of(words, desk)


def main() -> int:
    words = options(sys.argv[1:])
    # A help needs no desk.
    from ..desk.board.server import Server

    # If a session has ended or a page has gone, a write to it fails instead of ending the board.
    signal.signal(signal.SIGPIPE, signal.SIG_IGN)
    first = first_answers(words)
    try:
        server = Server(first, words.port, words.host_name)
    except OSError as error:
        if first.desk:
            close_desk(NAME, first.desk)
        raise ToolFault(
            f"cannot listen on port {words.port}: {error.strerror}", Status.LOST
        ) from None
    is_interrupted = Event()

    def interrupt(*_: object) -> None:
        is_interrupted.set()
        # An exception raised here could be taken for one of a request. The shutdown needs its own
        # thread, since it waits for the server's loop, which runs in this one.
        Thread(target=server.shutdown, daemon=True).start()

    for number in signal.SIGINT, signal.SIGTERM, signal.SIGHUP:
        if signal.getsignal(number) is not signal.SIG_IGN:
            signal.signal(number, interrupt)
    door = None
    try:
        write("".join(f"{address}\n" for address in server.addresses))
        door = None if words.no_browser else show(server)
        server.serve_forever(poll_interval=0.1)
    finally:
        server.server_close()
        if door:
            door.remove()
        end(server)
    return Status.INTERRUPTED if is_interrupted.is_set() else Status.DONE


def end(server: Server) -> None:
    """End what answers, and close its desk. One that is still used is broken off."""
    server.board.end()
    is_free = server.lock.acquire(timeout=PATIENCE)
    desk = server.board.desk
    if desk is None:
        return
    if is_free:
        close_desk(NAME, desk)
    else:
        desk.break_off("the board has ended")
