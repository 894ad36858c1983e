"""The built program over real sockets of 127.0.0.1: `serve` and `loopback`.

    captures    each capture and scene, played over sockets line by line, is answered octet for
                octet as is kept; one with pulls, which the server makes by itself here, as the
                model answers it
    pages       searches of thousands of studies: others are served between pages, a C-CANCEL ends
                them, one that is never read is kept within memory
    between     between pages of a search by days, and of one for the images of a series: stores
                change nothing of what it finds, a C-CANCEL and a release end it; between=days, or
                between=images, is one of them
    histories   two hospitals and strangers at the same time, at random: what each is answered is
                what `replay` answers its own events alone
    many        64 connections are served; a 65th waits, and is served when one of them closes
    shares      searches that come at once on many connections of one hospital: another's echo waits
                for few, and each is answered
    unread      sixty searches whose clients read nothing hold little memory
    deaf        a client that reads nothing takes neither time nor memory from others, and is then
                answered whole
    resets      connections that are reset in every state leave nothing behind
    lingering   a peer that goes on sending after an A-ABORT or a rejection gets it whole, with no
                reset
    half        a stream that ends at each of its octets is answered as far as it goes
    long        C-STOREs whose data sets are made as they are sent: one of 256 MiB, one of which too
                much would be kept
    stops       ended by SIGTERM or SIGKILL under load, over a store: all that was answered is there
    repeats     what is sent again after SIGTERM: which answers are as the first time, and which are
                others
    idle        64 silent connections, or none, take less than 1 % of a processor
    exits       the exit statuses, what is told of them, and the order of the checks; `--turns`;
                accepts that fail
    listen      other addresses, all of them, and those of IPv6
    loopback    each capture and scene: for each connection the octets that it was sent
    console     orders while associations are open, lines that are none, the longest ones, reports
    backup      the console's copies of a store: row by row as the store that was stopped then,
                under load, those that are refused, that the disk refuses at each call, and that
                SIGKILL ends at random
    searches    what the console shows of two hospitals with the same UIDs: studies, series, images,
                entries and steps, page by page, and its refusals; pages of large entries and
                steps, which end at 8 MiB
    memory      each allocation refused in turn while the console answers a search, a report and an
                order: its client is let go, and others are served, or an order ends the service
    file        the rights of the files that the server makes; the console's socket file: one that
                was left behind, one that is in use
    callers     the ninth caller of the console waits, and one who says nothing for a minute is let
                go (65 s)
    browser     a POST, by curl and by Chromium where they are installed, changes nothing
    artim       connections that ask for no association in time are given up, and a modality gets
                their place
    peers       how many connections one address may have
    quiet       silent connections are given up, others are not
    log         the lines of each association, and nothing of its data sets
    tools       the clients of DCMTK, where they are installed

Tools that are not installed are named and skipped, and so is IPv6 where the machine has none. It
ends with 'N passed, M failed'. Use: suite/sockets [PROGRAM [PART[=NAME,NAME..]..]]: all parts, or
some, or of the captures of a part those with these names; stops=N is N rounds, long=N,N.. data sets
of N octets, artim=N a time of N seconds.
"""
import sys

from ..tally import Part, play_parts
from .backup import backup
from .between import between
from .captures import captures, loopback, two_hospitals
from .common import WANTED
from .console import browser, callers, console, file, searches
from .exits import exits, listen
from .limits import artim, peers, quiet
from .loads import deaf, half, idle, lingering, long, many, pages, resets, shares, unread
from .log import log
from .memory import memory
from .stops import repeats, stops
from .tools import tools

PARTS: dict[str, Part] = {
    "captures": captures, "histories": two_hospitals, "pages": pages, "between": between,
    "many": many, "shares": shares, "unread": unread, "deaf": deaf, "resets": resets, "half": half,
    "lingering": lingering, "long": long, "stops": stops, "repeats": repeats, "idle": idle,
    "exits": exits, "listen": listen, "loopback": loopback, "console": console, "backup": backup,
    "searches": searches, "memory": memory, "file": file, "callers": callers, "browser": browser,
    "artim": artim, "peers": peers, "quiet": quiet, "log": log, "tools": tools,
}


def choose(choice: str) -> None:
    """Takes the names of what the next part plays, joined by commas: all if there are none."""
    WANTED[:] = choice.split(",") if choice else []


def main() -> int:
    return play_parts(PARTS, sys.argv[2:], choose)
