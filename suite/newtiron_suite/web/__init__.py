"""The built program's web front: `serve --web PORT --web-keys FILE`, over sockets of 127.0.0.1.

    page        health, the page and its two files: octets, types, fields of the head, nothing from
                elsewhere
    keys        no key, a wrong one, another institution's and the operator's are refused with the
                same octets; files of keys, and those that are refused
    rights      what keys with only one right may do, and what they may not
    anew        the file of keys, read anew by the console's order
    hospitals   two hospitals with the same UIDs: each is shown its own rows
    searches    studies, series, images, entries and steps, page by page, with keys and with words
                that are none; forms that are accepted, and the warning of fuzzy matching
    entries     what is sent to the worklist is found by DICOM and by HTTP, and withdrawn; each
                refusal of both
    arrays      pages of large items, which end at 8 MiB of JSON, show each row once and say that
                there are more
    pages       the same of items, steps and studies whose JSON is short and whose data sets fill a
                page
    peaks       the memory that such pages take does not grow with the rows that there are
    looks       nothing that is looked at changes anything
    methods     other methods, HEAD, paths that are none, and those that go up
    hosts       names of the host, targets in absolute-form, origins and sites that are refused,
                links of other sites
    viewers     a viewer of another origin: what its pages may read, and other origins
    grammar     requests that are none, that are too long, that come in pieces or many at once;
                100-continue, and HTTP/1.0
    lingering   clients that go on sending after the last response: it comes whole, with no reset
    slow        clients that say nothing or read nothing: others are served beside them
    late        heads and bodies that do not come in their time
    crowd       more connections of one address than it may have
    places      idle connections, which give way to those that come
    many        100 connections
    metrics     each line of the metrics, and what they count
    backup      the operator's backup, and its refusals
    log         the line of each request
    line        one line of the log for each request, and none of the console's, whatever octets
                its target, its fields and its body have
    memory      allocations refused one at a time while a request is answered, over rows in memory
                and over a store: who asked is let go, as the log says, and others are served
    proxies     what a proxy says of the address of its clients, and how many it may connect
    curl        the same by curl, where it is installed
    lists       the page in headless Chromium, where it is installed: its lists, their order,
                searches and pages
    items       the same: items that are scheduled, copied, changed and withdrawn
    browser     the same: what its policy refuses, sessions, narrow and wide, a phone, the keyboard
                only, the operator
    orthanc     Orthanc's DICOMweb plugin as a client, where it is installed
    nginx       nginx in front with TLS, as docs/OPERATING.md shows it, where it is installed

What is expected comes from the models (newtiron_suite/model/web.py). What is not installed is named
and skipped. It ends with 'N passed, M failed'. Use: suite/web [PROGRAM [PART..]]; suite/web
--picture [PROGRAM] makes docs/page.png anew.
"""
import sys

from ..tally import Part, play_parts
from .entries import entries, looks
from .keys import keys
from .lingering import lingering
from .loads import crowd, late, many, places, slow
from .memory import memory
from .one_line import one_line
from .operator import backup, curl, log, metrics
from .others import nginx, orthanc, proxies
from .page import browser, items, lists, page, picture
from .pages import arrays, pages, peaks
from .requests import grammar, hosts, methods
from .rights import anew, rights
from .searches import hospitals, searches
from .viewers import viewers

PARTS: dict[str, Part] = {
    "page": page, "keys": keys, "rights": rights, "anew": anew, "hospitals": hospitals,
    "searches": searches, "entries": entries, "arrays": arrays, "pages": pages, "peaks": peaks,
    "looks": looks, "methods": methods, "hosts": hosts, "viewers": viewers, "grammar": grammar,
    "lingering": lingering, "slow": slow, "late": late, "crowd": crowd, "places": places,
    "many": many, "metrics": metrics, "backup": backup, "log": log, "line": one_line,
    "memory": memory, "proxies": proxies, "curl": curl, "lists": lists, "items": items,
    "browser": browser, "orthanc": orthanc, "nginx": nginx,
}


def main() -> int:
    if sys.argv[1:2] == ["--picture"]:
        picture()
        return 0
    return play_parts(PARTS, sys.argv[2:])
