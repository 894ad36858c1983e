"""The server as the model plays it, but for one thing that it does wrong: suite/wrong_server FAULT
WORD..

FAULT is `nothing` for a server that is right, or names what is wrong, with its parts joined by `:`.
The words are `replay`, `report`, `serve` or `loopback`, and their options. suite/notices plays such
servers in the suites, which have to fail.
"""
import sys
from collections.abc import Callable

from ..model import replies, serving
from .answers import (Stop, answers_at_most, answers_in_turn, attribute_dropped,
                      check_lists_another_limit, check_tells_no_place, checks_anything,
                      discontinued_unstarts, events_at_most, key_not_met, key_struck, key_taken,
                      limit_over_all, refused_starts, report_counts_to_one, report_stops_above_one,
                      shares_rows, silent_at_most, started_is_free, started_not_counted,
                      started_stays_started, starts_every_value, starts_none, starts_of_all,
                      stop_at_unreadable)
from .front import (web_arrays_of, web_asks_in_utf8_only, web_bids_anybody_go_on,
                    web_closes_each, web_copies_nothing, web_counts_no, web_counts_no_requests,
                    web_counts_no_turns, web_fills_pages_with, web_forgets_keys,
                    web_gives_what_is_not_accepted, web_is_filled_by_count, web_keeps_keys,
                    web_key_of_any_right, web_key_of_anybody, web_look_withdraws, web_page_with,
                    web_pages_of, web_paths_go_up, web_reads_no_json, web_refuses_as,
                    web_rows_of_the_first, web_sends_a_body_to_head, web_shares_with_anybody,
                    web_stays_open, web_takes_any_host, web_takes_any_method, web_takes_two_hosts,
                    web_tells_no_place, web_tells_no_rest, web_waits_for_one, web_without)
from .peers import (abort_reason, answers_before_release, cancels_any, dear_pdus, drops_the_rest,
                    drops_what_is_left, fragments_at_most, last_response_twice, longest_pdu,
                    looks_at_all_held, opens_at_most, page_of, pages_found_anew)
from .sockets import (console_cuts_long_lines, console_for_all, console_forgets_orders,
                      console_goes_on, console_holds, console_line_of, console_takes, console_waits,
                      loopback_sorts_by_text, socket_answers_another, socket_drops_an_octet,
                      socket_drops_what_waits, socket_ends_with, socket_forgets, socket_holds,
                      socket_keeps_what_ended, socket_never_closes, socket_reads_on, socket_spins,
                      socket_stops_at, socket_stops_at_a_reset, socket_waits_for_one,
                      socket_waits_for_whole_pdus)
from .stores import (copies_all, copies_and_empties, copies_without_a_row, migrates_and_empties,
                     migrates_any_version, migrates_by_id_alone, migrates_none_started,
                     migrates_over_rows, migrates_row_by_row, migrates_without_a_row,
                     migrates_without_steps_ended, old_store_is_taken, store_fault_passed_over,
                     store_kept_by_row, store_kept_late, store_unchecked, store_with_entry_patients,
                     store_without_an_index, store_without_patients)


def nothing() -> None:
    pass


FAULTS: dict[str, Callable[..., None]] = {
    "stop-at-unreadable": stop_at_unreadable, "limit-over-all": limit_over_all,
    "answers-at-most": answers_at_most, "answers-in-turn": answers_in_turn,
    "events-at-most": events_at_most, "shares-rows": shares_rows, "key-struck": key_struck,
    "key-taken": key_taken, "key-not-met": key_not_met, "silent-at-most": silent_at_most,
    "attribute-dropped": attribute_dropped, "report-stops-above-one": report_stops_above_one,
    "report-counts-to-one": report_counts_to_one, "store-kept-late": store_kept_late,
    "store-kept-by-row": store_kept_by_row, "store-fault-passed-over": store_fault_passed_over,
    "store-unchecked": store_unchecked, "store-without-patients": store_without_patients,
    "starts-none": starts_none, "starts-every-value": starts_every_value,
    "starts-of-all": starts_of_all, "refused-starts": refused_starts,
    "discontinued-unstarts": discontinued_unstarts, "started-not-counted": started_not_counted,
    "started-is-free": started_is_free, "started-stays-started": started_stays_started,
    "migrates-none-started": migrates_none_started, "migrates-by-id-alone": migrates_by_id_alone,
    "migrates-without-steps-ended": migrates_without_steps_ended,
    "migrates-without-a-row": migrates_without_a_row, "migrates-any-version": migrates_any_version,
    "migrates-over-rows": migrates_over_rows, "migrates-and-empties": migrates_and_empties,
    "copies-without-a-row": copies_without_a_row, "copies-all": copies_all,
    "copies-and-empties": copies_and_empties, "checks-anything": checks_anything,
    "check-tells-no-place": check_tells_no_place,
    "check-lists-another-limit": check_lists_another_limit,
    "migrates-row-by-row": migrates_row_by_row, "old-store-is-taken": old_store_is_taken,
    "store-with-entry-patients": store_with_entry_patients,
    "store-without-an-index": store_without_an_index,
    "socket-drops-an-octet": socket_drops_an_octet,
    "socket-answers-another": socket_answers_another, "socket-never-closes": socket_never_closes,
    "socket-drops-what-waits": socket_drops_what_waits,
    "socket-waits-for-one": socket_waits_for_one, "socket-holds": socket_holds,
    "socket-stops-at-a-reset": socket_stops_at_a_reset, "socket-stops-at": socket_stops_at,
    "socket-keeps-what-ended": socket_keeps_what_ended, "socket-spins": socket_spins,
    "socket-forgets": socket_forgets, "socket-ends-with": socket_ends_with,
    "console-forgets-orders": console_forgets_orders, "console-for-all": console_for_all,
    "console-takes": console_takes, "console-holds": console_holds, "console-waits": console_waits,
    "console-line-of": console_line_of, "console-goes-on": console_goes_on,
    "console-cuts-long-lines": console_cuts_long_lines,
    "loopback-sorts-by-text": loopback_sorts_by_text, "abort-reason": abort_reason,
    "drops-the-rest": drops_the_rest, "fragments-at-most": fragments_at_most,
    "opens-at-most": opens_at_most, "looks-at-all-held": looks_at_all_held, "dear-pdus": dear_pdus,
    "longest-pdu": longest_pdu, "socket-waits-for-whole-pdus": socket_waits_for_whole_pdus,
    "socket-reads-on": socket_reads_on, "page-of": page_of, "pages-found-anew": pages_found_anew,
    "drops-what-is-left": drops_what_is_left, "cancels-any": cancels_any,
    "web-key-of-anybody": web_key_of_anybody, "web-key-of-any-right": web_key_of_any_right,
    "web-keeps-keys": web_keeps_keys, "web-forgets-keys": web_forgets_keys,
    "web-rows-of-the-first": web_rows_of_the_first,
    "web-pages-of": web_pages_of, "web-refuses-as": web_refuses_as,
    "web-arrays-of": web_arrays_of, "web-tells-no-rest": web_tells_no_rest,
    "web-fills-pages-with": web_fills_pages_with, "web-is-filled-by-count": web_is_filled_by_count,
    "web-look-withdraws": web_look_withdraws, "web-takes-any-method": web_takes_any_method,
    "web-takes-any-host": web_takes_any_host, "web-takes-two-hosts": web_takes_two_hosts,
    "web-sends-a-body-to-head": web_sends_a_body_to_head, "web-stays-open": web_stays_open,
    "web-shares-with-anybody": web_shares_with_anybody,
    "web-reads-no-json": web_reads_no_json, "web-tells-no-place": web_tells_no_place,
    "web-paths-go-up": web_paths_go_up, "web-bids-anybody-go-on": web_bids_anybody_go_on,
    "web-gives-what-is-not-accepted": web_gives_what_is_not_accepted,
    "web-asks-in-utf8-only": web_asks_in_utf8_only,
    "web-waits-for-one": web_waits_for_one, "web-closes-each": web_closes_each,
    "web-counts-no": web_counts_no, "web-counts-no-requests": web_counts_no_requests,
    "web-counts-no-turns": web_counts_no_turns, "web-copies-nothing": web_copies_nothing,
    "web-page-with": web_page_with, "web-without": web_without,
    "answers-before-release": answers_before_release, "last-response-twice": last_response_twice,
    "nothing": nothing,
}


def usage() -> int:
    print("usage", file=sys.stderr)
    return 1


def main(given: list[str]) -> int:
    fault, *words = given
    name, *parts = fault.split(":")
    FAULTS[name](*parts)
    options = [word.split("=")[0] for word in words if word.startswith("--")
               and word.split("=")[0] != "--only"]
    if words[:1] not in ([], ["replay"], ["report"], ["serve"], ["loopback"], ["migrate"],
                         ["check"], ["copy"]) or {
"--new", "--store"} <= set(options) or len(options) > len(set(options)):
        return usage()
    try:
        if words[:1] == ["migrate"]:
            return replies.migrate(words[1:])
        if words[:1] == ["copy"]:
            return replies.copy(words[1:])
        if words[:1] == ["check"]:
            return replies.main(["--check", *words[1:]])
        if words[:1] == ["serve"]:
            return serving.serve(words[1:])
        if words[:1] == ["loopback"]:
            return serving.loopback(words[1:], sys.stdin.buffer.read())
        return replies.main([*(["--report"] if words[:1] == ["report"] else []), *words[1:]])
    except SystemExit as end:
        return usage() if end.code in (0, 2) else int(end.code or 0)
    except Stop:
        print("fault 2", file=sys.stderr)
        return 4
