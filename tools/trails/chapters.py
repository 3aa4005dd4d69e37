"""The order in which a reader meets the definitions: chapters, in each its files, those that others name first."""

from __future__ import annotations

from collections.abc import Mapping

CHAPTERS: tuple[tuple[str, ...], ...] = (
    ("Ids and walks", "The ids of the files, the network, and the least seconds from node to node.",
     "pool_base/src", "pool_base/specs/TravelTime", "pool_base/specs/Times", "pool_io/specs/Faults", "road_network/src/arc", "road_network/specs/Roads", "road_network/specs/Walk", "travel_times"),
    ("Orders of stops", "What a vehicle has to serve, the orders of its stops, and which of them serve everybody in time.",
     "stop_orders"),
    ("What a batch asks", "The settings, what a batch sees of riders and vehicles, and the limits that it settles for each.",
     "rider_limits/src/settings", "rider_limits/src/load_shape", "rider_limits/specs/Range", "rider_limits/specs/lemmas/Range",
     "request_book/src/values/promise", "request_book/src/values/batch_rider", "request_book/src/values/passenger", "request_book/src/values/vehicle", "request_book/src/values/fleet", "request_book/src/values/snapshot",
     "request_book/specs/values/Batch", "request_book/specs/values/Kept", "request_book/specs/Points", "request_book/specs/values/Vehicle", "request_book/specs/lemmas/values/Kept", "request_book/specs/lemmas/Points",
     "dispatch_engine/specs/limits/Requests", "dispatch_engine/specs/limits/Promised", "dispatch_engine/specs/limits/Settling"),
    ("The trip graph", "Which vehicle can serve which riders, and at what delay.",
     "plan_rules/src/row", "plan_rules/specs/Sums", "plan_rules/specs/Graph", "plan_rules/specs/Plan", "plan_rules/specs/GoodGraph", "trip_graph"),
    ("Plans", "Which trip each vehicle takes, whether that is lawful, and what it costs.",
     "plan_rules/specs/Greedy", "row_tables"),
    ("Bounds", "What no plan can cost less than, and the tree that shows it.",
     "plan_rules", "assignment_search", "bound_checker"),
    ("Outcomes", "What a batch comes to: its lists, its plan, its bound and its moves, and when these are good.",
     "rebalancing/specs/Matching", "rebalancing/specs/Potentials", "rebalancing/src/moves", "request_book/src/values/outcome", "dispatch_engine/specs/outcome/Outcome", "dispatch_engine/specs/outcome", "dispatch_engine/src/outcome", "report_audit/src/points/verdict", "report_audit/specs/points/Verdict"),
    ("Steps", "What a command changes of the book, and what it answers.",
     "pool_base/specs/InOrder", "request_book", "input_rows/src/script/version", "input_rows/specs/script/Round"),
    ("Runs", "What lanes make of a round, and rounds of a script.",
     "seat_lock", "shared_work", "dispatch_engine"),
    ("Files, words and texts", "How files and words are read, how a report is written, and what is wrong with either.",
     "pool_base", "pool_base/src/which", "pool_base/src/memory", "pool_io", "road_network", "input_rows/src/fleet/fault", "input_rows/specs/fleet/Vehicle", "input_rows/specs/fleet/Fleet", "input_rows", "rider_limits", "dispatch_report",
     "route_drive/src/day", "report_audit/src/report/fault", "report_audit/src/block/refusal"),
    ("Notices", "What riders are told.", "request_book/src/notices/notice", "request_book/specs/notices/Notices", "request_book/specs/notices/Told", "request_book/specs/notices/Seen", "request_book/specs/notices/Steady"),
    ("The run", "What a call of `run` answers. Its clause is `AnswersRun`, and nobody who wants to believe a run need read on.",
     "route_drive/src/day_run", "ridepool/src/status", "ridepool/specs/CallView", "ridepool/specs/Reading", "ridepool/specs/Inputs", "ridepool/specs/Report", "ridepool/specs/Run"),
    ("The day", "What vehicles do that follow their plans, and what a call of `drive` answers: `AnswersDrive`.", "route_drive", "ridepool/specs/Drive"),
    ("The audit", "How a report is read back, what is wrong with one, and what a call of `audit` answers: `AnswersAudit`.",
     "dispatch_engine/specs/lanes/Progress", "dispatch_engine/src/lanes/lane_progress",
     "report_audit/specs/lines/BlockLine", "report_audit/specs/lines/Cut", "report_audit/specs/lines/Order", "report_audit/specs/lines/BlockLines", "report_audit/specs/lines/HeadLines", "report_audit/specs/lines/Line",
     "report_audit/specs/lines/Settings", "report_audit/specs/lines/HeadFault", "report_audit/specs/lines/Next", "report_audit", "ridepool/specs/Audit"),
    ("The made workload", "What is made of a seed, and what a call of `load` answers: `AnswersLoad`.", "input_rows/src/made/texts", "input_rows/src/made/row", "input_rows/src/made/draw", "input_rows/specs/made/MadeRow", "input_rows/specs/made/Part", "input_rows/specs/made/Texts", "input_rows/specs/made/Accepted", "ridepool/specs/Load"),
    ("The call", "What the program answers, by its command. The headline's clause is `Answers`.", "ridepool"),
    ("The live session", "What is read, answered and written while requests come in, and what a call of `live` answers: `AnswersLive`.",
     "input_rows/specs/live/Lines", "input_rows/src/live/judge", "input_rows/specs/live/Rows", "input_rows/src/live/start", "input_rows/specs/live/Start", "input_rows/src/live/lines", "live_dispatch", "ridepool/specs/Live"),
    ("The restart", "What a report keeps of a day that broke off, how the day goes on, and what a call of `resume` answers: `AnswersResume`.",
     "rider_limits/src/resume_words", "report_past", "live_dispatch/specs/Closing", "ridepool/specs/Resume"),
)


def chapter_of(place: str) -> int:
    """The number of the chapter of a file: of the longest name that it begins with; behind all where none is it."""
    best = (0, len(CHAPTERS))
    for at, (_, _, *homes) in enumerate(CHAPTERS):
        best = max(best, *((len(home), at) for home in homes if place == home or place.startswith(f"{home}/")), (0, -1))
    return best[1]


def place_in(place: str) -> int:
    """Where a file stands in its chapter, before its own uses are looked at."""
    homes = CHAPTERS[chapter_of(place)][2:] if chapter_of(place) < len(CHAPTERS) else ()
    return max(((len(home), -at) for at, home in enumerate(homes) if place == home or place.startswith(f"{home}/")), default=(0, 0))[1]


def in_order(uses: Mapping[str, set[str]]) -> list[str]:
    """Files in the order of a chapter, each behind those of the chapter that it uses, where there is no ring of them.
    `uses` has for each file those whose definitions it names."""
    order: list[str] = []
    seen: set[str] = set()

    def visit(place: str) -> None:
        if place in seen or place not in uses:
            return
        seen.add(place)
        for used in sorted(uses[place], key=rank):
            visit(used)
        order.append(place)

    def rank(place: str) -> tuple[int, str]:
        return -place_in(place), place

    for place in sorted(uses, key=rank):
        visit(place)
    return order
