"""Where the crates answer that memory ran out by a value of their own, and not by a callee's: the functions that do."""
import re

import rows

# Of each was read why. Most say in other words what a growth that they asked for answered. `are_left` also answers
# where more lacks than any machine has; `make_room` of krs_wire looks at a capacity; `check_room`, `check_two` and
# `hold_again` at how many hold a key. No contract forbids another cause.
KNOWN = {
    "krs_context_asks/greeting.rt": "open_first uid_keys", "krs_context_asks/joining.rt": "join_new",
    "krs_ctl/choice.rt": "choice_of_all choice_of_call told", "krs_ctx/listed.rt": "list",
    "krs_ctx/maps.rt": "enter enter_first", "krs_ctx/table.rt": "insert", "krs_desk/opening.rt": "open",
    "krs_hold/holders.rt": "hold_again made made_held", "krs_key_asks/adding.rt": "make",
    "krs_keys/key_table.rt": "put_in", "krs_links/links.rt": "one_link put_hashed", "krs_links/table.rt": "append",
    "krs_listen/choice.rt": "choice_of_all told", "krs_remote/asking.rt": "frame_of stop_of", "krs_ring/ring.rt": "new",
    "krs_ring_asks/linking.rt": "put_named", "krs_script/running.rt": "run", "krs_script/telling.rt": "is_one",
    "krs_serve/sessions.rt": "run_sessions serve_sessions", "krs_session/session.rt": "serve_piece",
    "krs_session/writing.rt": "send_reply", "krs_store/store.rt": "apply apply_into",
    "krs_tables/holding.rt": "check_room check_two make_room", "krs_tables/making.rt": "make_ring make_two one_link",
    "krs_types/fault.rt": "from", "krs_watch/memory.rt": "are_left", "krs_watch/queue.rt": "new",
    "krs_watch/watches.rt": "insert", "krs_wire/fault.rt": "from", "krs_wire/room.rt": "make_room",
    "krs_words/lines.rt": "cause_of", "krs_words/no_command.rt": "from", "krs_words/number.rt": "data_word",
    "krs_words/stop.rt": "from", "krs_world/posted.rt": "answer look_at", "krs_world/replay.rt": "replay",
    "krs_world/world.rt": "put serve_own"}

VALUE = re.compile(r"\bErr\(AllocError\)|\bor\(AllocError\)|\b(?:Errno::ENOMEM|\w+::Memory)\b")
# What follows a pattern, and not a value; what begins a line that is no code of a body.
PATTERN = re.compile(r"\)*(?:,? \.\.)? ?(?:=>|if\b)")
NO_CODE = re.compile(r"\s*(?://|use |ghost |pub use |ensures|requires|[×→⊎]|#\[)")
HEAD = re.compile(r"^ *(?:pub(?:\([a-z]+\))? )?(?:const )?fn (\w+)")
# A use that answers nothing.
ASKS = re.compile(r"matches!\(|[!=]= ")


def makers():
    """Each file, below crates, with the names of such functions in it."""
    found = {}
    for place in rows.sources():
        if re.match(r"crates/(?:\w+_tests|krs_bench|krs_store_asks)/", place):
            continue
        function = None
        for line in rows.text_of(place).splitlines():
            function = HEAD.match(line)[1] if HEAD.match(line) else function
            for value in [] if NO_CODE.match(line) else VALUE.finditer(line):
                is_value = not PATTERN.match(line, value.end()) and not ASKS.search(line, 0, value.start())
                if function and is_value:
                    found.setdefault(place.removeprefix("crates/").replace("/src", ""), set()).add(function)
    return {place: " ".join(sorted(names)) for place, names in found.items()}
