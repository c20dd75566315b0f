"""Tries some seventy mutants of edits/ on every run of the gate: the prover must refuse each.

`rt ci` proves a crate once more before it tries the first body of its must-fail/, so only one small crate has some there. Those that are
named here are tried on a copy of the repository, over the libraries that `rt ci` left. Of a crate all are put in at once, and only the
functions that they change are checked, with those that these call: so a body is best at a function that calls few others. A function that
calls one which is refused is not judged, so the bodies that are left are put in once more without the others, over what that check proved,
until no check refuses any. `make edits` tries all of edits/.

    tried.py [CRATE..]     tries those of all crates, or of these; RT_JOBS=N takes N crates side by side, else as many as there are processors
                           and memory for
    tried.py --proved CRATE
                           tries those of a crate that `rt ci` has just proved, while it proves others"""
import os
import re
import sys
import tempfile
import time
from concurrent.futures import ThreadPoolExecutor

from tests.gate import edits, proved
from tests.lib import harness

# by crate, the dearest first
TRIED = {
    "tmpl_engine": (
        "break_leaves_dot_of_with break_undoes_an_assignment element_costs_no_step every_operand_looked_at fault_told_after_a_failed_write first_template_run"
        " no_else_part_below_one short_put_taken_as_whole stack_grown_where_no_text_is_made steps_spent_at_once text_before_fault_dropped variable_refused_for_memory"
        " write_failed_where_none_did"
    ),
    "tmpl_code": "bound_of_calls_not_looked_at call_taken_for_a_text entry_of_another_name jump_one_short room_by_the_length_of_the_code text_of_the_first_template_alone weight_above_what_is_held",
    "tmpl_syntax": (
        "action_begins_a_byte_late action_right_after_a_brace adjacent_texts_joined blank_replaces_a_body first_part_seen_in_else"
        " later_action_named name_kept_after_end one_refusal_left_out refuses_every_file second_definition_told_at_the_first set_changed_after_fault set_half_changed"
    ),
    "tmpl_tool": "data_before_templates file_read_twice second_read_after_failed_read text_put_before_want_of_memory zero_after_failed_write",
    "tmpl_c": "error_over_a_schema_forgiven full_buffer_as_done nothing_copied question_of_another_mode share_that_copies_nothing",
    "tmpl_funcs": "equal_looked_past pair_skipped space_beside_a_text",
    "tmpl_values": "map_printed_out_of_order map_visited_backwards number_visited_from_one",
    "tmpl_loops": "a_body_that_sees_its_index",
    "tmpl_lex": "dash_is_a_left_marker left_marker_goes_past_a_comment vertical_tab_is_space",
    "tmpl_formats": "a_column_too_few stack_forgotten single_quote_left_open word_of_yaml_1_1_taken marks_over_an_alternative",
    "tmpl_grammar": "range_assigns octal_escape_past_a_byte",
    "tmpl_hints": "end_told_as_a_jump broken_byte_told_by_a_mark",
    "tmpl_json_schema": "keyword_of_no_list type_of_the_last_sample_only a_fraction_taken_for_no_number",
    "tmpl_problems": (
        "newline_as_it_is piped_value_is_no_argument more_than_the_refusals one_brace_and_a_space_is_a_sign fraction_accepted"
        " data_problem_by_another_rule errors_only_where_all_are note_told_as_an_error line_and_column_exchanged key_without_quotes"
    ),
    "tmpl_report": "another_fault_said limit_told_for_a_doubt",
    "tmpl_schema": "a_join_that_keeps_one_side a_part_that_may_end_taken_for_the_other what_a_break_leaves_forgotten",
    "tmpl_shape": "each_field_required a_boolean_taken_for_the_other",
}
MEMORY = 4_000_000_000  # bytes, more than a check of some functions takes


def wanted():
    """The libraries of which some have to be tried."""
    crates = [it for it in sorted(os.listdir(f"{harness.TOP}/crates")) if os.path.isfile(f"{harness.TOP}/crates/{it}/src/lib.rt")]
    has = {kind: {it for it in crates if edits.edits_in(f"{harness.TOP}/crates/{it}/{kind}")} for kind in edits.FOLDERS}
    return sorted((has["edits"] - has["must-fail"]) | set(TRIED), key=lambda it: [*TRIED, it].index(it))


def refused_in(crate, name, left):
    """Those of these wrong bodies that one check of the functions which they change refuses, by groups that change each function once."""
    told = []
    for group in edits.parted(crate, left):
        paths = sorted({path for it in group for path in edits.paths_of(crate, it)})
        said = edits.said_with(crate, group, *(word for it in paths for word in ("--only", it)))
        told += [it for it in group if edits.goal_of(said, name, crate, it)]
        if said.count("\n") < 3:
            print(f"{name}: {said}", flush=True)
    return told


def complaint(name, is_proved):
    """Which of a crate's wrong bodies are not refused as they must be, if any."""
    left, begun = [f"{it}.edit" for it in TRIED.get(name, "").split()], time.time()
    if not left:
        return "none of its wrong bodies is tried by the gate"
    with tempfile.TemporaryDirectory(prefix="edits-") as room:
        edits.copied(room, name)
        if is_proved:
            proved.mark_copy(room)
        crate = f"{room}/crates/{name}"
        edits.take_edits(crate, "edits")
        missing = [it for it in left if not os.path.exists(f"{crate}/must-fail/{it}")]
        if missing:
            return f"there is no {', '.join(missing)}"
        rounds = 0
        while left:
            told = refused_in(crate, name, left)
            rounds += 1
            if not told:
                break
            left = [it for it in left if it not in told]
    print(f"{name}: {len(TRIED[name].split()) - len(left)} refused, in {rounds} rounds and {time.time() - begun:.0f} s", flush=True)
    return f"not refused: {', '.join(left)}" if left else ""


def main(words):
    is_proved, crates = "--proved" in words, [it for it in words if it != "--proved"] or wanted()
    fitting = max(1, min(harness.processes(), harness.free_memory() // MEMORY))
    with ThreadPoolExecutor(int(os.environ.get("RT_JOBS") or fitting)) as pool:
        told = dict(zip(crates, pool.map(complaint, crates, [is_proved] * len(crates))))
    failed = {name: why for name, why in told.items() if why}
    print(*[f"WRONG BODIES of {name}: {why}" for name, why in failed.items()], sep="\n", end="\n" if failed else "")
    return harness.closing(sum(len(TRIED[name].split()) for name in told if name not in failed), len(failed))


if __name__ == "__main__":
    sys.exit(main(sys.argv[1:]))
