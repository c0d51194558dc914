#!/usr/bin/env python3
"""Names what moved from a crate's specs/ to its proofs/ by its new path, in the imports of every crate.

usage: python3 tools/port-moved.py [CRATE..]      the crates whose files are rewritten; none: all

A line that imports moved names and others becomes two. A line that is right stays as it is, so a second run changes nothing.
"""
import glob
import os
import re
import sys

# crate, module: the names that moved; "*": the whole module
MOVED = {
    ("lifting_runs", "AcceptedRuns"): "*",
    ("lifting_runs", "Controls"): "cleared_node_law cleared_tasks cleared_step cleared_runs same_start same_step same_runs both_alike regions_of_another blocks_of_both",
    ("lifting_runs", "Demand3"): "*",
    ("lifting_runs", "Ended"): "last_of_law last_exit suffix_last case_ended only no_exit behind_entry behind_in behind_out behind_root behind_child behind_exit walk_behind",
    ("lifting_runs", "EndedKept"): "*",
    ("lifting_runs", "EveryText"): "*",
    ("lifting_runs", "ListIds"): "many run_on map_alike numbers_run given_none no_zero given_many gives gives_append of_values values_append results_of gives_ops gives_merge gives_way gives_body gives_blocks gives_params of_names gives_list fresh same_values same_names ids_run_on",
    ("lifting_runs", "ListPhis"): "block_of blocks_are bs kept_block block_ok target_of edge_from_law edge_to phi_of_kept phi_pairs_of",
    ("lifting_runs", "Numbering"): "*",
    ("lifting_runs", "Shaped"): "shaped_accepted shaped_checked depth tree in_order walk_is visited_low walk_once walk_first visited_exit visited_out laid tidy walked leads terms behind_exits",
    ("lifting_runs", "WitnessRuns"): "*",
    ("lifting_blocks", "Cleared"): "clear_merge clear_term clear_block clear_entry clear_table G node_is loop_clear child_clear root_clear way_clear in_clear out_clear children_clear kids_clear walk_node_law nodes_clear region_clear roots_clear walk_clear labels_clear uses_clear first_clear count_clear points_clear at_clear sole_clear absorb_cleared clear_state try_clear turn_clear all_clear absorb_clear keep_clear kept_clear NoMerge stays gather_clear T0 K0 names_clear new_clear id_clear label_clear pairs_clear phis_clear result_clear op_clear term_clear merge_clear phis_stay body_clear blocks_clear params_clear list_clear list_of_cleared next_of_cleared",
    ("lifting_blocks", "Demand2"): "list_controls merges_stay list_cleared next_cleared same_lists list_labels",
    ("lifting_blocks", "Labels"): "Apart Parted entries_once ctrl_apart root_parted loop_parted child_parted exit_parted in_parted walk_parted kept_parted free_apart way_apart term_apart op_apart ops_apart phis_apart merge_apart label_apart params_apart block_apart list_apart",
    ("lifting_blocks", "Merges"): "exit_own in_own walk_own kept_own Fine other merge_own block_own list_own",
    ("lifting_sizes", "BlockWeights"): "length_imms length_words length_inst length_term length_kind phis_weight start_weight op_weight_law ops_weight_law merge_weight_law Any way_weight phis taken blocks_weight",
    ("lifting_sizes", "Bound"): "params_weight list_weight body_weight limits_weight text_bound Bounded Claim listed_bounded bounded list_bound room_enough evaluated",
    ("lifting_sizes", "Flow"): "*",
    ("func", "Adds"): "largest_append ready_after adds_same adds_none adds_then into_here into_else adds_push wide_map adds_many adds_folds grown_gather grown_length grown_none grown_largest",
    ("func", "Back"): "pair_back value_lowered value_back values_back always back_all decls_back imms_back numbers_back region_back node_parts node_back op_parts op_back entry_back ctrl_parts ctrl_back limits_of fits_room region_row_law node_row_law op_row_law entry_row_law last ctrl_row_law heads head_word kept_lines row_view ready_0 rows_func head_func all_fit func_back",
    ("func", "Example"): "*",
    ("func", "Gains"): "values_wide wide_values wide_decls wide_imms wide_numbers const_wide param_wide region_line_law node_line_law op_line_law entry_line adds_region adds_node adds_op adds_entry ctrl_lists_law adds_ctrl_cells adds_entries entries_at none ctrl_wide adds_ctrl",
    ("func", "Laws"): "*",
    ("func", "Layout"): "need_is end_of placed before sound passed parts placed_at before_at inside follows apart spot entry_words_law entry_room_law",
    ("func", "Lines"): "proper_parts gained_here gained_else gained_fresh adds_cells adds_row adds_line later_then later_fits span_start span_count piece_back agree_more agree row_cells line_back each_length rows_each_at each_back rows_back",
    ("func", "Store"): "place_yes place_no cases length_place low_place head_place count_place_other count_place entry_low entry_off beside after view_place_other view_place_full view_place length_view length_raise low_raise entry_raise count_raise view_raise length_push head_push count_other count_push most_push most_other view_other view_full view_push",
    ("func", "Stored"): "stored_func region_in region_at_law ins_count stored_nodes results_count node_in_law node_at_law stored_kind values_count stored_children outs_count op_in_law op_type unsingle",
    ("func", "Tables"): "tables_func word_is whole_pool length_held within const_is param_row const_total param_total region_total node_total op_total few_params few_ops ctrl_total const_in param_in_law region_in node_in_law op_in_law ctrl_in region_at_law node_at_law op_at_law ctrl_at_law region_kept node_kept op_kept ctrl_kept ins_kept get_or_mapped map_id list_count item_low item_in item_is value_is value_count value_within value_at region_ins region_nodes region_outs node_number_is node_opcode_is node_control_is node_imms node_values_law node_ops node_children node_outs op_words_are op_imms_law op_operands ctrl_words_are ctrl_imms ctrl_ins ctrl_targets ctrl_entries entry_count entry_below entry_few entry_within entry_at entry_region_is entry_values entry_kept",
    ("func", "Whole"): "length_empty clear_empty clear_view ready_clear clear_head stages adds_func plain line_plain ctrl_plain gain_plain collected ctrl_sized sized line_sized ctrl_sized_law gain_sized entries_sized ctrls_none rows_sized parts_sized count_func view_func ctrl_none const_rows param_rows region_rows node_rows op_rows ctrl_rows gain_entries gain_regions gain_nodes gain_ops gain_ctrls most_func entry_regions most_entries most_ctrls",
    ("read_first", "Cut"): "judged judge_is parse_cut answer_cut line_length after_full line_full line_more line_early bad_stays input_more input_cut",
    ("check_text", "Same"): "checked_is same function_or passes few_forth few_back whole func_is tables_are named_are control_is targets_are limits_are references_are tree_is checks_safe checks_same stands_back",
    ("print_lines", "Room"): "point_room_law points_room cond_low T start_room close_room store run_room point_room at_position lines_room function_room text_room_law evaluated",
}
# what stands in proofs/ under another name: Rattle makes a module Layout there
RENAMED = {("func", "Layout"): "Pools"}
FOLDERS = ("src", "specs", "proofs")
# an import of some names of a module, and of a whole module
NAMES = re.compile(r"^(?P<lead>\s*(?:pub\s+)?(?:ghost\s+)?use\s+)Rattle\.(?P<crate>\w+)\.specs\.(?P<module>\w+)\.\{(?P<names>[^{}]*)\}(?P<tail>;?)[ \t]*$", re.M)
MODULE = re.compile(r"^(?P<lead>\s*(?:pub\s+)?(?:ghost\s+)?use\s+)Rattle\.(?P<crate>\w+)\.specs\.(?P<module>\w+)(?P<rest>(?:\s+as\s+\S+)?;?)[ \t]*$", re.M)


def moved(crate, module):
    """Returns whether a name of the module moved, as a function, or None where none did."""
    names = MOVED.get((crate, module))
    if names is None:
        return None
    return (lambda name: True) if names == "*" else set(names.split()).__contains__


def split(m):
    """Returns the line, or two, for an import of names."""
    gone = moved(m["crate"], m["module"])
    if gone is None:
        return m[0]
    names = [it.strip() for it in m["names"].split(",") if it.strip()]
    parts = {"specs": [it for it in names if not gone(it.split()[0])], "proofs": [it for it in names if gone(it.split()[0])]}
    if not parts["proofs"]:
        return m[0]
    modules = {"specs": m["module"], "proofs": RENAMED.get((m["crate"], m["module"]), m["module"])}
    return "\n".join(f"{m['lead']}Rattle.{m['crate']}.{part}.{modules[part]}.{{{', '.join(its)}}}{m['tail']}" for part, its in parts.items() if its)


def whole(m):
    """Returns the line for an import of a whole module, which has moved where all of it has."""
    return m[0].replace(".specs.", ".proofs.", 1) if MOVED.get((m["crate"], m["module"])) == "*" else m[0]


def merged(text):
    """Returns the text with one line where two import from the same module of proofs/."""
    seen, lines = {}, []
    for line in text.split("\n"):
        m = re.match(r"^(\s*(?:pub\s+)?(?:ghost\s+)?use\s+Rattle\.\w+\.proofs\.\w+\.)\{([^{}]*)\}(;?)$", line)
        if m and m[1] in seen:
            at, names = seen[m[1]]
            names += [it.strip() for it in m[2].split(",") if it.strip() not in names]
            lines[at] = f"{m[1]}{{{', '.join(names)}}}{m[3]}"
            continue
        if m:
            seen[m[1]] = (len(lines), [it.strip() for it in m[2].split(",")])
        lines.append(line)
    return "\n".join(lines)


root = os.path.dirname(os.path.dirname(os.path.abspath(__file__)))
count = 0
for crate in sys.argv[1:] or sorted(os.listdir(f"{root}/crates")):
    for folder in FOLDERS:
        for path in sorted(glob.glob(f"{root}/crates/{crate}/{folder}/**/*", recursive=True)):
            if not path.endswith((".antt", ".rt")):
                continue
            with open(path, encoding="utf-8") as it:
                old = it.read()
            new = MODULE.sub(whole, NAMES.sub(split, old))
            new = merged(new) if new != old else new
            own = re.findall(rf"use Rattle\.{crate}\.proofs\.\w+", new) if folder == "specs" else []
            if own:
                print(f"{os.path.relpath(path, root)}: specs/ cannot name its own crate's proofs/: {own[0]}", file=sys.stderr)
            if new != old:
                with open(path, "w", encoding="utf-8") as it:
                    it.write(new)
                count += 1
print(f"{count} files rewritten")
