"""The definitions and laws that documents cite with what their comments say, by subject."""

from __future__ import annotations

# The definitions to begin with: of each subject the crates with their files and the names in them.
MAIN_WORDS = {
    "a file": "gedcom_line/Line: Line Fault; gedcom_rules/Rules: breaks; gedcom_rules/Faults: FaultOf Decides; "
    "gedcom_tree/File: ReadsFile; gedcom_tree/Text: text IsForest",
    "dates": "gedcom_date/Grammar: Says; gedcom_date/Days: IsDayOf; calendar_days/Calendars: day_number Covers",
    "records": "record_kinds/Model: Place Repo Source Citation Person Family Event Entry Other; "
    "record_text/Text: IsText IsTag; records/Stored: record_tree; record_shapes/Shapes: shape; "
    "record_shapes/Reading: draft_of",
    "an archive": "archive_state/Content: Content; archive_state/Sound: IsSound IsSoundSlip; "
    "archive_state/Links: links; archive_state/Paths: HasPath; archive_state/Looks: OnView",
    "requests": "archive_steps/Steps: row_step; entry_batches/Batches: batch_step; "
    "merging/Steps: merge_step undo_step; archive_state/Merging: merged; archive_core/Steps: step; "
    "archive_core/Machine: served Does Runs; archive_state/Changes: Changes; archive_state/Applied: applied; "
    "commands/Bytes: bytes_of digest_of",
    "import and export": "import_definitions/Roots: kept; import_definitions/Made: made; "
    "import_definitions/Report: report; gedcom_export/Forest: exported; round_trip/SameLaws: ComesBack ImportHasAll",
    "what is hidden": "masking/Life: IsLiving; masking/Closing: IsOpen; masking/Masking: IsMasked; "
    "masking/Hidden: AreAlike; sheets/Sheets: person_sheet",
    "searches": "searching/Folding: folded_text folded_name; searching/Lines: line_of; date_spans/Between: IsBetween",
    "tables": "store_rows/Meaning: Means; store/Archives: IsArchive HasArchive LeavesArchive; store/Calls: Performs; "
    "store/Histories: MayBeFound in_doubt; store/Lives: Life; table_looks/Judging: AreGood",
    "the program": "tasks/Ends: Ends; archive_runs/Runs: Run Follow KeepAll; parish/Doing: DoesWords; "
    "parish/Runs: IsRunOf",
    "the reading room": "room_requests/Heads: Begins; room_requests/Replies: reply; room_requests/Visits: Answers",
}

# The laws whose docstrings are in PROVED.md, by its sections: of each crate their names.
LAWS_SAID = {
    "headline": "archive_runs: runs_of_the_program_lose_nothing; archive_core: a_repeated_request_changes_nothing; "
    "round_trip: an_exported_file_gives_the_same_records; tasks: what_is_hidden_changes_no_run",
    "file": "store: a_stop_loses_nothing a_stop_loses_nothing_of_either_version",
    "requests": "archive_core: a_refused_request_changes_nothing a_receipt_is_kept_for_good "
    "a_request_keeps_an_archive_sound a_run_keeps_an_archive_sound an_answer_has_the_numbers_drawn "
    "no_number_is_used_twice; archive_input: a_row_asks_for_one_thing a_row_without_references_is_served_as_it_is; "
    "entry_batches: a_batch_is_the_commands_of_its_rows; "
    "merging: a_merge_is_undone an_undoing_is_done_where_nothing_changed_since; "
    "commands: two_commands_have_other_bytes",
    "records": "records: lines_are_of_one_record; archive_state: a_sound_archive_is_readable; "
    "gedcom_tree: a_file_is_one_thing a_decided_fault_stays a_text_is_read_again a_line_of_a_text_is_short",
    "imports": "imports: an_import_leaves_an_archive_sound an_import_draws_new_numbers an_import_changes_no_record; "
    "plain_export: what_the_standard_has_is_in_a_plain_archive no_name_with_a_text_is_left_out partners_stay "
    "the_value_of_an_event_stands_or_is_noted the_date_and_the_place_of_an_event_stand "
    "the_page_of_a_citation_stands_or_is_noted an_entry_without_a_link_is_noted "
    "the_entry_of_a_linked_mention_is_cited the_citation_of_an_entry_has_its_page_date_and_text; "
    "plain_reports: what_is_counted_is_left_out what_is_left_out_is_counted; round_trip: an_export_has_all_records "
    "an_export_keeps_orders nothing_is_reported_of_an_export an_export_gives_the_same_records",
    "visitors": "masking: an_archive_has_one_masked_state what_is_shown_is_sound of_the_living_nothing_is_shown "
    "events_of_the_living_are_gone what_is_hidden_changes_nothing; tasks: what_is_hidden_changes_no_plain_run; "
    "room_requests: what_is_shown_decides; reading_room: what_is_hidden_changes_no_answer",
    "dates": "gedcom_date: a_text_has_one_value; calendar_days: each_day_has_one_number the_formulas_count",
}
