"""Processor seconds of a first build of each crate, as the system counted them on four processors at 2.5 GHz.

Those of libraries are of one gate from nothing, in which four crates were built side by side with one job each; those
of the two programs are of builds with two jobs, as `prove_and_build` makes them, on a machine that did little else. A
crate that isn't here is taken at so many seconds a line.
"""
SECONDS_A_LINE = 0.06
SECONDS = {
    "bitboard_core": 50, "channel_feed": 80, "chess_model": 96, "clock_ledger": 27, "cmd_board": 57,
    "cmd_bot": 59, "cmd_check": 31, "cmd_demo": 154, "cmd_examine": 95, "cmd_job": 120,
    "cmd_lines": 123, "cmd_pgn": 46, "cmd_replay": 222, "cmd_run": 51, "cmd_store": 21,
    "cmd_tidy": 46, "cmd_tourney": 81, "collections": 95, "command_words": 228, "desk_boards": 202,
    "edge_traits": 31, "examine_board": 102, "fics_board": 41, "fics_server": 361, "fics_words": 96,
    "file_keeper": 312, "game_board": 129, "game_records": 137, "hall_core": 214, "histories": 17,
    "holdings_drops": 21, "house_bot": 70, "line_reader": 58, "link_core": 79, "linked_desk": 322,
    "lobby_load": 97, "lobby_shelf": 152, "lobby_state": 815, "lobby_store": 57, "login_handles": 54,
    "memory": 18, "move_reader": 50, "move_writer": 41, "observer_feed": 54, "offer_book": 54,
    "one_server": 278, "partner_link": 64, "pgn_book": 283, "real_edges": 80, "replay_core": 77,
    "rules_answers": 58, "rules_reading": 29, "seek_match": 107, "serve_call": 125, "serve_core": 292,
    "serve_turn": 97, "session_asks": 42, "session_core": 347, "session_laws": 19, "simul_control": 45,
    "stamp_codec": 65, "steward_core": 70, "style12_writer": 108, "tables": 102, "tourney_desk": 90,
    "turn_chain": 73, "turn_table": 125, "variant_rules": 202,
}
