"""Board lines by hand, of a game of Ann and Ben; `rel` is how who is told them stands to the game."""

START = (
    "rnbqkbnr pppppppp -------- -------- -------- -------- PPPPPPPP RNBQKBNR W -1 1 1 1 1 0 {game} Ann Ben {rel} "
    "2 12 39 39 120 120 1 none (0:00) none 0"
)
AFTER_E4 = (
    "rnbqkbnr pppppppp -------- -------- ----P--- -------- PPPP-PPP RNBQKBNR B 4 1 1 1 1 0 1 Ann Ben {rel} 2 "
    "12 39 39 120 120 1 P/e2-e4 (0:00) e4 0"
)
AFTER_E5 = (
    "rnbqkbnr pppp-ppp -------- ----p--- ----P--- -------- PPPP-PPP RNBQKBNR W 4 1 1 1 1 0 1 Ann Ben 0 2 12 "
    "39 39 119 118 2 P/e7-e5 (0:03) e5 0"
)
