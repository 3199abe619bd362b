"""Tests of fics_director: `reading`, `dues` and `archived` without a server, `evenings` and `troubles` over one, with
the players of `players`."""
