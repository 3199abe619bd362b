"""Who has an account: `known` reads that out of a store, also beside a server, or out of a list, and `run` is
`fics_names`, which keeps such a list for those who may not read the store."""
