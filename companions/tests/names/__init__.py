"""Who has an account: by a store beside its server, by a list, and `fics_names`, which keeps one."""
