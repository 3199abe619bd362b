"""The parts of fics_accounts: records, what is read of a store or of its copy, the store with its changes, who works in
its folder, and what is asked for."""
