"""What tests and trials stand on: `paths` says where things lie, `running` starts programs and reads what they write,
`go_between` is the go-between for the browser, `ports` finds free ports, `link` is a plain link, `guests` are members
over the client library, `steps` are half-moves for them that a board allows, `played` is a server that a test plays,
`records` are records of a store spelled byte by byte, `stamped` seals lines with a time stamp."""
