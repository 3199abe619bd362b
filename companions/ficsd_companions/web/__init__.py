"""What `fics_web` is made of.

Who may come: `gate` stands before each connection, `frames` follows what a tab sends, `porter` counts connections and
places, `hosts` are the names that are answered, `proxies` whose word counts for an address, `closes` why one is closed.

One link: `lines` are what a tab sends, `questions` are the go-between's own, `talk` says whose answer comes, `kept` has
what a tab wasn't told, `server_end` is the socket to the server, `link` a tab and its server's end, `seats` what is
held for a tab that is gone. What the server writes is cut and read by `ficslink`, which also knows stamped lines.

All links: `tabs` lets tabs in and gives them their seats, `lists` asks for what all tabs show, `pages` are the files
and their headers, `archived` the games of an archive, `logs` what is logged. `server` serves all of it by what
`settings` say, which `run` reads off the command line."""
