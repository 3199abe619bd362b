"""Tests of the go-between for the browser and of its page: a scenario a file, but for the helpers.

`conftest` has the fixtures. `browser` are windows with the page, `chromium` and `firefox` the browsers that have them,
`marionette` is how Firefox is driven, `four_tabs` two pairs of partners, `reached` is what is looked at of a page
without a mouse and without sight, `archived_games` an archive with games of each kind.

`played` is a server that a test plays, `boards` are lines that it writes, `answering` are its ends of many links,
`evenings` games at one that plays by itself. `tabs` are tabs without a browser, `plain` links without a page, `asked`
is a request by HTTP, `wire` a wire that can be cut, `hostile` are tabs that do harm, `priority` lets what is timed go
first."""
