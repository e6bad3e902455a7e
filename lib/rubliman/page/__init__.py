"""A page for the workbench: the run of a script seen in a browser, its past changed, and what that changes seen.

`command` starts the server and ends it. `server` answers requests, each of which `guards` has let through; `files` has
the page's own files, in `site`. `sessions` keeps one run of the proved monitor for each open page, `requests` takes
what a page asks apart, and `presence` tells when a page is gone.
"""
