"""GDB on the machine of a script: a stub of the remote serial protocol over the proved monitor.

`packets` speaks with GDB, `rubliman.asking` with the proved program. `machine` and `listing` read what that tells;
`memory`, `registers` and `windows` show it to GDB. `points`, `conditions` and `judging` take what GDB wants to stop at,
`watching` and `running` look for it, `stops` tells of it. `words` has the user's own commands, `files` and `symbols`
the file of labels and lines. `stub` answers packets, `serving` serves a session, and `command` starts GDB on one.
"""
