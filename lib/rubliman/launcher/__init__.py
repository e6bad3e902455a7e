"""What `./sparc8` does around the proved program: it reads the words, proves, builds, installs and tells what stands.

It holds no rule of the machine. `command` has the words, `words` reads those of the program as the program does,
`proving` proves the crates, `kept` keeps what was proved, and `gate` keeps what `.ci/run` proved.
"""
