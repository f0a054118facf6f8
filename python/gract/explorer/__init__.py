"""The explorer: a map to look around in, over an index or an archive of days, in a browser on this machine.

`explore` opens one, and serves until it is ended. What stands where: `command` is the command line, `server` answers requests, `guard`
says which, `charts` has the two indices that are asked, `binary` the arrays that positions travel as, `asking_by_hand` the questions
of the panel, `shores` the coast, and `page/` what the browser gets.
"""

from .command import explore

__all__ = ["explore"]
