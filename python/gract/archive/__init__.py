"""Many indexes that are asked as one: `days`, by time, and `shards`, by object. docs/SHARDS.md is the page.

What stands where: `manifest` is the list of a folder's parts, `folders` keeps a folder whole whatever becomes of who writes in it, `given`
takes rows as they come, with the names of their objects, `cutting` cuts CSV files into the rows of each part, `parts` builds parts and
adds to them, `listing` tells and checks what is there, `routes` says which parts a question goes to and what becomes of their replies,
`parted` asks them, `tails` has rows that are asked with days, and `command` is the command line.
"""
