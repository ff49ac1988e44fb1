"""A peer at a library: a daemon that owns a node, and hands messages on between it and the peers of other libraries.

config    what an operator says: whose peer it is, its files, its clock, its schedule and its links
follow    a journal file as it grows, and what its records come to
schedule  which step a peer is due to take
node      the program `lks_node` as a process, one frame at a time, and what its statuses mean
links     commands that take messages to other libraries
door      the socket at which `bin/from` hands on what they send
daemon    all of these together
"""
