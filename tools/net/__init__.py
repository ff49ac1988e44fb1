"""A network on this machine: many peers in processes of their own, what goes wrong with them by a seed, and what is told of it.

scenes   plans: what each peer is given of one, and one over the files of a folder
peers    the peers: a daemon each, which is killed, stopped and started again
wires    the links between them: frames from bin/from on their way to the socket of a daemon
weather  which frames are lost, repeated or late, and which links are cut
liars    corrupt peers: the strategies of bin/attack, which are sent frames and answer them
chaos    what is done to peers, by a seed
doctor   files with one bit turned, and who refuses them
telling  the log of all events, as a report that bin/chart draws, and what journals come to
watching memory and open files, a line of progress, and a picture
judging  what the checkers say, and how nodes ended
running  all of these together
"""
