"""Scripts, reports, journals and messages of lockss, for programs beside the proved one.

Formats are those of docs/FORMATS.md, words those of docs/PROTOCOL.md. What a run comes to is told by the program alone:
this package reads and checks what it is given and what it gives.

plan     plans, and the words of lines
script   scripts, judged line by line, with the reason of a bad line; the scenario of a drill
report   reports: events, notes, copies, polls, alarms
journal  journals and their text: frames, batches, records, the versions of a copy, the reference list
message  messages, and those of a whole run, by its report and its journals
hashes   nonces, keys, votes, draws
fields   what messages and records are made of
play     the program, and runs in which a strategy answers what it receives
command  what commands share

Packages beside it stand on it: attack, evidence, files, net, peer; testing has what their tests share.
"""
