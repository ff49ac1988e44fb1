"""What journals prove, by a second checker with no code of the program (docs/EVIDENCE.md).

checker  the rules of `lockss evidence` again
"""
