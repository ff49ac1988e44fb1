"""Attacks on polls: runs in which a strategy moves corrupt peers, and what comes of them (docs/ATTACKS.md).

course      runs in which honest peers audit copies while a strategy moves the others
strategies  the strategies
outcome     what came of such a run, checked and summed up
picture     medians and extremes, drawn
"""
