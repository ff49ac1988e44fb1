"""What tests share, and tests of commands that stand on no package.

side_by_side  tests in processes of their own, as many at once as cores may run them
commands      commands of bin/, each in a fork
"""
