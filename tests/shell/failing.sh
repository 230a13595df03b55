# Calls to the system that fail, are done in part, are interrupted, or in which the process is killed: each in turn, over the
# plans of tests/hostile.
counted tests/hostile/fail
