"""What a session is begun with: the orders of waiting procedures, seeds and limits.

It stands by itself, so that the desk tells its options without what carries them out.
"""

# Which waiting procedure comes next.
ORDERS = ("fifo", "lifo", "mixed")
# The greatest seed of the order mixed, and the steps of a run where no limit is given.
MOST_SEED = 2**64 - 1
STEPS = 1_000_000_000
