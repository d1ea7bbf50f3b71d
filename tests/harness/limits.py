"""How long a run may take."""

# The seconds of the clock after which a run counts as one that never ends. No answer is told by them: a run takes less than a
# hundredth of them on a machine at rest, and a loaded one does not reach them either.
ENDLESS = 1800
