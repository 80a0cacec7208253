"""What contrib/live, contrib/watch and contrib/status share: clocks, logs, the guard, and what daemons are told."""


class Refused(Exception):
    """What was given can't serve: the message says why."""
