"""The host: the plant's side of a session with `stc`. `docs/HOST.md` is its manual; nothing of it is proved."""

class Trouble(Exception):
    """What can't be done, and why."""
