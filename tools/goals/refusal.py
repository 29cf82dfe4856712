"""Why a case isn't turned into a goal."""


class Refused(Exception):
    """A case or a text that is outside what this generator reads; the message says why."""
