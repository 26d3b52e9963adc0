"""What can be wrong with what a person hands in. Each is told in one line, and the tool then ends with status 1."""


class Fault(Exception):
    """Anything that is told to the user and ends the command."""


class Malformed(Fault):
    """Bytes that break a layout rule or a limit: where, counted from 0, in which part, and why."""

    def __init__(self, at, where, why):
        super().__init__(f"byte {at} ({where}): {why}")
        self.at = at
        self.where = where
        self.why = why


class BadText(Fault):
    """Text that says nothing that could be made: on which line, counted from 1, and why."""

    def __init__(self, line, why):
        super().__init__(f"line {line}: {why}")
        self.line = line
        self.why = why
