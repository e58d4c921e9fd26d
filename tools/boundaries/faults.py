"""The one way in which a file is refused, and the one in which a device fails."""


class Refused(Exception):
    """What is wrong with a file or a call: one plain sentence, with its place."""


class DeviceFault(Exception):
    """A device failed while something was written."""
