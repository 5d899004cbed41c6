"""What the scripts raise that know each word of the IR."""


class Unknown(Exception):
    """The IR has what the script doesn't know."""

    def __str__(self):
        return f"not known: {self.args[0]}"
