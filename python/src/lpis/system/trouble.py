"""What keeps a tool from its end and was foreseen: told in a line for each reason."""


class Trouble(Exception):
    status = 64  # with which the tool ends

    def __init__(self, *reasons):
        super().__init__("\n".join(reasons))
        self.reasons = reasons
