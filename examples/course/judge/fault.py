"""What a test tells a student."""


class Fault(Exception):
    """A sentence that says what is wrong, and what to ask em_debug of the run that was kept."""

    def __init__(self, sentence: str, *questions: str) -> None:
        super().__init__(sentence)
        self.sentence = sentence
        self.questions = questions


class Stopped(Fault):
    """The driver's program is gone: it crashed, or came to no end."""


class Late(Stopped):
    """It ran into a limit of time."""


class Unbuilt(Exception):
    """A hand-in that is no program: what its compiler says."""
