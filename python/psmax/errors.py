"""What can go wrong, each with the exit status that says so."""


class Fault(Exception):
    """Whatever a project, a file or a program can have wrong. Each argument is one fault."""

    def __str__(self) -> str:
        return "; ".join(map(str, self.args))


class BadInput(Fault, ValueError):
    """A file, a word of the command or a number that isn't what it should be: exit status 2."""


class WrongType(BadInput, TypeError):
    """An argument of another type than it should have."""


class UnknownName(BadInput, KeyError):
    """A name that nothing of the project has."""


class Failed(Fault):
    """Something that should have worked and did not: exit status 1. `answer` is what a search knew until then."""

    answer: object = None


class TimeUp(Exception):
    """The time is over, or somebody asked for the end."""
