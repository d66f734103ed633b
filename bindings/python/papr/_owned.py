"""What has memory that calls write, and can't be copied."""

from typing import NoReturn


class NotCopied:
    """The base of what can't be copied: two owners of one memory would each write it, and give it back."""

    def __reduce__(self) -> NoReturn:
        """Refuses it for `copy` and for `pickle`."""
        raise TypeError(f"a {type(self).__name__} can't be copied or pickled")
