"""The whole parts of a recording: those that it has, or those that it gets while QEMU runs."""

import signal
import time
from dataclasses import dataclass
from pathlib import Path
from types import FrameType
from typing import Iterator, Optional

from common import Bad
from recordings import Place, Recording

PAUSE = 0.3  # seconds between looks at a recording that is being made


@dataclass
class Found:
    """The parts from one to another, and after a search, where the recording ended."""

    folder: Path
    first: int
    last: Optional[int]
    is_told: bool = False  # to end
    broken_off: Optional[int] = None  # the part that isn't whole, with which the recording ends

    def tell(self, _number: int, _frame: Optional[FrameType]) -> None:
        """Ends the wait: a signal came."""
        self.is_told = True

    def there(self) -> Iterator[Place]:
        """Those that are there."""
        recording = Recording(self.folder)
        part, number = recording.find(self.first), self.first
        if part is None and self.first > 1 and not (self.folder / f"part-{self.first}.head").is_file():
            raise Bad(f"{self.folder} has no part {self.first}")
        while self.last is None or number <= self.last:
            following = recording.behind(part) if part is not None else None
            if part is None or following is None:
                self.broken_off = number
                return
            yield part
            if following.number == 0:
                return
            part, number = following, following.number

    def followed(self) -> Iterator[Optional[Place]]:
        """The same, and those that come, until the recording ends or a signal comes; nothing while it waits."""
        if not self.folder.is_dir():
            raise Bad(f"{self.folder} is no folder")
        for number in (signal.SIGINT, signal.SIGTERM):
            signal.signal(number, self.tell)
        own = Found(self.folder, self.first, self.last)
        while True:
            if (self.folder / f"part-{own.first}.head").is_file():
                own.broken_off = None
                for place in own.there():
                    yield place
                    own.first = place.number + 1
                if own.broken_off is None:
                    return
            if self.is_told:
                self.broken_off = own.first
                return
            yield None
            time.sleep(PAUSE)
