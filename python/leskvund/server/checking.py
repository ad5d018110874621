"""Asks the program about texts while they are typed, apart from the loop that answers the editor."""
from __future__ import annotations

import threading
import time
from collections.abc import Callable

from leskvund.errors import LeskvundError
from leskvund.server.diagnosing import Fault, faults_of
from leskvund.server.documents import Document

# How long nothing must be typed before the program is asked.
PAUSE = 0.1


class Checker(threading.Thread):
    """Asks about the newest version of each document, one after the other."""

    def __init__(self, tell: Callable[[Document, list[Fault]], None], fail: Callable[[str], None]) -> None:
        super().__init__(daemon=True)
        self.tell, self.fail = tell, fail
        self.waiting: dict[str, Document] = {}
        self.changed = threading.Condition()

    def ask(self, document: Document) -> None:
        """Has a document asked about, soon; a version of it that waits isn't any more."""
        with self.changed:
            self.waiting.pop(document.uri, None)
            self.waiting[document.uri] = document
            self.changed.notify()

    def forget(self, uri: str) -> None:
        """Has a document not asked about that waits."""
        with self.changed:
            self.waiting.pop(uri, None)

    def run(self) -> None:
        """Goes on for ever."""
        while True:
            with self.changed:
                self.changed.wait_for(lambda: self.waiting)
            time.sleep(PAUSE)
            with self.changed:
                if not self.waiting:
                    continue
                document = self.waiting.pop(next(iter(self.waiting)))
            self.check(document)

    def check(self, document: Document) -> None:
        """Tells the faults of a document, or why there is nothing to tell."""
        try:
            faults = faults_of(document)
        except (LeskvundError, OSError) as why:
            self.fail(str(why))
            faults = []
        except Exception as why:  # A fault of this server mustn't end it.
            self.fail(f'{type(why).__name__}: {why}')
            faults = []
        self.tell(document, sorted(faults, key=lambda fault: fault.start))
