"""LMNtal from Python: texts are run, checked and explored by the program `lmn`, and processes are graphs.

    >>> from leskvund import Program
    >>> run = Program('ready. ready. free. take @@ ready, free :- busy. leave @@ busy :- done, free.').run()
    >>> run.ending, run.firings, run.process.count('done/0')
    (<Ending.IRREDUCIBLE: 'irreducible'>, 4, 2)

The program is what the variable LMN names, else the one that was built in the repository in which this package lies, else `lmn` of
PATH. All errors are `LeskvundError`; a text that is refused is `Refused`, with code, place and words. In a notebook processes,
runs and traces show as pictures.
"""
from __future__ import annotations

import importlib
from typing import TYPE_CHECKING, Any

if TYPE_CHECKING:
    from leskvund.errors import LeskvundError as LeskvundError
    from leskvund.errors import ListingRefused as ListingRefused
    from leskvund.errors import NoWeights as NoWeights
    from leskvund.errors import OutOfMemory as OutOfMemory
    from leskvund.errors import ProgramFailed as ProgramFailed
    from leskvund.errors import ProgramMissing as ProgramMissing
    from leskvund.errors import ReadFailed as ReadFailed
    from leskvund.errors import Refused as Refused
    from leskvund.errors import ScriptRefused as ScriptRefused
    from leskvund.errors import TimedOut as TimedOut
    from leskvund.errors import TraceRefused as TraceRefused
    from leskvund.errors import WeightsRefused as WeightsRefused
    from leskvund.errors import WordsRefused as WordsRefused
    from leskvund.errors import WriteFailed as WriteFailed
    from leskvund.reachability import ReachabilityGraph as ReachabilityGraph
    from leskvund.reachability import Firing as Firing
    from leskvund.processes import Atom as Atom
    from leskvund.processes import End as End
    from leskvund.processes import Functor as Functor
    from leskvund.processes import Link as Link
    from leskvund.processes import Membrane as Membrane
    from leskvund.processes import Process as Process
    from leskvund.processes import Rule as Rule
    from leskvund.programs import Program as Program
    from leskvund.runs import Ending as Ending
    from leskvund.runs import Order as Order
    from leskvund.runs import Run as Run
    from leskvund.runs import Trace as Trace

# The modules are read when a name of them is asked for, so that a script that wants a few of them begins at once.
MODULES = {
    'errors': ('LeskvundError', 'ListingRefused', 'NoWeights', 'OutOfMemory', 'ProgramFailed', 'ProgramMissing', 'ReadFailed', 'Refused',
               'ScriptRefused', 'TimedOut', 'TraceRefused', 'WeightsRefused', 'WordsRefused', 'WriteFailed'),
    'reachability': ('Firing', 'ReachabilityGraph'),
    'processes': ('Atom', 'End', 'Functor', 'Link', 'Membrane', 'Process', 'Rule'),
    'programs': ('Program',),
    'runs': ('Ending', 'Order', 'Run', 'Trace'),
}
HOMES = {name: module for module, names in MODULES.items() for name in names}
__all__ = sorted(HOMES)


def __getattr__(name: str) -> Any:
    if name not in HOMES:
        raise AttributeError(f'module {__name__!r} has no attribute {name!r}')
    return getattr(importlib.import_module(f'{__name__}.{HOMES[name]}'), name)


def __dir__() -> list[str]:
    return sorted({*globals(), *__all__})
