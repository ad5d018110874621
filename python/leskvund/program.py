"""Runs the program, or reads what it printed, and ends a script with a message where nothing can be shown."""
import functools
import os
import re
import shutil
import subprocess
import sys

from leskvund.lines import Unreadable, read_trace

TOP = os.path.dirname(os.path.dirname(os.path.dirname(os.path.realpath(__file__))))
BUILT = os.path.join(TOP, 'crates', 'lmn', 'out', 'lmn')
NUMBER = re.compile(r'\d{1,19}')
VALUES = {'--budget': NUMBER, '--size': NUMBER, '--seed': NUMBER, '--order': re.compile('first|turn|seed')}
WANTED = {'--budget': 'a number', '--size': 'a number', '--seed': 'a number', '--order': 'first, turn or seed'}
used = None


class Unshowable(Exception):
    """There is nothing to show; with the status that the script ends with."""

    def __init__(self, words, status=1):
        super().__init__(words)
        self.status = status


def found():
    """The program where one is there: what LMN names, else the one that was built here, else `lmn` of PATH; or None."""
    if os.environ.get('LMN'):
        return os.environ['LMN']
    return BUILT if os.access(BUILT, os.X_OK) else shutil.which('lmn')


def use(path):
    """Has the program at a path run from here on."""
    global used
    used = path


def program():
    """The program that is run: the one in use, else what LMN names, else the one of this repository, which is built where it isn't."""
    return used or os.environ.get('LMN') or built()


@functools.lru_cache(maxsize=None)
def built():
    """The program of this repository; where this is none, `lmn` of PATH."""
    if not os.path.exists(os.path.join(TOP, 'lmn')):
        return found() or 'lmn'
    if subprocess.run([os.path.join(TOP, 'lmn'), 'demo', '1'], stdout=subprocess.DEVNULL).returncode:
        raise Unshowable('the program is not built', 70)
    return BUILT


def start(arguments):
    """The running program, whose output is read line by line."""
    try:
        return subprocess.Popen([program(), 'run', *arguments], stdout=subprocess.PIPE, stderr=subprocess.PIPE, text=True, encoding='utf-8', errors='replace')
    except OSError as why:
        raise Unshowable(f'{program()} is not to be run: {why.strerror}', 70) from None


def printed_by(arguments):
    """The lines that the program prints, as they come. Where it refuses the text or fails, its words and status."""
    with start(arguments) as run:
        yield from run.stdout
        said = run.stderr.read().strip()
    if run.returncode not in (0, 1, 7):
        raise Unshowable(why_not(arguments, run.returncode, said), run.returncode if run.returncode > 0 else 1)


def why_not(arguments, status, said):
    """Why a run came to nothing, in one line that begins with the file, or names the word that is wrong."""
    files, fault = read_words(arguments)
    if status == 3:
        return fault or said.removeprefix('lmn: ')
    return f'{files[0] if files else "no FILE"}: {said.removeprefix("lmn: ") or "the program said nothing"}'


def read_words(arguments):
    """The files among words of `run`, and what is wrong with the words; nothing where they are right."""
    files, fault, words, met = [], '', list(arguments), set()
    while words:
        word = words.pop(0)
        name, mark, value = word.partition('=')
        if not word.startswith('-'):
            files.append(word)
        elif name in met:
            fault = fault or f'{name} stands twice'
        elif name in VALUES:
            value = value if mark else words.pop(0) if words else ''
            fault = fault or ('' if VALUES[name].fullmatch(value) else f'{name} wants {WANTED[name]}' + (f", and not '{value}'" if value and value[0] != '-' else ''))
        elif word not in ('--trace', '--folded'):
            fault = fault or f'{word}: no such option'
        met.add(name)
    fault = fault or ('FILE is wanting' if not files else f'{files[0]} and {files[1]}: one FILE is wanted' if files[1:] else '')
    return files, fault


def trace_of(arguments, *options):
    """The processes and the end of a run: that of a text with options of `run`, or, without words, that on standard input."""
    lines = printed_by([*arguments, *options]) if arguments else sys.stdin
    empty = True
    for each in read_trace(lines):
        if empty and isinstance(each, str):
            break
        empty = False
        yield each
    if empty:
        raise Unshowable('there is no process to show' + ('' if arguments else ' on standard input'))


def taken(words, option):
    """Whether the option is among the words, which then lose it."""
    return option in words and (words.remove(option) or True)


def taken_number(words, option, default):
    """The number behind the option, if it is among the words, which then lose both; else the default."""
    if option not in words:
        return default
    at = words.index(option)
    if not words[at + 1:] or not words[at + 1].isdigit():
        raise Unshowable(f'{option} wants a number', 3)
    number = int(words[at + 1])
    del words[at:at + 2]
    return number


def run_script(name, main):
    """Runs the body of a script, and tells in one line why it can't go on."""
    try:
        sys.stdin.reconfigure(encoding='utf-8', errors='replace')
        sys.stdout.reconfigure(encoding='utf-8')
        main(sys.argv[1:])
        sys.stdout.flush()
    except (Unshowable, Unreadable) as why:
        print(f'{name}: {why}', file=sys.stderr)
        sys.exit(getattr(why, 'status', 1))
    except RecursionError:
        print(f'{name}: membranes or terms are nested too deep to be shown', file=sys.stderr)
        sys.exit(1)
    except BrokenPipeError:
        os.dup2(os.open(os.devnull, os.O_WRONLY), sys.stdout.fileno())
    except KeyboardInterrupt:
        sys.exit(130)
