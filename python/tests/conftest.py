"""What the tests share: the built program, without which they are skipped, and the texts of the examples."""
from __future__ import annotations

import re
from pathlib import Path

import pytest

from leskvund.program import found

TOP = Path(__file__).resolve().parent.parent.parent
DATA = TOP / 'crates' / 'lmn_test_examples' / 'data'
EXAMPLES = sorted(DATA.glob('*.lmn'))
PAGES = ('guide.md', 'patterns.md', 'commands.md', 'syntax.md')


def refusals() -> list[list[str]]:
    """The rows of docs/refusals.md that have an example: code, words, what is wrong, a text, the place, a text that is accepted, the cure."""
    page = (TOP / 'docs' / 'refusals.md').read_text(encoding='utf-8')
    cells = [[cell.strip().replace('\\|', '|') for cell in re.split(r'(?<!\\)\|', line)[1:-1]] for line in page.split('\n') if line.startswith('| `E')]
    return [row for row in cells if row[3].startswith('`') and row[3].count('`') == 2]


def texts_of_pages() -> list[str]:
    """The texts that pages show and that are accepted; they stand above a line that begins with a dollar."""
    texts = []
    for page in PAGES:
        for block in re.findall(r'(?ms)^```\n(.*?)^```$', (TOP / 'docs' / page).read_text(encoding='utf-8')):
            above, mark, _ = block.partition('\n$ ')
            # A text that the page shows as refused has the code behind it.
            if mark and not block.startswith('$') and not re.search(r'(?m)^E\d\d 1:', block):
                texts.append(above)
    return texts


def pytest_collection_modifyitems(items: list[pytest.Item]) -> None:
    """Without a program a test that needs one says so and is skipped."""
    if found() is None:
        skip = pytest.mark.skip(reason='no program is built: ./lmn --build builds it, or LMN names one')
        for item in items:
            if item.get_closest_marker('no_program') is None:
                item.add_marker(skip)


def pytest_configure(config: pytest.Config) -> None:
    config.addinivalue_line('markers', 'no_program: a test that runs no program')


@pytest.fixture(params=EXAMPLES, ids=lambda path: path.stem)
def example(request: pytest.FixtureRequest) -> Path:
    """The text of an example; beside it lies what the program prints of it."""
    return request.param
