"""The guide as it is installed: it refers to nothing that isn't installed with it."""
import pathlib
import re
import tempfile

from cases import ROOT, run, same
from documents import BLOCK, anchors

# The commands of the sources, which an installed guide's reader can't give.
OF_SOURCES = re.compile(r'make (?:bench|build|check|check-tools|demo|figures|install|package|profile|stress|test)\b')
LINK = re.compile(r'\]\(([^()\s]+)\)')
NAME = re.compile(r'(?<![\w/.-])(?:docs|tools|examples|scripts|crates)/[\w./-]*\w')


def install(folder):
    """Installs the files, with a program that is there already."""
    answer = run(['bash', ROOT / 'scripts/install.sh', '/bin/sh', folder])
    same((answer.returncode, answer.stderr), (0, ''), 'the status')
    return pathlib.Path(folder) / 'share/btest'


def leads_somewhere(share, name):
    page = share / 'docs' / name
    text = page.read_text(encoding='utf-8')
    for link in LINK.findall(re.sub(r'`[^`\n]*`', '', BLOCK.sub('', text))):
        target, _, anchor = link.partition('#')
        path = page.parent / target if target else page
        assert path.exists(), f'{link} is not installed'
        assert not anchor or anchor in anchors(path.read_text(encoding='utf-8')), f'{link} leads to no heading'
    for named in NAME.findall(text):
        assert (share / named).exists(), f'{named} is not installed'
    for word in OF_SOURCES.findall(text):
        raise AssertionError(f'{word} is a command of the sources')


def check(_program):
    with tempfile.TemporaryDirectory() as folder:
        share = install(folder)
        for name in ('GUIDE.md', 'OPERATOR.md'):
            yield f'docs/{name}', lambda: leads_somewhere(share, name)
