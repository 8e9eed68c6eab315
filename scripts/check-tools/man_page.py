"""The man page: its form, and that it names each reason of a coverage list and each program of tools/."""
import re
import shutil

from cases import ROOT, TOOLS, Skipped, run, same

PAGE = ROOT / 'docs/btest.1'
GUIDE = ROOT / 'docs/GUIDE.md'


def is_sound():
    if not shutil.which('mandoc'):
        raise Skipped('mandoc is not there')
    answer = run(['mandoc', '-Tlint', PAGE])
    same((answer.returncode, answer.stdout), (0, ''), 'what mandoc finds')


def has_reasons():
    reasons = re.findall(r'^\| `NET name (\w+)` \|', GUIDE.read_text(encoding='utf-8'), re.M)
    assert len(reasons) == 6, f'the guide has the reasons {reasons}'
    same(re.findall(r'^\.It Li ([A-Z]+)$', PAGE.read_text(encoding='utf-8'), re.M), reasons, 'the reasons of the page')


def names(program):
    assert re.search(rf'^\.It Pa .*\b{re.escape(program)}\b', PAGE.read_text(encoding='utf-8'), re.M), 'the page does not name it'


def check(_program):
    yield 'its form', is_sound
    yield 'the reasons of a coverage list', has_reasons
    for path in sorted(TOOLS.glob('*.py')) + sorted(TOOLS.glob('*.tcl')):
        yield f'tools/{path.name}', lambda: names(path.name)
