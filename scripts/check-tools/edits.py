"""The must-fail edits of the crates: each must fit the source that it changes."""
import sys

from cases import TOOLS

CRATES = TOOLS.parent / 'crates'
sys.path.insert(0, str(TOOLS.parent / 'scripts'))
import must_fail   # noqa: E402


def fits(edit):
    changes = list(must_fail.changes(edit.read_text(encoding='utf-8')))
    assert changes, 'it changes nothing'
    sources = {}
    for path, old, new in changes:
        source = sources.get(path) or (edit.parent.parent / path).read_text(encoding='utf-8')
        assert source.count(old) == 1, f'its old text is in the file {source.count(old)} times: {old!r}'
        assert new != old, 'its new text is the old one'
        sources[path] = source.replace(old, new)


def check(_program):
    for edit in sorted(CRATES.glob('*/must-fail/*.edit')):
        yield str(edit.relative_to(CRATES)), lambda: fits(edit)
