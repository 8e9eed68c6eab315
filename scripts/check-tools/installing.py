"""What `make` says if something is missing, and what is installed and removed."""
import os
import pathlib
import shutil
import sys
import tempfile

from cases import BOARD, EXAMPLES, ROOT, SECONDS, Skipped, need, run, same

# Commands that the scripts need of any system. Neither rt nor Python is among them.
COMMANDS = ('make', 'sh', 'bash', 'env', 'dirname', 'grep', 'sed', 'realpath', 'mkdir', 'install', 'cat', 'gzip', 'chmod', 'rm', 'find')
NO_RT = 'The command rt is missing: '
NO_PYTHON = 'The command python3 is missing: '
# The words of make, what else is on the PATH, and the begin of the line that it says.
MISSING = [
    ('check CRATE=lists', (), NO_RT),
    ('profile CRATE=lists', (), NO_RT),
    ('check CRATE=lists', ('rt',), NO_PYTHON),
    ('check', (), 'make check CRATE=NAME, with a name of crates.txt'),
    ('check CRATE=nothing', (), 'make check: crates.txt has no crate nothing'),
    ('check CRATE=bt.base', (), 'make check: crates.txt has no crate bt.base'),
    ('check CRATE=../scripts', (), 'make check: crates.txt has no crate ../scripts'),
    ('profile CRATE=nothing', (), 'make profile: crates.txt has no crate nothing'),
    ('figures', (), NO_PYTHON),
    ('check-tools', (), NO_PYTHON),
]
# Scripts that prove: each asks for rt before anything else that it needs.
PROVING = ('build.sh', 'test.sh', 'demo.sh', 'check.sh')


def bin_folder(folder, more=()):
    """A folder with links to the commands, and with others that do nothing."""
    path = pathlib.Path(folder) / 'bin'
    shutil.rmtree(path, ignore_errors=True)
    path.mkdir()
    for name in COMMANDS:
        there = shutil.which(name)
        if not there:
            raise Skipped(f'the command {name} is not there')
        (path / name).symlink_to(there)
    for name in more:
        (path / name).write_text('#!/bin/sh\n')
        (path / name).chmod(0o755)
    return path


def missing(folder, words, more, line):
    path = bin_folder(folder, more)
    answer = run([path / 'make', '--no-print-directory', '-C', ROOT, *words.split()], env={'PATH': str(path)})
    assert answer.returncode, 'the status is 0'
    same(answer.stdout, '', 'standard output')
    said, *rest = answer.stderr.splitlines()
    assert said.startswith(line), f'it says {said!r}'
    assert all('***' in other for other in rest), f'it says {answer.stderr!r}'


def asks_for_rt(name):
    text = (ROOT / 'scripts' / name).read_text(encoding='utf-8')
    assert '\nsource scripts/common.sh\n' in text and 'need_rt' in text, 'it does not ask for rt'


def installed(folder):
    """What is below a folder, but for folders."""
    return sorted(str(path.relative_to(folder)) for path in pathlib.Path(folder).rglob('*') if not path.is_dir())


def make(folder, target, prefix, stage=''):
    """Runs make install or make uninstall, with a program that is there already: /bin/sh, which needs no build."""
    words = ['make', '--no-print-directory', '-C', ROOT, '-o', 'build', target, 'PROGRAM=/bin/sh', f'PREFIX={prefix}', f'DESTDIR={stage}']
    setting = {name: value for name, value in os.environ.items() if not name.startswith(('MAKE', 'MFLAGS'))}   # of a make that runs this
    answer = run(words, folder, env=setting)
    same((answer.returncode, answer.stderr), (0, ''), 'the status')
    return answer.stdout


def install(folder):
    """The files are where they should be, with their modes, and all of them are removed."""
    prefix = pathlib.Path(folder) / "a prefix; of 'odd' $signs"
    word = str(prefix).replace('$', '$$')
    first = make(folder, 'install', word).splitlines()[0]
    same(first, f'installed: {prefix}/bin/btest, share/man/man1/btest.1.gz and share/btest')
    names = installed(prefix)
    for name in ('bin/btest', 'share/man/man1/btest.1.gz', 'share/bash-completion/completions/btest', 'share/btest/docs/GUIDE.md',
                 'share/btest/VERSION', 'share/btest/tools/btest_tools/pages/frame.py', 'share/btest/examples/controller.chain'):
        assert name in names, f'{name} is not there'
    for path in (prefix / 'share/btest/tools').glob('*.py'):
        assert os.access(path, os.X_OK), f'{path.name} is not executable'
    (prefix / 'share/btest/tools/btest_tools/__pycache__').mkdir()
    own = prefix / 'share/btest/mine.txt'
    own.write_text('mine\n')
    make(folder, 'uninstall', word)
    same(installed(prefix), ['share/btest/mine.txt'], 'what is left')


def stage(folder):
    """DESTDIR stands before PREFIX."""
    make(folder, 'install', '/usr', f'{folder}/stage two')
    assert (pathlib.Path(folder) / 'stage two/usr/bin/btest').is_file(), 'the program is not there'
    make(folder, 'uninstall', '/usr', f'{folder}/stage two')
    same(installed(f'{folder}/stage two'), [], 'what is left')


def finds_program(folder, program):
    """A tool that is installed calls the program that is installed beside it, whatever the folder is."""
    need(program)
    run(['bash', ROOT / 'scripts/install.sh', program, f'{folder}/there'])
    tool = f'{folder}/there/share/btest/tools/failing-nets.py'
    answer = run([sys.executable, '-B', tool, EXAMPLES / 'good.log', *BOARD], folder, env={'PATH': str(bin_folder(folder))})
    same((answer.returncode, answer.stdout.splitlines()[:1], answer.stderr), (0, ['PASS'], ''), 'the answer')


def package(folder, program):
    """The package has the papers that Debian asks for. lintian, if it is there, finds no error."""
    need(program)
    for name in ('dpkg-deb', 'readelf', 'strip', 'xz'):
        if not shutil.which(name):
            raise Skipped(f'the command {name} is not there')
    shutil.copytree(ROOT, f'{folder}/copy', symlinks=True, ignore=shutil.ignore_patterns('.git', 'out', 'crates'))
    answer = run(['bash', f'{folder}/copy/scripts/package.sh', program], env={**os.environ, 'DEBEMAIL': 'btest@example.org'})
    same((answer.returncode, answer.stderr), (0, ''), 'the status')
    made, = pathlib.Path(folder).glob('copy/out/*.deb')
    names = run(['dpkg-deb', '--contents', made]).stdout
    for name in ('usr/bin/btest', 'usr/share/doc/btest/copyright', 'usr/share/doc/btest/changelog.gz', 'usr/share/man/man1/btest.1.gz'):
        assert f' ./{name}\n' in names, f'{name} is not there'
    run(['dpkg-deb', '--extract', made, f'{folder}/tree'])
    same(run([f'{folder}/tree/usr/bin/btest', 'make', '2']).stdout, run([program, 'make', '2']).stdout, 'what the packed program prints')
    if not shutil.which('lintian'):
        raise Skipped('lintian is not there')
    found = run(['lintian', '--allow-root', '--fail-on', 'error', made], timeout=2 * SECONDS)
    same((found.returncode, found.stderr), (0, ''), f'the status of lintian, which says {found.stdout!r}')


def check(program):
    for words, more, line in MISSING:
        with tempfile.TemporaryDirectory() as folder:
            having = f', with {more[0]}' if more else ''
            yield f'make {words}{having}: {line}', lambda: missing(folder, words, more, line)
    for name in PROVING:
        yield f'{name} asks for rt', lambda: asks_for_rt(name)
    for what, call in (
        ('make install and make uninstall, with an odd PREFIX', install),
        ('make install with DESTDIR', stage),
        ('an installed tool finds its program', lambda folder: finds_program(folder, program)),
        ('make package', lambda folder: package(folder, program)),
    ):
        with tempfile.TemporaryDirectory() as folder:
            yield what, lambda: call(folder)
