"""What the documents show: their examples are run and compared, and their links and names of files lead somewhere."""
import os
import pathlib
import re
import shutil
import socket
import subprocess
import tempfile

from cases import ROOT, SECONDS, Skipped, need, same

DOCUMENTS = sorted(path.relative_to(ROOT) for folder in ('', 'docs', 'tools', 'examples') for path in (ROOT / folder).glob('*.md'))
BLOCK = re.compile(r'^```[a-z]*\n(.*?)^```$', re.M | re.S)
RUN = ('btest', 'python3', 'awk', 'cat')     # a block is run where its first command is one of these
OTHERS = ('CABLE.cfg', 'station.py test')    # what the reader has to bring: a cable, and a board at it
PLAYED = r'\bopenocd\b|station\.py|play\.sh'    # OpenOCD plays in these commands
PORT = '5555'                                # the port of the guide; another is taken in its place
STORED = ROOT / 'crates/btest/data'    # the files of the small board of README.md


def is_whole(command):
    """Whether a command needs no line more."""
    return not command.endswith('\\') and subprocess.run(['sh', '-n', '-c', command], stderr=subprocess.DEVNULL).returncode == 0


def commands(block):
    """The commands of a block, each with the lines that it prints."""
    found = []
    for line in block.splitlines():
        if line.startswith('$ '):
            found.append((line[2:], []))
        elif not found[-1][1] and not is_whole(found[-1][0]):
            found[-1] = (f'{found[-1][0]}\n{line}', [])
        else:
            found[-1][1].append(line)
    return found


def free_port():
    with socket.create_server(('127.0.0.1', 0)) as server:
        return str(server.getsockname()[1])


def lay_out(folder, program):
    """A folder in which the commands of a document can be run."""
    for name in ('docs', 'examples', 'tools'):
        os.symlink(ROOT / name, folder / name)
    for path in STORED.iterdir():
        shutil.copy(path, folder)
    os.mkdir(folder / 'bin')
    if program:
        os.symlink(program, folder / 'bin/btest')


def shell(command, folder):
    """What a command prints, standard error too, without the lines by which a tool says how far it is on a slow machine."""
    setting = {**os.environ, 'PATH': f'{folder / "bin"}:{os.environ["PATH"]}', 'PYTHONDONTWRITEBYTECODE': '1'}
    answer = subprocess.run(['sh', '-c', command], cwd=folder, env=setting, stdin=subprocess.DEVNULL, stdout=subprocess.PIPE,
                            stderr=subprocess.STDOUT, timeout=SECONDS, encoding='utf-8')
    answer.stdout = re.sub(r'^explaining: \d+ of \d+ .*\n', '', answer.stdout, flags=re.M)
    return answer


def run_block(block, folder, program):
    for command, lines in commands(block):
        if any(name in command for name in OTHERS) and 'simulated-chain.py' not in command:
            continue
        if re.search(PLAYED + r'|\bbtest\b|failing-nets|report\.py', command):   # they call it, or play what it wrote before
            need(program)
        if re.search(PLAYED, command) and not shutil.which('openocd'):
            raise Skipped('OpenOCD is not there')
        name = re.fullmatch(r'cat (\S+)', command)
        if name and not (folder / name[1]).exists():
            (folder / name[1]).write_text('\n'.join(lines) + '\n')   # a file that the reader makes
            continue
        answer = shell(command, folder)
        if re.search(PLAYED, command):   # what they say has times and marks of their own
            same(answer.returncode, 0, f'the status of a command that prints {answer.stdout!r}')
        else:
            same(answer.stdout, ''.join(line + '\n' for line in lines), f'what `{command[:40]}..` prints')


def blocks(text):
    """The blocks that are run, each with the number of its first line."""
    for found in BLOCK.finditer(text):
        if found[1].startswith(tuple(f'$ {word} ' for word in RUN)):
            yield text.count('\n', 0, found.start(1)) + 1, found[1]


def said(text):
    """Commands within a sentence that ends in a block, "`btest ..` prints the test:", each with its block."""
    return re.findall(r'`(btest [^`]*)` prints[^\n]*\n\n```\n(.*?)^```$', text, re.M | re.S)


def check_examples(document, program):
    text = (ROOT / document).read_text(encoding='utf-8')
    with tempfile.TemporaryDirectory() as name:
        folder, port = pathlib.Path(name).resolve(), free_port()
        lay_out(folder, program)
        for number, block in blocks(text):
            yield f'{document} line {number}', lambda: run_block(block.replace(PORT, port), folder, program)
        for command, lines in said(text):
            yield f'{document}: {command}', lambda: run_block(f'$ {command}\n{lines}', folder, program)


def anchors(text):
    """The anchors of the headings, as GitHub makes them."""
    found = set()
    for heading in re.findall(r'^#+ +(.*)$', BLOCK.sub('', text), re.M):
        anchor = re.sub(r'[^\w\- ]', '', heading.lower()).replace(' ', '-')
        number = 1
        while (anchor if number == 1 else f'{anchor}-{number - 1}') in found:
            number += 1
        found.add(anchor if number == 1 else f'{anchor}-{number - 1}')
    return found


def lead_somewhere(document):
    text = BLOCK.sub('', (ROOT / document).read_text(encoding='utf-8'))
    for link in re.findall(r'\]\(([^()\s]+)\)', re.sub(r'`[^`\n]*`', '', text)):
        if re.match('[a-z]+:', link):
            continue
        name, _, anchor = link.partition('#')
        path = (ROOT / document).parent / name if name else ROOT / document
        assert path.exists(), f'{link} leads to no file'
        assert not anchor or anchor in anchors(path.read_text(encoding='utf-8')), f'{link} leads to no heading'
    for name in re.findall(r'(?<![\w/.-])(?:docs|tools|examples|scripts)/[\w-]+\.\w+', text):
        assert (ROOT / name).exists(), f'there is no {name}'


def check(program):
    for document in DOCUMENTS:
        yield from check_examples(document, program)
        yield f'the links of {document}', lambda: lead_somewhere(document)
