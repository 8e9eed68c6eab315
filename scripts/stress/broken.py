"""Broken texts and command lines of every command, made from a seed. Whatever they hold, the program ends with one of its statuses;
what it prints is whole or nothing; and standard error has one line of docs/GUIDE.md, or nothing where the program is done."""
import multiprocessing
import os
import re
import shlex
import tempfile

import boards
import program
from made import COMMANDS, made_case
from program import Failure, run

# Every line of standard error that the guide has. N is a number.
LINES = {
    1: ['NAME: longer than 4194304 bytes', 'NAME: longer than 67108864 bytes'] + [f'NAME line N: {what}' for what in (
        'no statement', 'word not allowed', 'number not allowed', 'byte not allowed', 'string not closed', 'too many tokens',
        'not in the grammar', 'package text', 'part twice', 'entity not given', 'part without a description', 'inert part in the chain',
        'supply net not there', 'pulled net not there', 'net pulled twice', 'wrong length', 'digit not allowed', 'row too many',
        'no board yet', 'board not allowed')] + [f'NAME line N word N: {what}' for what in (
            'link pin not in a net', 'no such pin', 'pin in two nets', 'driver on a guarded net', 'two drivers always on')] +
    ['NAME: no part in the chain', 'NAME: entity given twice', 'NAME: N rows of N', 'NAME board N: N rows of N'] +
    [f'limit: {what}' for what in ('chain parts', 'boundary bits', 'nets', 'pins')] +
    [f'NAME: rule V{rule} item N' for rule in range(1, 15)] + [f'NAME: {name} entry N' for name in (
        'PIN_MAP_STRING', 'INSTRUCTION_OPCODE', 'INSTRUCTION_CAPTURE', 'IDCODE_REGISTER', 'COMPLIANCE_PATTERNS', 'BOUNDARY_REGISTER')],
    2: [boards.CASES['no words'].err.decode().strip()],
    3: ['cannot read NAME'],
}
FORMS = {status: [(line, re.compile(re.sub(r'\bN\b', r'\\d+', line.replace('NAME', '(?P<name>.+)')).encode())) for line in lines]
         for status, lines in LINES.items()}

# What is printed where the program is done, as a whole.
SCANS = rb'TRST OFF;\nENDIR IDLE;\nENDDR IDLE;\nSTATE RESET;\nSTATE IDLE;\n(S[ID]R [^;]*;\n)*STATE RESET;\n'
DIAGNOSIS = rb'(PASS|FAIL \d+(\n(stuck|open|short) .*)*)\n'
WHOLE = {'chain': SCANS, 'ident': SCANS, 'svf': SCANS, 'walk': SCANS, 'diagnose': DIAGNOSIS, 'batch': rb'(BOARD .*\n' + DIAGNOSIS + rb')*',
         'device': rb'ENTITY .*\nPACKAGE .*\nIR .*\n(PORT .*\n)+(CELL .*\n)+', 'groups': rb'GROUPS (none|\d+(\nGROUP \d+(\nNET .*)+)*)\n',
         'cover': rb'NETS \d+ COVERED \d+\n(NET .*\n)*(DRIVER .*\n)*(RECEIVER .*\n)*(PAIR .*\n)*',
         'make': rb'DEVICES \d+ NETS \d+ COVERED \d+ PASSES \d+ SCANS \d+ BYTES \d+\n'}
# A count, with what is behind it, and how each line begins that it counts.
COUNTS = [(rb'FAIL (\d+)\n((?:(?:stuck|open|short) .*\n)*)', b'[so]'), (rb'GROUP (\d+)\n((?:NET .*\n)*)', b'NET'),
          (rb'GROUPS (\d+)\n((?:.*\n)*)', b'GROUP')]


def form_of(words, answer):
    """The line of the guide that stands on standard error, or nothing."""
    made = ['chain', 'nets', 'bsdl'] if words[:1] == ['make'] else []
    for line, form in FORMS.get(answer.status, []):
        match = form.fullmatch(answer.err[:-1]) if answer.err.endswith(b'\n') else None
        if match and ('NAME' not in line or os.fsdecode(match['name']) in words + made):
            return line
    return ''


def fault_of(words, answer, again):
    """What is wrong with the answer to these words, or nothing."""
    if answer.status not in (0, 1, 2, 3):
        return 'this status cannot come'
    if answer.status:
        return 'standard output is not empty' if answer.out else '' if form_of(words, answer) else 'standard error is no line of the guide'
    if not re.fullmatch(WHOLE[words[0]], answer.out):
        return 'the text is not whole'
    counts = [(int(count), rb'(?m)^' + kind, rest) for form, kind in COUNTS for count, rest in re.findall(form, answer.out)]
    counts += [(int(nets) - int(covered), rb'(?m)^NET ', answer.out)
               for nets, covered in re.findall(rb'^NETS (\d+) COVERED (\d+)\n', answer.out)]
    if any(count != len(re.findall(kind, rest)) for count, kind, rest in counts):
        return 'a count is wrong'
    return 'standard error is not empty' if answer.err else 'a second run differs' if again[:3] != answer[:3] else ''


def try_case(seed, number):
    """Runs one case, and returns its command, its status and the line of standard error."""
    words, files = made_case(seed, number)
    program.clear()
    program.write(files)
    answer = run(words)
    fault = fault_of(words, answer, run(words) if answer.status == 0 else answer)
    if fault:
        raise Failure(f'broken texts: {fault}: {ascii(words)}: {answer.short()}\n'
                      f"to run it again: make stress WITH='broken --seed {seed} --case {number}'")
    return words[0] if words and words[0] in WHOLE else 'no command', answer.status, form_of(words, answer)


def try_cases(task):
    folder, seed, numbers = task
    here = f'{folder}/{os.getpid()}'
    if not os.path.isdir(here):
        program.enter(here)
    try:
        return [try_case(seed, number) for number in numbers]
    except Failure as failure:
        return str(failure)


def stress(folder, options):
    if options.case:
        return show_case(options.seed, int(options.case))
    progress = program.Progress('broken texts')
    counts, came = {}, {}
    tasks = [(folder, options.seed, range(at, min(at + 200, options.runs))) for at in range(0, options.runs, 200)]
    with multiprocessing.get_context('fork').Pool(options.jobs) as pool:
        for shown in pool.imap_unordered(try_cases, tasks):
            if isinstance(shown, str):
                raise Failure(shown)
            for command, status, line in shown:
                counts.setdefault(command, [0] * 4)[status] += 1
                came[line] = came.get(line, 0) + 1
            progress.add(len(shown), f'of {options.runs:,}')
    kinds = [line for lines in LINES.values() for line in lines]
    missing = [line for line in kinds if line not in came]
    print(f'  {len(kinds) - len(missing)} of {len(kinds)} kinds of lines came on standard error; not: {"; ".join(missing) or "none"}')
    return [['broken texts', 'done', 'refused', 'words', 'not read'],
            *([name, *counts[name]] for name in [*COMMANDS, 'no command'] if name in counts)], options.runs


def show_case(seed, number):
    """Runs one case, shows it, and leaves its files."""
    program.enter(tempfile.mkdtemp(prefix='broken-'))
    words, files = made_case(seed, number)
    program.clear()
    program.write(files)
    answer = run(words)
    print(f'  in {os.getcwd()}:', f'btest {shlex.join(words)}'.encode('ascii', 'backslashreplace').decode())
    print(f'  {answer.short()}\n  {answer.out[:2000]!r}')
    fault = fault_of(words, answer, run(words))
    if fault:
        raise Failure(fault)
    return [['broken texts', 'status'], [number, answer.status]], 1
