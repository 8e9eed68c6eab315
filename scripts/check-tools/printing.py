"""The pictures of a board on paper, if a browser and poppler's pdftotext are there: however many nets fail, the pictures and what their
marks mean are on one page, and the table of the nets goes on."""
import pathlib
import shutil
import tempfile

from cases import SECONDS, Skipped, run, same

BROWSERS = ('chromium', 'chromium-browser', 'google-chrome')
SIDES = ((-1, 0), (0, -1), (1, 0), (0, 1))
PITCH = 0.5
PART = 80   # pins of a part, a quarter on each side


def board(count):
    """The pictures of a board with parts of 80 pins, on which so many nets fail, as a page."""
    from btest_tools import pictures
    from btest_tools.pages.frame import page
    from btest_tools.places import BOTTOM, TOP, Place, Places
    places = Places()
    for part in range(12):
        for pin in range(PART):
            across, down = SIDES[pin // (PART // 4)]
            along = (pin % (PART // 4) - PART / 8) * PITCH
            x, y = 8 * across + along * abs(down), 8 * down + along * abs(across)
            side, size = TOP if part % 3 else BOTTOM, (1.2, 0.3) if across else (0.3, 1.2)
            places.add(f'U{part}', str(pin + 1), Place(part % 4 * 30 + x, part // 4 * 30 + y, side, *size))
    pins = list(places.pins)
    nets = [pictures.ShownNet(net, f'a/net/with/a/long/name/{net}', pins[net::331], pins[net:net + 1]) for net in range(1, count + 1)]
    shown = pictures.board(places, nets, list(zip(pins[:20:2], pins[300:])), pins[:count:5])
    text = '<p>What the log says.</p>\n' * 12
    return page('A board', ['log'], [text, f'<style>{pictures.STYLE}</style><h2>Where on the board</h2>{shown}'])


def pages(name, folder):
    """The texts of the pages that a browser prints."""
    browser = next(filter(None, map(shutil.which, BROWSERS)), None)
    if not browser or not shutil.which('pdftotext'):
        raise Skipped('no browser, or no pdftotext')
    pdf = pathlib.Path(folder) / 'page.pdf'
    words = ['--headless', '--no-sandbox', '--disable-gpu', f'--user-data-dir={folder}/browser', f'--print-to-pdf={pdf}']
    run([browser, *words, name], folder, timeout=2 * SECONDS)
    return run(['pdftotext', pdf, '-']).stdout.split('\f')[:-1]


def printed(count, folder):
    path = pathlib.Path(folder) / 'page.html'
    path.write_text(board(count), encoding='utf-8')
    found = pages(path.as_uri(), folder)
    first = [at for at, text in enumerate(found) if 'Where on the board' in text]
    legend = [at for at, text in enumerate(found) if 'as seen from the top' in ' '.join(text.split())]
    same(legend, first, 'the page of what the marks mean')
    same(len(first), 1, 'the number of pages with the head')
    assert 'a/net/with' in found[-1] or 'Measure' in found[-1], 'the table does not go on'


def check(_program):
    for count in (3, 30, 300):
        with tempfile.TemporaryDirectory() as folder:
            yield f'{count} failing nets are printed', lambda: printed(count, folder)
