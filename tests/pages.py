"""Pages in headless Chromium, as tests/pages.sh says.

usage: pages.py KEEP FOLDER

KEEP is the command, FOLDER an empty one. BAGIT names bagit. What a page has to say follows from how its bags are made here.
"""
import hashlib
import json
import os
import signal
import subprocess
import sys
from html.parser import HTMLParser
from pathlib import Path
from urllib.parse import quote, unquote

keep, work = sys.argv[1], Path(os.path.realpath(sys.argv[2]))
store, register = work / 'store', work / 'register'
HOSTILE = '<img src=x onerror="document.title=1">\n\u202e&amp;'
SCRIPT = "<script>document.body.innerHTML=''</script>"
CHROMIUM = 'chromium --headless --no-sandbox --disable-gpu --disable-dev-shm-usage --disable-background-networking --no-first-run'.split()
TRIES, SECONDS = 3, 60
PRINTABLE = ''.join(map(chr, range(0x21, 0x7F))).replace('%', '')
TAGS = set('html head meta title style body nav main footer h1 h2 p a table caption thead tbody tr th td div ul li svg rect circle'.split())
TAGS |= {'section', 'code', 'br'}


def spelled(text):
    return quote(text, safe=PRINTABLE)


def run(*words, wanted=0):
    ran = subprocess.run([keep, *map(str, words)], capture_output=True, text=True)
    assert ran.returncode == wanted, ran
    return ran.stdout.splitlines()


def make(place, name, text):
    """A new bag of one payload file, made by hand (RFC 8493, 2)."""
    (place / 'data').mkdir(parents=True)
    (place / 'data' / name).write_text(text)
    (place / 'bagit.txt').write_text('BagIt-Version: 1.0\nTag-File-Character-Encoding: UTF-8\n')
    digest = hashlib.sha256(text.encode()).hexdigest()
    (place / 'manifest-sha256.txt').write_text(f'{digest}  data/{name}\n')


def dom(path):
    """The document that Chromium has of a page. It is asked again where it hangs, as it may on a busy machine."""
    for number in range(TRIES):
        words = [*CHROMIUM, f'--user-data-dir={work}/profile-{path.name}-{number}', '--dump-dom', path.as_uri()]
        process = subprocess.Popen(words, stdout=subprocess.PIPE, stderr=subprocess.DEVNULL, text=True, start_new_session=True)
        try:
            text, _ = process.communicate(timeout=SECONDS)
            assert process.returncode == 0, words
            return text
        except subprocess.TimeoutExpired:
            os.killpg(process.pid, signal.SIGKILL)
            process.communicate()
    raise AssertionError(f'Chromium hangs: {words}')


class Document(HTMLParser):
    """The document that Chromium has of a page: its tags, its links, and the texts of elements, by their tags."""

    def __init__(self, path):
        super().__init__()
        self.tags, self.links, self.texts, self.open = [], [], [], []
        self.feed(dom(path))
        self.wrong = {tag for tag, _ in self.tags} - TAGS
        assert not self.wrong, (path, self.wrong)
        assert not any(name.startswith('on') or name == 'src' for _, found in self.tags for name in found), path
        for tag, found in self.tags:
            assert tag != 'th' or found.get('scope') or 'receipt-' in path.name, path
        assert len(self.of('h1')) == 1, path
        for link in self.links:
            assert (path.parent / unquote(link)).is_file(), (path, link)

    def handle_starttag(self, tag, found):
        self.tags.append((tag, dict(found)))
        if tag == 'a':
            self.links.append(dict(found)['href'])
        if tag not in ('meta', 'br', 'rect', 'circle'):
            self.open.append((tag, len(self.texts)))
            self.texts.append([tag, ''])

    def handle_endtag(self, tag):
        while self.open and self.open.pop()[0] != tag:
            pass

    def handle_data(self, text):
        for _, place in self.open:
            self.texts[place][1] += text

    def of(self, tag):
        return [' '.join(text.split()) for it, text in self.texts if it == tag]


def documents(source, folder):
    """The documents of all pages of something."""
    run('page', source, folder)
    return {path.name: Document(path) for path in folder.glob('*.html')}


def main():
    store.mkdir()
    odd, plain, damaged = store / HOSTILE, store / 'plain', store / 'damaged'
    make(odd, 'a', 'a')
    make(plain, 'b', 'b')
    make(damaged, SCRIPT.replace('/', '.'), 'c')
    run('init', register, store)
    run('adopt', register)
    deposit = work / 'deposit'
    make(deposit, 'd', 'd')
    run('receive', deposit, store, '--register', register)
    (damaged / 'data' / SCRIPT.replace('/', '.')).write_text('x')
    os.rename(odd, work / 'away')
    first, *_ = run('audit', register, wanted=1)
    assert first == 'news of 2 bags: 1 with faults, 1 missing', first

    pages = documents(register, work / 'pages')
    index = pages['index.html']
    assert index.of('h1') == [first[0].upper() + first[1:]] and index.of('title') == [first]
    cells = index.of('td')
    for what, bag in ('fault', damaged), ('missing', odd):
        place = cells.index(what)
        assert cells[place + 1] == spelled(str(bag)), cells
    assert cells[cells.index('fault') + 3] == 'restore it, and then accept'
    assert 'Receipts of deposits: 1' in index.of('a')
    views = {page.of('h1')[0]: page for page in pages.values()}
    page = views[spelled(str(damaged))]
    assert 'Faults in data' in page.of('caption') and spelled(SCRIPT.replace('/', '.')) in page.of('td')
    place = page.of('td').index('701 payload-sum-differs sha256')
    assert all(len(it) > 10 for it in page.of('td')[place + 1: place + 3]), page.of('td')
    assert not page.of('section')
    page = views[spelled(str(plain))]
    assert page.of('section')[0].startswith('Certificate of a reading The bag') and '1 files and 1 bytes' in page.of('section')[0]
    assert any(it.startswith('Last read whole at 2') for it in page.of('p')), page.of('p')
    receipt, = (register / 'receipts').glob('*.json')
    number = json.loads(receipt.read_text())['number']
    assert f'Receipt {number}: accepted with remarks' in views
    assert views['Receipts'].of('td')[0] == number and views['Receipts'].of('td')[4] == spelled(str(store / 'deposit'))
    assert spelled(str(odd)) in views

    found = documents(register / 'rounds/000001', work / 'of-round')
    assert found['index.html'].of('h1') == ['1 of 3 bags have news'], found['index.html'].of('h1')
    run('known', register, damaged, '--all', '--by', 'Ada', '--why', SCRIPT, '--until', '2099-01-31')
    run('audit', register, wanted=1)
    run('page', register, work / 'pages')
    index = Document(work / 'pages/index.html')
    assert index.of('h1') == ['Still news of 1 bag: 1 missing'] and 'Known findings' in index.of('h2'), index.of('h1')
    cells = index.of('td')
    place = cells.index('fault')
    assert cells[place + 1] == spelled(str(damaged)) and cells[place + 3:place + 6] == ['Ada', SCRIPT, '2099-01-31'], cells
    run('page', register / 'rounds/000001', work / 'of-round')
    index = Document(work / 'of-round/index.html')
    assert index.of('h1') == ['1 of 3 bags have news'], index.of('h1')
    cells = Document(work / 'of-round/bags-1.html').of('td')
    assert sum(it.endswith('; its report was pruned') for it in cells) == 2 and 'not ended' not in cells, cells
    report, = (register / 'rounds/000001/reports').glob('*damaged.txt')
    found = documents(report, work / 'of-report')
    assert found['index.html'].of('h1')[0].endswith('damaged has faults: 1')
    print(f'{len(pages)} pages of a register say in Chromium what they have to, and so do those of a round and of a report')


main()
