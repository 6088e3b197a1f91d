"""Sixty nights of `bagit-keep audit` over twenty bags, as tests/nights.sh says.

usage: nights.py ROOT FOLDER

FOLDER is an empty one. BAGIT and BAGIT_RENEW name the programs. Each command is a process, forked from this one.
"""
import contextlib
import errno
import fcntl
import hashlib
import io
import json
import os
import random
import resource
import shutil
import signal
import sqlite3
import subprocess
import sys
import tempfile
import time
from pathlib import Path

sys.path.insert(0, f'{sys.argv[1]}/companions')
from bagitkeep import audit, commands, page, receive, renewal  # noqa: E402, F401  so that who is forked needs no file of them

work = Path(os.path.realpath(sys.argv[2]))
store, register = work / 'store', work / 'register'
who = ['--by', 'Ada', '--why', 'a test']
seen = 0


def no_lock(*words):
    raise OSError(errno.ENOLCK, os.strerror(errno.ENOLCK))


def begin(*words, env=None, blocks=None, is_killed=True, has_locks=True):
    """Begins a command, which may write no file of more than so many blocks of 512 bytes. It is killed then, or is told so."""
    out, said = tempfile.TemporaryFile(), tempfile.TemporaryFile()
    number = os.fork()
    if number:
        return number, out, said
    try:
        os.dup2(out.fileno(), 1)
        os.dup2(said.fileno(), 2)
        os.environ.update(env or {})
        if blocks is not None:
            signal.signal(signal.SIGXFSZ, signal.SIG_DFL if is_killed else signal.SIG_IGN)
            resource.setrlimit(resource.RLIMIT_FSIZE, (blocks * 512, blocks * 512))
        if not has_locks:
            fcntl.lockf = no_lock
        sys.argv = ['bagit-keep', *map(str, words)]
        sys.stdout = io.TextIOWrapper(io.FileIO(1, 'w', closefd=False), encoding='utf-8')
        sys.stderr = io.TextIOWrapper(io.FileIO(2, 'w', closefd=False), encoding='utf-8')
        commands.run()
    finally:
        os._exit(99)


def end(begun):
    """The status of a command, and what it wrote."""
    number, *files = begun
    status = os.waitstatus_to_exitcode(os.waitpid(number, 0)[1])
    texts = []
    for file in files:
        file.seek(0)
        texts.append(file.read().decode('utf-8', 'backslashreplace'))
        file.close()
    assert 'Traceback' not in texts[1], texts[1]
    return status, *texts


def run(*words, wanted=0, **how):
    """Runs a command, which has to end with this status; its lines."""
    global seen
    status, out, said = end(begin(*words, **how))
    assert status == wanted, f'{" ".join(map(str, words))}: {status}, not {wanted}\n{out}{said}'
    seen += 1
    return out.splitlines()


def make(place, text):
    """A new bag of one payload file, made by hand (RFC 8493, 2)."""
    (place / 'data').mkdir(parents=True)
    (place / 'data/a').write_text(text)
    (place / 'bagit.txt').write_text('BagIt-Version: 1.0\nTag-File-Character-Encoding: UTF-8\n')
    digest = hashlib.sha256(text.encode()).hexdigest()
    (place / 'manifest-sha256.txt').write_text(f'{digest}  data/a\n')


def bag(number):
    return store / f'bag-{number:02d}'


def news(*lines):
    """An audit, whose news are these, in any order."""
    said = run('audit', register, wanted=1 if lines else 0)
    assert said[0].removeprefix('still ').startswith('news of ' if lines else 'no news: 20 bags'), said
    found = [line for line in said[1:] if not line[:1].isdigit()]
    assert sorted(found) == sorted(lines), (found, lines)


def known(number):
    run('known', register, bag(number), '--all', *who)


def damaged(number, old, new):
    """The line of a payload file that has other bytes (docs/FAULTS.md, 701)."""
    was, now = (hashlib.sha256(text.encode()).hexdigest() for text in (old, new))
    return f'fault {bag(number)} 701 payload-sum-differs data/a sha256 - {was}:{now}'


def seal(number):
    """The seal of a bag without folders but `data`, as its page says it is taken."""
    line = b''
    for path in sorted(os.listdir(os.fsencode(bag(number)))):
        if path != b'data':
            content = (bag(number) / os.fsdecode(path)).read_bytes()
            line += hashlib.sha512(content).hexdigest().encode() + b'  ' + path + b'\0'
    return hashlib.sha512(line).hexdigest()


def altered(number):
    return f'altered {bag(number)} {seal(number)}'


def change(number, text):
    (bag(number) / 'data/a').write_text(text)


def remake(number, text):
    shutil.rmtree(bag(number))
    make(bag(number), text)


def night_added():
    make(bag(21), '21')
    news(f'new {bag(21)}')
    run('adopt', register, bag(21))
    run('retire', register, bag(21), *who)
    shutil.rmtree(bag(21))


def night_retired():
    """A retired bag is no news where it lies; another bag at its path is new, and can be adopted."""
    make(bag(21), '21')
    run('adopt', register)
    run('retire', register, bag(21), *who)
    news()
    assert run('adopt', register) == ['there is no bag to adopt']
    for text in 'another', '21', 'another':
        remake(21, text)
        news(*([f'new {bag(21)}'] if text == 'another' else []))
    assert run('adopt', register) == ['1 of 1 bags were adopted']
    assert run('audit', register)[0].startswith('no news: 21 bags')
    change(21, 'x')
    news(damaged(21, 'another', 'x'))
    run('retire', register, bag(21), *who)
    news()
    shutil.rmtree(bag(21))
    news()


def night_damaged():
    change(3, 'x')
    line = damaged(3, '3', 'x')
    news(line)
    for command in 'audit', 'status':
        assert run(command, register, wanted=1)[:2] == ['still news of 1 bag: 1 with faults', f'still {line}']
    known(3)
    news()
    # What was known until a day that is over is new again, once.
    run('known', register, bag(3), '--all', *who, '--until', '2000-01-01')
    for command in 'status', 'audit', 'status':
        assert run(command, register, wanted=1)[:2] == ['news of 1 bag: 1 with faults', f'{line} (known until 2000-01-01)']
    for command in 'audit', 'status':
        assert run(command, register, wanted=1)[:2] == ['still news of 1 bag: 1 with faults', f'still {line}']
    run('known', register, bag(3), *line.split()[2:], *who)


def night_restored():
    change(3, '3')
    news()


def night_damaged_again():
    change(3, 'x')
    news(damaged(3, '3', 'x'))
    change(3, '3')
    news()


def night_removed():
    os.rename(bag(4), work / 'away')
    news(f'missing {bag(4)}')
    known(4)
    news()
    os.rename(work / 'away', bag(4))
    news()


def night_removed_and_not_read():
    """A bag that is gone is news on its night, though another one is read."""
    os.rename(bag(4), work / 'away')
    said = run('audit', register, '--bytes', '1', wanted=1)
    assert said[:2] == ['news of 1 bag: 1 missing', f'missing {bag(4)}'], said
    os.rename(work / 'away', bag(4))
    assert run('audit', register, '--bytes', '1')[0].startswith('no news: 20 bags')
    os.rename(bag(4), work / 'away')
    for still in '', 'still ', 'still ':
        said = run('audit', register, '--days', '1', wanted=1)
        assert said[:2] == [f'{still}news of 1 bag: 1 missing', f'{still}missing {bag(4)}'], said
    os.rename(work / 'away', bag(4))
    assert run('audit', register, '--days', '1')[0].startswith('no news: 20 bags')


def night_not_read_and_then_there():
    """Of a bag that couldn't be read, what was found before is still so, and known, until it is read; also if it is there again."""
    change(4, 'x')
    line = damaged(4, '4', 'x')
    news(line)
    link, away = work / 'away', bag(4)
    os.rename(away, link)
    away.symlink_to(work / 'nowhere')
    for _ in range(2):
        said = run('audit', register, wanted=1)
        assert sorted(it.replace('still ', '') for it in said[1:3]) == [line, f'missing {bag(4)}'], said
        assert said[0].endswith('1 with faults, 1 missing'), said
    away.unlink()
    os.rename(link, away)
    said = run('audit', register, '--days', '1', wanted=1)
    assert said[:2] == ['still news of 1 bag: 1 with faults', f'still {line}'], said
    known(4)
    run('audit', register, wanted=1, env={'BAGIT': str(work / 'nowhere')})
    news()
    change(4, '4')
    news()


def night_renewed():
    run('renew', register, bag(5), '--', '--quiet', '--set', 'Contact-Name=Ada')
    news()


def night_renewed_while_replaced():
    """A bag in whose place another valid one comes, before it is renewed or after, isn't taken."""
    other = work / 'other'
    for comes_first in True, False:
        make(other, 'another')
        instead = f'rm -r "{bag(15)}"; mv "{other}" "{bag(15)}"'
        renews = f'"{os.environ["BAGIT_RENEW"]}" "$@" || exit 3'
        script = work / 'replaces'
        script.write_text('\n'.join(['#!/bin/sh', *([instead, renews] if comes_first else [renews, instead])]) + '\n')
        script.chmod(0o755)
        words = ['renew', register, bag(15), '--', '--quiet', '--add', 'md5']
        run(*words, wanted=3, env={'BAGIT_RENEW': str(script)})
        news(altered(15))
        remake(15, '15')
        news()
    run('renew', register, bag(15), '--', '--quiet', '--add', 'md5', '--drop=sha256', wanted=2)
    for change in ['--add', 'md5,sha1'], ['--drop=sha256,md5', '--set=A=b'], ['--set', 'A=c'], ['--unset=a', '--add=sha256'], ['--drop=sha1']:
        run('renew', register, bag(15), '--', '--quiet', *change)
        news()
    remake(15, '15')
    run('accept', register, bag(15), *who)


def night_renewed_by_another():
    words = [os.environ['BAGIT_RENEW'], '--quiet', '--set', 'Contact-Name=Bob', '--', bag(6)]
    subprocess.run(words, check=True)
    news(altered(6))
    run('accept', register, bag(6), *who)
    news()


def night_replaced():
    remake(7, 'another')
    news(altered(7))
    known(7)
    news()
    remake(7, '7')
    news()


def night_swapped():
    for one, other in ((8, 9), (9, 8)):
        os.rename(bag(one), work / f'bag-{other}')
    for number in 8, 9:
        os.rename(work / f'bag-{number}', bag(number))
    news(altered(8), altered(9))
    for number in 8, 9:
        run('accept', register, bag(number), *who)


def night_received():
    """A deposit that is received is a bag of the register, which keeps its receipt; a bit that changes in one is news."""
    deposit = work / 'bag-22'
    make(deposit, '22')
    run('receive', deposit, store, '--register', register)
    run('receive', deposit, store, '--register', register, wanted=3)
    (deposit / 'data/a').write_text('x')
    run('receive', deposit, store, '--register', register, '--as', 'bag-23', wanted=1)
    assert run('audit', register)[0].startswith('no news: 21 bags')
    assert not (store / '.receipts').exists()
    names = sorted(os.listdir(register / 'receipts'))
    receipts = [register / 'receipts' / name for name in names if name.endswith('.json')]
    found = {json.loads(it.read_text())['decision']: it for it in receipts}
    assert len(names) == 4 and len(found) == 2, names
    assert any('adopted' in line for line in run('history', register, bag(22)))
    run('page', register, work / 'pages')
    pages = {it.name: it.read_text() for it in (work / 'pages').glob('*.html')}
    assert 'href="receipts.html">Receipts of deposits: 2<' in pages['index.html']
    assert all(f'href="receipt-{it.stem}.html"' in pages['receipts.html'] for it in receipts)
    for it, is_flipped in (receipts[0], False), (receipts[0], True), (receipts[1], True):
        whole = it.read_bytes()
        it.write_bytes(bytes([whole[0] ^ 1]) + whole[1:]) if is_flipped else it.unlink()
        said = run('audit', register, wanted=1)
        assert said[0] == 'news of 1 bag: 1 with an altered receipt', said
        assert said[1] == f"receipt {it} was altered, or isn't there", said
        run('page', register, work / 'pages')
        assert f'receipt-{it.stem}.html' not in os.listdir(work / 'pages')
        run('known', register, it, '--all', *who)
        assert run('audit', register)[0].startswith('no news: 21 bags')
        it.write_bytes(whole)
        assert run('audit', register)[0].startswith('no news: 21 bags')
    page = receipts[0].with_suffix('.html')
    whole = page.read_text()
    page.write_text(whole.replace('accepted', 'excepted') if 'accepted' in whole else whole + ' ')
    said = run('audit', register, wanted=1)
    assert said[:2] == ['news of 1 bag: 1 with an altered receipt', f"receipt {page} was altered, or isn't there"], said
    page.write_text(whole)
    assert run('audit', register)[0].startswith('no news: 21 bags')
    os.rename(bag(22), work / 'away')
    (deposit / 'data/a').write_text('22')
    run('receive', deposit, store, '--register', register, wanted=3)
    assert not bag(22).exists()
    run('retire', register, bag(22), *who)
    run('receive', deposit, store, '--register', register)
    run('retire', register, bag(22), *who)
    shutil.rmtree(bag(22))
    run('receive', deposit, store, '--register', work, wanted=2)
    run('receive', deposit, store, '--register', register, '--receipt', 'x', wanted=2)


def night_of_tars():
    """A bag in a .tar is kept as any other."""
    def pack(text):
        make(work / 'packed/bag', text)
        subprocess.run(['tar', '-cf', packed, '-C', work / 'packed', 'bag'], check=True)
        shutil.rmtree(work / 'packed')

    packed, away = store / 'bag.tar', work / 'away.tar'
    pack('24')
    news(f'new {packed}')
    run('adopt', register)
    assert run('audit', register)[0].startswith('no news: 21 bags')
    whole = packed.read_bytes()
    was, now = (hashlib.sha256(it.encode()).hexdigest() for it in ('24', '2x'))
    block = b'24' + bytes(510)
    assert whole.count(block) == 1
    for changed, first, kinds in (
        (b'2x' + bytes(510), 'news of 1 bag: 1 with faults, 1 altered', [f'fault {packed} 701 payload-sum-differs data/a sha256 - {was}:{now}']),
        (b'24' + bytes(509) + b'x', 'news of 1 bag: 1 altered', []),
    ):
        packed.write_bytes(whole.replace(block, changed))
        said = run('audit', register, wanted=1)
        assert said[:-1] == [first, f'altered {packed} {hashlib.sha512(packed.read_bytes()).hexdigest()}', *kinds], said
        packed.write_bytes(whole)
        assert run('audit', register)[0].startswith('no news: 21 bags')
    packed.write_bytes(whole[:1024])
    said = run('audit', register, wanted=1)
    assert len(said) == 3 and said[0] == 'news of 1 bag: 1 not read' and said[1].startswith(f'unread {packed} {packed} unread '), said
    packed.write_bytes(whole)
    assert run('audit', register)[0].startswith('no news: 21 bags')
    pack('another')
    assert run('audit', register, wanted=1)[0] == 'news of 1 bag: 1 altered'
    run('accept', register, packed, *who)
    os.rename(packed, away)
    news(f'missing {packed}')
    run('moved', register, packed, away, *who)
    assert run('audit', register)[0].startswith('no news: 21 bags')
    run('retire', register, away, *who)
    away.unlink()


def night_moved():
    os.rename(bag(10), store / 'moved')
    news(f'missing {bag(10)}', f'new {store / "moved"}')
    run('moved', register, bag(10), store / 'moved', *who)
    run('status', register)
    news()
    os.rename(store / 'moved', bag(10))
    run('moved', register, store / 'moved', bag(10), *who)


def night_moved_and_remade():
    os.rename(bag(10), work / 'kept')
    make(store / 'moved', '10, altered')
    run('moved', register, bag(10), store / 'moved', *who, wanted=3)
    shutil.rmtree(store / 'moved')
    os.rename(work / 'kept', bag(10))
    news()


def night_of_what_is_kept():
    """What a command leaves beside a bag is passed over, by name, while the bag is there; a folder that is only called so isn't."""
    def passed_over(*lines):
        """An audit with these news, and what it says that it has passed over."""
        status, out, said = end(begin('audit', register))
        found = [line for line in out.splitlines()[1:] if not line[:1].isdigit()]
        assert (status, sorted(found)) == (1 if lines else 0, sorted(lines)), out + said
        assert said.count('passed over') <= 1, said
        return said.partition('bagit-keep: passed over, as left beside a bag: ')[2]

    text = work / 'text'
    text.write_text('Contact-Name: Ada\n')
    run('edit', bag(16), 'bag-info.txt', '--from', text)
    run('repack', bag(16), 'rename', 'data/a', 'data/b')
    run('accept', register, bag(16), *who)
    old, renamed = sorted(store.glob('bag-16.kept.*'), key=lambda it: (it / 'bag-info.txt').exists())
    assert passed_over() == f'{min(old, renamed)}, and 1 more\n'
    shutil.copytree(bag(16), work / 'copy')
    shutil.rmtree(renamed)
    (bag(16) / 'data/b').unlink()
    (bag(16) / 'data/b').write_text('x')
    run('restore', bag(16), '--from', work / 'copy')
    (replaced,) = set(store.glob('bag-16.kept.*')) - {old}
    assert passed_over() == f'{min(old, replaced)}, and 1 more\n'
    shutil.rmtree(replaced)
    # Of a bag that isn't there, or that nothing says to be one, all is looked at.
    os.rename(bag(16), work / 'aside')
    assert not passed_over(f'missing {bag(16)}', f'new {old}')
    os.rename(work / 'aside', bag(16))
    assert passed_over() == f'{old}\n'
    (bag(16) / 'bagit.txt').rename(work / 'declaration')
    said = end(begin('audit', register))
    assert said[0] == 1 and f'new {old}\n' in said[1] and 'passed over' not in said[2], said
    (work / 'declaration').rename(bag(16) / 'bagit.txt')
    news()
    for name in 'bag-16.kept.12345', 'bag-16.kept.ABCDEF', 'bag-16.keptx123456', 'bag-16.old', 'bag-16.new', 'other.kept.123456':
        make(store / name, 'x')
        assert passed_over(f'new {store / name}') == f'{old}\n'
        shutil.rmtree(store / name)
    # The folder of a command that was killed, and one that only has its name.
    left = store / 'bag-16.new'
    make(left / 'bag', 'x')
    assert passed_over(f'new {left / "bag"}') == f'{old}\n'
    (left / 'bagit-keep.json').write_text('{}')
    assert passed_over() == f'{min(old, left)}, and 1 more\n'
    (left / 'mine').mkdir()
    assert passed_over(f'new {left / "bag"}') == f'{old}\n'
    shutil.rmtree(left)
    # A link that has the bag's name, or that of what is kept.
    os.rename(bag(16), work / 'aside')
    bag(16).symlink_to(work / 'aside')
    assert not passed_over(f'new {old}')
    bag(16).unlink()
    os.rename(work / 'aside', bag(16))
    run('adopt', register, old)
    assert passed_over() == f'{old}\n'
    (old / 'data/a').unlink()
    (old / 'data/a').write_text('x')
    assert run('audit', register, wanted=1)[0] == 'news of 1 bag: 1 with faults'
    run('retire', register, old, *who)
    shutil.rmtree(old)
    remake(16, '16')
    run('accept', register, bag(16), *who)
    shutil.rmtree(work / 'copy')


def night_disk_full():
    """An audit that can write no file of more than so many blocks."""
    for blocks in 0, 8, 64, 200:
        status, out, said = end(begin('audit', register, blocks=blocks))
        assert status in (3, -signal.SIGXFSZ) or (status == 0 and blocks > 64), (blocks, status, out, said)
        assert status == 0 or 'no news' not in out, (blocks, out)
    change(13, 'x')
    assert damaged(13, '13', 'x') in run('audit', register, wanted=1)
    change(13, '13')
    news()


def night_without_room_for_a_note():
    """Where nothing can be written, a command says so, and that no copy is to be put in the place of the register."""
    change(13, 'x')
    news(damaged(13, '13', 'x'))
    for words in ('known', register, bag(13), '--all', *who), ('retire', register, bag(13), *who), ('audit', register):
        for blocks in 0, 1, 8:
            status, out, said = end(begin(*words, blocks=blocks, is_killed=False))
            assert status == 3 and 'register.copy' not in said and 'altered' not in said, (words, blocks, status, out, said)
            assert words[0] == 'audit' or not blocks or f"{register}/register.sqlite can't be read or written (" in said, (words, blocks, said)
    known(13)
    news()
    change(13, '13')
    news()


def night_of_tasks():
    change(11, 'x')
    tasks = [begin('audit', register, '--task', f'{it}/8') for it in range(1, 9)]
    assert not any(end(task)[0] for task in tasks)
    news(damaged(11, '11', 'x'))
    change(11, '11')
    news()


def night_without_a_program():
    """Bags that nobody could check are news, each of them."""
    said = run('audit', register, wanted=1, env={'BAGIT': str(work / 'nowhere')})
    assert said[0] == 'news of 20 bags: 20 not read', said
    news()


def night_without_room_for_a_record():
    """A bag of which no record could be written is news."""
    before = set(os.listdir(register / 'rounds'))
    blocked = work / 'blocked'
    blocked.write_text(f"""#!/bin/sh
case "$*" in *bag-14) for r in {register}/rounds/0*; do last=$r; done
    rm -f "$last/records/"*; rmdir "$last/records"; : >"$last/records";; esac
exec "{os.environ['BAGIT']}" "$@"
""")
    blocked.chmod(0o755)
    status, out, _ = end(begin('audit', register, '--jobs', '1', env={'BAGIT': str(blocked)}))
    assert status in (1, 3) and not out.startswith('no news'), out
    for name in set(os.listdir(register / 'rounds')) - before:
        (register / 'rounds' / name / 'records').unlink(missing_ok=True)
    end(begin('audit', register))
    news()


def night_killed():
    change(12, 'x')
    begun = time.monotonic()
    run('audit', register, wanted=1)
    seconds = time.monotonic() - begun
    known(12)
    for _ in range(20):
        killed = begin('audit', register)
        time.sleep(random.uniform(0, seconds))
        os.kill(killed[0], signal.SIGKILL)
        end(killed)
        status, out, said = end(begin('audit', register))
        lines = out.splitlines()
        was_cut_off = any(line.startswith('cut-off - ') for line in lines)
        assert status == (1 if was_cut_off else 0), out + said
        assert not any(line.startswith(('fault', 'missing', 'unread', 'altered')) for line in lines), out
    change(12, '12')
    news()


def night_killed_after_its_checks():
    """An audit that was killed when all bags were checked, and before it had noted this, is told, and all bags are read again."""
    path, before = register / 'register.sqlite', set(os.listdir(register / 'rounds'))
    killed = begin('audit', register, '--jobs', '1')
    new = set()
    while not new or not (register / 'rounds' / new.pop() / 'list').exists():
        new = set(os.listdir(register / 'rounds')) - before
    (name,) = set(os.listdir(register / 'rounds')) - before
    with contextlib.closing(sqlite3.connect(path, timeout=60, isolation_level=None)) as base:
        base.execute('BEGIN EXCLUSIVE')
        reports = register / 'rounds' / name / 'reports'
        while not reports.exists() or len(list(reports.iterdir())) < 20:
            time.sleep(0.01)
        os.kill(killed[0], signal.SIGKILL)
        assert end(killed)[0] == -signal.SIGKILL
    assert run('status', register, wanted=1)[0] == 'news of 0 bags: 1 cut off'
    change(13, 'x')
    said = run('audit', register, wanted=1)
    assert said[0] == 'news of 1 bag: 1 with faults, 1 cut off', said
    assert said[1].startswith('cut-off - the audit of ') and said[2] == damaged(13, '13', 'x'), said
    change(13, '13')
    news()


def night_of_a_page():
    """The pages say what `status` says, also of an audit that was cut off; and the audit after says so once."""
    kills = work / 'kills'
    kills.write_text('#!/bin/sh\nkill -9 $PPID\n')
    kills.chmod(0o755)
    assert end(begin('audit', register, '--jobs', '1', env={'BAGIT': str(kills)}))[0] == -signal.SIGKILL
    said = run('status', register, wanted=1)
    assert said[0] == 'news of 0 bags: 1 cut off', said
    run('page', register, work / 'pages')
    assert f'<h1>N{said[0][1:]}</h1>' in (work / 'pages/index.html').read_text()
    assert run('audit', register, wanted=1)[0] == said[0]
    news()
    run('page', register, work / 'pages')
    assert '<h1>No news: 20 bags' in (work / 'pages/index.html').read_text()


def night_of_two():
    slow = work / 'slow'
    slow.write_text(f'#!/bin/sh\n: >"{work}/begun"\nwhile [ ! -e "{work}/refused" ]; do sleep 0.1; done\nexec "{os.environ["BAGIT"]}" "$@"\n')
    slow.chmod(0o755)
    first = begin('audit', register, '--jobs', '20', env={'BAGIT': str(slow)})
    while not (work / 'begun').exists():
        time.sleep(0.1)
    run('audit', register, wanted=3)
    (work / 'refused').touch()
    assert end(first)[0] == 0


def night_of_two_in_turn():
    """What is accepted while an audit is at work stands, if the audit had read it before; what it reads after that is news."""
    for number, word in (17, 'first'), (18, 'last'):
        change(number, 'x')
        slow = work / 'slow'
        slow.write_text(f'#!/bin/sh\ncase "$*" in *bag-18) : >"{work}/{word}"; while [ ! -e "{work}/go" ]; do sleep 0.1; done;; esac\n'
                        f'exec "{os.environ["BAGIT"]}" "$@"\n')
        slow.chmod(0o755)
        audited = begin('audit', register, '--jobs', '1', env={'BAGIT': str(slow)})
        while not (work / word).exists():
            time.sleep(0.1)
        change(number, str(number))
        run('accept', register, bag(number), *who)
        change(18, '18' if number == 17 else 'x')
        (work / 'go').touch()
        status, out, said = end(audited)
        lines = [] if number == 17 else [damaged(18, '18', 'x')]
        assert (status, out.splitlines()[1:2]) == (len(lines), lines), out + said
        (work / 'go').unlink()
    change(18, '18')
    news()


def night_without_locks():
    """Where nothing can be locked nothing is done: two at once would take each other's checks for their own."""
    change(13, 'x')
    before = run('dump', register)
    for words in ['audit', register], ['audit', register, '--task', '1/2'], ['adopt', register], ['accept', register, bag(12), *who]:
        assert run(*words, wanted=3, has_locks=False) == []
    assert run('dump', register) == before
    news(damaged(13, '13', 'x'))
    change(13, '13')
    news()


def night_of_bits():
    """A bit that changes in the register is told, or changes nothing that is said."""
    path = register / 'register.sqlite'
    whole, said = path.read_bytes(), run('status', register)
    dumped = run('dump', register)
    told = 0
    for _ in range(40):
        place, bit = random.randrange(len(whole)), 1 << random.randrange(8)
        path.write_bytes(whole[:place] + bytes([whole[place] ^ bit]) + whole[place + 1:])
        for words, right in (('status', said), ('dump', dumped)):
            status, out, _ = end(begin(words, register))
            assert (status, out.splitlines()) == (0, right) or status == 3, (place, bit, out)
            told += status == 3
    path.write_bytes(whole)
    assert told > 10, told
    shutil.copy(register / 'register.copy', path)
    assert run('status', register)[0] == said[0]
    path.write_bytes(whole)


def night_of_a_lost_round():
    """A round whose folder is gone, or whose list was altered, is told, and its bags are read again."""
    for change_it in shutil.rmtree, lambda folder: (folder / 'list/options.json').write_text('{}'):
        run('audit', register, '--task', '1/2')
        change_it(max((register / 'rounds').glob('0*')))
        change(13, 'x')
        said = run('audit', register, wanted=1)
        assert said[0] == 'news of 1 bag: 1 with faults, 1 cut off' and damaged(13, '13', 'x') in said, said
        change(13, '13')
        news()


def night_of_a_removed_row():
    """A row that somebody has removed is told, also of a bag that is gone; and the copy of the night before is the register then."""
    path = register / 'register.sqlite'
    whole = path.read_bytes()
    os.rename(bag(4), work / 'gone')
    for table, where in ('bags', f"path = '{bag(4)}'"), ('events', 'id = 5'), ('settings', "name = 'stores'"):
        with contextlib.closing(sqlite3.connect(path)) as base, base:
            assert base.execute(f'DELETE FROM {table} WHERE {where}').rowcount == 1
        for command in 'status', 'audit':
            status, out, said = end(begin(command, register))
            assert (status, out) == (3, '') and f' (a row of {table} was removed): put register.copy in its place' in said, (status, out, said)
        path.write_bytes(whole)
    shutil.copy(register / 'register.copy', path)
    news(f'missing {bag(4)}')
    os.rename(work / 'gone', bag(4))
    news()


def night_retired_and_accepted():
    """A retired bag is taken back by adopt alone: no other command says that it is kept."""
    make(bag(21), '21')
    run('adopt', register)
    run('retire', register, bag(21), *who)
    remake(21, 'another')
    run('accept', register, bag(21), *who, wanted=2)
    run('renew', register, bag(21), '--', '--set', 'A=b', wanted=2)
    news(f'new {bag(21)}')
    shutil.rmtree(bag(21))
    news()


def night_of_an_altered_event():
    """An event that was altered ends the audit by name, and the copy of the night before stays, and is the register then."""
    path, copy = register / 'register.sqlite', register / 'register.copy'
    before = copy.read_bytes()
    with contextlib.closing(sqlite3.connect(path)) as base, base:
        changed = base.execute("UPDATE events SET data = replace(data, 'Ada', 'Adb') WHERE id = (SELECT min(id) FROM events WHERE kind = 'known')")
        assert changed.rowcount == 1
    for _ in range(2):
        status, out, said = end(begin('audit', register))
        assert (status, out) == (3, '') and ' of events): put register.copy in its place, and audit again' in said, (status, out, said)
        assert copy.read_bytes() == before
    shutil.copy(copy, path)
    news()
    run('dump', register)


def main():
    store.mkdir(parents=True)
    for number in range(1, 21):
        make(bag(number), str(number))
    run('init', register, store)
    assert run('adopt', register)[-1] == '20 of 20 bags were adopted'
    nights = [work for name, work in globals().items() if name.startswith('night_')]
    for night in nights:
        news()
        night()
    while seen < 60:
        news()
    text = '\n'.join(run('premis', register, bag(3)))
    assert '<premis:eventOutcome>fail</premis:eventOutcome>' in text
    said = run('report', '--round', register / 'rounds/000001', wanted=3)
    assert len(said) == 20 and all('"read whole at 2' in line and line.endswith('; its report was pruned"}') for line in said), said
    said = run('history', register, bag(5))
    assert any('accepted' in line for line in said), said
    print(f'{len(nights)} kinds of nights, {seen} commands ended as they should')


main()
