"""For scripts with rows, which are counted, and of which some have an expected text."""
import os
import tempfile

PROGRAM = os.path.abspath(os.environ.get('PROGRAM', f'{os.path.dirname(os.path.abspath(__file__))}/../crates/ed_main/out/ed_main'))


def counted(rows):
    """Prints what is wrong with rows, of each its name and that, or None, and last their count. Returns whether anything is wrong."""
    passed = failed = 0
    for name, why in rows:
        passed += why is None
        failed += why is not None
        if why is not None:
            print(f'{name}: {why}')
    print(f'{passed} passed, {failed} failed')
    return failed > 0


def note(path, line, wanted, got):
    """Where PAIRS names a folder, an expected text and what came of its row are left there with the row's place, for tests/bless."""
    if 'PAIRS' not in os.environ:
        return
    file, pair = tempfile.mkstemp(dir=os.environ['PAIRS'])
    for name, text in ((pair, f'{path}:{line}\n'.encode()), (f'{pair}.wanted', wanted), (f'{pair}.got', got)):
        with open(name, 'wb') as out:
            out.write(text)
    os.close(file)
