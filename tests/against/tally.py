"""Goes through random cases by several processes, and counts what becomes of them."""
import collections
import multiprocessing

# So many of what is wrong is shown.
SHOWN = 10


def told(case, count, seed, processes=None):
    """How many cases are of each kind, and how many runs. A case is made of its number and the seed, and gives its kind, the counts of its
    runs if they are counted, and what is to be shown of it, if anything."""
    kinds, runs, shown = collections.Counter(), collections.Counter(), 0
    with multiprocessing.Pool(processes) as pool:
        for kind, *counts, wrong in pool.imap_unordered(case, ((number, seed) for number in range(count)), 16):
            kinds[kind] += 1
            runs.update(*counts)
            if wrong and shown < SHOWN:
                shown += 1
                print(f'[{kind}] {wrong}', flush=True)
    return kinds, runs


def show(*counts):
    for counted in counts:
        for kind, number in sorted(counted.items()):
            print(f'{number:8} {kind}')
