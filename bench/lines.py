"""The lines in which patterns are looked for: 200,000 of 50 bytes, words of small letters, now and then a number, in each hundredth line the
word needle. They are the same each time."""


def numbers():
    seed = 1
    while True:
        seed = (seed * 69069 + 1) % 2**32
        yield seed >> 16


def line(number, drawn):
    text = 'needle ' if number % 100 == 0 else ''
    while len(text) < 50:
        kind = next(drawn)
        word = ''.join(chr(97 + next(drawn) % 26) for _ in range(3 + kind % 6)) if kind % 40 else str(kind % 1000)
        text += f'{word} '
    return f'{text[:50]}\n'


def many():
    drawn = numbers()
    return (line(number, drawn) for number in range(1, 200_001))
