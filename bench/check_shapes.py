"""The files that check.sh times, and a plain reader of TOML to compare with.

    check_shapes.py make FOLDER    writes a folder for each shape, with config.toml and case files
    check_shapes.py read FILE..    prints the seconds in which Python's tomllib reads the files
"""
import sys
import time
import tomllib
from pathlib import Path

LIMIT = 1_048_576
HEAD = 'format = 1\nwindow = 1\n'
NO_END = HEAD + 'data = []\nmesh = []\n'
PART = 'participant = [{ name = "A", case = "a.toml", provides = [] }]\n'
SCHEME = 'scheme = [{ kind = "multi" }]\n'


def watched(points):
    return ('participant = [{ name = "A", case = "a.toml", provides = [], '
            f'watch = [{{ name = "W", mesh = "M", at = [{points}] }}] }}]\n')


def named(names):
    return HEAD + PART + SCHEME + f'data = []\nmesh = [{{ name = "M", dimensions = 2, data = [{names}] }}]\n'


def configurations():
    """Configurations of nearly a mebibyte, by shape; all are refused, some at the end only."""
    exchange = '{ data = "U", mesh = "M", from = "A", to = "B" },'
    return {
        'names': named(','.join(f'"n{i}"' for i in range(110_000))),
        'names-alike': named(','.join(f'"{"n" * 55}{i}"' for i in range(16_000))),
        'last-name-twice': named(','.join(f'"n{i % 109_999}"' for i in range(110_000))),
        'coordinates': NO_END + SCHEME + watched(','.join(['0'] * 500_000)),
        'digits': NO_END + SCHEME + watched('"' + '0' * 1_000_000 + '"'),
        'exchanges': NO_END + PART + f'scheme = [{{ kind = "multi", exchange = [{exchange * 20_000}] }}]\n',
        'tables': HEAD + 'mesh = []\n' + PART + SCHEME + '[[data]]\nname = "U"\nkind = "scalar"\n' * 29_000,
        'keys': NO_END + PART + SCHEME + ''.join(f'k{i} = 1\n' for i in range(80_000)),
        'nesting': HEAD + 'data = ' + '[' * 70 + ']' * 70 + '\nmesh = []\n' + PART + SCHEME,
        'deep-nesting': HEAD + 'data = ' + '[' * 1_000_000,
        'long-number': HEAD + 'max-time = ' + '1' * 1_000_000 + '\n',
    }


def chain(count, data):
    """So many participants, each of which reads the data of the one before it; accepted."""
    names = [f'D{i}' for i in range(data)]
    per = data // count
    text = [HEAD.replace('window = 1', 'window = 1\nmax-windows = 1000000')]
    for name in names:
        text.append(f'[[data]]\nname = "{name}"\nkind = "scalar"\n')
    listed = ', '.join(f'"{name}"' for name in names)
    for i in range(count):
        text.append(f'[[mesh]]\nname = "M{i}"\ndimensions = 2\ndata = [{listed}]\n')
    for i in range(count):
        own = names[i * per:(i + 1) * per]
        read = names[(i - 1) * per:i * per] if i else []
        write = ', '.join(f'{{ data = "{n}", mesh = "M{i}" }}' for n in own)
        reads = ', '.join(f'{{ data = "{n}", mesh = "M{i}" }}' for n in read)
        text.append(f'[[participant]]\nname = "P{i}"\ncase = "c{i}.toml"\nprovides = ["M{i}"]\nwrite = [{write}]\nread = [{reads}]\n')
        if i:
            text.append(f'receives = [{{ mesh = "M{i - 1}", from = "P{i - 1}" }}]\n')
            text.append(f'map = [{{ direction = "read", from = "M{i - 1}", to = "M{i}", constraint = "consistent" }}]\n')
    for i in range(1, count):
        sent = ', '.join(f'{{ data = "{n}", mesh = "M{i - 1}", from = "P{i - 1}", to = "P{i}" }}' for n in names[(i - 1) * per:i * per])
        text.append(f'[[scheme]]\nkind = "serial-explicit"\nfirst = "P{i - 1}"\nsecond = "P{i}"\nexchange = [{sent}]\n')
    case = 'solver = "rod"\nstep = 1\nfill = 0\ncount = {n}\n[[mesh]]\nname = "M{i}"\nline = {{ from = [0, 0], to = [1, 0], count = {n} }}\n'
    cases = {f'c{i}.toml': case.format(i=i, n=1000) for i in range(count)}
    return ''.join(text), cases


def ring(count, readers):
    """As many of all that is counted as there may be, in one multi scheme; accepted."""
    listed = ', '.join(f'"D{i}"' for i in range(count))
    parts = range(count)
    text = [HEAD.replace('window = 1', 'window = 1\nmax-time = 1000000')]
    text += [f'[[data]]\nname = "D{i}"\nkind = "scalar"\n' for i in parts]
    text += [f'[[mesh]]\nname = "M{i}"\ndimensions = 3\ndata = [{listed}]\n' for i in parts]
    sent = []
    for i in parts:
        sources = [(i - k) % count for k in range(1, readers + 1)]
        sent += [f'{{ data = "D{j}", mesh = "M{j}", from = "P{j}", to = "P{i}" }}' for j in sources]
        text.append(f'[[participant]]\nname = "P{i}"\ncase = "c{i}.toml"\nprovides = ["M{i}"]\n'
                    f'write = [{{ data = "D{i}", mesh = "M{i}" }}]\n'
                    'receives = [' + ', '.join(f'{{ mesh = "M{j}", from = "P{j}" }}' for j in sources) + ']\n'
                    'read = [' + ', '.join(f'{{ data = "D{j}", mesh = "M{i}" }}' for j in sources) + ']\n'
                    'map = [' + ', '.join(f'{{ direction = "read", from = "M{j}", to = "M{i}", constraint = "consistent" }}' for j in sources) + ']\n'
                    f'watch = [{{ name = "W{i}", mesh = "M{i}", at = [0, 0, 0] }}]\n')
    members = ', '.join(f'"P{i}"' for i in parts)
    measures = ', '.join(f'{{ kind = "relative", data = "D{i}", limit = "0.1" }}' for i in range(16))
    text.append(f'[[scheme]]\nkind = "multi"\ncontrol = "P0"\nmembers = [{members}]\nmax-iterations = 1000\n'
                f'measure = [{measures}]\nacceleration = {{ kind = "aitken", factor = 1, data = ["D0", "D1", "D2", "D3", "D4"] }}\n'
                f'exchange = [{", ".join(sent)}]\n')
    case = ('solver = "rod"\nstep = 1\nfill = 0\ncount = {n}\n[[mesh]]\nname = "M{i}"\n'
            'line = {{ from = [0, 0, 0], to = [1, 0, 0], count = 10000 }}\n')
    return ''.join(text), {f'c{i}.toml': case.format(i=i, n=10_000 * readers) for i in parts}


def pair(first, second):
    """Two participants, of which the first sends one datum to the second, and their case files."""
    config = (HEAD + 'max-windows = 1\n' + 'data = [{ name = "U", kind = "scalar" }]\n'
              'mesh = [{ name = "MA", dimensions = 2, data = ["U"] }, { name = "MB", dimensions = 2, data = ["U"] }]\n'
              'participant = [\n'
              '  { name = "A", case = "a.toml", provides = ["MA"], write = [{ data = "U", mesh = "MA" }] },\n'
              '  { name = "B", case = "b.toml", provides = ["MB"], receives = [{ mesh = "MA", from = "A" }],\n'
              '    read = [{ data = "U", mesh = "MB" }],\n'
              '    map = [{ direction = "read", from = "MA", to = "MB", constraint = "consistent" }] },\n'
              ']\n'
              'scheme = [{ kind = "serial-explicit", first = "A", second = "B",\n'
              '  exchange = [{ data = "U", mesh = "MA", from = "A", to = "B" }] }]\n')
    return config, {'a.toml': first, 'b.toml': second}


def case_pairs():
    """Accepted cases with long case files."""
    line = 'mesh = [{ name = "%s", line = { from = [0, 0], to = [1, 0], count = %d } }]\n'
    points = ', '.join(f'["{i}.000001", {i}]' for i in range(10_000))
    row = '{ reads = [%s] }' % ', '.join(f'[{i}, 1]' for i in range(64))
    return {
        'state-of-60000': pair('solver = "rod"\nstep = 1\n' + line % ('MA', 10_000) + 'state = [' + ', '.join(['"0.5"'] * 60_000) + ']\n',
                               'solver = "rod"\nstep = 1\nfill = 0\ncount = 10000\n' + line % ('MB', 10_000)),
        'points': pair(f'solver = "rod"\nstep = 1\nfill = 0\ncount = 10000\nmesh = [{{ name = "MA", points = [{points}] }}]\n',
                       'solver = "rod"\nstep = 1\nfill = 0\ncount = 10000\n' + line % ('MB', 10_000)),
        'rows-of-64-pairs': pair('solver = "rod"\nstep = 1\nfill = 0\ncount = 100\n' + line % ('MA', 100),
                                 'solver = "rows"\nstep = 1\nfill = 0\ncount = 1800\n' + line % ('MB', 100) + 'row = [' + ', '.join([row] * 1800) + ']\n'),
    }


def make(room):
    shapes = {name: (text, {}) for name, text in configurations().items()}
    shapes['chain-of-64'] = chain(64, 64)
    shapes['ring-of-64'] = ring(64, 4)
    shapes |= case_pairs()
    for name, (config, cases) in shapes.items():
        folder = Path(room, name)
        folder.mkdir()
        for file, text in {'config.toml': config, **cases}.items():
            assert len(text) <= LIMIT, (name, file, len(text))
            (folder / file).write_text(text)


def read(files):
    begin = time.perf_counter()
    for file in files:
        try:
            tomllib.loads(Path(file).read_text())
        except (tomllib.TOMLDecodeError, RecursionError, ValueError):
            pass
    print(f'{time.perf_counter() - begin:.6f}')


if __name__ == '__main__':
    if sys.argv[1] == 'make':
        make(sys.argv[2])
    else:
        read(sys.argv[2:])
