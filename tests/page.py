"""page.py STEM LOG: the page STEM.html of a log, as a browser read it (STEM.dom), says what the explanation in text (STEM.explained) and the
tables after the log (STEM.csv) say, and needs nothing from outside."""
import csv, html.parser, pathlib, re, sys

stem, log = sys.argv[1:]
read = lambda ending: pathlib.Path(stem + ending).read_text()


class Dom(html.parser.HTMLParser):
    """Tables as rows of cells, lines as lists of their texts, the chart's paths and marks, and when the accrued yield is of."""

    def __init__(self):
        super().__init__()
        self.tables, self.lines, self.paths, self.marks, self.grid, self.outside = {}, {}, {}, [], [], []
        self.table = self.line = self.text = self.path = self.named = self.accrued = None

    def handle_starttag(self, tag, attributes):
        given = dict(attributes)
        self.outside += [v for k, v in attributes if k in ('src', 'href', 'srcset', 'action', 'data') and not v.startswith('#')]
        if tag == 'table':
            self.table = self.tables.setdefault(given['id'], [])
        elif tag == 'tr':
            self.table.append([])
        elif tag == 'section':
            self.line = self.lines.setdefault(int(given['id'].removeprefix('line-')), [])
        elif tag == 'path':
            self.path = given['d']
        elif tag == 'line':
            self.grid.append(float(given['y1']))
        if tag in ('td', 'th', 'p', 'li', 'text', 'title'):
            self.text, self.named = '', given.get('id')

    def handle_data(self, data):
        if self.text is not None:
            self.text += data

    def handle_endtag(self, tag):
        if tag in ('td', 'th'):
            self.table[-1].append(self.text)
        elif tag in ('p', 'li') and self.line is not None:
            self.line.append(self.text)
        elif tag == 'p' and self.named == 'accrued':
            self.accrued = self.text
        elif tag == 'text':
            self.marks.append(self.text)
        elif tag == 'title' and self.path:
            self.paths[self.text.removesuffix(' pool')] = self.path
        if tag in ('td', 'th', 'p', 'li', 'text', 'title'):
            self.text = None
        self.line = None if tag == 'section' else self.line
        self.path = None if tag == 'path' else self.path


def same(what, found, expected):
    if found != expected:
        sys.exit(f'tests/page: {log}: {what}: the page has {found!r}, and {expected!r} is expected')


dom = Dom()
dom.feed(read('.dom'))
explained = read('.explained')

# Each line of the text, its time and signer apart, as the page has it.
lines = {}
for block in explained.split('\n\n'):
    head = re.match(r'Line (\d+) \((.*?)\) asks for (.*)\n', block)
    if head:
        number, signed, asked = head.groups()
        rest = [line.strip().removeprefix('- ') for line in block[head.end():].splitlines()]
        lines[int(number)] = [f'Line {number} asks for {asked}', signed + '.'] + rest
same('numbers of lines', sorted(dom.lines), sorted(lines))
for number, told in lines.items():
    same(f'line {number}', dom.lines[number], told)

# The accounts of the text, and when their accrued yield is of; and the pools of the tables.
when, accounts = re.search(r'^Accounts, all lines(?:; a(.*))?:$(.*?)^In all ', explained, re.M | re.S).groups()
same('time of the accrued yield', dom.accrued, f'A{when}.' if when else None)
cells = [cell for line in accounts.splitlines() for cell in re.split(r'  +', line.strip()) if cell]
same('accounts', [cell for row in dom.tables['accounts'] for cell in row if cell], cells)
pools = [row for row in csv.DictReader(read('.csv').splitlines()) if row['kind'] == 'pool']
figures = [[row['pool'], int(row['balance']), int(row['unpaid'])] for row in pools]
number = lambda cell: int(cell.replace(',', ''))
same('pools', [[row[0].lower(), number(row[1]), number(row[2])] for row in dom.tables['pools'][1:]], figures)

# The chart: each pool's line ends at its balance, by the scale of the marks.
scale = sorted((number(mark), y) for mark, y in zip(dom.marks, dom.grid))
(low, bottom), (high, top) = scale[0], scale[-1]
same('lines of the chart', [name.lower() for name in dom.paths], [pool for pool, _, _ in figures])
for (pool, balance, _), path in zip(figures, dom.paths.values()):
    end = float(re.split('[V ]', path)[-1])
    due = bottom + (top - bottom) * (balance - low) / (high - low)
    if abs(end - due) > 0.2:
        sys.exit(f'tests/page: {log}: the chart shows {pool} at {end}, and {due} is due')

page = read('.html')
same('what it needs from outside', dom.outside + re.findall(r'https?:|url\(|@import|<script', page), [])
print(f'tests/page: {log}: {len(lines)} lines, {len(dom.tables["accounts"]) - 1} account rows and four pools read back from the browser')
