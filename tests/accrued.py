"""accrued.py DESK LOG...: the accrued yield that the explanation of each log shows is the banked sum and the running yield of the tables after it,
at the time of the last line that has one; past plus or minus 10^15 it is no figure. Each log is tried as it is and with a line more that is no call
and has another time, and some of its lines alone."""
import collections, csv, datetime, pathlib, re, struct, subprocess, sys, tempfile

HEAD, RECORD, LAST_TIME, LIMIT = 16, 48, 17_179_869_183, 10**15
WHOLE_YEAR = 365 * 86_400 * 10_000
RATES = {'conservative': 200, 'balanced': 500, 'aggressive': 1_000}
met = collections.Counter()


def fail(what):
    sys.exit(f'tests/accrued: {what}')


def desk(*words):
    run = subprocess.run([sys.argv[1], *map(str, words)], capture_output=True, text=True)
    return run.stdout if run.returncode == 0 else fail(f'{words} ended with {run.returncode}: {run.stderr}')


def accrued(stake, rate, since, banked, now):
    """The cell: running yield is rounded toward zero, so below zero the size of it is rounded down."""
    size = abs(stake) * rate * max(now - since, 0) // WHOLE_YEAR
    total = banked + (size if stake > 0 else -size)
    within = abs(total) <= LIMIT
    met[('a sum below zero' if total < 0 else 'a sum from 0 on') if within else 'a sum past its limit'] += 1
    met['a stake below zero that runs'] += stake < 0 and size > 0
    return f'{total:,}' if within else 'past its limit'


def moment(log):
    """The last line with a time, and that time."""
    times = [struct.unpack_from('<Q', log, at + 8)[0] for at in range(HEAD, len(log) - RECORD + 1, RECORD)]
    return max(((line, time) for line, time in enumerate(times, 1) if time <= LAST_TIME), default=None)


def expected(log, path):
    """The heading's end, and by account and pool the stake, the banked sum and the accrued yield."""
    last = moment(log)
    if last is None:
        return '', {}
    line, now = last
    rows = list(csv.DictReader(desk('tables', '--csv', path).splitlines()))
    rates = RATES | {'flat': next(int(row['rate']) for row in rows if row['kind'] == 'settings')}
    cells = {}
    for row in rows:
        if row['kind'] == 'stake':
            stake, since, banked = (int(row[name]) for name in ('stake', 'since', 'accrual'))
            cells[row['account'], row['pool']] = f'{stake:,}', f'{banked:,}', accrued(stake, rates[row['pool']], since, banked, now)
    date = datetime.datetime(1970, 1, 1) + datetime.timedelta(seconds=now)
    return f'; accrued yield at the time of line {line}, {date:%Y-%m-%d %H:%M:%S} UTC', cells


def shown(explanation):
    """The same, as the explanation has it."""
    heading, table = re.search(r'^Accounts, [^;]*?(; .*)?:\n\n(.*?)\n\nIn all ', explanation, re.M | re.S).groups()
    header, *lines = [re.split(r'  +', line.strip()) for line in table.splitlines()]
    if header[-2:] != ['banked yield', 'accrued yield']:
        fail(f'the last columns are {header[-2:]}')
    cells, account = {}, None
    for line in lines:
        if len(line) not in (3, 6, 9):
            fail(f'a row has the cells {line}')
        # An account's first row begins with its own cells, and one without a pool has no others.
        if len(line) != 6:
            account, line = line[0], line[3:]
        if line:
            pool, _, stake, _, banked, cell = line
            cells[account, pool.lower()] = stake, banked, cell
    return heading or '', cells


def compare(name, explanation, log, path):
    (heading, rows), (found_heading, found) = expected(log, path), shown(explanation)
    if found_heading != heading:
        fail(f'{name}: the heading ends with {found_heading!r}, and {heading!r} is due')
    # Who has left has no row in the tables, and nothing.
    for key in rows.keys() | found.keys():
        if found.get(key) != rows.get(key, ('0', '0', '0')):
            fail(f'{name}: account and pool {key} show {found.get(key)}, and {rows.get(key)} is due')
    met['a cell'] += len(found)


with tempfile.TemporaryDirectory() as room:
    path = pathlib.Path(room, 'log')
    for name in sys.argv[2:]:
        log = pathlib.Path(name).read_bytes()
        lines, left_over = divmod(len(log) - HEAD, RECORD)
        end = len(log) - left_over
        for time in None, 0, 10**9, LAST_TIME, LAST_TIME + 1, 2**64 - 1:
            more = b'' if time is None else struct.pack('<QQ32x', 0, time)
            path.write_bytes(log[:end] + more + log[end:])
            compare(f'{name}, and a line at {time}', desk('explain', path), path.read_bytes(), path)
        for line in sorted({1, lines // 3, lines // 2, lines} & set(range(1, lines + 1))):
            path.write_bytes(log[:HEAD + RECORD * line])
            compare(f'{name}, line {line}', desk('explain', name, '--line', line), path.read_bytes(), path)
for case in 'a sum below zero', 'a sum from 0 on', 'a sum past its limit', 'a stake below zero that runs':
    if not met[case]:
        fail(f'{case} is met nowhere')
print(f'{met["a cell"]} accrued yields, {met["a sum below zero"]} of them below zero')
