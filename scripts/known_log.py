"""A log of any length whose answers are known by hand: stakes, withdrawals with their yield, and refusals."""
import struct

STAKE, WITHDRAW = 1, 2
BALANCED, RATE, YEAR = 1, 500, 315_360_000_000
AMOUNT, SECONDS, LAST_TIME = 10**15, 315_360, 17_179_869_183


def record(operation, now, account, amount):
    return struct.pack('<BBB5xQQQQq', operation, BALANCED, 0, now, account, account, 0, amount)


def known_log(records):
    """The log of so many records, and what a replay prints: by turns an account stakes, asks for more than it has, and takes all back later."""
    log = bytearray(b'POL' + struct.pack('<HxxxQ', 1, 1))
    out = bytearray(b'POL 1\n')
    gain = AMOUNT * RATE * SECONDS // YEAR
    for i in range(records):
        account = 2**64 - 1 - i // 3 % 1000
        now = i // 3 * SECONDS % (LAST_TIME - SECONDS)
        if i % 3 == 0:
            log += record(STAKE, now, account, AMOUNT)
            out += b'%d 0 0 0\nin %d %d\n' % (i + 1, account, AMOUNT)
        elif i % 3 == 1:
            log += record(WITHDRAW, now, account, AMOUNT + 1)
            out += b'%d 9 0 0\n' % (i + 1)
        else:
            log += record(WITHDRAW, now + SECONDS, account, AMOUNT)
            out += b'%d 0 0 0\nout %d %d\nout %d %d\n' % (i + 1, account, AMOUNT, account, gain)
    return bytes(log), bytes(out) + b'end %d 0\n' % records
