//! What the command says of itself.

pub const ALL: &str = "\
pasumorip: the settlement engine's desk

  pasumorip replay [LOG]                      the answers to a log's calls, as the replay program prints them
  pasumorip write [TEXT] [--csv] > LOG        the log of a text, or of a CSV, of calls
  pasumorip read [LOG] [--csv]                the calls of a log as text, or as CSV
  pasumorip explain [LOG] [--line N] [--html FILE]
                                              what each line asked, what happened, and whose money moved
  pasumorip tables [LOG] [--csv]              the tables after a log

Without a file, or with -, standard input is read. 'pasumorip COMMAND --help' says more.
Exit status: 0 done; 1 the input is not what is expected, and nothing is written; 2 called wrongly.
";

const REPLAY: &str = "\
pasumorip replay [LOG]

Prints 'POL 1', a line 'NUMBER CODE FIRST SECOND' per record, a line 'in ACCOUNT AMOUNT' or 'out ACCOUNT AMOUNT' per
transfer, and 'end RECORDS LEFT-OVER-BYTES'. For a head that is short or wrong it prints only 'bad header', and
ends with status 1. A long replay shows its progress where standard error is a terminal.
";

const WRITE: &str = "\
pasumorip write [TEXT] [--csv] > LOG

Writes the log of a text with one call to a line; '#' begins a comment. The head comes first:

  open admin=1
  stake pool=balanced staker=7 amount=4000000 now=1700000000 signer=7
  withdraw pool=balanced staker=7 amount=1000000 now=1700000000 signer=7
  pay pool=flat reply=defaulted invoice=5 beneficiary=31 amount=20000 now=1700000000 signer=50
  reserve pool=balanced offer=12 amount=1200000 now=1700000000 signer=50
  claim pool=balanced offer=12 lender=31 amount=250000 now=1700000000 signer=50
  rate pool=flat rate=500 now=1700000000 signer=1
  pause now=1700000000 signer=1
  unpause now=1700000000 signer=1
  payout_caller caller=50 now=1700000000 signer=1

Pools are conservative, balanced, aggressive and flat, or 0 to 3. Replies of the registry are not-configured,
not-defaulted and defaulted, or 0 to 2. Digits may be grouped with '_'. Each field of a call is given once.
What is no call is written as its bytes in hex: 'record bytes=...' (48), 'head bytes=...' (up to 16),
'left-over bytes=...' (under 48, last).

--csv    the input is CSV: a header with the columns line, call and the fields' names, in any order, then a row
         per call; columns that no call needs may be missing, and a cell that its call does not use is empty.
         The numbers of a column 'line' begin at 0, the head, and miss none.

The proved library makes each head and each call's record. Where it refuses one, or a line is not as expected, the
line and the reason are told and nothing is written.
";

const READ: &str = "\
pasumorip read [LOG] [--csv]

Prints the calls of a log, one to a line, so that 'pasumorip write' makes the same log again, byte for byte.
A record that is no call stands as its bytes, with the reason in a comment.

--csv    prints CSV with a header, for a database: the columns line, call and every field's name
";

const EXPLAIN: &str = "\
pasumorip explain [LOG] [--line N] [--html FILE]

Tells of each line what it asked for, what happened, whose money moved and how much; for a refusal, the rule that
refused it. Then, for each account, what it paid in and was paid, its stakes before and after, and its yield as
banked and as accrued at the time of the last line; and each pool's balance and unpaid reserved sum.

--line N      only line N, and what the lines before it did
--html FILE   writes a page of the same to FILE instead: one file that needs nothing else, with a chart of balances
";

const TABLES: &str = "\
pasumorip tables [LOG] [--csv]

Prints the tables after a log: 'rooms STAKES OFFERS'; 'stake POOL ACCOUNT STAKE SINCE ACCRUAL' and
'offer POOL OFFER RESERVED PAID' per used row; 'balances' and 'unpaid' of pools 0 to 3;
'settings ADMIN PAYOUT-CALLER PAUSED RATE'.

--csv    prints CSV with a header, a row per stake, offer and pool and one for the settings
";

pub fn of(command: &str) -> Option<&'static str> {
    match command {
        "replay" => Some(REPLAY),
        "write" => Some(WRITE),
        "read" => Some(READ),
        "explain" => Some(EXPLAIN),
        "tables" => Some(TABLES),
        _ => None,
    }
}
