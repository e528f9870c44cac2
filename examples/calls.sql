-- The calls of a log, and the tables after it, as the desk's command writes and reads them in CSV. Account, offer and invoice numbers
-- and times have up to 20 digits, amounts a sign.
CREATE TABLE calls (
    line bigint PRIMARY KEY,
    call text NOT NULL,
    admin numeric(20),
    pool text,
    reply text,
    staker numeric(20),
    invoice numeric(20),
    beneficiary numeric(20),
    offer numeric(20),
    lender numeric(20),
    caller numeric(20),
    amount bigint,
    rate bigint,
    now numeric(20),
    signer numeric(20),
    bytes text
);

CREATE TABLE books (
    kind text NOT NULL,
    pool text,
    account numeric(20),
    stake bigint,
    since bigint,
    accrual bigint,
    offer numeric(20),
    reserved bigint,
    paid bigint,
    balance bigint,
    unpaid bigint,
    admin numeric(20),
    payout_caller numeric(20),
    paused boolean,
    rate bigint
);
