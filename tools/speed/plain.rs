// What `session` does, written in plain Rust to be measured beside it: one market by rate, over a position centre with
// accounts 101, 102 and 103 and limit 50. Nothing here is proved, and its author knew the source of `market`.
use std::io::{self, BufRead, BufReader, BufWriter, Write};

const MOST_ON_A_SIDE: u64 = 999_999_999;
const LAST_NUMBER: u32 = 999_999;
const QUEUE: usize = 64;
const REGISTER: usize = 512;
const LIMIT: u64 = 50;

#[derive(Clone, Copy, PartialEq)]
enum Side {
    Buy,
    Sell,
}

impl Side {
    fn other(self) -> Side {
        match self {
            Side::Buy => Side::Sell,
            Side::Sell => Side::Buy,
        }
    }
}

#[derive(Clone, Copy, PartialEq)]
enum Rest {
    Queue,
    TakeOff,
    InFull,
}

#[derive(Clone, Copy)]
struct Entry {
    account: i64,
    side: Side,
    is_market: bool,
    rest: Rest,
    price: i64,
    lots: i64,
}

#[derive(Clone, Copy)]
enum Call {
    Open {
        low: i64,
        high: i64,
        deviation: i64,
    },
    Enter(Entry),
    Withdraw {
        account: i64,
        number: i64,
    },
    Reduce {
        account: i64,
        number: i64,
        lots: i64,
    },
    Suspend,
    Resume,
}

// An outcome or a refusal, with the numbers of its line.
#[derive(Clone, Copy, Default)]
struct Reply {
    outcome: u8,
    cause: u8,
    depth: u8,
    number: u32,
    traded: u64,
    resting: u64,
    taken_off: u64,
}

fn bare(outcome: u8) -> Reply {
    Reply {
        outcome,
        ..Reply::default()
    }
}

#[derive(Clone, Copy, Default)]
struct Counts {
    held: u64,
    settled: u64,
}

struct Line {
    account: i64,
    sides: [Counts; 2],
}

struct Centre {
    lines: Vec<Line>,
}

impl Centre {
    fn line(&self, account: i64) -> Option<&Line> {
        self.lines.iter().find(|line| line.account == account)
    }

    // Of an account that has a line.
    fn counts(&mut self, account: i64, side: Side) -> &mut Counts {
        let line = self.lines.iter_mut().find(|line| line.account == account);
        &mut line.unwrap().sides[side as usize]
    }

    // The cause for which an account may not take on lots.
    fn question(&self, account: i64, side: Side, lots: u64) -> Result<(), u8> {
        let line = self.line(account).ok_or(1)?;
        let mine = line.sides[side as usize];
        let after = mine.held + mine.settled + lots;
        if !(1..=1_000_000).contains(&lots) || after > MOST_ON_A_SIDE {
            return Err(2);
        }
        if after > LIMIT + line.sides[side.other() as usize].settled {
            return Err(3);
        }
        Ok(())
    }

    fn settle(&mut self, account: i64, side: Side, lots: u64) {
        let counts = self.counts(account, side);
        counts.held -= lots;
        counts.settled += lots;
    }
}

struct Order {
    number: u32,
    account: i64,
    price: i64,
    lots: u64,
}

#[allow(dead_code)]
struct Trade {
    numbers: [u32; 2],
    accounts: [i64; 2],
    price: i64,
    lots: u64,
}

#[derive(Clone, Copy, PartialEq)]
enum Period {
    Unopened,
    Trading,
    Suspended,
}

#[derive(Clone, Copy, PartialEq)]
enum Ending {
    Filled,
    Short,
    Own,
}

#[derive(Clone, Copy)]
struct Plan {
    ending: Ending,
    trades: usize,
}

struct Market {
    period: Period,
    low: i64,
    high: i64,
    deviation: u64,
    last: u32,
    queues: [Vec<Order>; 2],
    register: Vec<Trade>,
    centre: Centre,
}

fn stands_before(side: Side, price: i64, order: &Order) -> bool {
    match side {
        Side::Buy => price > order.price,
        Side::Sell => price < order.price,
    }
}

fn outcome(ending: Ending, rest: Rest, traded: u64) -> u8 {
    match (ending, rest, traded == 0) {
        (Ending::Filled, _, _) => 50,
        (Ending::Short, Rest::Queue, true) => 51,
        (Ending::Short, Rest::Queue, false) => 52,
        (Ending::Short, _, true) => 53,
        (Ending::Short, _, false) => 54,
        (Ending::Own, _, _) => 55,
    }
}

impl Market {
    fn new() -> Market {
        let lines = [101, 102, 103].map(|account| Line {
            account,
            sides: [Counts::default(); 2],
        });
        Market {
            period: Period::Unopened,
            low: 0,
            high: 0,
            deviation: 0,
            last: 0,
            queues: [Vec::with_capacity(QUEUE), Vec::with_capacity(QUEUE)],
            register: Vec::with_capacity(REGISTER),
            centre: Centre {
                lines: lines.into(),
            },
        }
    }

    fn queue(&mut self, side: Side) -> &mut Vec<Order> {
        &mut self.queues[side as usize]
    }

    fn is_eligible(&self, entry: &Entry, first: Option<i64>, price: i64) -> bool {
        if entry.is_market {
            return first.is_some_and(|first| price.abs_diff(first) <= self.deviation);
        }
        match entry.side {
            Side::Buy => entry.price >= price,
            Side::Sell => entry.price <= price,
        }
    }

    fn plan(&self, entry: &Entry) -> Plan {
        let queue = &self.queues[entry.side.other() as usize];
        let first = queue.first().map(|order| order.price);
        let mut left = entry.lots as u64;
        for (trades, order) in queue.iter().enumerate() {
            let ending = if left == 0 {
                Ending::Filled
            } else if !self.is_eligible(entry, first, order.price) {
                Ending::Short
            } else if order.account == entry.account {
                Ending::Own
            } else {
                left = left.saturating_sub(order.lots);
                continue;
            };
            return Plan { ending, trades };
        }
        let ending = if left == 0 {
            Ending::Filled
        } else {
            Ending::Short
        };
        Plan {
            ending,
            trades: queue.len(),
        }
    }

    fn is_out_of_step(&self, account: i64, side: Side) -> bool {
        let orders = self.queues[side as usize].iter();
        let resting: u64 = orders
            .filter(|o| o.account == account)
            .map(|o| o.lots)
            .sum();
        let line = self.centre.line(account);
        !line.is_some_and(|line| resting <= line.sides[side as usize].held)
    }

    fn check_terms(&self, entry: &Entry) -> Result<(), Reply> {
        if !(1..=1_000_000).contains(&entry.lots) {
            return Err(bare(2));
        }
        if entry.is_market && (entry.rest == Rest::Queue || entry.price != 0) {
            return Err(bare(3));
        }
        if !entry.is_market && !(self.low..=self.high).contains(&entry.price) {
            return Err(bare(4));
        }
        if self.last >= LAST_NUMBER {
            return Err(bare(5));
        }
        Ok(())
    }

    fn check_walk(&self, entry: &Entry, plan: Plan, joins: bool) -> Result<(), Reply> {
        let other = entry.side.other();
        if plan.ending == Ending::Own && plan.trades == 0 {
            return Err(bare(6));
        }
        if entry.rest == Rest::InFull && plan.ending != Ending::Filled {
            return Err(bare(7));
        }
        if self.register.len() + plan.trades > REGISTER {
            return Err(bare(8));
        }
        if joins && self.queues[entry.side as usize].len() >= QUEUE {
            return Err(bare(9));
        }
        let mut first = self.queues[other as usize].iter().take(plan.trades);
        if first.any(|order| self.is_out_of_step(order.account, other)) {
            return Err(bare(13));
        }
        let asked = self
            .centre
            .question(entry.account, entry.side, entry.lots as u64);
        asked.map_err(|cause| Reply { cause, ..bare(14) })
    }

    // Trades with the first order of the other queue, and gives the lots.
    fn trade(&mut self, entry: &Entry, left: u64) -> u64 {
        let other = entry.side.other();
        let number = self.last;
        let order = &mut self.queue(other)[0];
        let lots = left.min(order.lots);
        order.lots -= lots;
        let (them, price, is_empty) = ((order.number, order.account), order.price, order.lots == 0);
        if is_empty {
            self.queue(other).remove(0);
        }
        self.centre.settle(entry.account, entry.side, lots);
        self.centre.settle(them.1, other, lots);
        let (numbers, accounts) = match entry.side {
            Side::Buy => ([number, them.0], [entry.account, them.1]),
            Side::Sell => ([them.0, number], [them.1, entry.account]),
        };
        self.register.push(Trade {
            numbers,
            accounts,
            price,
            lots,
        });
        lots
    }

    // The rest joins its queue, or is given back.
    fn leave_rest(&mut self, entry: &Entry, number: u32, rest: u64, joins: bool) {
        if !joins {
            self.centre.counts(entry.account, entry.side).held -= rest;
            return;
        }
        let (account, price) = (entry.account, entry.price);
        let queue = self.queue(entry.side);
        let place = queue
            .iter()
            .position(|order| stands_before(entry.side, price, order));
        let order = Order {
            number,
            account,
            price,
            lots: rest,
        };
        queue.insert(place.unwrap_or(queue.len()), order);
    }

    fn enter(&mut self, entry: Entry) -> Result<Reply, Reply> {
        self.check_terms(&entry)?;
        let plan = self.plan(&entry);
        let joins = plan.ending == Ending::Short && entry.rest == Rest::Queue;
        self.check_walk(&entry, plan, joins)?;
        let lots = entry.lots as u64;
        self.last += 1;
        let number = self.last;
        self.centre.counts(entry.account, entry.side).held += lots;
        let mut rest = lots;
        for _ in 0..plan.trades {
            rest -= self.trade(&entry, rest);
        }
        self.leave_rest(&entry, number, rest, joins);
        let (resting, taken_off) = if joins { (rest, 0) } else { (0, rest) };
        let traded = lots - rest;
        let outcome = outcome(plan.ending, entry.rest, traded);
        Ok(Reply {
            number,
            traded,
            resting,
            taken_off,
            ..bare(outcome)
        })
    }

    fn named(&self, number: i64) -> Option<(Side, usize)> {
        [Side::Buy, Side::Sell].into_iter().find_map(|side| {
            let mut orders = self.queues[side as usize].iter();
            Some((
                side,
                orders.position(|order| i64::from(order.number) == number)?,
            ))
        })
    }

    // Takes some lots off an order, or all of them.
    fn take_off(&mut self, account: i64, number: i64, some: Option<i64>) -> Result<Reply, Reply> {
        let (side, at) = self.named(number).ok_or(bare(10))?;
        let order = &self.queues[side as usize][at];
        if order.account != account {
            return Err(bare(11));
        }
        let lots = match some {
            None => order.lots,
            Some(lots) if lots >= 1 && (lots as u64) < order.lots => lots as u64,
            Some(_) => return Err(bare(12)),
        };
        if self.is_out_of_step(account, side) {
            return Err(bare(13));
        }
        let order = &mut self.queue(side)[at];
        order.lots -= lots;
        let (number, resting) = (order.number, order.lots);
        if resting == 0 {
            self.queue(side).remove(at);
        }
        self.centre.counts(account, side).held -= lots;
        let outcome = if some.is_none() { 56 } else { 57 };
        Ok(Reply {
            number,
            resting,
            taken_off: lots,
            ..bare(outcome)
        })
    }

    fn open(&mut self, low: i64, high: i64, deviation: i64) -> Reply {
        let in_range = -999_999_999 <= low && low <= high && high <= 999_999_999;
        if !in_range || !(0..=999_999_999).contains(&deviation) {
            return bare(4);
        }
        self.period = Period::Trading;
        (self.low, self.high, self.deviation) = (low, high, deviation as u64);
        bare(60)
    }

    fn call(&mut self, call: Call) -> Reply {
        let made = match (self.period, call) {
            (
                Period::Unopened,
                Call::Open {
                    low,
                    high,
                    deviation,
                },
            ) => Ok(self.open(low, high, deviation)),
            (Period::Trading, Call::Suspend) => {
                self.period = Period::Suspended;
                Ok(bare(58))
            }
            (Period::Suspended, Call::Resume) => {
                self.period = Period::Trading;
                Ok(bare(59))
            }
            (Period::Trading, Call::Enter(entry)) => self.enter(entry),
            (Period::Trading | Period::Suspended, Call::Withdraw { account, number }) => {
                self.take_off(account, number, None)
            }
            (
                Period::Trading | Period::Suspended,
                Call::Reduce {
                    account,
                    number,
                    lots,
                },
            ) => self.take_off(account, number, Some(lots)),
            _ => Err(bare(1)),
        };
        made.unwrap_or_else(|refusal| refusal)
    }
}

fn is_blank(bytes: &[u8]) -> bool {
    bytes.iter().all(|&b| b == b' ')
}

fn number(field: &[u8]) -> Option<i64> {
    let first = field.iter().position(|&b| b != b' ')?;
    let (sign, digits) = match &field[first..] {
        [b'0'] => return Some(0),
        [b'-', digits @ ..] => (-1, digits),
        digits => (1, digits),
    };
    if let [] | [b'0', ..] = digits {
        return None;
    }
    let mut n = 0;
    for &b in digits {
        if !b.is_ascii_digit() {
            return None;
        }
        n = 10 * n + i64::from(b - b'0');
    }
    Some(sign * n)
}

fn terms(line: &[u8]) -> Option<(Side, bool, Rest)> {
    let side = match line[1] {
        b'B' => Side::Buy,
        b'S' => Side::Sell,
        _ => return None,
    };
    let is_market = match line[2] {
        b'L' => false,
        b'M' => true,
        _ => return None,
    };
    let rest = match line[3] {
        b'Q' => Rest::Queue,
        b'T' => Rest::TakeOff,
        b'F' => Rest::InFull,
        _ => return None,
    };
    Some((side, is_market, rest))
}

fn numbered(line: &[u8], terms: Option<(Side, bool, Rest)>) -> Option<Call> {
    let (first, second, third) = (&line[4..15], &line[15..26], &line[26..37]);
    if let Some((side, is_market, rest)) = terms {
        let (account, price, lots) = (number(first)?, number(second)?, number(third)?);
        return Some(Call::Enter(Entry {
            account,
            side,
            is_market,
            rest,
            price,
            lots,
        }));
    }
    Some(match line[0] {
        b'O' => {
            let (low, high, deviation) = (number(first)?, number(second)?, number(third)?);
            Call::Open {
                low,
                high,
                deviation,
            }
        }
        b'W' if is_blank(third) => Call::Withdraw {
            account: number(first)?,
            number: number(second)?,
        },
        b'R' => {
            let (account, number, lots) = (number(first)?, number(second)?, number(third)?);
            Call::Reduce {
                account,
                number,
                lots,
            }
        }
        b'H' if is_blank(&line[4..]) => Call::Suspend,
        b'G' if is_blank(&line[4..]) => Call::Resume,
        _ => return None,
    })
}

fn read(line: &[u8]) -> Result<Call, Reply> {
    if line.len() != 37 {
        return Err(bare(18));
    }
    let terms = match line[0] {
        b'E' => Some(terms(line).ok_or(bare(19))?),
        b'O' | b'W' | b'R' | b'H' | b'G' if is_blank(&line[1..4]) => None,
        _ => return Err(bare(19)),
    };
    numbered(line, terms).ok_or(bare(20))
}

const PHRASES: [(u8, &str); 28] = [
    (1, "Not in this period"),
    (2, "Lots out of range"),
    (3, "Market order: wrong type or price"),
    (4, "Price or opening terms out of range"),
    (5, "No order numbers left"),
    (6, "Refused: own order stands first"),
    (7, "Refused: cannot fill in full"),
    (8, "Trade register full"),
    (9, "Queue full"),
    (10, "No such order"),
    (11, "Order of another account"),
    (12, "Reduction out of range"),
    (13, "Clearing centre out of step"),
    (14, "Clearing centre says no"),
    (18, "Command not 37 columns"),
    (19, "Command letter not known"),
    (20, "Command number malformed"),
    (50, "Filled"),
    (51, "Resting in full"),
    (52, "Part traded, rest resting"),
    (53, "Nothing traded, all taken off"),
    (54, "Part traded, rest off at the price limit"),
    (55, "Part traded, rest off at own order"),
    (56, "Withdrawn"),
    (57, "Reduced"),
    (58, "Market suspended"),
    (59, "Market resumed"),
    (60, "Market opened"),
];

// Each outcome's phrase with the blanks after it.
fn phrase_rows() -> [[u8; 40]; 61] {
    let mut rows = [[b' '; 40]; 61];
    for (outcome, phrase) in PHRASES {
        rows[usize::from(outcome)][..phrase.len()].copy_from_slice(phrase.as_bytes());
    }
    rows
}

fn put(field: &mut [u8], n: u64) {
    let mut left = n;
    let mut is_last = true;
    for b in field.iter_mut().rev() {
        *b = if left == 0 && !is_last {
            b' '
        } else {
            b'0' + (left % 10) as u8
        };
        left /= 10;
        is_last = false;
    }
}

// Whether each number fits into its column.
fn print(rows: &[[u8; 40]; 61], line: u64, reply: &Reply, out: &mut [u8; 87]) -> bool {
    let columns = [
        (7, line),
        (3, u64::from(reply.outcome)),
        (2, u64::from(reply.cause)),
        (2, u64::from(reply.depth)),
        (7, u64::from(reply.number)),
        (8, reply.traded),
        (8, reply.resting),
        (8, reply.taken_off),
    ];
    if columns.iter().any(|&(width, n)| n >= 10u64.pow(width)) {
        return false;
    }
    let mut at = 0;
    for (width, n) in columns {
        let end = at + width as usize;
        put(&mut out[at..end], n);
        at = end;
    }
    out[45] = b' ';
    out[46..86].copy_from_slice(&rows[usize::from(reply.outcome)]);
    true
}

fn answer(market: &mut Market, command: &[u8]) -> Reply {
    read(command).map_or_else(|refusal| refusal, |call| market.call(call))
}

fn main() -> io::Result<()> {
    let mut market = Market::new();
    let rows = phrase_rows();
    let mut input = BufReader::new(io::stdin());
    let mut output = BufWriter::new(io::stdout());
    let mut line = Vec::new();
    let mut out = [b'\n'; 87];
    for number in 1..=9_999_999 {
        let buffer = input.buffer();
        let reply = if let Some(end) = buffer.iter().position(|&b| b == b'\n') {
            let reply = answer(&mut market, &buffer[..end]);
            input.consume(end + 1);
            reply
        } else {
            output.flush()?;
            line.clear();
            if input.read_until(b'\n', &mut line)? == 0 {
                return Ok(());
            }
            answer(&mut market, line.strip_suffix(b"\n").unwrap_or(&line))
        };
        if !print(&rows, number, &reply, &mut out) {
            break;
        }
        output.write_all(&out)?;
    }
    output.flush()
}
