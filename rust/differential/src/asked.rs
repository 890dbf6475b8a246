//! Days with asks: committed, replaced and cleared; at limits, in batches, of all accounts, to the last row, and in rank.

use crate::directed::{day, paper_setup};
use crate::made::*;
use crate::Day;
use reference::days::Step;
use reference::*;

/// The days and their names.
pub(crate) fn days() -> Vec<(String, Day)> {
    let mut days = vec![
        (String::from("asks"), whole()),
        (String::from("asks-fields"), fields()),
        (String::from("asks-clearing"), clearing()),
        (String::from("asks-batches"), batches()),
        (String::from("asks-limits"), limits()),
        (String::from("asks-all"), all_accounts()),
        (String::from("asks-rank"), rank()),
    ];
    days.extend([254, 255, 256].map(|rows| (format!("asks-{rows}"), nearly_full(rows))));
    days
}

/// A sale of an account to the next one in hours 2 to 4.
fn sale(account: u8, code: u64) -> Request {
    trade(account, account % 32 + 1, 1, (2, 4), 10, code)
}

/// Asks committed; cleared by another's register; replaced; of two accounts; left standing by a refused one; after the gate.
fn whole() -> Day {
    let setup = largest_setup();
    let requests: Vec<Request> = (0..12).map(|code| sale(1, code)).collect();
    let (other, over) = (sale(3, 1), Request { quantity: GREATEST_QUANTITY + 1, ..sale(1, 90) });
    let mut all = vec![ask(&requests[0]), commit(&requests[0]), commit(&requests[0]), ask(&requests[0])];
    all.extend([ask(&requests[1]), other, commit(&requests[1]), ask(&requests[1]), commit(&requests[1]), mirror(&requests[1])]);
    all.extend([ask(&requests[2]), ask(&requests[3]), commit(&requests[2]), commit(&requests[3])]);
    all.extend([
        ask(&requests[4]),
        ask(&sale(3, 2)),
        ask(&sale(5, 2)),
        commit(&sale(3, 2)),
        commit(&requests[4]),
        commit(&sale(5, 2)),
    ]);
    all.extend([ask(&requests[5]), ask(&over), commit(&over), ask(&requests[3]), commit(&requests[5])]);
    all.extend([ask(&requests[6]), ask(&requests[6]), requests[6], commit(&requests[6])]);
    all.extend([ask(&requests[7]), simple(kind::CLOSE_GATE), ask(&requests[8]), commit(&requests[7]), commit(&over)]);
    let mut calls: Vec<Step> = all.iter().map(call).collect();
    calls.push(settle(prices(&setup, 5, 6)));
    calls.extend([ask(&requests[9]), commit(&requests[7])].iter().map(call));
    day(&setup, calls)
}

/// A commit that differs from what stands in one field, by each bit of the code, and by values beside the others; then the ask itself.
fn fields() -> Day {
    let asked = sale(7, 0x0807_0605_0403_0201);
    let mut others: Vec<Request> = (0..64).map(|bit| Request { code: asked.code ^ 1 << bit, ..asked }).collect();
    others.extend([1, 6, 8, 32].map(|account| Request { account, ..asked }));
    others.extend([1, 6, 9, 32].map(|other| Request { other, ..asked }));
    others.push(Request { side: 2, ..asked });
    others.extend([1, 3, 4].map(|first| Request { first, ..asked }));
    others.extend([2, 3, 5, 25].map(|last| Request { last, ..asked }));
    others.extend([9, 11, 266, GREATEST_QUANTITY].map(|quantity| Request { quantity, ..asked }));
    others.push(mirror(&asked));
    let mut calls = vec![call(&ask(&asked))];
    calls.extend(others.iter().map(|other| call(&commit(other))));
    calls.push(call(&commit(&asked)));
    // What is not committed can be asked, and stands in turn.
    for other in &others {
        calls.extend([ask(other), commit(&asked), ask(&sale(9, 1)), commit(other)].iter().map(call));
    }
    day(&largest_setup(), calls)
}

/// Between an ask and its commit a call of each kind, accepted or refused.
fn clearing() -> Day {
    let (pending, withdrawn) = (sale(20, 0), sale(21, 0));
    let between = [
        call(&sale(22, 0)),
        call(&sale(22, 0)),
        call(&mirror(&sale(22, 1))),
        call(&mirror(&sale(22, 0))),
        call(&withdrawal(3, 2)),
        call(&withdrawal(21, 2)),
        call(&guarantee(1, 1)),
        call(&guarantee(1, GREATEST_GUARANTEE)),
        call(&guarantee(17, 1)),
        call(&simple(kind::UNDO)),
        call(&simple(kind::KEEP)),
        call(&simple(kind::OPEN_BATCH)),
        call(&simple(kind::OPEN_BATCH)),
        call(&simple(kind::CLOSE_GATE)),
        call(&simple(kind::KEEP)),
        call(&schedule(1, 1, 1, 1, 1)),
        call(&simple(kind::SETTLE)),
        settle(prices(&largest_setup(), 1, 2)),
        strip(&[sale(22, 5), sale(22, 6)]),
        strip(&[sale(22, 7), sale(22, 7)]),
        strip(&[]),
        of_record(vec![1, 0, 14]),
        of_record(vec![]),
        call(&ask(&sale(24, 1))),
        call(&ask(&Request { side: 0, ..sale(24, 1) })),
        call(&commit(&sale(24, 1))),
        call(&simple(kind::CLOSE_GATE)),
    ];
    let mut calls = vec![call(&pending), call(&withdrawn)];
    for (code, step) in (1_000..).zip(between) {
        let asks = [1, 2, 32].map(|account| sale(account, code));
        calls.extend(asks.iter().map(|request| call(&ask(request))));
        calls.push(step);
        calls.extend(asks.iter().map(|request| call(&commit(request))));
    }
    day(&largest_setup(), calls)
}

/// Asks before a batch, in it and after it, where it is undone and where it is kept.
fn batches() -> Day {
    let mut requests = vec![sale(1, 0), mirror(&sale(1, 0)), sale(1, 1)];
    let (open, again) = (simple(kind::OPEN_BATCH), sale(3, 9));
    for (code, end) in (10..).zip([kind::UNDO, kind::KEEP, kind::UNDO, kind::UNDO, kind::KEEP]) {
        let (before, inside) = (sale(1, code), sale(2, code));
        requests.extend([ask(&before), open, commit(&before), ask(&before), commit(&before), ask(&inside), ask(&again)]);
        // The row that was pending as saved is none any more.
        requests.extend([withdrawal(1, 2), ask(&sale(1, 1)), open, commit(&sale(1, 1)), ask(&inside), simple(end)]);
        requests.extend([commit(&inside), commit(&before), ask(&before), commit(&before), ask(&again)]);
    }
    requests.extend([
        ask(&again),
        open,
        simple(kind::KEEP),
        commit(&again),
        ask(&again),
        open,
        simple(kind::UNDO),
        commit(&again),
    ]);
    day(&largest_setup(), requests.iter().map(call).collect())
}

/// Margins and guarantee met and passed by one, on top of what is pending and traded, and by an ask that takes the place of another.
fn limits() -> Day {
    let mut setup = paper_setup(GREATEST_GUARANTEE, 20_000);
    setup.operators[1].guarantee = GREATEST_GUARANTEE;
    setup.accounts[0].upper_margins.fill(5_000);
    setup.accounts[0].lower_margins[6] = 19_000;
    let row = |side, hours, quantity, code| trade(1, 2, side, hours, quantity, code);
    let mut requests = Vec::new();
    for prior in [None, Some(row(1, (3, 9), 400, 90)), Some(row(2, (3, 9), 300, 90))] {
        for confirmed in [false, true] {
            requests.push(simple(kind::OPEN_BATCH));
            requests.extend(prior);
            requests.extend(prior.filter(|_| confirmed).map(|row| mirror(&row)));
            for (side, hours, limit) in [(1, (1, 24), 19_000), (1, (8, 24), 20_000), (1, (7, 7), 19_000), (2, (1, 24), 5_000)] {
                for less in [0, 300, 400] {
                    let rows = [0, 1, 2].map(|more| row(side, hours, limit - less + more, 7));
                    requests.extend(rows.map(|row| ask(&row)));
                    requests.extend(rows.map(|row| commit(&row)));
                    requests.extend([simple(kind::UNDO), simple(kind::OPEN_BATCH)]);
                }
            }
            requests.push(simple(kind::UNDO));
        }
    }
    // 5,000 cents less a tenth cover 900 kWh at the estimate, or 90 in ten hours.
    requests.push(guarantee(1, 5_000));
    for (hours, limit) in [((1, 1), 900), ((5, 14), 90), ((24, 24), 900)] {
        requests.push(simple(kind::OPEN_BATCH));
        requests.extend([limit + 1, limit, limit - 1, limit + 1].map(|quantity| ask(&row(1, hours, quantity, 8))));
        requests.extend([ask(&row(1, hours, limit, 8)), guarantee(1, 4_999), commit(&row(1, hours, limit, 8))]);
        requests.extend([ask(&row(1, hours, limit, 8)), commit(&row(1, hours, limit - 1, 8)), commit(&row(1, hours, limit, 8))]);
        // Nothing is left to sell.
        requests.extend([
            ask(&row(1, hours, 1, 9)),
            ask(&row(2, hours, 1, 9)),
            guarantee(1, 4_999),
            commit(&row(2, hours, 1, 9)),
        ]);
        requests.push(simple(kind::UNDO));
    }
    // A guarantee that covers what there is, but would not cover the ask, clears it.
    requests.extend([ask(&row(1, (1, 1), 900, 8)), guarantee(1, 0), commit(&row(1, (1, 1), 900, 8)), ask(&row(1, (1, 1), 1, 8))]);
    day(&setup, requests.iter().map(call).collect())
}

/// All accounts ask, and one of them commits, each in its turn; the next has nothing then.
fn all_accounts() -> Day {
    let mut calls = Vec::new();
    for turn in 1..=32 {
        let code = u64::from(turn);
        calls.extend((1..=32).map(|account| call(&ask(&sale(account, code)))));
        calls.extend([turn, turn % 32 + 1].map(|account| call(&commit(&sale(account, code)))));
    }
    day(&largest_setup(), calls)
}

/// Asks where so many rows stand, of several accounts, and commits to the last row.
fn nearly_full(stand: u16) -> Day {
    let mut calls: Vec<Step> = rows(stand).iter().map(call).collect();
    for code in [1_000, 2_000, 3_000] {
        let asks = [1, 16, 32].map(|account| sale(account, code));
        calls.extend(asks.iter().chain(&asks).map(|request| call(&ask(request))));
        calls.extend(asks.iter().map(|request| call(&commit(request))));
    }
    calls.extend([call(&withdrawal(1, 1)), call(&ask(&sale(1, 9))), call(&commit(&sale(1, 9))), call(&ask(&rows(256)[4]))]);
    day(&largest_setup(), calls)
}

/// What refuses an ask or a commit: each alone and every two, where rows are left and where none is, and after the gate.
fn rank() -> Day {
    type Change = fn(&mut Request);
    let changes: [Change; 7] = [
        |_| {},
        |request| request.quantity = 0,
        |request| request.account = 33,
        |request| request.other = request.account,
        |request| (request.other, request.code) = (2, 0),
        |request| request.quantity = GREATEST_QUANTITY,
        |request| request.quantity = GREATEST_QUANTITY - 1_000,
    ];
    // Account 1 has not the margin for a sale of the greatest quantity, nor its operator the guarantee for one of little less.
    let mut setup = largest_setup();
    setup.operators[0].guarantee = 1_000_000_000;
    setup.accounts[0].lower_margins.fill(GREATEST_QUANTITY - 150);
    let mut calls: Vec<Step> = rows(255).iter().map(call).collect();
    let pending = rows(1)[0];
    assert_eq!((pending.account, pending.other, pending.code), (1, 2, 0));
    for place in 0..3 {
        for one in changes {
            for other in changes {
                let mut request = sale(1, 1_000);
                one(&mut request);
                other(&mut request);
                // Before any ask, and after one that stands.
                calls.extend([commit(&request), ask(&request), ask(&sale(1, 2_000)), commit(&request)].iter().map(call));
            }
        }
        let next = [sale(5, 5_000), simple(kind::CLOSE_GATE)];
        calls.extend(next.get(place).map(call));
    }
    day(&setup, calls)
}
