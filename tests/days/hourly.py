"""Exposure by hour: the column of an operator and an hour, summed over the operator's accounts.

Worked out from the rows of the hour alone. Energy is in kWh, an estimate in cents per MWh, money in thousandths of a cent.
"""
from market_rules import CONFIRMED, F_FIRST, F_OPERATOR, PENDING, SELLS


def exposed(book, account, hour):
    """What an account hour exposes: what its net lies below zero, and its own pending sales in full."""
    bought = sold = pending = 0
    for row in book.rows:
        if not row.first <= hour <= row.last:
            continue
        if row.status == CONFIRMED:
            seller, buyer = (row.account, row.other) if row.side == SELLS else (row.other, row.account)
            sold += row.quantity if account == seller else 0
            bought += row.quantity if account == buyer else 0
        elif row.status == PENDING and row.side == SELLS and row.account == account:
            pending += row.quantity
    return (sold - bought if sold > bought else 0) + pending


def accounts_of(book, operator):
    return [account for account, has in enumerate(book.accounts, 1) if has.operator == operator]


def hourly_exposure(book, operator, hour):
    """(verdict, detail, detail), then the money where the verdict is 0. With both out of range the hour's bit, which is lower."""
    if book is None:
        return 1, 0, 0
    if not 1 <= hour <= book.hours:
        return 6, F_FIRST, 0
    if not 1 <= operator <= len(book.guarantees):
        return 6, F_OPERATOR, 0
    return 0, 0, 0, book.estimates[hour - 1] * sum(exposed(book, account, hour) for account in accounts_of(book, operator))


def check(book, operator, exposure):
    """The account amounts of an operator's columns come to its exposure, whether they are added by hour or by account."""
    hours = range(1, book.hours + 1)
    amounts = {(account, hour): book.estimates[hour - 1] * exposed(book, account, hour)
               for account in accounts_of(book, operator) for hour in hours}
    columns = [sum(amounts[account, hour] for account in accounts_of(book, operator)) for hour in hours]
    assert columns == [hourly_exposure(book, operator, hour)[3] for hour in hours]
    by_account = [sum(amounts[account, hour] for hour in hours) for account in accounts_of(book, operator)]
    assert sum(columns) == sum(by_account) == exposure, (operator, columns, by_account, exposure)
