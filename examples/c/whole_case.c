/* The paper's whole case: account 1 sells 18,000 kWh in hour 1, account 2 confirms, the gate is closed, 15,000 kWh are scheduled for
 * injection, and the day is settled. Prints each verdict with its details, three readings, and what the settle gives. */
#include "energy_book.h"

#include <inttypes.h>
#include <stdio.h>
#include <string.h>

#define HOURS 24

static uint8_t book[ENERGY_BOOK_SIZE];

/* Appends a number of `width` bytes, and returns the place behind it. */
static size_t append(uint8_t *bytes, size_t at, size_t width, uint64_t value) {
    energy_book_put(bytes + at, width, value);
    return at + width;
}

static size_t append_operator(uint8_t *bytes, size_t at, uint64_t guarantee, unsigned maintenance) {
    at = append(bytes, at, 8, guarantee);
    return append(bytes, at, 2, maintenance);
}

/* An account whose margins are the same in each hour: a lower one for each, then an upper one for each. */
static size_t append_account(uint8_t *bytes, size_t at, unsigned operator_number, unsigned kind, uint32_t lower, uint32_t upper) {
    int hour;
    at = append(bytes, at, 1, operator_number);
    at = append(bytes, at, 1, kind);
    for (hour = 1; hour <= HOURS; hour++) at = append(bytes, at, 4, lower);
    for (hour = 1; hour <= HOURS; hour++) at = append(bytes, at, 4, upper);
    return at;
}

/* 24 hours, two operators, two accounts, one point, one zone. */
static size_t make_setup(uint8_t *bytes) {
    const uint8_t counts[5] = {HOURS, 2, 2, 1, 1};
    size_t at = sizeof counts;
    int hour;
    memcpy(bytes, counts, sizeof counts);
    for (hour = 1; hour <= HOURS; hour++) at = append(bytes, at, 4, 5000);
    at = append_operator(bytes, at, 100000, 100);
    at = append_operator(bytes, at, 0, 0);
    at = append_account(bytes, at, 1, 1, 20000, 0);
    at = append_account(bytes, at, 2, 2, 0, 20000);
    at = append(bytes, at, 1, 1); /* the point: account 1, */
    at = append(bytes, at, 1, 1); /* kind injection, */
    at = append(bytes, at, 1, 1); /* zone 1, */
    at = append(bytes, at, 4, 15000); /* greatest injection, */
    return append(bytes, at, 4, 0); /* greatest withdrawal */
}

static void say(const char *what, uint64_t outcome) {
    printf("%-10s %u %u %u\n", what, energy_book_verdict(outcome), energy_book_first(outcome), energy_book_second(outcome));
}

static void trade(const char *what, unsigned kind, unsigned account, unsigned other, unsigned side) {
    struct energy_book_request q;
    memset(&q, 0, sizeof q);
    q.kind = (uint8_t)kind;
    q.account = (uint8_t)account;
    q.other = (uint8_t)other;
    q.side = (uint8_t)side;
    q.first = 1;
    q.last = 1;
    q.quantity = 18000;
    say(what, energy_book_submit(&q, book, sizeof book));
}

static void close_gate_and_schedule(void) {
    struct energy_book_request q;
    memset(&q, 0, sizeof q);
    q.kind = ENERGY_BOOK_CLOSE_GATE;
    say("close", energy_book_submit(&q, book, sizeof book));
    q.kind = ENERGY_BOOK_SCHEDULE;
    q.side = 1;
    q.first = 1;
    q.quantity = 15000;
    q.point = 1;
    q.price = 3000;
    say("schedule", energy_book_submit(&q, book, sizeof book));
}

static void read_out(void) {
    uint8_t figure[ENERGY_BOOK_FIGURE_SIZE];
    uint64_t outcome = energy_book_net(book, sizeof book, 1, 1, figure, sizeof figure);
    say("net", outcome);
    if (energy_book_verdict(outcome) == ENERGY_BOOK_ACCEPTED) printf("  %" PRId64 " kWh\n", energy_book_figure(figure));
    outcome = energy_book_exposure(book, sizeof book, 1, figure, sizeof figure);
    say("exposure", outcome);
    if (energy_book_verdict(outcome) == ENERGY_BOOK_ACCEPTED) printf("  %" PRId64 " thousandths of a cent\n", energy_book_figure(figure));
    outcome = energy_book_hourly_exposure(book, sizeof book, 1, 1, figure, sizeof figure);
    say("hourly", outcome);
    if (energy_book_verdict(outcome) == ENERGY_BOOK_ACCEPTED) printf("  %" PRId64 " thousandths of a cent in hour 1\n", energy_book_figure(figure));
}

/* PUN 6,000 and zone price 5,500 in hour 1, the rest 0. */
static void settle(void) {
    const uint8_t record[3] = {0x01, 0x00, ENERGY_BOOK_SETTLE};
    uint8_t prices[4 * HOURS * 2], results[ENERGY_BOOK_RESULTS_MOST], balances[ENERGY_BOOK_BALANCES_MOST];
    uint64_t outcome;
    memset(prices, 0, sizeof prices);
    memset(results, 0, sizeof results);
    memset(balances, 0, sizeof balances);
    energy_book_put(prices, 4, 6000);
    energy_book_put(prices + 4 * HOURS, 4, 5500);
    outcome = energy_book_call(record, sizeof record, book, sizeof book, prices, sizeof prices, results, sizeof results, balances,
                               sizeof balances);
    say("settle", outcome);
    if (energy_book_verdict(outcome) != ENERGY_BOOK_ACCEPTED) return;
    printf("  schedule 1: result %u\n", results[0]);
    printf("  operator 1: %" PRId64 "\n", energy_book_figure(balances));
    printf("  operator 2: %" PRId64 "\n", energy_book_figure(balances + ENERGY_BOOK_FIGURE_SIZE));
}

int main(void) {
    uint8_t setup[ENERGY_BOOK_SETUP_MOST];
    size_t length = make_setup(setup);
    say("open", energy_book_open(setup, length, book, sizeof book));
    trade("register", ENERGY_BOOK_REGISTER, 1, 2, 1);
    read_out();
    trade("confirm", ENERGY_BOOK_CONFIRM, 2, 1, 2);
    read_out();
    close_gate_and_schedule();
    settle();
    return 0;
}
