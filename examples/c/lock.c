/* Moves money between accounts, each under a lock of its own: what the accounts hold together stays
   the same, whatever the order in which the cores come. */
#include "cores.h"
#include "numbers.h"

#define ACCOUNTS 8
#define OPENING 1000

#ifndef TRANSFERS
#define TRANSFERS 240
#endif

/* A lock and what it protects, in one line. */
struct account {
    _Alignas(LINE) struct lock lock;
    int64_t balance;
    uint64_t transfers;
};

static struct account accounts[ACCOUNTS];
static struct barrier barrier;

/* Both locks are taken in the order of the accounts, so no two cores wait for each other. */
static void transfer(uint64_t from, uint64_t to, int64_t amount)
{
    take(&accounts[from < to ? from : to].lock);
    take(&accounts[from < to ? to : from].lock);
    accounts[from].balance -= amount;
    accounts[to].balance += amount;
    accounts[to].transfers++;
    give_back(&accounts[from].lock);
    give_back(&accounts[to].lock);
}

int main(long number, long count)
{
    uint64_t core = (uint64_t)number, cores = cores_of(count);
    if (core == 0)
        for (size_t i = 0; i < ACCOUNTS; i++)
            accounts[i].balance = OPENING;
    wait_for_all(&barrier, cores);
    uint64_t end = first_item(TRANSFERS, core + 1, cores);
    for (uint64_t i = first_item(TRANSFERS, core, cores); i < end; i++) {
        uint64_t random = mixed(i);
        uint64_t from = random % ACCOUNTS;
        uint64_t to = (from + 1 + random / ACCOUNTS % (ACCOUNTS - 1)) % ACCOUNTS;
        transfer(from, to, (int64_t)(random >> 56));
    }
    wait_for_all(&barrier, cores);
    int64_t money = 0;
    uint64_t transfers = 0;
    for (size_t i = 0; i < ACCOUNTS; i++) {
        money += accounts[i].balance;
        transfers += accounts[i].transfers;
    }
    if (money != ACCOUNTS * OPENING || transfers != TRANSFERS)
        return 1;
    if (core == 0) {
        print_number(transfers);
        print(" transfers\n");
    }
    return 0;
}
