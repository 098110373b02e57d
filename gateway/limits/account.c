#include "limits/account.h"

#include <stdbool.h>
#include <stdlib.h>
#include <string.h>

static bool is_of(const account *it, const ipxr_limit *of)
{
    return it->of.each == of->each && it->of.burst == of->burst;
}

static account *new_account(const ipxr_limit *of)
{
    account *it = malloc(sizeof *it);
    if (it != NULL)
        *it = (account){.of = *of};
    return it;
}

ipxr_meter *account_of(account *first, const ipxr_limit *of)
{
    account *it = first;
    if (it->of.each == 0)
        it->of = *of;
    while (!is_of(it, of) && it->next != NULL)
        it = it->next;
    if (!is_of(it, of) && (it->next = new_account(of)) != NULL)
        it = it->next;
    return meter_now(&it->used);
}

void account_forget(account *first)
{
    account *next;
    for (account *gone = first->next; gone != NULL; gone = next) {
        next = gone->next;
        free(gone);
    }
    memset(first, 0, sizeof *first);
}
