#include "systems/windows/adapters.h"

#include <stdio.h>
#include <stdlib.h>
#include <string.h>
#include <wchar.h>

#include "configuration/settings.h"
#include "systems/clock.h"
#include "systems/windows/net.h"
#include <iphlpapi.h>
#include <netioapi.h>

enum {
    ADDRESS = 6,  /* bytes of a card's */
    LASTS = 100,  /* milliseconds for which the table is right: it takes Windows long to make it, and all links are looked at together */
};

/* The table as Windows made it last, or NULL, and milliseconds of the clock then. */
static struct {
    MIB_IF_TABLE2 *table;
    uint64_t made;
} kept;

/* (a WLAN's frames come as those of Ethernet; a card that a program plays may say so much) */
static bool is_ethernet(const MIB_IF_ROW2 *row)
{
    return (row->Type == IF_TYPE_ETHERNET_CSMACD || row->Type == IF_TYPE_IEEE80211 || row->Type == IF_TYPE_PROP_VIRTUAL) &&
           row->PhysicalAddressLength == ADDRESS;
}

/* (what stands between a card and its protocols, such as a firewall, has a row of its own with the card's name and more behind it) */
static bool is_card(const MIB_IF_ROW2 *row)
{
    return !row->InterfaceAndOperStatusFlags.FilterInterface;
}

static card_state state_of(const MIB_IF_ROW2 *row)
{
    if (!is_ethernet(row))
        return CARD_OTHER;
    if (row->OperStatus == IfOperStatusUp)
        return CARD_UP;
    if (row->AdminStatus == NET_IF_ADMIN_STATUS_DOWN)
        return CARD_OFF;
    return row->OperStatus == IfOperStatusNotPresent ? CARD_ABSENT : CARD_UNPLUGGED;
}

/* (by this name Npcap knows it) */
static void put_device(const GUID *of, char device[DEVICE_ROOM])
{
    const unsigned char *last = of->Data4;
    snprintf(device, DEVICE_ROOM, "\\Device\\NPF_{%08lX-%04X-%04X-%02X%02X-%02X%02X%02X%02X%02X%02X}", of->Data1, of->Data2, of->Data3, last[0],
             last[1], last[2], last[3], last[4], last[5], last[6], last[7]);
}

static void take(const MIB_IF_ROW2 *row, adapter *it)
{
    memset(it, 0, sizeof *it);
    it->index = row->InterfaceIndex;
    it->state = state_of(row);
    if (is_ethernet(row))
        memcpy(it->card, row->PhysicalAddress, ADDRESS);
    put_device(&row->InterfaceGuid, it->device);
    if (WideCharToMultiByte(CP_UTF8, 0, row->Alias, -1, it->name, sizeof it->name, NULL, NULL) == 0)
        it->name[sizeof it->name - 1] = '\0';
}

/* All that Windows has; NULL where it can't be had. It stays until the next call. */
static const MIB_IF_TABLE2 *table_now(void)
{
    if (kept.table != NULL && clock_now() - kept.made < LASTS)
        return kept.table;
    if (kept.table != NULL)
        FreeMibTable(kept.table);
    if (GetIfTable2(&kept.table) != NO_ERROR)
        kept.table = NULL;
    kept.made = clock_now();
    return kept.table;
}

/* The number that a word names: `if` and its digits; 0 where it is no such word. */
static unsigned numbered(const char *name)
{
    char *end;
    if (_strnicmp(name, "if", 2) != 0 || name[2] < '1' || name[2] > '9')
        return 0;
    unsigned long number = strtoul(name + 2, &end, 10);
    return *end == '\0' ? (unsigned)number : 0;
}

/* The row of a card by its name. */
static const MIB_IF_ROW2 *row_named(const MIB_IF_TABLE2 *table, const char *name)
{
    wchar_t wide[NAME_ROOM];
    if (MultiByteToWideChar(CP_UTF8, MB_ERR_INVALID_CHARS, name, -1, wide, NAME_ROOM) == 0)
        return NULL;
    for (ULONG k = 0; k < table->NumEntries; k++)
        if (is_card(&table->Table[k]) && CompareStringOrdinal(table->Table[k].Alias, -1, wide, -1, TRUE) == CSTR_EQUAL)
            return &table->Table[k];
    return NULL;
}

static const MIB_IF_ROW2 *row_numbered(const MIB_IF_TABLE2 *table, unsigned index)
{
    for (ULONG k = 0; index != 0 && k < table->NumEntries; k++)
        if (is_card(&table->Table[k]) && table->Table[k].InterfaceIndex == index)
            return &table->Table[k];
    return NULL;
}

adapter_found adapter_named(const char *name, adapter *it)
{
    const MIB_IF_TABLE2 *table = table_now();
    if (table == NULL)
        return ADAPTER_UNKNOWN;
    const MIB_IF_ROW2 *row = row_named(table, name);
    if (row == NULL)
        row = row_numbered(table, numbered(name));
    if (row != NULL)
        take(row, it);
    return row != NULL ? ADAPTER_FOUND : ADAPTER_ABSENT;
}

bool adapter_numbered(unsigned index, adapter *it)
{
    const MIB_IF_TABLE2 *table = table_now();
    const MIB_IF_ROW2 *row = table != NULL ? row_numbered(table, index) : NULL;
    if (row != NULL)
        take(row, it);
    return row != NULL;
}

/* (what Windows makes for itself has a * in its name, and Windows shows it nowhere) */
static bool is_listed(const MIB_IF_ROW2 *row)
{
    return is_card(row) && is_ethernet(row) && wcschr(row->Alias, L'*') == NULL;
}

size_t adapters_all(adapter *list, size_t room)
{
    const MIB_IF_TABLE2 *table = table_now();
    size_t count = 0;
    for (ULONG k = 0; table != NULL && k < table->NumEntries && count < room; k++)
        if (is_listed(&table->Table[k]))
            take(&table->Table[k], &list[count++]);
    return count;
}
