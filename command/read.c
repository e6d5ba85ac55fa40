/* hplog read: the listing's lines of the entries of a range of times. */
#include "commands.h"
#include "listing.h"
#include "range.h"
#include "status.h"

int command_read(const arguments *args)
{
    listing list;
    int status = range_check(args->from, args->to);
    if (status == STATUS_ACCEPTED)
        status = listing_open_range(&list, args->operands, args->from, args->to);
    if (status != STATUS_ACCEPTED)
        return status;
    status = listing_print(&list);
    listing_close(&list);
    return status;
}
