/* hplog cat: the listing of a log and its plain book. */
#include "commands.h"
#include "listing.h"
#include "status.h"

int command_cat(const arguments *args)
{
    listing list;
    int status = listing_open(&list, args->operands);
    if (status != STATUS_ACCEPTED)
        return status;
    status = listing_print(&list);
    listing_close(&list);
    return status;
}
