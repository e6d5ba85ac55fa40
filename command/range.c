#include "range.h"

#include "hplog.h"
#include "status.h"
#include "words.h"

int range_check(uint64_t t1, uint64_t t2)
{
    uint8_t rows[1] = {0}, numbers[1];
    hplog_answer answer = hplog_query(rows, 0, t1, t2, numbers, 0);
    if (answer.number != 0)
        return words_refused_query("times", answer.number, answer.place);
    return STATUS_ACCEPTED;
}
