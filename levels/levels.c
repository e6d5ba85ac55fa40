/* Each call of hplog.h as it was compiled for this processor: for x86-64-v3 where the processor has all of that level,
 * else for x86-64. The loader asks once, before the program's first call. */
#include "hplog.h"

#define CALL(name)                                                                                                     \
    extern __typeof__(name) name##_v1, name##_v3;                                                                      \
    static __typeof__(name) *name##_chosen(void)                                                                       \
    {                                                                                                                  \
        __builtin_cpu_init();                                                                                          \
        return __builtin_cpu_supports("x86-64-v3") ? name##_v3 : name##_v1;                                            \
    }                                                                                                                  \
    __typeof__(name) name __attribute__((ifunc(#name "_chosen")))

CALL(hplog_open);
CALL(hplog_query);
CALL(hplog_recover);
CALL(hplog_repair);
CALL(hplog_label);
CALL(hplog_block);
CALL(hplog_stored);
CALL(hplog_dictionary);
CALL(hplog_names);
CALL(hplog_name);
CALL(hplog_name_at);
CALL(hplog_number);
CALL(hplog_delta);
CALL(hplog_count);
CALL(hplog_field);
CALL(hplog_check_block);
CALL(hplog_book);
CALL(hplog_book_parts);
CALL(hplog_book_part);
CALL(hplog_list);
CALL(hplog_list_range);
CALL(hplog_list_next);
CALL(hplog_writer_new);
CALL(hplog_begin);
CALL(hplog_add_name);
CALL(hplog_add_entry);
CALL(hplog_add_block);
CALL(hplog_close);
