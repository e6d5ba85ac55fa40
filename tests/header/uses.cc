// hplog.h in C++: the records have C's layout, and each function is a C function.
#include "hplog.h"

#include <type_traits>

static_assert(sizeof(hplog_answer) == 24 && std::is_trivial<hplog_answer>::value, "hplog_answer");
static_assert(sizeof(hplog_cursor) == 8 && std::is_trivial<hplog_cursor>::value, "hplog_cursor");
static_assert(sizeof(hplog_step) == 32 && std::is_trivial<hplog_step>::value, "hplog_step");
static_assert(sizeof(hplog_field_step) == 64 && std::is_trivial<hplog_field_step>::value, "hplog_field_step");
static_assert(sizeof(hplog_block_answer) == 64 && std::is_trivial<hplog_block_answer>::value, "hplog_block_answer");
static_assert(sizeof(hplog_listing) == 88 && std::is_trivial<hplog_listing>::value, "hplog_listing");
static_assert(sizeof(hplog_listed) == 112 && std::is_trivial<hplog_listed>::value, "hplog_listed");
static_assert(sizeof(hplog_writer) == 64 && std::is_trivial<hplog_writer>::value, "hplog_writer");
static_assert(sizeof(hplog_written) == 88 && std::is_trivial<hplog_written>::value, "hplog_written");

// Declared again with C linkage: another linkage or another type is an error.
extern "C" {
hplog_answer hplog_open(const uint8_t *, size_t, uint8_t *, size_t, uint8_t *, size_t);
hplog_answer hplog_query(const uint8_t *, size_t, uint64_t, uint64_t, uint8_t *, size_t);
hplog_answer hplog_recover(const uint8_t *, size_t, uint8_t *, size_t, uint8_t *, size_t);
hplog_answer hplog_repair(const uint8_t *, size_t, const uint8_t *, size_t, uint8_t *, size_t);
hplog_answer hplog_label(const uint8_t *, size_t, uint8_t *, size_t);
hplog_block_answer hplog_block(const uint8_t *, size_t, const uint8_t *, size_t, uint64_t);
hplog_answer hplog_stored(const uint8_t *, size_t, const uint8_t *, size_t, uint64_t);
hplog_answer hplog_dictionary(const uint8_t *, size_t, const uint8_t *, size_t);
hplog_answer hplog_names(const uint8_t *, size_t);
hplog_answer hplog_name(const uint8_t *, size_t, uint64_t);
hplog_answer hplog_name_at(const uint8_t *, size_t, uint64_t);
hplog_answer hplog_number(const uint8_t *, size_t, const uint8_t *, size_t);
hplog_step hplog_delta(const uint8_t *, size_t, hplog_cursor);
hplog_step hplog_count(const uint8_t *, size_t, hplog_cursor);
hplog_field_step hplog_field(const uint8_t *, size_t, uint32_t, hplog_cursor);
hplog_answer hplog_check_block(const uint8_t *, size_t, uint64_t, const uint8_t *, size_t, uint32_t);
hplog_answer hplog_book(const uint8_t *, size_t, uint32_t);
hplog_answer hplog_book_parts(const uint8_t *, size_t);
hplog_answer hplog_book_part(const uint8_t *, size_t, uint64_t);
hplog_listed hplog_list(const uint8_t *, size_t, const uint8_t *, size_t);
hplog_listed hplog_list_range(const uint8_t *, size_t, const uint8_t *, size_t, uint64_t, uint64_t);
hplog_listed hplog_list_next(const uint8_t *, size_t, const uint8_t *, size_t, hplog_listing, uint8_t *, size_t);
hplog_writer hplog_writer_new(void);
hplog_written hplog_begin(hplog_writer, uint8_t *, size_t);
hplog_written hplog_add_name(hplog_writer, uint8_t *, size_t, const uint8_t *, size_t);
hplog_written hplog_add_entry(hplog_writer, uint8_t *, size_t, uint64_t, const uint8_t *, size_t, const uint8_t *,
                              size_t);
hplog_written hplog_add_block(hplog_writer, uint8_t *, size_t, uint8_t *, size_t, uint64_t, const uint8_t *, size_t,
                              const uint8_t *, size_t, uint32_t);
hplog_written hplog_close(hplog_writer, const uint8_t *, size_t, uint8_t *, size_t, const uint8_t *, size_t,
                          const uint8_t *, size_t);
}

// A label, and an empty log that is refused.
int main() {
    const uint8_t name[] = {'w', 'e', 't'};
    uint8_t panel[HPLOG_PANEL];
    const hplog_answer label = hplog_label(name, sizeof name, panel, sizeof panel);
    const hplog_answer opened = hplog_open(name, 0, panel, 0, panel, 0);
    return label.number == 0 && panel[2] == 't' && panel[15] == ' ' && opened.number == 1 && opened.place == 0 ? 0 : 1;
}
