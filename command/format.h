/* Where the fields of a log's parts stand, from the part's front on; sizes that hplog.h has not. */
#ifndef COMMAND_FORMAT_H
#define COMMAND_FORMAT_H

enum { HEADER_DICTIONARY = 10, HEADER_COUNT = 18, HEADER_FIRST = 26, HEADER_LAST = 34 };
enum { BLOCK_NUMBER = 0, BLOCK_START = 4, BLOCK_END = 12, BLOCK_STORED = 24 };
enum { INDEX_ROWS = 16 };
enum { FOOTER_INDEX = 8, FOOTER_SIZE = 24 };

#endif
