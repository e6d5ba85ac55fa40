#include "help.h"

/* Parts of more than one text. No line is longer than 80 columns. */
#define TIMES \
    "A time is a number of nanoseconds since 1970, or a date in UTC such as\n" \
    "2020-01-01T00:00:00Z with an optional fraction of up to nine digits.\n"
#define NUMBERS "--plain prints numbers, times in nanoseconds:\n"
#define BLOCK "  block NUMBER OFFSET STORED PLAIN ENTRIES START END  (a line for each block)\n"

const char help_all[] =
    "usage: hplog COMMAND [--plain] ARGUMENT...\n"
    "       hplog [COMMAND] --help\n"
    "       hplog --version\n"
    "\n"
    "Checks, searches, recovers, repairs and lists HPLOG version 1 log files.\n"
    "\n"
    "  check FILE                            check a finished file, show its blocks\n"
    "  query FILE T1 T2                      show the blocks of a range of times\n"
    "  recover FILE                          show the whole blocks of a damaged file\n"
    "  repair [--force] FILE DICTIONARY OUT  write the finished file of a damaged one\n"
    "  cat FILE BOOK                         list all entries\n"
    "  read FILE BOOK [--from T1] [--to T2]  list the entries of a range of times\n"
    "  names BOOK...                         list the field names of plain books\n"
    "  label NAME                            show a name as a panel's sixteen bytes\n"
    "\n"
    "A file that is read may be '-', standard input.\n"
    TIMES
    "--plain prints for machines, one record a line.\n"
    "\n"
    "A refusal is one line on standard error:\n"
    "  hplog: refused NUMBER PLACE: NAME: WORDS\n"
    "Exit status: 0 accepted, 1 refused, 2 wrong usage or an error of the system.\n";

const char help_check[] =
    "usage: hplog check [--plain] FILE\n"
    "\n"
    "Checks all of a finished log file and shows its parts and blocks.\n"
    "\n"
    NUMBERS
    "  file LENGTH BLOCKS FIRST LAST DICTIONARY-OFFSET DICTIONARY-STORED INDEX-OFFSET\n"
    BLOCK;

const char help_query[] =
    "usage: hplog query [--plain] FILE T1 T2\n"
    "\n"
    "Checks a finished log file and shows the blocks that hold any of the times from\n"
    "T1 to T2: those that end at T1 or later and start at T2 or earlier.\n"
    "\n"
    TIMES
    "\n"
    NUMBERS
    BLOCK;

const char help_recover[] =
    "usage: hplog recover [--plain] FILE\n"
    "\n"
    "Shows the whole blocks at the front of a file that may be damaged or cut, and\n"
    "what stopped the scan. Changes nothing; hplog repair writes the finished file.\n"
    "The status is 0 also where something stopped the scan, and 1 where the header\n"
    "is refused.\n"
    "\n"
    NUMBERS
    "  file LENGTH BLOCKS END DICTIONARY                   (DICTIONARY: 1 whole or 0)\n"
    BLOCK
    "  stop NUMBER PLACE                                   (0 0 for a clean end)\n";

const char help_repair[] =
    "usage: hplog repair [--plain] [--force] FILE DICTIONARY OUT\n"
    "\n"
    "Writes the finished file of the whole blocks of FILE to OUT. DICTIONARY holds\n"
    "the stored bytes of a dictionary, which are used where FILE has none that is\n"
    "whole; it may be empty, such as /dev/null. OUT comes to stand whole or not at\n"
    "all. It must not exist unless --force (-f) is given, and must never be FILE or\n"
    "DICTIONARY.\n"
    "\n"
    "--plain prints:\n"
    "  file LENGTH BLOCKS\n";

const char help_label[] =
    "usage: hplog label [--plain] NAME\n"
    "\n"
    "Shows a name as the sixteen bytes of a panel, filled up with spaces, between\n"
    "bars. Of a longer name the first eight bytes, a '~' and the last seven are\n"
    "shown, and 'shortened' after the bars. A NAME that starts with '-' stands after\n"
    "'--'.\n"
    "\n"
    "--plain prints the sixteen bytes without the bars, and then:\n"
    "  shortened FLAG                                      (1 shortened or 0)\n";

const char help_cat[] =
    "usage: hplog cat [--plain] FILE BOOK\n"
    "\n"
    "Checks a finished log file with its plain book and lists all entries: a line\n"
    "with the numbers of blocks and entries, then a line for each entry: its time in\n"
    "nanoseconds and NAME=VALUE for each field. VALUE is s:\"TEXT\", i:NUMBER, f:BITS\n"
    "of a real in hex, b:0 or b:1, n, or j:\"JSON\". Bytes that are not printable,\n"
    "quotes and backslashes are \\x and two hex digits. Nothing is listed where file\n"
    "or book is refused.\n"
    "\n"
    "--plain changes nothing.\n";

const char help_read[] =
    "usage: hplog read [--plain] FILE BOOK [--from T1] [--to T2]\n"
    "\n"
    "Checks a finished log file with its plain book and lists the entries from T1 to\n"
    "T2, both included, in the form of hplog cat without its first line. T1 is 0 and\n"
    "T2 the largest time where they are not given.\n"
    "\n"
    TIMES
    "\n"
    "--plain changes nothing.\n";

const char help_names[] =
    "usage: hplog names [--plain] BOOK...\n"
    "\n"
    "Checks the plain dictionary of each plain book, and lists its names with their\n"
    "numbers. The parts of a book run to its end; the last one is the dictionary.\n"
    "\n"
    "--plain prints, with names as in the lines of hplog cat:\n"
    "  book NAMES PATH\n"
    "  name NUMBER NAME                                    (a line for each name)\n";
