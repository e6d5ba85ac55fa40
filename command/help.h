/* Help texts. */
#ifndef COMMAND_HELP_H
#define COMMAND_HELP_H

extern const char help_all[];
extern const char help_check[];
extern const char help_query[];
extern const char help_recover[];
extern const char help_repair[];
extern const char help_label[];
extern const char help_cat[];
extern const char help_read[];
extern const char help_names[];

#endif
