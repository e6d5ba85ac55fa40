/* Exit statuses. */
#ifndef COMMAND_STATUS_H
#define COMMAND_STATUS_H

enum { STATUS_ACCEPTED = 0, STATUS_REFUSED = 1, STATUS_ERROR = 2 };

#endif
