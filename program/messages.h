/* What goes to standard error, and the statuses that the program ends with. */
#ifndef MESSAGES_H
#define MESSAGES_H

enum status {
    STATUS_FINE = 0,
    STATUS_REFUSED = 1,   /* a chart is refused, or what is asked for is not there */
    STATUS_USAGE = 2,
    STATUS_NOT_READ = 3   /* a file is not read, or the output not written */
};

/* `turnipcart: WHAT: WHY`, the second part left out where it is null; bytes from outside are made safe. */
void complain(const char *what, const char *why);

/* The worse of two statuses. */
enum status worse(enum status first, enum status second);

#endif
