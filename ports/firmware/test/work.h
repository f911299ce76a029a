/* What firmware does with a file system: files of settings, a log, a boot counter, directories. */
#ifndef WORK_H
#define WORK_H

/* Performs the work on an erased flash. Ends the program if a call fails. */
void perform_work(void);

/* Called before and after each part of the work. */
extern void (*part_begins)(void);
extern void (*part_ends)(const char *name);

#endif
