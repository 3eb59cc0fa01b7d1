/* Two programs that do the same, timed side by side. */
#ifndef TIMING_H
#define TIMING_H

struct sides {
    void (*plain)(void *given);
    void (*archive)(void *given);
    void *given;
};

/* Seconds of processor time, of each side the median of all rounds. */
struct medians {
    double plain, archive;
};

/* Each side once a round; who goes first changes from round to round. */
struct medians time_sides(struct sides s, int rounds);

/* A row for table.py: what was timed, beside what, the two medians, and the ratio aimed at, 0 for none. */
void print_row(const char *what, const char *beside, struct medians m, double aim);

/* The same for what has nothing beside it: seconds, and those aimed at. */
void print_alone(const char *what, double seconds, double aim);

/* How many rounds the argument asks for: 1 to 99, 7 where it does not say. */
int rounds_of(int argc, char **argv);

/* Ends the program: a side did not do what it should. */
_Noreturn void stop(const char *why);

#endif
