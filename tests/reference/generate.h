/* Jobs, answer files and values files for compare.c, made from a seed: see generate.c. */
#ifndef GENERATE_H
#define GENERATE_H

#include <stddef.h>
#include <stdint.h>

/* ---- Numbers from a seed: the same ones after the same seed */

void seed_draws(uint64_t seed, uint64_t number);
unsigned below(unsigned limit);          /* 0 to limit - 1 */
unsigned between(unsigned first, unsigned last);
int chance(unsigned of_1000);

/* ---- Records, a list for each section, so that faults can be put where they belong */

struct record_plan {
    unsigned length; /* as it is written; the true one is 4 + 2 * fields */
    unsigned kind;
    unsigned fields;
    unsigned field[4];
};

enum { PLAN_TYPES, PLAN_DEFINITIONS, PLAN_VARIABLES, PLAN_QUERY, PLAN_TAIL, PLAN_SECTIONS };
enum { MOST_PLANNED = 4200, MOST_BYTES = 600000 };

struct list_plan {
    size_t count;
    struct record_plan record[MOST_PLANNED];
};

/* the job that is being made; the tail is what stands behind its query */
extern struct list_plan plan[PLAN_SECTIONS];

void add_record(struct list_plan *list, unsigned kind, unsigned a, unsigned b, unsigned c);

/* ---- Jobs */

struct shape {
    unsigned types, definitions, variables; /* at most so many */
    unsigned depth;                          /* of the query */
    unsigned wild;                           /* of 1000: how often a choice may be one that 10 to 15 refuse */
};

void make_job(const struct shape *shape);
void make_answer_file(const struct shape *shape);

/* parts for a job that is made: what they add is sound by itself */
unsigned add_type_record(unsigned kind, unsigned a, unsigned b);  /* its entry */
unsigned add_node(unsigned kind, unsigned a, unsigned b, unsigned c); /* its node */
unsigned node_count(void);
unsigned type_count(void);
unsigned some_label(void);

/* ---- Bytes */

struct file {
    size_t count;
    uint8_t at[MOST_BYTES];
};

void write_plan(struct file *to);                        /* all sections in order */
void append_record(struct file *to, unsigned kind, unsigned a, unsigned b);
void write_damaged(struct file *to, unsigned how_often); /* with that many damages to records, and sometimes to bytes */

/* ---- Values files for the variables of the plan */

/*
 * Of the declared types, as far as a budget goes; `loose`, of 1000, is how often a variable gets a forest of another type. Answered is how many entries
 * there are.
 */
size_t make_values(struct file *to, unsigned budget, unsigned loose);
void damage_values(struct file *to);

#endif
