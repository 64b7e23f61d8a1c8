/* The requests of a client: a list of jobs, one request each. */
#ifndef JOBS_H
#define JOBS_H

#include "mms.h"

enum job_kind { IDENTIFY, DOMAINS, NAMES, READ };

struct job {
    enum job_kind kind;
    struct mms_name name;      /* the domain of NAMES; the variable of READ */
    char after[MMS_NAME + 1];  /* the name after which a list goes on */
};

struct jobs {
    struct job *at;
    size_t count, room;
    bool walks;  /* it also asks for everything that it finds */
    bool quiet;  /* values are not printed */
    bool wrong;  /* a request was refused, or memory ran out for a job */
};

/* Adds a job of the command line: identify, domains, names, names:DOMAIN, read:NAME or read:DOMAIN/NAME.
 * False if it is none of these. */
bool jobs_spell(struct jobs *jobs, const char *word);
void jobs_add(struct jobs *jobs, enum job_kind kind, const char *domain, const char *item, const char *after);
void jobs_put(const struct job *job, uint32_t invoke, struct ber_writer *w);
/* Prints the answer to a job, and adds the jobs that follow from it. */
void jobs_answered(struct jobs *jobs, size_t at, const struct mms_pdu *answer);

#endif
