/* What a client asks for. */
#include "jobs.h"

#include <stdlib.h>
#include <string.h>

static bool copy(char to[MMS_NAME + 1], const char *from, size_t length)
{
    if (length > MMS_NAME)
        return false;
    memcpy(to, from, length);
    to[length] = '\0';
    return true;
}

void jobs_add(struct jobs *jobs, enum job_kind kind, const char *domain, const char *item, const char *after)
{
    if (jobs->count == jobs->room) {
        const size_t room = jobs->room == 0 ? 64 : 2 * jobs->room;
        struct job *more = realloc(jobs->at, room * sizeof *more);
        if (more == NULL) {
            jobs->wrong = true;
            return;
        }
        jobs->at = more;
        jobs->room = room;
    }
    struct job *job = &jobs->at[jobs->count];
    job->kind = kind;
    if (copy(job->name.domain, domain, strlen(domain)) && copy(job->name.item, item, strlen(item)) &&
        copy(job->after, after, strlen(after)))
        jobs->count++;
}

bool jobs_spell(struct jobs *jobs, const char *word)
{
    const char *of = strchr(word, ':'), *slash = of == NULL ? NULL : strchr(of, '/');
    char domain[MMS_NAME + 1] = "";
    const size_t before = jobs->count;
    if (strcmp(word, "identify") == 0)
        jobs_add(jobs, IDENTIFY, "", "", "");
    else if (strcmp(word, "domains") == 0)
        jobs_add(jobs, DOMAINS, "", "", "");
    else if (strcmp(word, "names") == 0)
        jobs_add(jobs, NAMES, "", "", "");
    else if (strncmp(word, "names:", 6) == 0 && of[1] != '\0')
        jobs_add(jobs, NAMES, of + 1, "", "");
    else if (strncmp(word, "read:", 5) == 0 && slash != NULL && slash > of + 1 && slash[1] != '\0' &&
             copy(domain, of + 1, (size_t)(slash - of - 1)))
        jobs_add(jobs, READ, domain, slash + 1, "");
    else if (strncmp(word, "read:", 5) == 0 && slash == NULL && of[1] != '\0')
        jobs_add(jobs, READ, "", of + 1, "");
    return jobs->count > before;
}

void jobs_put(const struct job *job, uint32_t invoke, struct ber_writer *w)
{
    if (job->kind == IDENTIFY)
        mms_put_identify(w, invoke);
    else if (job->kind == READ)
        mms_put_read(w, invoke, &job->name);
    else
        mms_put_name_list(w, invoke, job->kind == DOMAINS ? MMS_DOMAIN : MMS_NAMED_VARIABLE, job->name.domain, job->after);
}

/* ---- answers */

static void print_job(const struct job *job)
{
    const char *domain = job->name.domain;
    if (job->kind == IDENTIFY || job->kind == DOMAINS)
        fputs(job->kind == IDENTIFY ? "identify" : "domains", stdout);
    else if (job->kind == NAMES)
        printf(domain[0] == '\0' ? "names" : "names of %s", domain);
    else
        printf(domain[0] == '\0' ? "%s%s" : "%s/%s", domain, job->name.item);
}

static void print_identity(struct ber body)
{
    uint32_t tag;
    struct ber part;
    const char *between = ": ";
    while (ber_read(&body, &tag, &part) && tag >= 0x80 && tag <= 0x82) {
        printf("%s%.*s", between, (int)part.length, (const char *)part.at);
        between = ", ";
    }
    putchar('\n');
}

/* The names of a list. A walk asks for each, and for the rest of the list if there is more. */
static void print_names(struct jobs *jobs, const struct job job, struct ber body)
{
    struct ber list = {NULL, 0, false}, part;
    char name[MMS_NAME + 1] = "";
    ber_find(body, 0xa0, &list);
    putchar(':');
    for (uint32_t tag; ber_read(&list, &tag, &part);) {
        if (!mms_read_identifier(part, name))
            continue;
        printf(" %s", name);
        if (jobs->walks && job.kind == DOMAINS)
            jobs_add(jobs, NAMES, name, "", "");
        else if (jobs->walks)
            jobs_add(jobs, READ, job.name.domain, name, "");
    }
    putchar('\n');
    if ((!ber_find(body, 0x81, &part) || (part.length == 1 && part.at[0] != 0)) && name[0] != '\0')
        jobs_add(jobs, job.kind, job.name.domain, "", name);
}

static void print_value(struct jobs *jobs, struct ber body)
{
    struct ber results, value, number = {NULL, 0, false};
    uint32_t tag, code = 99;
    if (!ber_find(body, 0xa1, &results) || !ber_read(&results, &tag, &value)) {
        fputs(": no result\n", stdout);
        jobs->wrong = true;
    } else if (tag == 0x80) {
        number = value;
        ber_number(number, &code);
        printf(": not read, %s\n", mms_access_error(code));
        jobs->wrong = true;
    } else {
        fputs(" = ", stdout);
        mms_print_value(stdout, tag, value);
        putchar('\n');
    }
}

void jobs_answered(struct jobs *jobs, size_t at, const struct mms_pdu *answer)
{
    const struct job job = jobs->at[at < jobs->count ? at : jobs->count - 1];
    struct ber result;
    if (jobs->quiet && answer->kind == MMS_CONFIRMED_RESPONSE && ber_find(answer->body, 0xa1, &result))
        return;
    print_job(&job);
    if (answer->kind != MMS_CONFIRMED_RESPONSE) {
        printf(": refused by %s\n", answer->kind == MMS_REJECT ? "a reject" : "an error");
        jobs->wrong = true;
    } else if (job.kind == IDENTIFY) {
        print_identity(answer->body);
    } else if (job.kind == READ) {
        print_value(jobs, answer->body);
    } else {
        print_names(jobs, job, answer->body);
    }
}
