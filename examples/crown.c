/* Asks the crown's questions (document 01, "The crown table") of a record that this program owns, edits the record, writes it and
 * loads what was written, and then checks tickets on the crown. `examples/run` builds and runs it. */
#include <stdio.h>
#include <string.h>

#include "case_access.h"
#include "show.h"

enum { CROWN, ANA, BEN };         /* objects */
enum { DESIGNED_BY, CHECKED_BY }; /* labels */

static char bundle[ACCESS_LARGEST_BUNDLE + 1];
static access_record loaded = ACCESS_RECORD_ZERO, record = ACCESS_RECORD_ZERO;

/* The record as it was loaded: a copy of it is a fresh load. */
static access_record *fresh(void)
{
    record = loaded;
    return &record;
}

/* Prints the bundle's lines of one kind. */
static void show_lines(const char *kind)
{
    const char *line;

    for (line = bundle; *line != 0; line = strchr(line, '\n') + 1)
        if (strncmp(line + 2, kind, 2) == 0)
            printf("  %.*s\n", (int)strcspn(line, "\n"), line);
}

/* Grants that a design station proposes. Principal 1 needs 2 and excludes 0; for Ben principal 1 alone is enabled. */
static void check_tickets(void)
{
    printf("\nTickets for method 0:\n");
    proposed("Ana, {1, 2}", access_ticket(fresh(), 0, CROWN, ANA, alone(1) + alone(2)));
    proposed("Ana, {1}", access_ticket(fresh(), 0, CROWN, ANA, alone(1)));
    proposed("Ana, {0, 1}", access_ticket(fresh(), 0, CROWN, ANA, alone(0) + alone(1)));
    proposed("Ana, {2}", access_ticket(fresh(), 0, CROWN, ANA, alone(2)));
    proposed("Ben, {1}", access_ticket(fresh(), 0, CROWN, BEN, alone(1)));
    proposed("Ben, {1, 2}", access_ticket(fresh(), 0, CROWN, BEN, alone(1) + alone(2)));
}

int main(void)
{
    uint64_t result;

    if (!load(&loaded, bundle, fread(bundle, 1, sizeof bundle - 1, stdin)))
        return 1;
    decided("(a) Ana, method 0, lazy", access_lazy(fresh(), 0, CROWN, ANA));
    decided("(b) Ana, method 0, eager", access_eager(fresh(), 0, CROWN, ANA));
    decided("(c) Ana, method 1, lazy", access_lazy(fresh(), 1, CROWN, ANA));
    decided("(d) Ana, method 2, lazy", access_lazy(fresh(), 2, CROWN, ANA));
    decided("(e) Ana, method 3, lazy", access_lazy(fresh(), 3, CROWN, ANA));
    answered("(f) Ana, method 3, liberal", access_liberal(fresh(), 3, CROWN, ANA));
    answered("(g) Ana, method 3, strict", access_strict(fresh(), 3, CROWN, ANA));
    decided("(h) Ben, method 0, lazy", access_lazy(fresh(), 0, CROWN, BEN));
    answered("(i) Ben, method 0, strict", access_strict(fresh(), 0, CROWN, BEN));
    access_remove(fresh(), CHECKED_BY, CROWN, ANA);
    decided("(j) Ana no longer checker, 0, lazy", access_lazy(&record, 0, CROWN, ANA));
    decided("(k) the crown asks for itself", access_lazy(fresh(), 0, CROWN, CROWN));

    printf("\nOne record, call after call:\n");
    decided("Ana, method 0, lazy", access_lazy(fresh(), 0, CROWN, ANA));
    decided("the same, known by now", access_lazy(&record, 0, CROWN, ANA));
    edited("remove edge (1, 0, 1)", access_remove(&record, CHECKED_BY, CROWN, ANA));
    decided("Ana, method 0, lazy", access_lazy(&record, 0, CROWN, ANA));
    edited("remove it again", access_remove(&record, CHECKED_BY, CROWN, ANA));

    memset(bundle, 0, sizeof bundle);
    result = access_write(&record, (uint8_t *)bundle, sizeof bundle - 1);
    printf("written: %u bytes; edges and end are now\n", (unsigned)access_value(result));
    show_lines("03");
    show_lines("FF");
    if (!load(&record, bundle, access_value(result)))
        return 1;
    decided("loaded again: Ana, method 0, lazy", access_lazy(&record, 0, CROWN, ANA));
    edited("add edge (1, 0, 1)", access_add(&record, CHECKED_BY, CROWN, ANA));
    decided("Ana, method 0, lazy", access_lazy(&record, 0, CROWN, ANA));
    check_tickets();
    return 0;
}
