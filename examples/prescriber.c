/* "The prescriber of this crown also prescribed the implant scan": a formula that keeps a vertex in a slot (document 02, request 2026-03),
 * asked of a record while its edges are edited. Method 1 asks whether the prescriber also designed the crown, by a formula that goes back
 * to a kept vertex; method 2 the same with the crown hidden by an inner op 9. `examples/run prescriber` builds and runs it. */
#include <stdio.h>

#include "case_access.h"
#include "show.h"

enum { CROWN, SCAN, ANA, BEN };                  /* objects */
enum { PRESCRIBED_BY, MADE_FROM, DESIGNED_BY }; /* labels */

static char bundle[ACCESS_LARGEST_BUNDLE + 1];
static access_record record = ACCESS_RECORD_ZERO;

static void ask(void)
{
    decided("Ana, method 0, lazy", access_lazy(&record, 0, CROWN, ANA));
}

/* Whether the prescriber designed the crown; and the same where the person hides it. */
static void ask_designed(void)
{
    decided("Ana, method 1, lazy", access_lazy(&record, 1, CROWN, ANA));
    decided("Ana, method 2, lazy", access_lazy(&record, 2, CROWN, ANA));
}

/* The calls that evaluate afresh. */
static void check(void)
{
    answered("Ana, method 0, liberal", access_liberal(&record, 0, CROWN, ANA));
    answered("Ana, method 0, strict", access_strict(&record, 0, CROWN, ANA));
    proposed("Ana, method 0, ticket {0}", access_ticket(&record, 0, CROWN, ANA, alone(0)));
}

int main(void)
{
    if (!load(&record, bundle, fread(bundle, 1, sizeof bundle - 1, stdin)))
        return 1;
    printf("Ana prescribed the crown and the scan, Ben designed the crown:\n");
    ask();
    ask_designed();
    check();

    printf("\nNobody prescribed the scan:\n");
    edited("remove edge (0, 1, 2)", access_remove(&record, PRESCRIBED_BY, SCAN, ANA));
    ask();
    check();

    printf("\nBen prescribed the scan:\n");
    edited("add edge (0, 1, 3)", access_add(&record, PRESCRIBED_BY, SCAN, BEN));
    ask();

    printf("\nBen prescribed the crown too:\n");
    edited("add edge (0, 0, 3)", access_add(&record, PRESCRIBED_BY, CROWN, BEN));
    ask();
    ask_designed();
    check();

    printf("\nBen was designed by himself:\n");
    edited("add edge (2, 3, 3)", access_add(&record, DESIGNED_BY, BEN, BEN));
    ask_designed();
    return 0;
}
