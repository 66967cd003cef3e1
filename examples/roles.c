/* A grant shown by relation where one exists: of sets with equally few members the one with fewer role principals comes first (document 02,
 * request 2026-06). Method 0 opens the scan, method 1 releases the crown, method 2 opens the toolpath. `examples/run roles` builds and
 * runs it. */
#include <stdio.h>

#include "case_access.h"
#include "show.h"

enum { CROWN, ANA, BEN };         /* objects */
enum { DESIGNED_BY };             /* labels */
enum { SCAN, RELEASE, TOOLPATH }; /* methods */

static char bundle[ACCESS_LARGEST_BUNDLE + 1];
static access_record record = ACCESS_RECORD_ZERO;

int main(void)
{
    if (!load(&record, bundle, fread(bundle, 1, sizeof bundle - 1, stdin)))
        return 1;
    printf("Ana designed and checked the crown, and holds both roles:\n");
    decided("Ana, method 0, lazy", access_lazy(&record, SCAN, CROWN, ANA));
    proposed("Ana, method 0, ticket {0}", access_ticket(&record, SCAN, CROWN, ANA, alone(0)));

    printf("\nOnly a larger set avoids the role:\n");
    decided("Ana, method 1, lazy", access_lazy(&record, RELEASE, CROWN, ANA));
    proposed("Ana, method 1, ticket {3, 4}", access_ticket(&record, RELEASE, CROWN, ANA, alone(3) + alone(4)));

    printf("\nA formula that contains a role is not of op 3:\n");
    decided("Ana, method 2, lazy", access_lazy(&record, TOOLPATH, CROWN, ANA));

    printf("\nBen holds the technician's role alone:\n");
    decided("Ben, method 0, lazy", access_lazy(&record, SCAN, CROWN, BEN));
    decided("Ben, method 2, lazy", access_lazy(&record, TOOLPATH, CROWN, BEN));

    printf("\nBen designed the crown too:\n");
    edited("add edge (0, 0, 2)", access_add(&record, DESIGNED_BY, CROWN, BEN));
    decided("Ben, method 0, lazy", access_lazy(&record, SCAN, CROWN, BEN));
    decided("Ben, method 0, eager", access_eager(&record, SCAN, CROWN, BEN));
    decided("Ben, method 2, lazy", access_lazy(&record, TOOLPATH, CROWN, BEN));
    return 0;
}
