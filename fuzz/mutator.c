/* Changes to inputs that keep their structure, so that they get past the checks. */
#include <stdlib.h>
#include <string.h>

#include "formulas.h"
#include "random.h"
#include "sets.h"

size_t LLVMFuzzerMutate(uint8_t *data, size_t size, size_t max_size);

static struct bundle bundle;
static uint8_t calls[MOST_CALLS];
static size_t calls_length;

/* The body length of a kind. */
static unsigned body_length(unsigned kind)
{
    static const uint8_t lengths[] = {0, 2, 3, 3, 3, 8, 2, 2, 2, 2, 9};

    return kind == END ? 6 : kind <= METHOD ? lengths[kind] : below(12);
}

/* Whether the lines of a kind rise. */
static bool rising(unsigned kind)
{
    return kind == USER || kind == EDGE || kind == HIERARCHY || kind == EXCLUSION || kind == PREREQUISITE;
}

/* A number below n, sometimes one just past it. */
static uint8_t named(size_t n)
{
    return (uint8_t)(one_in(100) ? n : below((unsigned)n));
}

/* An object, mostly one of the first few. */
static uint8_t an_object(void)
{
    unsigned objects = objects_of(&bundle);

    return named(one_in(3) || objects < 6 ? objects : 6);
}

/* Another value for an octet: near the old one, small, at a limit, or any. */
static uint8_t another(uint8_t old)
{
    static const uint8_t limits[] = {0, 1, 3, 4, 5, 6, 11, 12, 15, 16, 19, 20, 31, 32, 63, 64, 127, 128, 254, 255};
    unsigned objects = objects_of(&bundle);

    switch (below(6)) {
    case 0:
        return old + 1;
    case 1:
        return old - 1;
    case 2:
        return (uint8_t)below(4);
    case 3:
        return limits[below(sizeof limits)];
    case 4:
        return (uint8_t)(objects - below(2));
    default:
        return (uint8_t)random_any();
    }
}

/* Privileges: a few of the first, of all, or any. */
static void fill_privileges(uint8_t *octets)
{
    unsigned i, bits = below(4);

    memset(octets, 0, 8);
    if (one_in(20))
        bits = 64;
    for (i = 0; i < bits; i++) {
        unsigned privilege = below(one_in(4) ? 64 : 6);
        octets[7 - privilege / 8] |= (uint8_t)(1 << privilege % 8);
    }
}

/* A label: that of an edge, one of the first few, or any. */
static uint8_t a_label(void)
{
    const struct line *edge = line_of(&bundle, EDGE, below((unsigned)count_of(&bundle, EDGE)));

    return edge && one_in(2) ? edge->octets[2] : (uint8_t)below(one_in(4) ? LABELS : 3);
}

/* A role: the lowest that one of the users holds, one of the first few, or any. */
static uint8_t a_role(void)
{
    const struct line *user = line_of(&bundle, USER, below((unsigned)count_of(&bundle, USER)));
    unsigned held = user ? (unsigned)user->octets[3] << 8 | user->octets[4] : 0;

    return held && one_in(2) ? (uint8_t)__builtin_ctz(held) : named(one_in(3) ? 3 : ROLES);
}

/* A slot, mostly one of two so that they meet. */
static uint8_t a_slot(void)
{
    return named(one_in(3) ? SLOTS : 2);
}

/* An op for a formula behind so many others, sometimes one just past the last. */
static uint8_t an_op(size_t own)
{
    static const uint8_t plain[] = {0, 1, 2, 3, HERE};

    return own ? named(OPS) : plain[below(sizeof plain)];
}

/* A formula of an op whose parts are among those before it: where it is to be on top the last one, and often the last but one. */
static void fill_op(uint8_t *body, uint8_t op, bool on_top)
{
    size_t own = count_of(&bundle, FORMULA);
    uint8_t a = on_top && own > 1 && one_in(2) ? (uint8_t)(own - 2) : named(own), b = on_top && own ? (uint8_t)(own - 1) : named(own);

    body[0] = op;
    body[1] = op < ROLE ? 0 : op == ROLE ? a_role() : op == NOT ? b : op < FORWARD ? a : op < KEEP ? a_label() : a_slot();
    body[2] = b_is_part(op) ? b : 0;
}

/* A formula, mostly on top of the last one so that heights grow. */
static void fill_formula(uint8_t *body)
{
    fill_op(body, an_op(count_of(&bundle, FORMULA)), one_in(2));
}

/* Two different numbers below n, mostly in rising order. */
static void fill_pair(uint8_t *body, size_t n)
{
    uint8_t p = named(n), q = named(n);
    bool falls = one_in(12);

    if (p == q && n && !one_in(100))
        q = (uint8_t)((q + 1u) % n);
    body[0] = (p < q) != falls ? p : q;
    body[1] = (p < q) != falls ? q : p;
}

/* A body that suits a kind and the lines there are. */
static void fill_body(unsigned kind, uint8_t *body)
{
    switch (kind) {
    case USER:
        body[0] = an_object(), body[1] = (uint8_t)random_any(), body[2] = (uint8_t)random_any();
        break;
    case EDGE:
        body[0] = a_label(), body[1] = an_object(), body[2] = an_object();
        break;
    case FORMULA:
        fill_formula(body);
        break;
    case DEMARCATION:
        fill_privileges(body);
        break;
    case HIERARCHY:
        fill_pair(body, count_of(&bundle, DEMARCATION));
        break;
    case PRINCIPAL:
        body[0] = named(count_of(&bundle, FORMULA)), body[1] = named(count_of(&bundle, DEMARCATION));
        break;
    case EXCLUSION:
    case PREREQUISITE:
        fill_pair(body, count_of(&bundle, PRINCIPAL));
        break;
    case METHOD:
        body[0] = (uint8_t)below(2), fill_privileges(body + 1);
        break;
    default:
        body[0] = 1, body[1] = (uint8_t)(1 + below(12));
    }
}

/* Puts a line before a place; without room nothing happens. */
static void insert_line(size_t place, struct line line)
{
    if (bundle.count == MOST_LINES)
        return;
    memmove(&bundle.lines[place + 1], &bundle.lines[place], (bundle.count - place) * sizeof line);
    bundle.lines[place] = line;
    bundle.count++;
}

/* Takes a line out. */
static void remove_line(size_t place)
{
    memmove(&bundle.lines[place], &bundle.lines[place + 1], (bundle.count - place - 1) * sizeof *bundle.lines);
    bundle.count--;
}

/* Puts a line behind the others of its kind. */
static void append_line(struct line line)
{
    size_t place = bundle.count;

    while (place > 0 && kind_of(&bundle.lines[place - 1]) > kind_of(&line))
        place--;
    insert_line(place, line);
}

/* Adds a suitable line of a kind. */
static void add_line(unsigned kind)
{
    struct line line = {.octets = {0, (uint8_t)kind}, .count = 3 + body_length(kind)};

    fill_body(kind, line.octets + 2);
    append_line(line);
}

/* Adds a formula of an op on top of the last one; its slot is the given one where it has one. */
static void add_on_top(uint8_t op, uint8_t slot)
{
    struct line line = {.octets = {0, FORMULA}, .count = 3 + body_length(FORMULA)};

    fill_op(line.octets + 2, op, true);
    if (op >= KEEP)
        line.octets[3] = slot;
    append_line(line);
}

/* The body of a line of a kind by its place among them, to be changed, or none. */
static uint8_t *body_of(unsigned kind, size_t number)
{
    size_t i;

    for (i = 0; i < bundle.count; i++)
        if (kind_of(&bundle.lines[i]) == kind && number-- == 0)
            return bundle.lines[i].octets + 2;
    return NULL;
}

/* Adds formulas that ask for a slot: whether it holds here, what is true at its vertex, or whether it holds here beside its op 9. The
 * height of the last one. */
static unsigned add_asking(uint8_t slot)
{
    switch (below(5)) {
    case 0:
    case 1:
        add_on_top(HERE, slot);
        return 0;
    case 2:
    case 3:
        add_on_top((uint8_t)(1 + below(2)), 0), add_on_top(AT, slot);
        return 1;
    default:
        add_on_top(HERE, slot), add_on_top(KEEP, slot), add_on_top(HERE, slot), add_on_top((uint8_t)(AND + below(2)), 0);
        return 2;
    }
}

/* Adds formulas that keep a vertex, or two, mostly go elsewhere, and ask for it there, as far as heights allow. */
static void add_naming(void)
{
    static const uint8_t between[] = {FORWARD, FORWARD, FORWARD, BACKWARD, BACKWARD, NOT, AND, OR, KEEP, AT};
    uint8_t slot = a_slot();
    unsigned kept, steps, left = HIGHEST - add_asking(slot);

    for (kept = 1 + below(2); kept > 0; kept--) {
        for (steps = below(4); steps > 0 && left > kept; steps--, left--)
            add_on_top(between[below(sizeof between)], one_in(2) ? slot : a_slot());
        add_on_top(KEEP, one_in(4) ? a_slot() : slot), left--;
    }
    if (left > 0 && one_in(3))
        add_on_top((uint8_t)(FORWARD + below(2)), 0);
}

/* Adds a formula of an op with a part on top of the last one. Where it has two parts that is either of them, and the other one is given. */
static void add_above(uint8_t op, uint8_t other)
{
    struct line line = {.octets = {0, FORMULA}, .count = 3 + body_length(FORMULA)};
    uint8_t *body = line.octets + 2, last;

    fill_op(body, op, true);
    last = body[2];
    if (op == AND || op == OR)
        body[1] = one_in(2) ? last : other, body[2] = body[1] == last ? other : last;
    if (op >= KEEP)
        body[1] = (uint8_t)(body[1] % SLOTS);
    append_line(line);
}

/* Adds formulas that rise to a height, each on top of the one before, by any ops with a part; the last of them is of the given op. */
static void add_rising(unsigned height, uint8_t op)
{
    uint8_t lowest = (uint8_t)count_of(&bundle, FORMULA);
    unsigned i;

    add_on_top(an_op(0), (uint8_t)below(SLOTS));
    for (i = 1; i < height; i++)
        add_above(ops_with_part[below(WITH_PART)], lowest);
    add_above(op, lowest);
}

/* Adds a formula that has nothing to do with roles, some of op 3, and some on top that contain the last of these; how many. */
static unsigned add_roles(void)
{
    unsigned i, roles = 1 + below(2), over = below(3);

    add_on_top((uint8_t)below(ROLE), 0);
    for (i = 0; i < roles; i++)
        add_on_top(ROLE, 0);
    for (i = 0; i < over; i++)
        add_above(one_in(3) ? NOT : ops_with_part[below(WITH_PART)], (uint8_t)below((unsigned)count_of(&bundle, FORMULA)));
    return 1 + roles + over;
}

/* Gives principals, old and new ones, one of the last so many formulas each, and the first few demarcations in turn. */
static void share(unsigned formulas, unsigned few)
{
    unsigned i, last = (unsigned)count_of(&bundle, FORMULA) - 1;
    uint8_t *principal;

    for (i = 3 * few; i > 0; i--) {
        if (count_of(&bundle, PRINCIPAL) < 2 * few + 2)
            add_line(PRINCIPAL);
        principal = body_of(PRINCIPAL, below((unsigned)count_of(&bundle, PRINCIPAL)));
        if (principal)
            principal[0] = (uint8_t)(last - below(formulas)), principal[1] = (uint8_t)(i % few);
    }
}

/* Makes the first few demarcations list a privilege each, and a method want these, one of them or all; the method's number. */
static uint8_t want(unsigned few)
{
    unsigned i, number = below((unsigned)count_of(&bundle, METHOD));
    uint8_t *method = body_of(METHOD, number), *listed;

    for (i = 0; i < few; i++) {
        listed = body_of(DEMARCATION, i);
        if (listed)
            memset(listed, 0, 8), listed[7] = (uint8_t)(1 << i);
    }
    if (method)
        memset(method, 0, 9), method[0] = !one_in(4), method[8] = (uint8_t)((1 << few) - 1);
    return (uint8_t)number;
}

/* Adds many lines of a kind, now and then up to its limit and one more. */
static void add_lines(unsigned kind)
{
    static const unsigned limits[] = {0, 1, 255, 512, 64, 20, 60, 20, 60, 60, 32};
    unsigned i, count = one_in(10) ? limits[kind] + below(2) : 2 + below(8);

    for (i = 0; i < count; i++)
        add_line(kind);
}

/* Changes an octet of the body of a line. */
static void change_octet(struct line *line)
{
    unsigned place = 2 + below(line->count - 3);

    if (line->count > 3)
        line->octets[place] = another(line->octets[place]);
}

/* Makes a line one octet longer or shorter. */
static void change_length(struct line *line)
{
    if (one_in(2) && line->count < MOST_OCTETS)
        line->octets[line->count++] = 0;
    else if (line->count > 3)
        line->count--;
}

/* Changes lines once. */
static void change_lines(void)
{
    size_t place = below((unsigned)bundle.count), other = below((unsigned)bundle.count);
    struct line *line = &bundle.lines[place], copy = *line;

    if (bundle.count == 0 || one_in(3)) {
        add_line(one_in(10) ? HEAD : USER + below(9));
        return;
    }
    switch (below(16)) {
    case 0:
        insert_line(place, copy);
        break;
    case 1:
    case 2:
    case 3:
        remove_line(place);
        break;
    case 4:
        *line = bundle.lines[other], bundle.lines[other] = copy;
        break;
    case 5:
        line->octets[1] = one_in(4) ? (uint8_t)random_any() : (uint8_t)(1 + below(11));
        break;
    case 6:
        change_length(line);
        break;
    case 7:
    case 8:
        add_lines(USER + below(9));
        break;
    default:
        change_octet(line);
    }
}

/* The order of lines: by kind, then as they must rise, else as they stand. */
static int compare_lines(const void *left, const void *right)
{
    const struct line *a = left, *b = right;
    unsigned kind = kind_of(a);
    int order = kind == kind_of(b) && rising(kind) ? memcmp(a->octets + 2, b->octets + 2, kind == USER ? 1 : body_length(kind)) : 0;

    if (kind != kind_of(b))
        return kind < kind_of(b) ? -1 : 1;
    return order ? order : a->place < b->place ? -1 : a->place > b->place;
}

/* Whether a line names the same as the one before it, where lines must rise. */
static bool repeats(size_t place)
{
    const struct line *a = &bundle.lines[place - 1], *b = &bundle.lines[place];
    unsigned kind = kind_of(b);

    return kind == kind_of(a) && rising(kind) && memcmp(a->octets + 2, b->octets + 2, kind == USER ? 1 : body_length(kind)) == 0;
}

/* Puts the lines in order and takes out repeated ones. */
static void repair_order(void)
{
    size_t i;

    for (i = 0; i < bundle.count; i++)
        bundle.lines[i].place = (unsigned)i;
    qsort(bundle.lines, bundle.count, sizeof *bundle.lines, compare_lines);
    for (i = bundle.count; i-- > 1;)
        if (repeats(i))
            remove_line(i);
}

/* A number brought below n. */
static uint8_t brought(uint8_t number, size_t n)
{
    return n ? (uint8_t)(number % n) : number;
}

/* A part's number brought below the formula's own, and down to one that isn't as high as a formula may be. */
static uint8_t brought_part(uint8_t number, size_t own, const unsigned *heights)
{
    number = brought(number, own);
    while (number > 0 && heights[number] >= HIGHEST)
        number--;
    return number;
}

/* Brings the numbers of a formula into range, as the one at a place among the formulas, whose heights are known up to it. */
static void repair_formula(uint8_t *body, size_t own, const unsigned *heights)
{
    uint8_t op = body[0] = own ? brought(body[0], OPS) : body[0] == HERE ? HERE : brought(body[0], NOT);
    uint8_t a = body[1], b = body[2];

    body[1] = op < ROLE ? 0 : a_is_part(op) ? brought_part(a, own, heights) : brought(a, op < KEEP ? LABELS : SLOTS);
    body[2] = b_is_part(op) ? brought_part(b, own, heights) : 0;
}

/* Brings two numbers below n, the first below the second where that is asked for. */
static void repair_pair(uint8_t *body, size_t n, bool in_order)
{
    uint8_t p = brought(body[0], n), q = brought(body[1], n);

    body[0] = p < q || !in_order ? p : q;
    body[1] = p < q || !in_order ? q : p;
}

/* Brings the numbers of a line into range. */
static void repair_body(unsigned kind, uint8_t *body)
{
    unsigned objects = objects_of(&bundle);

    if (kind == USER)
        body[0] = brought(body[0], objects);
    if (kind == EDGE)
        body[0] = brought(body[0], 16), body[1] = brought(body[1], objects), body[2] = brought(body[2], objects);
    if (kind == HIERARCHY)
        repair_pair(body, count_of(&bundle, DEMARCATION), false);
    if (kind == PRINCIPAL)
        body[0] = brought(body[0], count_of(&bundle, FORMULA)), body[1] = brought(body[1], count_of(&bundle, DEMARCATION));
    if (kind == EXCLUSION || kind == PREREQUISITE)
        repair_pair(body, count_of(&bundle, PRINCIPAL), kind == EXCLUSION);
    if (kind == METHOD)
        body[0] = brought(body[0], 2);
}

/* Brings the numbers of all lines into range; in one bundle in eight heights aren't looked at. */
static void repair_numbers(void)
{
    unsigned heights[256] = {0};
    size_t i, formulas = 0;
    bool any_height = one_in(8);

    for (i = 0; i < bundle.count; i++) {
        uint8_t *body = bundle.lines[i].octets + 2;
        if (kind_of(&bundle.lines[i]) != FORMULA) {
            repair_body(kind_of(&bundle.lines[i]), body);
            continue;
        }
        repair_formula(body, formulas, heights);
        if (formulas < 256 && !any_height)
            heights[formulas] = height_over(body, heights);
        formulas++;
    }
}

/* Takes out lines that name one thing twice, and those of another length than their kind's. */
static void drop_misfits(void)
{
    size_t i;

    for (i = bundle.count; i-- > 0;) {
        const struct line *line = &bundle.lines[i];
        unsigned kind = kind_of(line);
        bool pair = kind == HIERARCHY || kind == EXCLUSION || kind == PREREQUISITE;
        if (kind > METHOD || line->count != 3 + body_length(kind) || (pair && line->octets[2] == line->octets[3]))
            remove_line(i);
    }
}

/* Makes a formula wrong: an op past the last, a slot past the last, or a number where op 10 has none; or adds one that is too high. */
static void spoil_formula(void)
{
    size_t number = below((unsigned)count_of(&bundle, FORMULA));
    uint8_t *body = body_of(FORMULA, number);

    if (!body || one_in(4)) {
        add_rising(HIGHEST + 1, ops_with_part[below(WITH_PART)]);
        return;
    }
    switch (below(3)) {
    case 0:
        body[0] = (uint8_t)(OPS + below(one_in(2) ? 1 : 256 - OPS));
        break;
    case 1:
        body[0] = (uint8_t)(number ? KEEP + below(3) : HERE);
        body[1] = (uint8_t)(SLOTS + below(one_in(2) ? 1 : 256 - SLOTS)), body[2] = 0;
        break;
    default:
        body[0] = HERE, body[1] = brought(body[1], SLOTS), body[2] = (uint8_t)(1 + below(number ? (unsigned)number : 255));
    }
}

/* Mostly puts right what the changes broke: order, or everything; now and then one formula is made wrong. */
static void repair(void)
{
    if (one_in(5))
        return;
    if (!one_in(4)) {
        repair_numbers();
        drop_misfits();
    }
    if (one_in(30))
        spoil_formula();
    repair_order();
}

/* Sets a line's length octet and its check octet, so that its octets add to zero. */
static void seal_line(struct line *line)
{
    unsigned i;
    uint8_t sum = 0;

    line->octets[0] = (uint8_t)(line->count - 3);
    for (i = 0; i + 1 < line->count; i++)
        sum += line->octets[i];
    line->octets[i] = -sum;
}

/* The plain sum of all octets of the lines. */
static uint32_t plain_sum(void)
{
    uint32_t sum = 0;
    size_t i;
    unsigned k;

    for (i = 0; i < bundle.count; i++)
        for (k = 0; k < bundle.lines[i].count; k++)
            sum += bundle.lines[i].octets[k];
    return sum;
}

/* Takes out all end lines and adds a right one, now and then with a wrong number. */
static void seal_end(void)
{
    struct line end = {.octets = {6, END}, .count = 9};
    uint32_t sum;
    size_t i;

    for (i = bundle.count; i-- > 0;)
        if (kind_of(&bundle.lines[i]) == END)
            remove_line(i);
    sum = plain_sum();
    end.octets[2] = (uint8_t)(bundle.count >> 8), end.octets[3] = (uint8_t)bundle.count;
    end.octets[4] = (uint8_t)(sum >> 24), end.octets[5] = (uint8_t)(sum >> 16);
    end.octets[6] = (uint8_t)(sum >> 8), end.octets[7] = (uint8_t)sum;
    if (one_in(40))
        change_octet(&end);
    seal_line(&end);
    insert_line(bundle.count, end);
}

/* Seals all lines; now and then one keeps a wrong octet, or there is no right end. */
static void seal(void)
{
    size_t i, spoilt = below((unsigned)bundle.count);

    for (i = 0; i < bundle.count; i++)
        seal_line(&bundle.lines[i]);
    if (bundle.count && one_in(30))
        bundle.lines[spoilt].octets[below(bundle.lines[spoilt].count)] ^= (uint8_t)(1 + below(255));
    if (!one_in(30))
        seal_end();
}

/* Gives a ticket a set near one that was granted, and now and then another call one, which it ignores. */
static void fill_set(uint8_t *call)
{
    bool has_set = call[0] == ACCESS_CALL_TICKET || one_in(10);

    set_put(call, has_set ? set_near(set_noted(), count_of(&bundle, PRINCIPAL), role_principals_of(&bundle)) : 0);
}

/* Fills in what a question or ticket is about: a method, an object, often one at the end of an edge, and mostly a user. */
static void fill_question(uint8_t *call)
{
    const struct line *edge = line_of(&bundle, EDGE, below((unsigned)count_of(&bundle, EDGE)));
    const struct line *user = line_of(&bundle, USER, below((unsigned)count_of(&bundle, USER)));

    call[1] = named(count_of(&bundle, METHOD));
    call[2] = edge && one_in(2) ? edge->octets[3 + below(2)] : an_object();
    call[3] = user && !one_in(12) ? user->octets[2] : an_object();
}

/* Fills in a call that suits the bundle: a known edge or a new one, or a question or ticket. */
static void fill_call(uint8_t *call)
{
    const struct line *edge = line_of(&bundle, EDGE, below((unsigned)count_of(&bundle, EDGE)));
    struct line any;

    call[0] = one_in(40) ? (uint8_t)random_any() : (uint8_t)below(ACCESS_CALL_TICKET + 1);
    fill_set(call);
    if (call[0] >= ACCESS_CALL_EAGER) {
        fill_question(call);
        return;
    }
    fill_body(EDGE, any.octets + 2);
    memcpy(call + 1, edge && one_in(2) ? edge->octets + 2 : any.octets + 2, 3);
}

/* Puts the octets of a call before a place; without room nothing happens. */
static void insert_call(size_t place, const uint8_t *call)
{
    if (calls_length + CALL > MOST_CALLS)
        return;
    memmove(calls + place + CALL, calls + place, calls_length - place);
    memcpy(calls + place, call, CALL);
    calls_length += CALL;
}

/* Gives formulas that name a vertex, or that are as high as there may be, to a principal, and proposes it alone in a few tickets. */
static void change_principal(void)
{
    uint8_t call[CALL] = {ACCESS_CALL_TICKET}, *principal;
    unsigned number, tickets;

    if (one_in(3))
        add_rising(HIGHEST, ops_with_part[below(WITH_PART)]);
    else
        add_naming();
    if (one_in(4) || count_of(&bundle, PRINCIPAL) == 0)
        add_line(PRINCIPAL);
    number = below((unsigned)count_of(&bundle, PRINCIPAL));
    principal = body_of(PRINCIPAL, number);
    if (!principal)
        return;
    principal[0] = (uint8_t)(count_of(&bundle, FORMULA) - 1);
    set_put(call, (uint32_t)1 << number % 32);
    for (tickets = 1 + below(4); tickets > 0; tickets--) {
        fill_question(call);
        insert_call(CALL * (size_t)below((unsigned)(calls_length / CALL + 1)), call);
    }
}

/* Gives principals formulas of op 3 and around it and the same few privileges, so that many sets have equally few members, and asks. */
static void change_roles(void)
{
    unsigned few = 1 + below(4), asked;
    uint8_t call[CALL], method;
    size_t i;

    for (i = count_of(&bundle, DEMARCATION); i < few; i++)
        add_line(DEMARCATION);
    if (count_of(&bundle, METHOD) < 2)
        add_line(METHOD);
    share(add_roles(), few);
    method = want(few);
    for (asked = 2 + below(4); asked > 0; asked--) {
        call[0] = one_in(3) ? ACCESS_CALL_TICKET : (uint8_t)(ACCESS_CALL_EAGER + below(2));
        fill_set(call), fill_question(call);
        call[1] = method;
        insert_call(CALL * (size_t)below((unsigned)(calls_length / CALL + 1)), call);
    }
}

/* Repeats a call behind another one, mostly in the other form or as a ticket. */
static void repeat_call(size_t from, size_t to)
{
    uint8_t call[CALL];

    memcpy(call, calls + from, CALL);
    if (call[0] >= ACCESS_CALL_EAGER && call[0] <= ACCESS_CALL_TICKET && one_in(3))
        call[0] = ACCESS_CALL_TICKET, fill_set(call);
    else if (call[0] < ACCESS_CALL_TICKET && !one_in(4))
        call[0] ^= 1;
    insert_call(to, call);
}

/* Changes the calls once. */
static void change_calls(void)
{
    size_t whole = calls_length / CALL, place = CALL * below((unsigned)whole), other = CALL * below((unsigned)whole);
    uint8_t call[CALL], *octet = &calls[below((unsigned)calls_length)];

    fill_call(call);
    switch (whole ? below(10) : 0) {
    case 0:
    case 1:
    case 2:
        insert_call(place, call);
        break;
    case 3:
        memcpy(calls + place, call, CALL);
        break;
    case 4:
        repeat_call(place, other);
        break;
    case 5:
    case 6:
        *octet = another(*octet);
        break;
    case 7:
        calls_length -= 1 + below(CALL);
        break;
    case 8:
        calls_length = LLVMFuzzerMutate(calls, calls_length, MOST_CALLS);
        break;
    default:
        memmove(calls + place, calls + place + CALL, calls_length - place - CALL), calls_length -= CALL;
    }
}

/* Whether a line of a kind begins with a number. */
static bool line_names(unsigned kind, uint8_t number)
{
    size_t i;

    for (i = 0; i < bundle.count; i++)
        if (kind_of(&bundle.lines[i]) == kind && bundle.lines[i].octets[2] == number)
            return true;
    return false;
}

/* Brings the numbers of a call into range, the requestor among the users, and in half the calls the members among the principals. */
static void repair_call(uint8_t *call)
{
    const struct line *user = line_of(&bundle, USER, brought(call[3], count_of(&bundle, USER)));
    size_t principals = count_of(&bundle, PRINCIPAL);

    call[0] = one_in(20) ? call[0] : brought(call[0], ACCESS_CALL_TICKET + 1);
    if (one_in(2) && principals < 32)
        set_put(call, set_of_call(call) & (((uint32_t)1 << principals) - 1));
    call[1] = brought(call[1], call[0] < ACCESS_CALL_EAGER ? 16 : count_of(&bundle, METHOD));
    call[2] = brought(call[2], objects_of(&bundle));
    call[3] = call[0] >= ACCESS_CALL_EAGER && user && !line_names(USER, call[3]) ? user->octets[2] : brought(call[3], objects_of(&bundle));
}

/* In half the inputs, brings the numbers of all calls into range. */
static void repair_calls(void)
{
    size_t i;

    if (one_in(2))
        for (i = 0; i + CALL <= calls_length; i += CALL)
            repair_call(calls + i);
}

/* Takes an input apart. */
static void read_input(const uint8_t *data, size_t size)
{
    struct input input = input_split(data, size);

    calls_length = input.calls.length;
    memcpy(calls, input.calls.start, calls_length);
    bundle_read(&bundle, input.text);
}

/* Puts the two digits of an octet. */
static void put_octet(uint8_t *text, uint8_t octet)
{
    static const char digits[] = "0123456789ABCDEF";

    text[0] = (uint8_t)digits[octet >> 4], text[1] = (uint8_t)digits[octet & 15];
}

/* So many octets more for a line; 256 are more than its length octet can say, though that is right modulo 256. */
static unsigned some_octets(void)
{
    return one_in(3) ? 256 : 1 + below(one_in(2) ? 16 : 400);
}

/* Lengthens a line of the text and seals it, now and then with any character in it; returns the size. Without room nothing happens. */
static size_t lengthen(uint8_t *text, size_t size, size_t room)
{
    size_t place = below((unsigned)bundle.count), at = 0, more = some_octets(), i;
    const struct line *line = &bundle.lines[place];
    uint8_t fill = one_in(2) ? 0 : (uint8_t)random_any(), check = 0, *end;

    for (i = 0; i < place; i++)
        at += 2 * bundle.lines[i].count + 1;
    if (bundle.count == 0 || size + 2 * more > room || at + 2 * line->count >= size)
        return size;
    end = text + at + 2 * (line->count - 1);
    memmove(end + 2 * more, end, size - (size_t)(end - text));
    for (i = 0; i < more; i++)
        put_octet(end + 2 * i, fill), check -= fill;
    for (i = 1; i + 1 < line->count; i++)
        check -= line->octets[i];
    put_octet(text + at, (uint8_t)(line->count - 3 + more));
    put_octet(end + 2 * more, check - (uint8_t)(line->count - 3 + more));
    if (one_in(3))
        text[at + below((unsigned)(2 * (line->count + more)))] = (uint8_t)random_any();
    return size + 2 * more;
}

/* Puts the input together, now and then with a lengthened line or a damaged text. */
static size_t write_input(uint8_t *data, size_t max_size)
{
    size_t size = input_join(data, max_size, (struct slice){calls, calls_length}, &bundle), text = COUNT + calls_length;

    if (one_in(40) && size > text)
        size = text + lengthen(data + text, size - text, max_size - text);
    if (one_in(25) && size > text)
        size = text + LLVMFuzzerMutate(data + text, size - text, max_size - text);
    if (one_in(80) && size > text)
        size = text + below((unsigned)(size - text));
    return size;
}

/* One change of an input, sealed again for the most part. */
size_t LLVMFuzzerCustomMutator(uint8_t *data, size_t size, size_t max_size, unsigned seed)
{
    unsigned steps;

    random_start(seed);
    if (one_in(40))
        return LLVMFuzzerMutate(data, size, max_size);
    read_input(data, size);
    for (steps = 1 + below(4); steps > 0; steps--)
        if (one_in(15))
            change_principal();
        else if (one_in(15))
            change_roles();
        else if (one_in(2))
            change_calls();
        else
            change_lines();
    repair();
    repair_calls();
    seal();
    return write_input(data, max_size);
}

/* Puts the lines of one kind, or none, in place of ours. */
static void take_kind(const struct bundle *from, unsigned kind)
{
    size_t i;

    for (i = bundle.count; i-- > 0;)
        if (kind_of(&bundle.lines[i]) == kind)
            remove_line(i);
    for (i = 0; i < from->count; i++)
        if (kind_of(&from->lines[i]) == kind)
            insert_line(bundle.count, from->lines[i]);
}

/* The first input with the lines of some kinds from the second, and the calls of either. */
size_t LLVMFuzzerCustomCrossOver(const uint8_t *data1, size_t size1, const uint8_t *data2, size_t size2, uint8_t *out, size_t max_size,
                                 unsigned seed)
{
    static struct bundle other;
    struct input second = input_split(data2, size2);
    unsigned kind;

    random_start(seed);
    bundle_read(&other, second.text);
    read_input(data1, size1);
    for (kind = HEAD; kind <= METHOD; kind++)
        if (one_in(3))
            take_kind(&other, kind);
    if (one_in(2)) {
        calls_length = second.calls.length;
        memcpy(calls, second.calls.start, calls_length);
    }
    repair();
    repair_calls();
    seal();
    return write_input(out, max_size);
}
