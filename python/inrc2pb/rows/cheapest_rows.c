// The cheapest rows of nurses, compiled. row_arrays.py finds the same rows by NumPy.
//
// A row has a choice of its nurse for each day. It is a path through her graph: a day has nodes, and from each of them an arc for each
// choice leads to a node of the next day. The least costs from the nodes on are found from the last day to the first, and the row goes
// along them. Of several cheapest rows the one with the lowest first choice counts, then with the lowest second one, and so on.
// It needs no headers. A long has 64 bits.
typedef unsigned char byte;

extern void *calloc(unsigned long count, unsigned long size);
extern void free(void *block);

// compiled.py reads it: another number for other structures.
const int layout = 1;

// From this cost on, in thousandths, a hard rule forbids a step, and with it the row. No savings of other steps make up for NEVER.
#define FORBIDDEN (1L << 49)
#define NEVER (1L << 52)
// So many nurses of one graph are priced at once, over all of its nodes.
#define LANES 8
// A nurse with at most this share of her choices is priced alone, over the nodes that she reaches.
#define NARROW 0.45
#define MOST_CHOICES 256

// An arc: its cost without charges of shift runs, the number of these, and the node of the next day.
struct arc {
    long cost;
    int head, runs;
};

// The arcs of a day, those of a node one after another. The last day has nodes alone.
struct day {
    long nodes;
    const struct arc *arcs;
};

// A nurse: her graph, what each node costs in which her days end, or 0 if none does, and the node in which they begin.
struct nurse {
    const struct day *days;
    const long *rest;
    long start;
};

// What is asked: the cheapest rows of so many nurses, over so many days and choices. `run_cost` is the cost of a charge of a shift run,
// and `pays` has what each choice costs each nurse on each day beside the costs of her arcs.
struct task {
    long count, days, choices, run_cost;
    const struct nurse *nurses;
    const long *pays;
};

// What a pricing needs: the least cost from each node on, the nodes that are reached, how many of each day, and when each node was met.
struct room {
    long *values, *counts;
    int *nodes, *met;
};

static long least(long one, long other) { return one < other ? one : other; }

static long most(long one, long other) { return one > other ? one : other; }

static long cost_of(const struct task *task, const struct arc *arc)
{
    if (arc->runs == 0 || arc->cost >= FORBIDDEN) return arc->cost;
    return task->run_cost >= FORBIDDEN ? FORBIDDEN : arc->cost + arc->runs * task->run_cost;
}

// What an arc costs with the pay of its choice, FORBIDDEN if it may not be taken.
static long step(const struct task *task, const struct arc *arc, long pay)
{
    long cost = cost_of(task, arc);
    return cost >= FORBIDDEN || pay >= FORBIDDEN ? FORBIDDEN : cost + pay;
}

static const long *pay_of(const struct task *task, long nurse, long day)
{
    return task->pays + (nurse * task->days + day) * task->choices;
}

// Writes the row of a nurse along the least costs, of which each node has `lanes`. Returns what it costs.
static long walk(const struct task *task, long number, const long *values, long lanes, byte *row)
{
    const struct nurse *nurse = task->nurses + number;
    long node = nurse->start, total = values[node * lanes];
    for (long day = 0; day < task->days && total < FORBIDDEN; day++) {
        const struct arc *arcs = nurse->days[day].arcs + node * task->choices;
        const long *pay = pay_of(task, number, day), *after = values + nurse->days[day].nodes * lanes;
        long choice = 0;
        for (; choice + 1 < task->choices; choice++) {
            long cost = step(task, arcs + choice, pay[choice]);
            if (cost < FORBIDDEN && cost + after[arcs[choice].head * lanes] == values[node * lanes]) break;
        }
        row[day] = (byte)choice;
        node = arcs[choice].head;
        values = after;
    }
    return total;
}

// ---- several nurses of one graph, over all of its nodes

// The least costs of a day from those `after` it, for each node and lane. `pay` has what each choice costs each of them.
static void cost_of_day(const struct task *task, const struct day *day, const long *pay, const long *after, long *now)
{
    const struct arc *arc = day->arcs;
    for (long node = 0; node < day->nodes; node++, now += LANES) {
        long best[LANES];
        for (int lane = 0; lane < LANES; lane++) best[lane] = NEVER;
        for (long choice = 0; choice < task->choices; choice++, arc++) {
            long cost = cost_of(task, arc);
            if (cost >= FORBIDDEN) continue;
            const long *next = after + arc->head * LANES, *paid = pay + choice * LANES;
            for (int lane = 0; lane < LANES; lane++) best[lane] = least(best[lane], cost + paid[lane] + next[lane]);
        }
        for (int lane = 0; lane < LANES; lane++) now[lane] = best[lane];
    }
}

// The least costs from all nodes on, for the nurses of these numbers.
static void price_together(const struct task *task, const long *numbers, long *values)
{
    const struct day *day = task->nurses[numbers[0]].days;
    long pay[MOST_CHOICES * LANES];
    for (long left = task->days; left > 0; left--, day++) values += day->nodes * LANES;
    for (long at = 0; at < day->nodes * LANES; at++) {
        const long *rest = task->nurses[numbers[at % LANES]].rest;
        values[at] = rest ? rest[at / LANES] : 0;
    }
    for (long left = task->days; left > 0; left--) {
        const long *after = values;
        values -= (--day)->nodes * LANES;
        for (long at = 0; at < task->choices * LANES; at++) {
            pay[at] = pay_of(task, numbers[at % LANES], left - 1)[at / LANES];
            if (pay[at] >= FORBIDDEN) pay[at] = NEVER;
        }
        cost_of_day(task, day, pay, after, values);
    }
}

// ---- one nurse, over the nodes that she reaches

// The choices that a pay allows, and their number.
static int allowed(const struct task *task, const long *pay, byte *open)
{
    int count = 0;
    for (long choice = 0; choice < task->choices; choice++)
        if (pay[choice] < FORBIDDEN) open[count++] = (byte)choice;
    return count;
}

// Writes the nodes of the next day that are reached from these of a day, after them. Returns their number. `today` is the mark of a node
// that was met.
static long reach(const struct task *task, const struct day *day, const long *pay, long count, int *nodes, int *met, int today)
{
    byte open[MOST_CHOICES];
    int choices = allowed(task, pay, open);
    int *next = nodes + count;
    for (long at = 0; at < count; at++)
        for (int index = 0; index < choices; index++) {
            const struct arc *arc = day->arcs + nodes[at] * task->choices + open[index];
            if (met[arc->head] == today || arc->cost >= FORBIDDEN) continue;
            met[arc->head] = today;
            *next++ = arc->head;
        }
    return next - (nodes + count);
}

// The least costs of `count` nodes of a day, from those of the next day.
static void cost_of_nodes(const struct task *task, const struct day *day, const long *pay, long count, const int *nodes, long *now)
{
    byte open[MOST_CHOICES];
    int choices = allowed(task, pay, open);
    const long *after = now + day->nodes;
    for (long at = 0; at < count; at++) {
        long best = NEVER;
        for (int index = 0; index < choices; index++) {
            const struct arc *arc = day->arcs + nodes[at] * task->choices + open[index];
            long cost = step(task, arc, pay[open[index]]);
            if (cost < FORBIDDEN) best = least(best, cost + after[arc->head]);
        }
        now[nodes[at]] = best;
    }
}

// The least costs from the nodes on that a nurse reaches.
static void price_alone(const struct task *task, long number, const struct room *room)
{
    const struct nurse *nurse = task->nurses + number;
    int *nodes = room->nodes;
    long *values = room->values, *counts = room->counts, day = 0;
    nodes[0] = (int)nurse->start;
    for (counts[0] = 1; day < task->days; day++) {
        int today = (int)(number * task->days + day + 1);
        counts[day + 1] = reach(task, nurse->days + day, pay_of(task, number, day), counts[day], nodes, room->met, today);
        nodes += counts[day];
        values += nurse->days[day].nodes;
    }
    for (long at = 0; at < counts[day]; at++) values[nodes[at]] = nurse->rest ? nurse->rest[nodes[at]] : 0;
    while (day-- > 0) {
        nodes -= counts[day];
        values -= nurse->days[day].nodes;
        cost_of_nodes(task, nurse->days + day, pay_of(task, number, day), counts[day], nodes, values);
    }
}

// ---- all nurses

static _Bool is_narrow(const struct task *task, long number)
{
    const long *pay = pay_of(task, number, 0);
    long open = 0, all = task->days * task->choices;
    for (long at = 0; at < all; at++) open += pay[at] < FORBIDDEN;
    return (double)open <= NARROW * (double)all;
}

// The numbers of nurses with the graph of the first one who are not priced yet, each lane with one. Returns how many there are.
static int company(const struct task *task, long first, _Bool *done, long *numbers)
{
    int count = 0;
    for (long number = first; number < task->count && count < LANES; number++) {
        if (done[number] || task->nurses[number].days != task->nurses[first].days || is_narrow(task, number)) continue;
        done[number] = 1;
        numbers[count++] = number;
    }
    for (int lane = count; lane < LANES; lane++) numbers[lane] = first;
    return count;
}

static void price(const struct task *task, const struct room *room, _Bool *done, long *costs, byte *rows)
{
    long numbers[LANES];
    for (long number = 0; number < task->count; number++) {
        if (done[number]) continue;
        if (is_narrow(task, number)) {
            price_alone(task, number, room);
            costs[number] = walk(task, number, room->values, 1, rows + number * task->days);
            continue;
        }
        int count = company(task, number, done, numbers);
        price_together(task, numbers, room->values);
        for (int lane = 0; lane < count; lane++)
            costs[numbers[lane]] = walk(task, numbers[lane], room->values + lane, LANES, rows + numbers[lane] * task->days);
    }
}

static void *room_for(long count, unsigned long size) { return calloc((unsigned long)count + 1, size); }

// Writes the cheapest row of each nurse and what it costs, FORBIDDEN or more if she has none. Returns 0, or 1 if there is no memory.
int cheapest_rows(const struct task *task, long *costs, byte *rows)
{
    long nodes = 0, most_nodes = 0;
    for (long number = 0; number < task->count; number++) {
        const struct day *days = task->nurses[number].days;
        long all = 0;
        for (long day = 0; day <= task->days; day++) {
            all += days[day].nodes;
            most_nodes = most(most_nodes, days[day].nodes);
        }
        nodes = most(nodes, all);
    }
    struct room room = {room_for(nodes, LANES * 8), room_for(task->days + 1, 8), room_for(nodes, 4), room_for(most_nodes, 4)};
    _Bool *done = room_for(task->count, 1);
    _Bool has_memory = room.values && room.counts && room.nodes && room.met && done;
    if (has_memory) price(task, &room, done, costs, rows);
    free(room.values);
    free(room.counts);
    free(room.nodes);
    free(room.met);
    free(done);
    return !has_memory;
}
