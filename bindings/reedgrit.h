/* Edge finding on one machine, with a reason for each post, and the check of reasons: the functions of libreedgrit.a, which
 * `bindings/library` keeps in target/staticlib, for x86-64; a program is linked with
 *
 *     cc -Ibindings program.c target/staticlib/libreedgrit.a
 *
 * Every input is answered, a wrong one by a number above 0 that changes nothing that was lent (refusals below). A function reads and writes
 * only what it is lent, for as long as the call lasts; it allocates nothing, keeps nothing, and may be called from several threads on
 * different data.
 *
 * The caller answers for the pointers: each has its type's alignment and as many elements (ranges, durations, words, bytes) as the length
 * behind it says, and no part of what one call may write is lent to it twice. NULL with length 0 is allowed: nothing is read or written
 * there. NULL with a length above 0, or for a propagator, is the caller's fault, and no number answers it. */
#ifndef REEDGRIT_H
#define REEDGRIT_H

#include <stdbool.h>
#include <stddef.h>
#include <stdint.h>

#ifdef __cplusplus
extern "C" {
#endif

/* What reedgrit_abi_version answers where header and library fit. */
enum { REEDGRIT_ABI = 3 };

/* Limits: tasks of a record, barred starts of a range, and starts from -REEDGRIT_START to REEDGRIT_START. */
enum { REEDGRIT_TASKS = 48, REEDGRIT_BARS = 16, REEDGRIT_START = 400000000 };

/* The room that calls need for n tasks: words for the posts of a run, for the atoms of their reasons, and for the reason of one bound by
 * precedences; bytes for the page of a schedule, and for that of a conflict. */
#define REEDGRIT_POST_WORDS(n) (4 * (n))
#define REEDGRIT_ATOM_WORDS(n) (6 * (n) * (n))
#define REEDGRIT_REASON_WORDS(n) (6 * (n))
#define REEDGRIT_PAGE_BYTES(n) (31 * ((n) + 1))
#define REEDGRIT_CONFLICT_PAGE_BYTES(n) (43 * ((n) + 5))

/* The structs below are those of a machine with 64 bits. */
typedef char reedgrit_size_t_has_64_bits[sizeof(size_t) == 8 ? 1 : -1];

/* An atom is three words: variable 0 to 63 (below the task count: the start of that task), kind, value. */
enum { REEDGRIT_GREATER_EQUAL = 0, REEDGRIT_LESS_EQUAL = 1, REEDGRIT_EQUAL = 2, REEDGRIT_NOT_EQUAL = 3 };

/* The kind of an answer that is a refusal, whatever the call. */
enum { REEDGRIT_REFUSED = 3 };

/* The numbers of refusals. A function tries its numbers in the order in which it names them below, each over the whole input before the
 * next. A contradiction is tried together with 21: the first atom that leads to one of the two decides. */
enum {
    REEDGRIT_REFUSED_TASK_COUNT = 1,   /* no tasks, or more than 48 */
    REEDGRIT_REFUSED_DURATION = 2,     /* a duration below 1 */
    REEDGRIT_REFUSED_START = 3,        /* a start beyond +-400000000 */
    REEDGRIT_REFUSED_CROSSED = 4,      /* earliest above latest */
    REEDGRIT_REFUSED_DURATION_SUM = 5, /* durations sum above 400000000 */
    REEDGRIT_REFUSED_ATOMS = 6,        /* words that are no atoms */
    REEDGRIT_REFUSED_PREMISES = 7,     /* more than 512 premises */
    REEDGRIT_REFUSED_CONSEQUENT = 8,   /* a consequent on no task, or on one without finite bounds */
    REEDGRIT_REFUSED_ROOM = 9,         /* fewer words than REEDGRIT_POST_WORDS(n), or than REEDGRIT_ATOM_WORDS(n) */
    REEDGRIT_REFUSED_RANGE_COUNT = 10, /* another number of ranges than n */
    REEDGRIT_REFUSED_POST = 11,        /* a post that is not there */
    REEDGRIT_REFUSED_REMOVED = 12,     /* a task to take off that is not there */
    REEDGRIT_REFUSED_BARS = 13,        /* more than 16 barred starts, ones that do not ascend strictly, or an end of the range among them */
    REEDGRIT_REFUSED_SCHEDULE = 14,    /* a schedule that is not fixed, or overlaps */
    REEDGRIT_REFUSED_PAGE_ROOM = 15,   /* fewer bytes than REEDGRIT_PAGE_BYTES(n), or than REEDGRIT_CONFLICT_PAGE_BYTES(n) */
    REEDGRIT_REFUSED_REASON_ROOM = 16, /* fewer words than REEDGRIT_REASON_WORDS(n) */
    REEDGRIT_REFUSED_TASK = 17,        /* a task that is not there */
    REEDGRIT_REFUSED_QUESTION = 18,    /* a moment asked about beyond +-400000000, or a duration below 1 or above 400000000 */
    REEDGRIT_REFUSED_DUE = 19,         /* a due moment beyond +-400000000, or another number of them than n */
    REEDGRIT_REFUSED_RECORD = 20,      /* a record that no call makes */
    REEDGRIT_REFUSED_HOLES = 21,       /* a seventeenth hole */
    REEDGRIT_REFUSED_STATE = 22,       /* a variable state that no call makes; no function here is lent one */
    REEDGRIT_REFUSED_LENGTH = 23       /* a stretch's length below 1 or above 400000000 */
};

/* The task count, the durations and their sum. Places from the count on are 0. */
typedef struct {
    size_t count;
    uint32_t durations[REEDGRIT_TASKS];
    uint32_t total;
} reedgrit_propagator;

/* A task may start from `earliest` to `latest`, but not at its barred starts: the first `count` places, strictly ascending, with neither end of
 * the range among them. Those outside the range have no effect. Places past the count are not read. No call changes the count or a place. */
typedef struct {
    int32_t earliest;
    int32_t latest;
    size_t count; /* 0: no barred starts */
    int32_t barred[REEDGRIT_BARS];
} reedgrit_range;

typedef struct {
    reedgrit_propagator propagator; /* all zeros where the number is not 0 */
    uint32_t number;
} reedgrit_new;

/* The kinds of a run and of a mirrored pass. */
enum { REEDGRIT_DONE = 0, REEDGRIT_OVERLOAD = 1, REEDGRIT_EMPTIED = 2 };

typedef struct {
    uint32_t kind;
    uint32_t number; /* of a refusal */
    size_t posts;
    size_t first_word; /* an overload's reason: its first word in `atoms`, and how many words it has, as a post's is told */
    size_t word_count;
    size_t changes; /* leaf changes; 0 of a refusal */
} reedgrit_run_answer;

typedef struct {
    uint32_t kind;
    uint32_t number; /* of a refusal */
    size_t posts;
    size_t first_word; /* an overload's reason, as above */
    size_t word_count;
} reedgrit_mirrored_answer;

typedef struct {
    uint32_t number; /* 0, or 11: then all else is 0 */
    int32_t task;
    int32_t bound;
    size_t first_word; /* the reason: its first word in `atoms`, and how many words it has */
    size_t word_count;
} reedgrit_post_answer;

/* The kinds of a check; REEDGRIT_CONTRADICTION is also one of a question to a state. */
enum { REEDGRIT_PASSED = 0, REEDGRIT_NOT_PASSED = 1, REEDGRIT_CONTRADICTION = 2 };

typedef struct {
    uint32_t kind;
    uint32_t number; /* of a refusal */
    size_t variable; /* of a contradiction */
} reedgrit_check_answer;

/* The other kinds of questions to a state: of reedgrit_prepare, of reedgrit_is_true, and of the two bounds. */
enum { REEDGRIT_PREPARED = 0 };
enum { REEDGRIT_TRUE = 0, REEDGRIT_NOT_TRUE = 1 };
enum { REEDGRIT_BOUND = 0 };

typedef struct {
    uint32_t kind;
    uint32_t number; /* of a refusal */
    size_t variable; /* of a contradiction */
    int32_t infinity; /* of a bound: -1 and 1 for the infinities, 0 for the value */
    int32_t value;
} reedgrit_state_answer;

/* The kinds of the calls that answer one count; each says what it counts. */
enum { REEDGRIT_TEST_OVERLOAD = 0, REEDGRIT_TEST_NO_OVERLOAD = 1 };
enum { REEDGRIT_PRECEDENCES_DONE = 0, REEDGRIT_PRECEDENCES_EMPTIED = 1 };
enum { REEDGRIT_REASON_WRITTEN = 0 };
enum { REEDGRIT_PAGE_WRITTEN = 0 };
enum { REEDGRIT_CONFLICT_PAGE_WRITTEN = 0, REEDGRIT_CONFLICT_PAGE_NOTHING = 1 };

typedef struct {
    uint32_t kind;
    uint32_t number; /* of a refusal */
    size_t count;
} reedgrit_count_answer;

/* The kinds of a conflict. */
enum { REEDGRIT_CONFLICT_NOTHING = 0, REEDGRIT_CONFLICT_OVERLOAD = 1, REEDGRIT_CONFLICT_LATE = 2 };

/* A set of tasks, a flag for each number; its earliest start, and the sum of its durations. */
typedef struct {
    bool tasks[REEDGRIT_TASKS];
    int32_t est;
    uint32_t p;
} reedgrit_work;

typedef struct {
    uint32_t kind;
    uint32_t number; /* of a refusal */
    size_t task; /* that is late, its latest start, and its bound above that */
    int32_t latest_start;
    int32_t bound;
    reedgrit_work set; /* est + p is lct + excess */
    int32_t lct; /* of an overload's set; of the others in a late task's set */
    uint32_t excess;
    reedgrit_work before; /* of a late task: est + p is the bound */
} reedgrit_conflict_answer;

/* The kind of a task added or taken off, those of a task's bound by precedences, and those of the other calls on a fixed schedule. */
enum { REEDGRIT_CHANGED = 0 };
enum { REEDGRIT_BOUND_ABOVE = 0, REEDGRIT_NO_BOUND_ABOVE = 1 };
enum { REEDGRIT_CHARGED = 0 };
enum { REEDGRIT_START_FOUND = 0 };
enum { REEDGRIT_STRETCH_FOUND = 0 };

typedef struct {
    uint32_t kind;
    uint32_t number; /* of a refusal */
} reedgrit_change_answer;

typedef struct {
    uint32_t kind;
    uint32_t number; /* of a refusal */
    int32_t start;
} reedgrit_start_answer;

typedef struct {
    uint32_t kind;
    uint32_t number; /* of a refusal */
    uint32_t time; /* that tasks cover */
    int32_t start; /* of the stretch */
} reedgrit_busiest_answer;

/* In cents, by task number; 0 in the places that no task has, and everywhere where the call is refused. */
typedef struct {
    uint32_t kind;
    uint32_t number; /* of a refusal */
    uint32_t total;
    uint32_t charges[REEDGRIT_TASKS];
} reedgrit_charges_answer;

/* REEDGRIT_ABI: the version of these functions and structs. Another number is another header's. */
uint32_t reedgrit_abi_version(void);

/* A record of the durations. Refuses by 1, 2, 5. */
reedgrit_new reedgrit_create(const int32_t *durations, size_t count);

/* A run: raises earliest starts, writes four words for each post (task, bound, first atom, atom count) and the atoms of their reasons.
 * Words that it does not write keep what they held. It leaves the record as it was: whatever runs came before, the same durations and
 * ranges give the same outcome, posts and reasons. Among tasks with equal earliest starts, or equal latest completions, the lower number
 * comes first. The leaf changes are those that the solver's propagator makes on its tree, at most 4n-3: each task put into Theta is one,
 * a task that goes from Theta to Lambda is two, and one that leaves Lambda is one. Refuses by 20, 10, 3, 4, 13, 9.
 *
 * Barred starts change no outcome, no post and no reason: a task's earliest start then goes to the first permitted one at or after its post's
 * bound, and one that no post raised stays.
 *
 * REEDGRIT_DONE does not mean that a schedule exists, and one run is no fixpoint: durations 1 1 2 on 1..1, 1..3, 0..2 are done with the
 * earliest starts 1 2 2, and the next run on these is an overload. The conflict of REEDGRIT_EMPTIED is its last post's reason with the
 * task's latest start; it is checked as that post, with the post as consequent. */
reedgrit_run_answer reedgrit_run(reedgrit_propagator *propagator, reedgrit_range *ranges, size_t range_count, int32_t *posts,
                                 size_t post_words, int32_t *atoms, size_t atom_words);

/* Post `index` of a run that made `post_count`. */
reedgrit_post_answer reedgrit_post(const int32_t *posts, size_t post_words, const int32_t *atoms, size_t atom_words, size_t post_count,
                                   size_t index);

/* Checks that the premises imply the consequent, which is one atom or none. REEDGRIT_PASSED: no starts without overlap meet the premises and
 * not the consequent. REEDGRIT_NOT_PASSED: the formula does not show that. REEDGRIT_CONTRADICTION: no starts at all do, with overlap or
 * without; it is implied, by the atoms alone, and no pass gives such a reason. Refuses by 1, 2, 5, 7, 6, 21, 8. */
reedgrit_check_answer reedgrit_check(const int32_t *durations, size_t count, const int32_t *premises, size_t premise_words,
                                     const int32_t *consequent, size_t consequent_words);

/* The check for a reason of the mirrored pass: the same words and answers, in the caller's time, judged by the formula in mirrored time. A
 * reason that a run gives is checked by reedgrit_check, one that the mirrored pass gives by this. Refuses by 1, 2, 5, 7, 6, 21, 8. */
reedgrit_check_answer reedgrit_check_mirrored(const int32_t *durations, size_t count, const int32_t *premises, size_t premise_words,
                                              const int32_t *consequent, size_t consequent_words);

/* The mirrored pass: lowers latest starts. A post says that its task starts at its bound or earlier; it is read by reedgrit_post. Words are
 * written as a run writes them. A latest start goes back to the last permitted one at or before its post's bound. Refuses by 20, 10, 3, 4, 13,
 * 9. */
reedgrit_mirrored_answer reedgrit_run_mirrored(const reedgrit_propagator *propagator, reedgrit_range *ranges, size_t range_count,
                                               int32_t *posts, size_t post_words, int32_t *atoms, size_t atom_words);

/* Whether some set of the tasks overloads its span: REEDGRIT_TEST_OVERLOAD, with the tasks read until that is known, by latest completion, or
 * REEDGRIT_TEST_NO_OVERLOAD. Barred starts change no answer. Refuses by 20, 10, 3, 4, 13. */
reedgrit_count_answer reedgrit_overload_test(const reedgrit_propagator *propagator, const reedgrit_range *ranges, size_t range_count);

/* Why the tasks cannot fit, in numbers that can be added up. All are those of the ranges as they are lent, and an excess is 1 or more.
 * REEDGRIT_CONFLICT_OVERLOAD, exactly where some set overloads its span: such a set, with its lct.
 * REEDGRIT_CONFLICT_LATE, where none does, but a task must start after its latest start: it is in the set, and cannot go before the others of
 * it, since est + p of the set is past their lct. So it starts after all of them, and not before est + p of `before`, which are some of them.
 * REEDGRIT_CONFLICT_NOTHING, exactly where a run on the ranges is done. Then a schedule need not exist; in the other two cases none does.
 * What a kind does not have is 0 and without flags. Barred starts change no answer. Refuses by 20, 10, 3, 4, 13. */
reedgrit_conflict_answer reedgrit_conflict(const reedgrit_propagator *propagator, const reedgrit_range *ranges, size_t range_count);

/* The same as text: a heading, a line of 43 bytes for each task of the set by number, and two sentences. The count is that of the bytes. Of two
 * tasks with durations 3 and 5, from 0 to 5 and from 1 to 1, and of two with duration 4, from 0 to 2 and from 1 to 2:
 *
 *       NR        FROM       UNTIL       TAKES
 *        0           0           8           3
 *        1           1           6           5 *
 *     0 comes after the others: 0 + 8 = 8 is past 6
 *     0 starts after those marked *: 1 + 5 = 6 is past 5
 *
 *       NR        FROM       UNTIL       TAKES
 *        0           0           6           4
 *        1           1           6           4
 *     6 units from 0 to 6, and they take 8
 *     2 too many
 *
 * REEDGRIT_CONFLICT_PAGE_NOTHING: nothing is found, and nothing written. Bytes behind the page keep what they held. Refuses by 20, 10, 3, 4, 13,
 * 15. */
reedgrit_count_answer reedgrit_conflict_page(const reedgrit_propagator *propagator, const reedgrit_range *ranges, size_t range_count,
                                             uint8_t *out, size_t out_bytes);

/* A task more, which takes the number n. Refuses by 20, 1, 2, 5. */
reedgrit_change_answer reedgrit_add(reedgrit_propagator *propagator, int32_t duration);

/* A task less; the numbers above it are one lower. Refuses by 20, 12, 1. */
reedgrit_change_answer reedgrit_remove(reedgrit_propagator *propagator, size_t task);

/* Raises earliest starts by the precedences that can be read off the ranges. The tasks that must come before task i are the others whose
 * latest start is below i's earliest start plus its duration; the least time at which all of them can be over (their ect) is i's bound.
 * REEDGRIT_PRECEDENCES_DONE: each earliest start is the larger of what it was and its bound, by the ranges at entry. One that is raised to a
 * barred start goes on to the next permitted one. REEDGRIT_PRECEDENCES_EMPTIED: a bound passes its task's latest start, so that there is no
 * schedule. The count is then the number of the lowest such task, and no range has changed. Refuses by 20, 10, 3, 4, 13. */
reedgrit_count_answer reedgrit_precedences(const reedgrit_propagator *propagator, reedgrit_range *ranges, size_t range_count);

/* A task's bound by precedences, where it is above the earliest start: REEDGRIT_BOUND_ABOVE, with the bound as the start, which may pass the
 * latest start. REEDGRIT_NO_BOUND_ABOVE: no task must come before it, or the bound raises nothing. A bound is told exactly where
 * reedgrit_precedence_reason has atoms, and these imply that the task starts at it or later; so it is asked before the pass, too. Barred
 * starts change no answer. Refuses by 20, 10, 3, 4, 13, 17. */
reedgrit_start_answer reedgrit_precedence_bound(const reedgrit_propagator *propagator, const reedgrit_range *ranges, size_t range_count,
                                                size_t task);

/* The reason of a task's bound by precedences, three words to an atom: the task's earliest start, then both bounds of each task that must
 * come before it. In every schedule that meets it the task starts at the bound or later. The count is that of its atoms, 0 where the bound
 * raises nothing; so it is asked before the pass, which stores the bounds. It is no edge-finding reason: reedgrit_check need not pass it.
 * Words behind it keep what they held. Refuses by 20, 10, 3, 4, 13, 17, 16. */
reedgrit_count_answer reedgrit_precedence_reason(const reedgrit_propagator *propagator, const reedgrit_range *ranges, size_t range_count,
                                                 size_t task, int32_t *reason, size_t reason_words);

/* The next four are about a fixed schedule: each earliest start is the latest, and no two tasks overlap. They do not read barred starts. */

/* The schedule as text, a line for each task by start, each line of 31 bytes; the count is that of its bytes, REEDGRIT_PAGE_BYTES(n). Of two
 * tasks with durations 4 and 15 that start at 3 and at -12:
 *
 *     NR       START         END
 *      1         -12           3
 *      0           3           7
 *
 * Each line ends with four spaces and a line feed. Bytes behind the page keep what they held. Refuses by 20, 10, 3, 4, 14, 15. */
reedgrit_count_answer reedgrit_page(const reedgrit_propagator *propagator, const reedgrit_range *ranges, size_t range_count, uint8_t *out,
                                    size_t out_bytes);

/* What each task costs that ends after its due moment, and the sum, in cents. A unit of time is a minute. Each hour begun costs 25 for the
 * first 24 that a task is late, and 40 after these; a task costs 2000 at most. Refuses by 20, 10, 3, 4, 14, 19. */
reedgrit_charges_answer reedgrit_charges(const reedgrit_propagator *propagator, const reedgrit_range *ranges, size_t range_count,
                                         const int32_t *due, size_t due_count);

/* The least start at or after t at which a further task of duration d overlaps none. It may be above REEDGRIT_START, and is 800000000 at
 * most. Refuses by 20, 10, 3, 4, 14, 18. */
reedgrit_start_answer reedgrit_free_start(const reedgrit_propagator *propagator, const reedgrit_range *ranges, size_t range_count, int32_t t,
                                          int32_t d);

/* The greatest time that tasks cover of a stretch of the given length, and the least start that reaches it. The stretches that count start at
 * the first task's start, at the last one's, or anywhere between. Refuses by 20, 10, 3, 4, 14, 23. */
reedgrit_busiest_answer reedgrit_busiest_stretch(const reedgrit_propagator *propagator, const reedgrit_range *ranges, size_t range_count,
                                                 int32_t length);

/* Whether the premises and the negated consequent, one atom or none, leave every variable a value: REEDGRIT_PREPARED, or
 * REEDGRIT_CONTRADICTION with the variable of the first atom that contradicts those before it. Refuses by 7, 6, 21. The state itself does
 * not cross. */
reedgrit_state_answer reedgrit_prepare(const int32_t *premises, size_t premise_words, const int32_t *consequent, size_t consequent_words);

/* Questions to the state that the premises leave, from all integers for each variable: whether every value meets an atom, and the least
 * and the greatest value. Refuse by 7, 6, 21, where 6 is tried over the premises' words and the question's own, and so before 21 and before
 * a contradiction. */
reedgrit_state_answer reedgrit_is_true(const int32_t *premises, size_t premise_words, int32_t variable, int32_t kind, int32_t value);
reedgrit_state_answer reedgrit_lower_bound(const int32_t *premises, size_t premise_words, int32_t variable);
reedgrit_state_answer reedgrit_upper_bound(const int32_t *premises, size_t premise_words, int32_t variable);

#ifdef __cplusplus
}
#endif

#endif
