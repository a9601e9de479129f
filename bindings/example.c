/* Instance A in C: three tasks, of which the third cannot start before the other two are over. */
#include "reedgrit.h"
#include <assert.h>
#include <stdio.h>
#include <string.h>

/* Words for the runs of three tasks. */
enum { POSTS = REEDGRIT_POST_WORDS(3), ATOMS = REEDGRIT_ATOM_WORDS(3) };

/* A range without barred starts. */
static reedgrit_range from_to(int32_t earliest, int32_t latest) {
    reedgrit_range range = {earliest, latest, 0, {0}};
    return range;
}

static void print_reason(const int32_t *words, size_t count) {
    for (size_t word = 0; word < count; word += 3)
        printf("why %d %s %d\n", (int)words[word], words[word + 1] == REEDGRIT_GREATER_EQUAL ? ">=" : "<=", (int)words[word + 2]);
}

/* Every slice of every call as NULL with length 0: each call answers as for any empty slice. */
static void empty_slices(reedgrit_propagator *three) {
    assert(reedgrit_create(NULL, 0).number == REEDGRIT_REFUSED_TASK_COUNT);
    assert(reedgrit_run(three, NULL, 0, NULL, 0, NULL, 0).number == REEDGRIT_REFUSED_RANGE_COUNT);
    assert(reedgrit_run_mirrored(three, NULL, 0, NULL, 0, NULL, 0).number == REEDGRIT_REFUSED_RANGE_COUNT);
    assert(reedgrit_post(NULL, 0, NULL, 0, 1, 0).number == REEDGRIT_REFUSED_POST);
    assert(reedgrit_overload_test(three, NULL, 0).number == REEDGRIT_REFUSED_RANGE_COUNT);
    assert(reedgrit_conflict(three, NULL, 0).number == REEDGRIT_REFUSED_RANGE_COUNT);
    assert(reedgrit_conflict_page(three, NULL, 0, NULL, 0).number == REEDGRIT_REFUSED_RANGE_COUNT);
    assert(reedgrit_precedences(three, NULL, 0).number == REEDGRIT_REFUSED_RANGE_COUNT);
    assert(reedgrit_precedence_bound(three, NULL, 0, 0).number == REEDGRIT_REFUSED_RANGE_COUNT);
    assert(reedgrit_precedence_reason(three, NULL, 0, 0, NULL, 0).number == REEDGRIT_REFUSED_RANGE_COUNT);
    assert(reedgrit_page(three, NULL, 0, NULL, 0).number == REEDGRIT_REFUSED_RANGE_COUNT);
    assert(reedgrit_charges(three, NULL, 0, NULL, 0).number == REEDGRIT_REFUSED_RANGE_COUNT);
    assert(reedgrit_free_start(three, NULL, 0, 0, 1).number == REEDGRIT_REFUSED_RANGE_COUNT);
    assert(reedgrit_busiest_stretch(three, NULL, 0, 1).number == REEDGRIT_REFUSED_RANGE_COUNT);
    assert(reedgrit_check(NULL, 0, NULL, 0, NULL, 0).number == REEDGRIT_REFUSED_TASK_COUNT);
    assert(reedgrit_check_mirrored(NULL, 0, NULL, 0, NULL, 0).number == REEDGRIT_REFUSED_TASK_COUNT);
    const int32_t durations[] = {4, 5, 3};
    assert(reedgrit_check(durations, 3, NULL, 0, NULL, 0).kind == REEDGRIT_NOT_PASSED);
    assert(reedgrit_check_mirrored(durations, 3, NULL, 0, NULL, 0).kind == REEDGRIT_NOT_PASSED);
    assert(reedgrit_prepare(NULL, 0, NULL, 0).kind == REEDGRIT_PREPARED);
    assert(reedgrit_is_true(NULL, 0, 0, REEDGRIT_GREATER_EQUAL, 0).kind == REEDGRIT_NOT_TRUE);
    assert(reedgrit_lower_bound(NULL, 0, 0).infinity == -1);
    assert(reedgrit_upper_bound(NULL, 0, 0).infinity == 1);

    /* With ranges, the other slices may still be empty. */
    reedgrit_range ranges[] = {from_to(0, 6), from_to(1, 5), from_to(0, 20)};
    assert(reedgrit_run(three, ranges, 3, NULL, 0, NULL, 0).number == REEDGRIT_REFUSED_ROOM);
    assert(reedgrit_run_mirrored(three, ranges, 3, NULL, 0, NULL, 0).number == REEDGRIT_REFUSED_ROOM);
    assert(reedgrit_precedence_reason(three, ranges, 3, 0, NULL, 0).number == REEDGRIT_REFUSED_REASON_ROOM);
    assert(reedgrit_conflict_page(three, ranges, 3, NULL, 0).number == REEDGRIT_REFUSED_PAGE_ROOM);
    const reedgrit_range fixed[] = {from_to(0, 0), from_to(4, 4), from_to(9, 9)};
    assert(reedgrit_page(three, fixed, 3, NULL, 0).number == REEDGRIT_REFUSED_PAGE_ROOM);
    assert(reedgrit_charges(three, fixed, 3, NULL, 0).number == REEDGRIT_REFUSED_DUE);
}

/* Two tasks that do not fit: the reason of the overload is read as a post's is, and without consequent it passes the check. */
static void overloads(void) {
    const int32_t fours[] = {4, 4};
    int32_t posts[REEDGRIT_POST_WORDS(2)], atoms[REEDGRIT_ATOM_WORDS(2)];
    reedgrit_new two = reedgrit_create(fours, 2);
    reedgrit_range tight[] = {from_to(0, 2), from_to(1, 2)};
    assert(reedgrit_overload_test(&two.propagator, tight, 2).kind == REEDGRIT_TEST_OVERLOAD);
    reedgrit_run_answer overload = reedgrit_run(&two.propagator, tight, 2, posts, 8, atoms, 24);
    assert(overload.kind == REEDGRIT_OVERLOAD && overload.posts == 0 && overload.word_count == 12 && overload.changes == 2);
    printf("overload\n");
    print_reason(atoms + overload.first_word, overload.word_count);
    assert(reedgrit_check(fours, 2, atoms + overload.first_word, overload.word_count, NULL, 0).kind == REEDGRIT_PASSED);

    reedgrit_mirrored_answer back = reedgrit_run_mirrored(&two.propagator, tight, 2, posts, 8, atoms, 24);
    assert(back.kind == REEDGRIT_OVERLOAD && back.word_count == 12);
    assert(reedgrit_check_mirrored(fours, 2, atoms + back.first_word, back.word_count, NULL, 0).kind == REEDGRIT_PASSED);
}

/* Why they do not fit, in the numbers of the ranges: the sets, and the page that a person can add up. */
static void conflicts(void) {
    const int32_t fours[] = {4, 4}, durations[] = {3, 5};
    uint8_t page[REEDGRIT_CONFLICT_PAGE_BYTES(2)];
    reedgrit_new two = reedgrit_create(fours, 2);
    const reedgrit_range tight[] = {from_to(0, 2), from_to(1, 2)}, loose[] = {from_to(0, 4), from_to(0, 4)};
    reedgrit_conflict_answer overload = reedgrit_conflict(&two.propagator, tight, 2);
    assert(overload.kind == REEDGRIT_CONFLICT_OVERLOAD && sizeof overload == 144 && sizeof overload.set == 56);
    assert(overload.set.tasks[0] && overload.set.tasks[1] && !overload.set.tasks[2] && !overload.before.tasks[0]);
    assert(overload.set.est == 0 && overload.set.p == 8 && overload.lct == 6 && overload.excess == 2);
    reedgrit_count_answer written = reedgrit_conflict_page(&two.propagator, tight, 2, page, sizeof page);
    assert(written.kind == REEDGRIT_CONFLICT_PAGE_WRITTEN);
    printf("%.*s", (int)written.count, (const char *)page);
    assert(reedgrit_conflict(&two.propagator, loose, 2).kind == REEDGRIT_CONFLICT_NOTHING);
    assert(reedgrit_conflict_page(&two.propagator, loose, 2, page, sizeof page).kind == REEDGRIT_CONFLICT_PAGE_NOTHING);

    two = reedgrit_create(durations, 2);
    const reedgrit_range pair[] = {from_to(0, 5), from_to(1, 1)};
    reedgrit_conflict_answer late = reedgrit_conflict(&two.propagator, pair, 2);
    assert(late.kind == REEDGRIT_CONFLICT_LATE && late.task == 0 && late.latest_start == 5 && late.bound == 6);
    assert(late.set.est == 0 && late.set.p == 8 && late.lct == 6 && late.excess == 2 && late.set.tasks[0] && late.set.tasks[1]);
    assert(late.before.est == 1 && late.before.p == 5 && late.before.tasks[1] && !late.before.tasks[0]);
    written = reedgrit_conflict_page(&two.propagator, pair, 2, page, sizeof page);
    printf("%.*s", (int)written.count, (const char *)page);
    assert(reedgrit_conflict_page(&two.propagator, pair, 2, page, sizeof page - 1).number == REEDGRIT_REFUSED_PAGE_ROOM);
}

/* The third task may not start at 9 or 10: its post is still 9, and its earliest start goes on to 11. */
static void barred_starts(reedgrit_propagator *three) {
    int32_t posts[POSTS], atoms[ATOMS];
    reedgrit_range ranges[] = {from_to(0, 6), from_to(1, 5), from_to(0, 20)};
    ranges[2].count = 2;
    ranges[2].barred[0] = 9;
    ranges[2].barred[1] = 10;
    ranges[2].barred[2] = -7; /* past the count: not read, and left alone */
    reedgrit_run_answer ran = reedgrit_run(three, ranges, 3, posts, POSTS, atoms, ATOMS);
    assert(ran.kind == REEDGRIT_DONE && reedgrit_post(posts, POSTS, atoms, ATOMS, ran.posts, 0).bound == 9);
    printf("permitted from %d\n", (int)ranges[2].earliest);
    assert(ranges[2].earliest == 11 && ranges[2].count == 2 && ranges[2].barred[2] == -7);

    /* An earliest start among the bars is refused, and so are bars that do not ascend. */
    ranges[2].barred[0] = 11;
    assert(reedgrit_run(three, ranges, 3, posts, POSTS, atoms, ATOMS).number == REEDGRIT_REFUSED_BARS);
    assert(reedgrit_precedences(three, ranges, 3).number == REEDGRIT_REFUSED_BARS && ranges[2].earliest == 11);
}

/* A reason of a latest start passes the mirrored check, and need not pass the other. */
static void latest_starts(void) {
    const int32_t durations[] = {1, 2, 1};
    int32_t posts[POSTS], atoms[ATOMS];
    reedgrit_new three = reedgrit_create(durations, 3);
    reedgrit_range late[] = {from_to(-4, -3), from_to(-8, -6), from_to(-5, -5)};
    reedgrit_mirrored_answer lowered = reedgrit_run_mirrored(&three.propagator, late, 3, posts, POSTS, atoms, ATOMS);
    assert(lowered.kind == REEDGRIT_DONE && lowered.posts == 1 && late[1].latest == -7);
    reedgrit_post_answer why = reedgrit_post(posts, POSTS, atoms, ATOMS, lowered.posts, 0);
    printf("latest %d %d\n", (int)why.task, (int)why.bound);
    print_reason(atoms + why.first_word, why.word_count);
    const int32_t at_most[] = {why.task, REEDGRIT_LESS_EQUAL, why.bound};
    assert(reedgrit_check_mirrored(durations, 3, atoms + why.first_word, why.word_count, at_most, 3).kind == REEDGRIT_PASSED);
    assert(reedgrit_check(durations, 3, atoms + why.first_word, why.word_count, at_most, 3).kind == REEDGRIT_NOT_PASSED);
}

/* Precedences: a bound and its reason are asked before the pass, which stores the bound; a pass that empties a range changes none. */
static void precedences(void) {
    const int32_t durations[] = {3, 5};
    int32_t reason[REEDGRIT_REASON_WORDS(2)];
    reedgrit_new two = reedgrit_create(durations, 2);
    reedgrit_range pair[] = {from_to(0, 6), from_to(1, 1)};
    reedgrit_start_answer bound = reedgrit_precedence_bound(&two.propagator, pair, 2, 0);
    assert(bound.kind == REEDGRIT_BOUND_ABOVE && bound.start == 6);
    assert(reedgrit_precedence_bound(&two.propagator, pair, 2, 1).kind == REEDGRIT_NO_BOUND_ABOVE);
    assert(reedgrit_precedence_bound(&two.propagator, pair, 2, 2).number == REEDGRIT_REFUSED_TASK);
    reedgrit_count_answer why = reedgrit_precedence_reason(&two.propagator, pair, 2, 0, reason, REEDGRIT_REASON_WORDS(2));
    assert(why.kind == REEDGRIT_REASON_WRITTEN && why.count == 3);
    printf("by precedences\n");
    print_reason(reason, 3 * why.count);
    assert(reedgrit_precedences(&two.propagator, pair, 2).kind == REEDGRIT_PRECEDENCES_DONE && pair[0].earliest == 6);
    assert(reedgrit_precedence_bound(&two.propagator, pair, 2, 0).kind == REEDGRIT_NO_BOUND_ABOVE);
    assert(reedgrit_precedence_reason(&two.propagator, pair, 2, 0, reason, REEDGRIT_REASON_WORDS(2)).count == 0);
    assert(reedgrit_precedence_reason(&two.propagator, pair, 2, 2, reason, REEDGRIT_REASON_WORDS(2)).number == REEDGRIT_REFUSED_TASK);

    reedgrit_range tight[] = {from_to(0, 5), from_to(1, 1)};
    reedgrit_count_answer emptied = reedgrit_precedences(&two.propagator, tight, 2);
    assert(emptied.kind == REEDGRIT_PRECEDENCES_EMPTIED && emptied.count == 0 && tight[0].earliest == 0);
    assert(reedgrit_precedence_bound(&two.propagator, tight, 2, emptied.count).start == 6); /* above the latest start */
}

/* Tasks added and taken off, and what can be asked about a fixed schedule. */
static void fixed_schedule(void) {
    const int32_t fours[] = {4, 4};
    reedgrit_new two = reedgrit_create(fours, 2);
    assert(reedgrit_add(&two.propagator, 15).kind == REEDGRIT_CHANGED && two.propagator.count == 3);
    assert(reedgrit_remove(&two.propagator, 0).kind == REEDGRIT_CHANGED && two.propagator.durations[1] == 15);
    assert(reedgrit_remove(&two.propagator, 2).number == REEDGRIT_REFUSED_REMOVED);

    const reedgrit_range fixed[] = {from_to(3, 3), from_to(-12, -12)};
    uint8_t page[REEDGRIT_PAGE_BYTES(2)];
    const char *text = "NR       START         END    \n"
                       " 1         -12           3    \n"
                       " 0           3           7    \n";
    reedgrit_count_answer written = reedgrit_page(&two.propagator, fixed, 2, page, sizeof page);
    assert(written.kind == REEDGRIT_PAGE_WRITTEN && written.count == sizeof page && memcmp(page, text, sizeof page) == 0);
    assert(reedgrit_page(&two.propagator, fixed, 2, page, sizeof page - 1).number == REEDGRIT_REFUSED_PAGE_ROOM);

    /* Task 0 is a minute late and costs an hour; task 1 is 25 hours late. */
    const int32_t due[] = {6, 3 - 25 * 60};
    reedgrit_charges_answer charged = reedgrit_charges(&two.propagator, fixed, 2, due, 2);
    assert(charged.kind == REEDGRIT_CHARGED && sizeof charged == 204);
    assert(charged.charges[0] == 25 && charged.charges[1] == 24 * 25 + 40 && charged.total == 665);

    reedgrit_start_answer free_start = reedgrit_free_start(&two.propagator, fixed, 2, -20, 9);
    assert(free_start.kind == REEDGRIT_START_FOUND && free_start.start == 7);
    /* A stretch from -13 would cover as much, but starts before the first task and does not count. */
    reedgrit_busiest_answer busiest = reedgrit_busiest_stretch(&two.propagator, fixed, 2, 20);
    assert(busiest.kind == REEDGRIT_STRETCH_FOUND && busiest.time == 19 && busiest.start == -12);
}

int main(void) {
    const int32_t durations[] = {4, 5, 3};
    reedgrit_range ranges[] = {from_to(0, 6), from_to(1, 5), from_to(0, 20)};
    int32_t posts[POSTS], atoms[ATOMS];

    assert(reedgrit_abi_version() == REEDGRIT_ABI);
    reedgrit_new made = reedgrit_create(durations, 3);
    assert(made.number == 0 && sizeof made.propagator == 208 && sizeof ranges[0] == 80);
    reedgrit_run_answer ran = reedgrit_run(&made.propagator, ranges, 3, posts, POSTS, atoms, ATOMS);
    assert(ran.kind == REEDGRIT_DONE && ran.changes == 8);
    for (size_t k = 0; k < ran.posts; k++) {
        reedgrit_post_answer post = reedgrit_post(posts, POSTS, atoms, ATOMS, ran.posts, k);
        assert(post.number == 0);
        printf("post %d %d\n", (int)post.task, (int)post.bound);
        print_reason(atoms + post.first_word, post.word_count);
        const int32_t consequent[] = {post.task, REEDGRIT_GREATER_EQUAL, post.bound};
        assert(reedgrit_check(durations, 3, atoms + post.first_word, post.word_count, consequent, 3).kind == REEDGRIT_PASSED);
    }
    printf("done %d %d %d\n", (int)ranges[0].earliest, (int)ranges[1].earliest, (int)ranges[2].earliest);

    /* The run left the record as it was: another run on these ranges finds nothing more to post, and one on the first ranges answers as before. */
    assert(made.propagator.count == 3 && made.propagator.durations[0] == 4 && made.propagator.total == 12);
    assert(reedgrit_run(&made.propagator, ranges, 3, posts, POSTS, atoms, ATOMS).posts == 0);
    reedgrit_range again[] = {from_to(0, 6), from_to(1, 5), from_to(0, 20)};
    assert(reedgrit_run(&made.propagator, again, 3, posts, POSTS, atoms, ATOMS).posts == 1 && again[2].earliest == 9);

    overloads();
    conflicts();
    barred_starts(&made.propagator);
    empty_slices(&made.propagator);

    const int32_t premises[] = {0, REEDGRIT_NOT_EQUAL, 5, 0, REEDGRIT_GREATER_EQUAL, 5};
    reedgrit_state_answer least = reedgrit_lower_bound(premises, 6, 0);
    assert(least.kind == REEDGRIT_BOUND && least.infinity == 0 && least.value == 6);

    /* The premises contradict each other; but a question on an unknown variable is turned back before they are applied. */
    const int32_t crossed[] = {0, REEDGRIT_GREATER_EQUAL, 1, 0, REEDGRIT_LESS_EQUAL, 0};
    reedgrit_state_answer none = reedgrit_lower_bound(crossed, 6, 1);
    assert(none.kind == REEDGRIT_CONTRADICTION && none.variable == 0);
    reedgrit_state_answer unknown = reedgrit_lower_bound(crossed, 6, 64);
    assert(unknown.kind == REEDGRIT_REFUSED && unknown.number == REEDGRIT_REFUSED_ATOMS);

    latest_starts();
    precedences();
    fixed_schedule();
    return 0;
}
