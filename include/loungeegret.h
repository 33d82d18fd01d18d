/*
 * loungeegret: a filter for the circuit constraint, for C and for languages that call C.
 *
 * `./build loungeegret` writes the archive target/staticlib/libloungeegret.a, for x86-64 Linux. It needs the C library only.
 *
 * The caller lends what a call reads and writes, and no call keeps a pointer. A pointer is never null, also where its length is
 * 0, and what it points to is initialised, also where the call only writes it. What a call may write overlaps nothing else that
 * is lent to the same call. While the call runs, nothing else writes what is lent, and nothing else reads what it may write.
 *
 * The library has no state of its own: calls on different states may run at the same time, in any threads, and so may calls that
 * only read the same one, which take it as const.
 */
#ifndef LOUNGEEGRET_H
#define LOUNGEEGRET_H

#include <stddef.h>
#include <stdint.h>

#ifdef __cplusplus
extern "C" {
#endif

/*
 * The number that a call answers: 0, why it is refused, or 100.
 *
 * A refused call other than an opening leaves the state as it is. A call that answers 100 writes nothing at all.
 */
enum loungeegret_number {
    LOUNGEEGRET_TAKEN = 0,
    LOUNGEEGRET_CUT_SHEET = 1,     /* bytes end before the count, a map or a field is whole */
    LOUNGEEGRET_BAD_COUNT = 2,     /* the number of stations is below 2 or above 64 */
    LOUNGEEGRET_UNKNOWN_BIT = 3,   /* one of bits 3 to 7 of a map stands */
    LOUNGEEGRET_STRAY_STATION = 4, /* a set has a bit above n, or a fixed field is 0 or above n */
    LOUNGEEGRET_OVERHANG = 5,      /* bytes follow the last record */
    LOUNGEEGRET_BAD_LIMIT = 6,     /* the separator limit is below 1 or above 64 */
    LOUNGEEGRET_BAD_WORK = 7,      /* bad work state */
    LOUNGEEGRET_STRAY_SEED = 8,    /* the seed is 0 or above n */
    LOUNGEEGRET_WRONG_LENGTH = 9,  /* the list has not n numbers */
    LOUNGEEGRET_NO_ROOM = 10,      /* the buffer is shorter than the text or the sheet */
    LOUNGEEGRET_NOT_TWO_WAY = 11,  /* fewer than 3 stations, or a leg without its reverse */
    LOUNGEEGRET_STRAY_ROAD = 12,   /* a must-drive road does not stand, or is given one way only */
    LOUNGEEGRET_NO_STATE = 100     /* the lent words are fewer than LOUNGEEGRET_STATE_WORDS, or a lent table's fewer than 64 */
};

/*
 * The words of a state. Word i below 64 is the row of station i + 1: bit k - 1 stands for the leg from there to station k.
 * Words that follow the state keep their contents.
 */
enum {
    LOUNGEEGRET_N = 64,          /* the number of stations */
    LOUNGEEGRET_LIMIT = 65,      /* the separator limit */
    LOUNGEEGRET_PLACE = 66,      /* the place of the run, 0 to n + 1 */
    LOUNGEEGRET_MARK = 67,       /* the cycle mark, 0 or 1; any other is a bad work state */
    LOUNGEEGRET_END = 68,        /* one of the ends below; any other is a bad work state */
    LOUNGEEGRET_STATE_WORDS = 69
};

enum loungeegret_end {
    LOUNGEEGRET_OPEN = 0,
    LOUNGEEGRET_STABLE = 1, /* no step strikes anything more; not that there is a round (see loungeegret_run) */
    LOUNGEEGRET_NONE = 2    /* there is no round; after a cut step with must-drive roads, none that drives them (see loungeegret_cut) */
};

/*
 * The length of the longest sheet (proved: sheet_most_lem), of the longest sheet that is written (written_most_lem), of the longest
 * station lines, those of all legs of 64 stations (longest_text), and a length that suffices for everything that the program prints
 * (program_most_lem).
 */
enum {
    LOUNGEEGRET_SHEET_MOST = 1153,
    LOUNGEEGRET_WRITTEN_MOST = 577,
    LOUNGEEGRET_TEXT_MOST = 11776,
    LOUNGEEGRET_PRINT_MOST = 11835
};

/*
 * The budget that always suffices, which is the program's: after a run with it, or with more, that is taken, the end is
 * LOUNGEEGRET_STABLE or LOUNGEEGRET_NONE, whatever place and mark the state had (proved: run_ended).
 */
enum {
    LOUNGEEGRET_FULL_BUDGET = 300000
};

/*
 * Opens a sheet with a separator limit. The state is written in each case, a refused opening writes the blank one: no stations, no
 * legs, limit 0, place 0, mark clear, open. `*place` is the place that goes with the number: the sheet's length for 1, the
 * offending byte for 2, 3 and 5, the field's first byte for 4, otherwise 0.
 *
 * Which limit: a pass skips the separators that have more stations than the limit. 64 skips none, filters most and is the
 * program's; a smaller limit is cheaper and strikes less. Under every limit only legs that no round can drive are struck.
 */
uint32_t loungeegret_open(const uint8_t *sheet, size_t sheet_length, size_t limit,
                          uint64_t *state, size_t state_length, size_t *place);

/* A sweep by hand. `*removed` is the number of legs that it removed, 0 where it is refused. */
uint32_t loungeegret_sweep(uint64_t *state, size_t state_length, uint32_t *removed);

/*
 * A chain step by hand. `*removed` as for a sweep. A leg is compulsory where it is its station's only leg out or its target's only
 * leg in. Where two of them leave or enter one station, or some close a loop over fewer than all stations, the end becomes none and
 * no leg goes; otherwise the leg goes that leads from the end of a chain of them back to its start, unless the chain has all
 * stations.
 */
uint32_t loungeegret_chain(uint64_t *state, size_t state_length, uint32_t *removed);

/*
 * A pass by hand. The seed is the number of a station, from 1. `*removed` as for a sweep. Where a station is out of reach, because no
 * path along legs, each taken in either direction, joins the seed to it, the end becomes none and no leg goes: under every limit,
 * before any separator is looked at. What lies between two stations of a separator counts as a way from the one to the other only
 * where it can be driven, by legs in their own direction.
 */
uint32_t loungeegret_pass(uint64_t *state, size_t state_length, size_t seed, uint32_t *removed);

/* The words of a table that is lent beside the state: the legs of a preview, the must-drive roads of a cut step. */
enum {
    LOUNGEEGRET_ROWS = 64
};

/*
 * The previews of a sweep, a chain step and a pass: what the step by hand would do, shown first. The state is left as it is. `legs`
 * has LOUNGEEGRET_ROWS words or more: the legs that would go are written there in the form of the leg table, words after it keep
 * their contents, and `*end` is the end that would follow. Where the step would change nothing, as it does on a state whose end is
 * LOUNGEEGRET_NONE, no leg is shown and the end is that of the state. A pass may strike legs and then find that there is no round:
 * it shows both.
 *
 * The number is that of the step, for the same reasons and in the same order. A refused preview writes 64 empty words and the word of
 * the state's end as it stands, which may be out of range. Fewer words than a state or a table has are answered by 100.
 *
 * What to do next: where the dispatcher agrees, make the step on the same words. It answers the same number, removes exactly the legs
 * that were shown, `*removed` is how many they are, and the end is the one that was shown; the same preview before it shows the same
 * as often as it is asked for (proved: previews, preview_words). After a taken opening and any calls on the same words, no leg is
 * shown that a round of the opened table drives, and LOUNGEEGRET_NONE only where there is no round (preview_after); after cut steps
 * with must-drive roads of the caller's own, this is said of the rounds that drive those. Where the end is LOUNGEEGRET_STABLE, no leg
 * is shown and the end stays (stable_after).
 */
uint32_t loungeegret_preview_sweep(const uint64_t *state, size_t state_length,
                                   uint64_t *legs, size_t legs_length, uint64_t *end);
uint32_t loungeegret_preview_chain(const uint64_t *state, size_t state_length,
                                   uint64_t *legs, size_t legs_length, uint64_t *end);
uint32_t loungeegret_preview_pass(const uint64_t *state, size_t state_length, size_t seed,
                                  uint64_t *legs, size_t legs_length, uint64_t *end);

/*
 * A run of at most `budget` steps. A step is a sweep at place 0, a chain step at place 1, and a pass with seed r at place r + 1.
 * `*steps` is the number of steps that it took and `*removed` the number of legs that it removed, both 0 where it is refused. How
 * it ended is in state[LOUNGEEGRET_END].
 *
 * Which budget: LOUNGEEGRET_FULL_BUDGET always suffices. No run from an opened sheet with n stations and L legs takes more than
 * (n + 2) * (L + 1) steps, 266178 at most, and none from any other state with L legs more than (n + 2) * (L + 2) (proved:
 * run_ceiling, run_anywhere).
 *
 * Short turns: with a smaller budget, where the end is still LOUNGEEGRET_OPEN the budget is used up, and the same call again goes on
 * from there. Turns leave the words that one run with the sum of their budgets leaves, what they write to `*steps` and `*removed`
 * adds up to what it writes, and each answers the number that it answers; a run with budget 0 changes no word (proved: turns_add).
 * List checks, searches, reports and written sheets may come between turns, a sweep, a chain step, a pass or a cut step by hand may
 * not. Longer turns are cheaper: what a run learns of passes that change nothing is forgotten where a turn ends.
 *
 * What stable means: after a taken opening and any calls on the same words, where the end is LOUNGEEGRET_STABLE, no sweep, chain
 * step or pass strikes anything more, with any seed. Each answers LOUNGEEGRET_TAKEN, or LOUNGEEGRET_STRAY_SEED where the seed is
 * stray, removes 0 legs and changes no word; a run takes no step. Where place, mark and end are put back to 0, 0 and
 * LOUNGEEGRET_OPEN, a run with a budget of n + 2 or more takes n + 2 steps, removes nothing and leaves the words as they were (proved:
 * stable_words). So does a run from the sheet of what is left, opened with the same limit (stable_after). Cut steps may have been
 * among the calls; one that follows may still strike legs.
 *
 * Stable does not promise a round, and legs that no round drives may be left: the Petersen graph, 10 stations and 30 legs, ends
 * stable after 12 steps with nothing removed, and has no round (no_promise). Whether there is one, loungeegret_first_round tells. Of
 * words that say a stable end but came from no opening, nothing of this is said.
 */
uint32_t loungeegret_run(uint64_t *state, size_t state_length, uint32_t budget,
                         uint32_t *steps, uint32_t *removed);

/*
 * A cut step by hand, on a two-way network: at least 3 stations, and with each leg its reverse. Such a pair is a road, driven by
 * either leg. `must` has LOUNGEEGRET_ROWS words or more: the table of must-drive roads in the form of the leg table, each road in
 * both directions; words after it keep their contents. It says which rounds count: those that drive all its roads.
 *
 * Where the stations are split into two groups, neither empty, the roads between these are a cut. A cut of no road, of one road, or
 * of three roads that are all must-drive makes the end none. Otherwise both roads of every cut of two roads become must-drive, and
 * are put into `must`; and the third road of every cut of three roads of which exactly two were given as must-drive goes, in both
 * directions; all together. Where one road would do both, the end becomes none. With none both tables stay. `*removed` is the number
 * of legs, two for each road that went. Where only `must` grew, the state does not change; where the end was none before, nothing
 * changes.
 *
 * Refused are a bad state (7), a table that is not two-way (11) and a stray must-drive road (12: it does not stand, or is given one
 * way only), in this order, also where the end is none; then no word changes and `*removed` is 0. Fewer words than a state or a
 * table has are answered by 100.
 *
 * What to do next: call it again with the same `must` until no leg goes and `must` does not change, since a road that became
 * must-drive counts from the next call on; where legs went, a run in between may strike more. The step is not part of a run. A run
 * may strike a leg and not its reverse, so after it the table may not be two-way any more (11), or a must-drive road may not stand
 * (12): then there are no cut steps left to make.
 *
 * Every round that drives all the given must-drive roads survives and drives all the new ones, and the end becomes none only where
 * there is no such round (proved: cut_keeps). After a taken opening and any calls on the same words, no leg is lost that is driven by
 * a round which drives all must-drive roads given to the cut steps that were not refused (demand3). So start with an empty table to
 * count all rounds, and hand it back as it comes: then none means that there is no round, and the round that loungeegret_first_round
 * finds is the first of the opened table (fed_back_lem, first_words). With roads of your own, which the round has to use, rounds without
 * them no longer count, and their legs may go.
 */
uint32_t loungeegret_cut(uint64_t *state, size_t state_length, uint64_t *must, size_t must_length,
                         uint32_t *removed);

/*
 * `*yes` is 1 where the n numbers of the list, one byte each, are a round and each of its legs stands: after station i comes the
 * station with the i-th number. Otherwise, and where the check is refused, it is 0.
 */
uint32_t loungeegret_check_list(const uint64_t *state, size_t state_length,
                                const uint8_t *list, size_t list_length, uint8_t *yes);

enum loungeegret_outcome {
    LOUNGEEGRET_REFUSED = 0,  /* the call is refused, and its number says why */
    LOUNGEEGRET_FOUND = 1,    /* the list has the first round */
    LOUNGEEGRET_NO_ROUND = 2, /* the table has no round */
    LOUNGEEGRET_USED_UP = 3   /* the budget is used up: there may be a round or none */
};

/* A search at 64 stations takes fewer bytes of stack than this (measured, held by a test), and at fewer stations less. */
enum {
    LOUNGEEGRET_FIRST_ROUND_STACK = 65536
};

/*
 * Looks for the first round of the state's table: the one whose list of next stations comes first when lists are compared from
 * station 1 on. Place, mark and end of the state are not used, and the state is left as it is. The list that is lent has n bytes;
 * where the round is found its numbers are written there, as loungeegret_check_list reads them, and otherwise the list keeps its
 * contents. `*outcome` is one of the outcomes above, and `*nodes` the number of nodes that were entered.
 *
 * A node is a table in which some stations, from station 1 on, are decided: each has one leg left. At first none is. A node is run
 * with LOUNGEEGRET_FULL_BUDGET and, unless that ends none, the nodes below it decide the next station for each leg that the run left
 * it, in rising order.
 *
 * LOUNGEEGRET_FOUND: the list is that of the first round, and passes the list check. LOUNGEEGRET_NO_ROUND: the table has none.
 * LOUNGEEGRET_USED_UP: `budget` nodes were entered and another is due; with budget 0 it always is. The same call with a larger
 * budget starts from the beginning, and never changes a found list, a no-round or their number of nodes (proved: finds,
 * node_budgets). A call is refused for a bad state or, after that, where the list has not n bytes; then `*outcome` is
 * LOUNGEEGRET_REFUSED and `*nodes` 0.
 *
 * After a taken opening and any calls on the same words, whatever they struck and however a run ended, the round that is found is
 * the first of the opened table, and no round is said only where the opened table has none (proved: first_words). So the list is
 * the same before a run and after it; of the number of nodes that is not said. After cut steps with must-drive roads of the
 * caller's own, it is a round of the opened table that none which drives those comes before, and no round is said only where there
 * is none which drives those.
 *
 * Which budget: a search that finds enters at least n + 1 nodes (finds), and on most tables that were measured hardly more. But
 * there are tables where 100000 are not enough, among them grids whose stations are numbered at random, and a node can take as long
 * as a run. So choose a budget that can be waited for, and treat LOUNGEEGRET_USED_UP as an answer.
 */
uint32_t loungeegret_first_round(const uint64_t *state, size_t state_length, uint32_t budget,
                                 uint8_t *list, size_t list_length, uint32_t *outcome, uint32_t *nodes);

/*
 * Writes the station lines to the start of the buffer; bytes after them keep their contents. `*length` is their length. A refused
 * report writes nothing to the buffer, and its length is 0. Look at state[LOUNGEEGRET_END] first: where it is LOUNGEEGRET_NONE
 * there is no round, and the lines show the legs that stood when that was found.
 */
uint32_t loungeegret_report(const uint64_t *state, size_t state_length,
                            uint8_t *buf, size_t buf_length, size_t *length);

/*
 * Writes the sheet of what is left to the start of the buffer; bytes after it keep their contents. `*length` is its length. A
 * station's record has no field where all its n - 1 legs stand; otherwise, where exactly one stands, the fixed field; otherwise the
 * next set. The same n and table give the same bytes, and opening them gives that n and table again; place, mark, end and limit are
 * not part of the sheet. A refused call, for a bad state or, after that, where the buffer is shorter than the sheet, writes nothing
 * to the buffer, and its length is 0. Look at state[LOUNGEEGRET_END] first: where it is LOUNGEEGRET_NONE there is no round, and the
 * sheet, which can be written all the same, does not say so.
 */
uint32_t loungeegret_write(const uint64_t *state, size_t state_length,
                           uint8_t *buf, size_t buf_length, size_t *length);

/*
 * The whole program in one call: opens the sheet with limit 64, runs with LOUNGEEGRET_FULL_BUDGET, and writes what the program
 * prints to the start of the buffer: two lines and, unless the end is none, the station lines; or the line `refused 3 at 1`. The
 * text never says that the end is open (never_open). Bytes after the text keep their contents. `*length` is its length. Answers LOUNGEEGRET_TAKEN also for a refused sheet, whose text says so, and
 * LOUNGEEGRET_NO_ROOM, with length 0 and nothing written to the buffer, where the buffer is shorter than the text.
 */
uint32_t loungeegret_print(const uint8_t *sheet, size_t sheet_length,
                           uint8_t *buf, size_t buf_length, size_t *length);

#ifdef __cplusplus
}
#endif

#endif
