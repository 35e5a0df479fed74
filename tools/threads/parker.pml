/* A parker of the kit, step by step: threads.pml takes two of them for tokens. One thread parks PARKS times, another
 * unparks at any times. Each step is one access to the parker's word, and all of these are sequentially consistent.
 *
 * Checked: park returns only with a token that unpark left, and takes it; and wherever nothing can move, the thread
 * sleeps only if no token is there. The kit proves the first, and says that the second is only tested.
 */
#ifndef PARKS
#define PARKS 3
#endif

mtype = { EMPTY, PARKED, NOTIFIED };    /* @kit crossbeam_utils/src/sync/parker/ruled.rt: EMPTY, PARKED, NOTIFIED */
mtype word = EMPTY;
bool asleep;            /* the thread that parks sleeps on the word */
bool parks_over;        /* all parks returned */
bool token;             /* only the assertions read it: unpark left it, and no park has taken it */

/* @kit crossbeam_utils/src/sync/parker/ruled.rt: RuledParker::park_as
 * A futex compares the word and begins to sleep in one step. It may wake for no reason.
 */
proctype Parks() {
    byte times;
    do
    :: times == PARKS -> break
    :: times < PARKS ->
        atomic { if :: word == EMPTY -> word = PARKED :: else fi }
        do
        :: atomic { word == NOTIFIED -> word = EMPTY; assert(token); token = false; break }
        :: word != NOTIFIED ->
            if
#ifdef NO_COMPARE
            :: asleep = true
#else
            :: atomic { word == PARKED -> asleep = true }
            :: word != PARKED
#endif
            :: true     /* it wakes at once, for no reason */
            fi;
            !asleep
        od;
        times++
    od;
    parks_over = true
}

/* @kit crossbeam_utils/src/sync/parker/ruled.rt: RuledUnparker::unpark_as
 * It swaps the word, and then wakes the thread where that was parked.
 */
proctype Unparks() {
    bool parked;
    do
    :: break
    :: true ->
        atomic { parked = (word == PARKED); word = NOTIFIED; token = true };
#ifndef NO_WAKE
        atomic {
            if
            :: parked -> asleep = false
            :: else
            fi;
            parked = false
        }
#endif
    od
}

proctype Judge() {
    timeout;
    assert(!token || parks_over)
}

init {
    atomic { run Parks(); run Unparks(); run Judge() }
}
