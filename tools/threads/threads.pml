/* The four threads of `serve`, the three queues between them, the window over outputs, and a client.
 *
 * Contracts say what each thread does, and not that it goes on. Explored here, in every interleaving: that no thread
 * that owes something waits for ever, that a pause is seen, that `serve` returns once the input ends, and that nothing
 * is lost. docs/THREADS.md says what is left out and what is assumed; explore.sh has the runs.
 *
 * Data is left out, control is kept. Where the code asks the client, the program, the allocator or the system, the
 * model takes every answer, and takes it as late as it can: what a piece asks for, and why a run ended, is decided
 * where the session looks, since nobody looks before.
 *
 * A comment that begins with @ names a file below crates/ and the functions or types there that stand behind the lines
 * below it; one that begins with @kit, a file of the kit. `make pages` checks that they exist, and that the sizes in
 * parentheses are those of the code.
 */

/* How many places each queue has here. Only the orders have as many as in the code. */
#ifndef INBOX
#define INBOX 1         /* @size dap_wires/src/events.rt: INBOX_CAPACITY (64) */
#endif
#ifndef KEPT
#define KEPT 1          /* @size dap_wires/src/events.rt: QUIET_LIMIT (16) */
#endif
#ifndef OUTBOX
#define OUTBOX 1        /* @size dap_wires/src/frames.rt: OUTBOX_CAPACITY (64) */
#endif
#ifndef ORDERS
#define ORDERS 4        /* @size dap_wires/src/order_queue.rt: ORDERS_CAPACITY (4) */
#endif
#ifndef WINDOW
#define WINDOW 1        /* @size dap_wires/src/window.rt: WINDOW_LIMIT (512) */
#endif
/* The most outputs (numbers and logs) of a report, which may be more than the window has room for. With 0 there is none,
 * and the window lets all in.
 */
#ifndef MOST
#define MOST 1
#endif
/* How many slices a run that goes back has before its last. There is a bound, which is proved. */
#ifndef BACK
#define BACK 1
#endif
/* Run numbers are counted modulo this. */
#ifndef NUMBERS
#define NUMBERS 1
#endif
/* The most requests of a piece. */
#ifndef REQUESTS
#define REQUESTS 1
#endif

mtype = { NONE };
mtype = { PIECE, END };                 /* @ dap_session/src/ports.rt: Event, Event::Piece, Event::End */
mtype = { QUIET, TELLS, LAST, HELD };   /* @ dbg_runner/src/report.rt: Report. QUIET and TELLS: the run goes on */
mtype = { GO, HOLD, QUIT };             /* @ dbg_runner/src/order.rt: Order, Order::Go, Order::Hold, Order::Quit */
mtype = { FRAMES, MARK };               /* @ dap_wires/src/writer_message.rt: WriterMessage. MARK: WriterMessage::End */
mtype = { READY, CONFIGURING, RUNNING, STOPPED, ENDED };    /* @ dap_replies/src/phase.rt: Phase. STOPPED: Faulted too */

/* Events, or reports: which, the number of their run, how many they are, and how many outputs are in them. */
chan inbox = [INBOX] of { mtype, byte, byte, byte };
/* Bundles of frames, and the mark after the last. */
chan outbox = [OUTBOX] of { mtype };
/* Orders: which, the number of its run, and whether that goes back. */
chan orders = [ORDERS] of { mtype, byte, bool };

/* Two parkers, each with a token: park waits for it and takes it, unpark leaves it there. parker.pml has their steps. */
bool order_token;       /* of the queue of orders */
bool window_token;      /* of the window */

/* The window: how many outputs are inside, and whether any number may come in. */
byte inside;            /* @ dap_wires/src/window.rt: Window */
bool is_open;

bool keeps;             /* frames are kept: @ dap_wires/src/frame_ends.rt: FrameSender */
bool is_gone;           /* a frame was refused, in the same place: the session knows that the writer is gone */
bool unheard;           /* standard error is a full pipe, which nobody reads */

bool session_left, writer_left;                 /* the receiver's end of the inbox, of the outbox, is gone */
bool session_over, runner_over, reader_over;    /* the thread's work is done */
bool served;                                    /* all are joined: `serve` returns */
bool pauses;            /* a pause was granted in the run, and no stop or end was passed to the writer since */

/* Only properties read these. */
bool quitting;          /* an order to quit was pushed */
bool failed;            /* a write failed */
byte runs_open;         /* runs that were ordered, and whose last report the session hasn't taken */
byte reports_open;      /* reports that were sent, so put or kept, and that the session hasn't taken */
byte unwritten;         /* bundles that are in the outbox or in a write */
bool handed_back;       /* the reader's last event was returned to it */
bool told;              /* the reason was written */

/* ---- Clients. If none is defined, the client may send a piece at any time, ends its input at some time, and reads, or
 * goes away: that is in Reader and Writer. Other clients:
 *   CLOSES: it may also be silent for ever, with its input open, and it closes its input at some time or never;
 *   STALLS: it stops reading at some time, and then reads again, or closes its end of the output, or neither;
 *   UNHEARD: standard error is a full pipe, which somebody reads at some time or never.
 * With NO_WRITER the outbox and the writer are left out: each bundle finds room, or the writer gone.
 */
#if defined(CLOSES)
bool input_closed;
proctype Client() {
    if
    :: input_closed = true
    :: true
    fi
}
#elif defined(STALLS)
bool stalled, went_away;
proctype Client() {
    stalled = true;
    if
    :: stalled = false
    :: went_away = true
    :: true
    fi
}
#elif defined(UNHEARD)
proctype Client() {
    unheard = true;
    if
    :: unheard = false
    :: true
    fi
}
#endif

/* ---- The inbox. Two threads send, and nothing says who comes first where both wait for room. With FAIR, an end that
 * wants to send is overtaken at most FAIR times by the other.
 */
#define READER 0
#define RUNNER 1
bool slipped[2];        /* a message of this sender went in after the session had left */
#ifdef FAIR
bool wants[2];
byte overtaken[2];
#define want(me)         wants[me] = true
#define want_no_more(me) wants[me] = false; overtaken[me] = 0
#define may_put(me)      (nfull(inbox) && !(wants[1 - me] && overtaken[1 - me] == FAIR))
#define did_put(me)      want_no_more(me); if :: wants[1 - me] -> overtaken[1 - me]++ :: else fi
#else
#define want(me)         skip
#define want_no_more(me) skip
#define may_put(me)      nfull(inbox)
#define did_put(me)      skip
#endif

/* @ dap_wires/src/channels.rt: SendEnd::send
 * One message of each sender may still go in after the session has left, since the sender looked before; nobody reads it.
 * It waits where there is no room and the session is there.
 */
inline send(me, what, number, count, outputs, ok) {
    want(me);
    if
    :: !session_left && may_put(me) -> inbox!what(number, count, outputs); did_put(me); ok = true
    :: session_left && may_put(me) && !slipped[me] -> slipped[me] = true; inbox!NONE(0, 0, 0); did_put(me); ok = true
#ifndef NO_WAKE_AT_LEAVE
    :: session_left -> want_no_more(me); ok = false
#endif
    fi
}

/* @kit crossbeam_utils/src/sync/parker/ruled.rt: RuledParker::park_as */
inline park(token) {
    atomic { token -> token = false }
}

#ifdef READS_ON
#define goes_on(ok)     ok = false
#else
#define goes_on(ok)     if :: !ok -> break :: ok -> ok = false fi
#endif
#define reads(what)     assert(!handed_back); send(READER, what, 0, 0, 0, ok); handed_back = !ok

/* ---- The reader.
 * @ dap_wires/src/reading.rt: read_loop
 * @ dap_wires/src/transfer.rt: read_event
 * @ dap_wires/src/events.rt: ClientSender::send
 * END is the end of the input, a failed read, or no memory. After an event was handed back it reads no more.
 */
proctype Reader() {
    bool ok;
    do
#ifdef CLOSES
    :: atomic { !input_closed -> reads(PIECE); goes_on(ok) }
    :: true -> atomic { input_closed -> reads(END); break }
#else
    :: atomic { reads(PIECE); goes_on(ok) }
    :: atomic { reads(END); break }
#endif
    od;
    atomic { ok = false; handed_back = false; reader_over = true }
}

#ifdef WRITER_STAYS
#define leaves_outbox() skip
#else
#define leaves_outbox() writer_left = true
#endif

/* ---- The writer.
 * @ dap_wires/src/writing.rt: write_loop
 * @ dap_wires/src/frames.rt: FrameReceiver::receive, FrameReceiver::leave
 * @ byte_streams/src/writing.rt: write_all
 * A write returns at some time, or fails, as where the client has gone away. While the client has stalled it waits.
 */
proctype Writer() {
    do
    :: outbox?FRAMES ->
writes: if
#ifdef STALLS
        :: atomic { !stalled -> unwritten-- }
        :: atomic { went_away -> failed = true; leaves_outbox(); break }
#else
        :: unwritten--
        :: atomic { failed = true; leaves_outbox(); break }
#endif
        fi
    :: atomic { outbox?MARK -> writer_left = true; break }
    od
}

/* ---- The runner.
 * @ dbg_runner/src/working.rt: work, wait, run_slice, deliver, look, send_held
 */
proctype Runner() {
    mtype report = NONE;
    byte number, held, kept, slices, outputs;
    bool back, ok;

    /* @ dap_wires/src/order_queue.rt: OrderReceiver::next, take_next */
waits:
    assert(kept == 0);
    if
    :: orders?HOLD(_, _) -> goto waits
    :: orders?QUIT(_, _) -> goto over
    :: atomic { orders?GO(number, back) -> goto runs }
    :: empty(orders)
    fi;
    park(order_token);
#ifdef LOSES_HOLD
    atomic {    /* a Hold that came with a Go while the runner slept is thrown away as an old one */
        if
        :: orders?[GO, _, _] -> orders?GO(number, back);
            if
            :: orders?[HOLD, _, _] -> orders?HOLD(_, _)
            :: else
            fi;
            goto runs
        :: else
        fi
    }
#endif
    goto waits;

    /* A slice, and its report. A quiet one is kept where there is room for it.
     * @ dbg_runner/src/working.rt: run_onward, run_back
     * @ dap_wires/src/events.rt: ReportSender::send
     */
runs:
    atomic {
        reports_open = reports_open + !session_left;
        if
        :: kept < KEPT && (!back || slices < BACK) -> kept++; slices = slices + back; goto looks
        :: kept == KEPT && (!back || slices < BACK) -> report = QUIET; slices = slices + back
        :: !back -> report = TELLS; outputs = (MOST > 1 -> 1 : MOST)
        :: !back && MOST > 1 -> report = TELLS; outputs = MOST
        :: report = LAST
        :: MOST > 0 -> report = LAST; outputs = MOST
        fi
    }

    /* Those that are kept go first, together, or each by itself where there is no memory. Then a quiet one is kept.
     * @ dap_wires/src/events.rt: ReportSender::put, ReportSender::put_kept, ReportSender::put_each, ReportSender::keep
     */
puts:
    if
#ifdef KEEPS_AT_END
    :: kept == 0 || report != QUIET -> goto enters
    :: kept > 0 && report == QUIET ->
#else
    :: kept == 0 -> goto enters
    :: kept > 1 ->
        atomic {
            send(RUNNER, QUIET, number, 1, 0, ok); kept--;
            if
            :: !ok -> goto over
            :: else -> ok = false; goto puts
            fi
        }
    :: kept > 0 ->
#endif
        atomic {
            send(RUNNER, QUIET, number, kept, 0, ok); kept = 0;
            if
            :: !ok -> goto over
            :: ok && report == QUIET -> kept = 1; report = NONE; ok = false; goto looks
            :: ok && report != QUIET -> ok = false
            fi
        }
    fi;

    /* @ dap_wires/src/window.rt: WindowEntry::enter, Window::has_room
     * has_room looks at one word and then at the other. Once it is open nobody looks at the count any more.
     */
enters:
#ifdef NO_WINDOW
    goto sends;
#endif
    if
    :: outputs == 0 || is_open -> goto sends
    :: outputs > 0 && !is_open
    fi;
    if
    :: inside == 0 || inside + outputs <= WINDOW -> goto entered
    :: inside > 0 && inside + outputs > WINDOW
    fi;
outside:
    park(window_token);
    goto enters;
entered:
    inside = inside + outputs;
sends:
    atomic {
        send(RUNNER, report, number, 1, outputs, ok);
        outputs = 0;
        if
        :: !ok -> goto over
        :: ok && (report == LAST || report == HELD) ->
            report = NONE; number = 0; slices = 0; back = false; ok = false;
            goto waits
        :: else -> report = NONE; ok = false
        fi
    }

    /* @ dbg_runner/src/working.rt: look, hold
     * @ dap_wires/src/order_queue.rt: OrderReceiver::poll
     * A Hold is of the run that goes on, and a Go never comes here: the runner's contract allows both.
     */
looks:
    atomic {
        if
        :: empty(orders) -> goto runs
        :: orders?QUIT(_, _) -> goto over
        :: orders?HOLD(held, _) ->
            assert(held == number && !back);
            report = HELD; reports_open = reports_open + !session_left; held = 0;
            goto puts
        :: orders?GO(_, _) -> assert(false)
        fi
    }
over:
    atomic {
        report = NONE; number = 0; kept = 0; slices = 0; outputs = 0; inside = 0; back = false; ok = false;
        runner_over = true
    }
}

/* ---- The session. First what it does at an event: it changes its phase, and decides on an order and on frames.
 * Only those frames count that may find no room among the frames that are kept.
 */

/* @ dap_replies/src/run.rt: Run::begin */
inline begin(goes_back) {
    assert(!pauses);
    phase = RUNNING; order = GO; current = (current + 1) % NUMBERS; backward = goes_back; held = false
}

/* @ dap_replies/src/run.rt: Run::hold */
inline hold() {
    if
    :: !held && !backward -> held = true; order = HOLD
    :: else
    fi
}

/* With BOUND: how many outputs the client gets between the answer to a pause and the stop. */
#ifdef BOUND
byte late;
#define LATEST          ((MOST > WINDOW -> MOST : WINDOW) + MOST)
#define begins_pause()  late = (pauses -> late : 0); pauses = true
#define gets_outputs()  if :: pauses -> late = late + in_hand; assert(late <= LATEST) :: else fi
#else
#define begins_pause()  pauses = true
#define gets_outputs()  skip
#endif

/* @ dap_session/src/session/contents.rt: Session::take_contents
 * @ dap_session/src/session/requests.rt: Session::take_request
 * A request that changes nothing here has one frame: it is a question, or refused. The file of a launch is loaded at
 * once.
 */
inline take_request() {
    if
    :: frames = 1                                               /* any request that changes nothing */
    :: true                                                     /* no whole request has come yet */
    :: over = true                                              /* a framing fault, or no memory */
    :: frames = 1; order = QUIT; closes = true                  /* disconnect */
    :: phase == READY -> frames = 2; phase = CONFIGURING        /* launch */
    :: phase == CONFIGURING -> frames = 2; phase = STOPPED      /* configurationDone: position 0 is due */
    :: phase == CONFIGURING -> frames = 1; begin(false)         /* configurationDone */
    :: phase == STOPPED -> frames = 1; begin(false)             /* continue, next, stepIn, stepOut */
    :: phase == STOPPED -> frames = 2; phase = ENDED            /* the same, before a step that faults */
    :: phase == STOPPED -> frames = 1; begin(true)              /* stepBack, reverseContinue */
    :: phase == RUNNING -> frames = 1; begins_pause(); hold()   /* pause */
    :: phase == RUNNING -> frames = 1; hold()                   /* setBreakpoints */
    fi
}

/* @ dap_session/src/session/reports.rt: Session::take_report, Session::accept
 * @ dap_replies/src/run.rt: Run::expects
 * @ dap_replies/src/reporting.rt: report
 * No report is ignored, and a run's last report is the last that is taken of it.
 */
inline take_report() {
    assert(phase == RUNNING && number == current);
    reports_open = reports_open - count;
    gets_outputs();
    if
    :: what == LAST || what == HELD -> runs_open--; assert(reports_open == 0)
    :: else
    fi;
    if
    :: what == QUIET
    :: what == TELLS -> frames = 1
    :: what == LAST -> phase = STOPPED; frames = 2      /* due, or before a step that faults; a number or a log in front */
    :: what == LAST -> phase = ENDED; frames = 2
    :: what == HELD && pauses -> phase = STOPPED; frames = 1
    :: what == HELD && !pauses -> begin(false)
    :: what != QUIET -> over = true                     /* out of memory, here or in the runner */
    fi;
    if
    :: phase != RUNNING -> backward = false; held = false
    :: else
    fi
}

/* @ dap_wires/src/order_queue.rt: OrderSender::push, offer
 * The order first, and then the token. Only a second Quit finds no room, and nobody needs it.
 */
inline push() {
#ifdef UNPARKS_FIRST
    order_token = true;
#endif
    atomic {
        if
        :: full(orders) -> assert(order == QUIT && quitting)
        :: order == GO && nfull(orders) -> orders!GO(current, backward); runs_open++; assert(runs_open == 1)
        :: order == HOLD && nfull(orders) -> orders!HOLD(current, false)
        :: order == QUIT && nfull(orders) -> orders!QUIT(0, false); quitting = true
        fi;
        order = NONE
    }
#if !defined(NO_UNPARK) && !defined(UNPARKS_FIRST)
    order_token = true
#endif
}

/* @ dap_wires/src/frames.rt: FrameSender::send_kept
 * @ dap_wires/src/bundle.rt: Bundle
 * Where this has to be done, it waits while the outbox is full and the writer is there. Where the writer has left, the
 * frames stay. A send looks for that first: one that looked before put its message before, too, since nobody takes it.
 */
inline send_kept(has_to) {
    if
    :: !(has_to) || !keeps || is_gone
#ifdef NO_WRITER
    :: has_to && keeps && !is_gone -> keeps = false
    :: has_to && keeps && !is_gone -> is_gone = true; failed = true
#else
    :: has_to && keeps && !is_gone && !writer_left && nfull(outbox) -> outbox!FRAMES; unwritten++; keeps = false
    :: has_to && keeps && !is_gone && writer_left -> is_gone = true
#endif
    fi
}

/* @ dap_wires/src/window.rt: WindowExit::let_out
 * What the session has worked on is out.
 */
inline let_out() {
    if
    :: in_hand == 0
    :: in_hand > 0 ->
#if defined(NO_LET_OUT)
        in_hand = 0
#elif defined(NO_RING)
        atomic { inside = inside - in_hand; in_hand = 0 }
#elif defined(RINGS_FIRST)
        window_token = true;
        atomic { inside = inside - in_hand; in_hand = 0 }
#else
        atomic { inside = inside - in_hand; in_hand = 0 };
        window_token = true
#endif
    fi
}

/* @ dap_wires/src/event_receiver.rt: EventReceiver::leave
 * @ dap_wires/src/window.rt: WindowExit::drop
 * Dropping the session's end of the window opens it for good.
 */
inline leave() {
    atomic {
        session_left = true;
        do :: inbox?_, _, _, _ :: empty(inbox) -> break od;
        in_hand = 0; reports_open = 0; phase = NONE; current = 0; backward = false; held = false; pauses = false
    }
#if defined(NO_OPEN)
#elif defined(OPENS_LATE)
    window_token = true;
    is_open = true
#else
    is_open = true;
    window_token = true
#endif
}

/* @ dap_wires/src/frames.rt: FrameSender::finish, FrameSender::end
 * No mark is put where a frame was refused.
 */
inline finish() {
    atomic { send_kept(true) }
    if
#ifdef NO_WRITER
    :: writer_left = true
#else
    :: is_gone
#ifdef NO_MARK
    :: over
    :: !over && !is_gone && !writer_left && nfull(outbox) -> outbox!MARK
#else
    :: !is_gone && !writer_left && nfull(outbox) -> outbox!MARK
#endif
    :: !is_gone && writer_left
#endif
    fi
}

/* @ dap_session/src/driving.rt: drive, next_event, try_quit
 * @ adapter/src/thread_tasks.rt: SessionTask::run, SessionTask::leave
 * @ adapter/src/tasks.rt: run_beside
 */
proctype Session(bool started) {
    mtype phase = READY, what = NONE, order = NONE;
    byte current, number, count, frames, in_hand, requests;
    bool backward, held, closes, over;
    if
    :: !started ->      /* SessionTask::leave: a thread couldn't be started */
#ifndef GIVES_UP_NO_MARK
        finish();
#endif
#ifndef GIVES_UP_NO_QUIT
        order = QUIT; push();
#endif
        leave();
        goto joins
    :: started
    fi;

waits:
    /* @ dap_wires/src/session_inbox.rt: SessionInbox::next
     * @ dap_wires/src/event_receiver.rt: EventReceiver::receive
     */
#ifdef LETS_OUT_LATE
    inbox?[_, _, _, _];
#endif
    let_out();
receives:
    if
    :: atomic {
        inbox?what(number, count, in_hand);
        if
        :: what == PIECE -> requests = REQUESTS - 1; take_request()
        :: what == END -> order = QUIT; closes = true   /* @ dap_session/src/session/closing.rt: Session::close */
        :: what == END -> over = true                   /* it was no memory */
        :: else -> take_report()
        fi;
        what = NONE; number = 0; count = 0;
        goto decided
    }
    fi;

    /* @ dap_session/src/session/sending.rt: Session::send, push, put
     * The order first, and then the frames. Each request of a piece is sent before the next is taken.
     */
decided:
    atomic {
        if
        :: over -> goto tries
        :: !over && order != NONE -> goto pushes
        :: !over && order == NONE && frames > 0 -> goto puts
        :: !over && order == NONE && frames == 0 -> goto sent
        fi
    }
pushes:
    if :: true -> push() fi;
    /* @ dap_wires/src/frames.rt: FrameSender::put, FrameSender::put_last, FrameSender::add
     * @ dap_wires/src/bundling.rt: Bundle::add, Bundle::of, BUNDLE_LIMIT, BUNDLE_FRAMES
     * A frame goes to those that are kept, where there is room, and memory, for it, and the writer wasn't found gone. Else
     * these are sent first. The last frame is sent by itself.
     */
puts:
    do
    :: atomic { frames == 0 -> goto sent }
    :: atomic { frames > 1 && keeps && !is_gone -> frames-- }
    :: atomic {
        frames > 0;
puts_kept:
        send_kept(true);
        if
        :: is_gone -> goto refused
        :: !is_gone -> keeps = true
        fi;
puts_last:
#ifndef KEEPS_LAST
        send_kept(frames == 1);
#endif
        if
        :: is_gone -> goto refused
        :: !is_gone -> frames--
        fi
    }
    od;
refused:
#ifdef IGNORES_REFUSAL
    atomic { frames = 0; goto sent };
#else
    atomic { frames = 0; over = true; goto tries };
#endif
    /* While it waits nothing is kept, and it doesn't wait where it knows that the writer is gone. */
sent:
    atomic {
        assert(!keeps && !is_gone);
        if
        :: requests > 0 && !closes -> requests--; take_request(); goto decided
        :: requests = 0
        fi;
        if
        :: phase != RUNNING -> pauses = false
        :: else
        fi;
        if
        :: closes -> goto leaves
        :: !closes && in_hand == 0 -> goto receives
        :: !closes && in_hand > 0 -> goto waits
        fi
    }
    /* drive: try_quit */
tries:
    if
    :: true ->
        requests = 0;
#ifndef NO_TRY_QUIT
        order = QUIT;
        push()
#endif
    fi;
leaves:
    leave();
finishes:
    finish();
joins:
    atomic { closes = false; over = false; session_over = true }
    writer_left;
#ifdef TELLS_LATE
    runner_over && reader_over;
#endif
    /* @ adapter/src/listener.rt: ListenerWitness::see
     * @ adapter/src/reporting.rt: report
     * The reason goes to standard error before the others are joined. Such a write waits while nobody reads that.
     */
tells:
    atomic { !unheard -> told = true }
    writer_left && runner_over && reader_over;
    served = true
}

/* ---- What holds wherever nothing can move any more. */
proctype Judge() {
    timeout;
#if defined(SILENT)
    /* The client says no more, and may keep its input open: all was written that the session had to say, no run is
     * under way, the runner doesn't wait for room in the window, and a session that is over has told its reason, and has
     * only the reader to join.
     */
    assert(failed || (!keeps && unwritten == 0));
    assert(!Runner@outside);
    assert(runner_over || runs_open == 0);
    assert(!session_over || (writer_left && runner_over && told));
#else
#if defined(STALLS) && !defined(HANGS)
    if
    :: !served ->
        assert(stalled && Writer@writes);
        assert(Session@puts_kept || Session@puts_last || session_left);
        goto judged
    :: served
    fi;
#endif
#if defined(UNHEARD) && !defined(HANGS)
    if
    :: !served -> assert(unheard && Session@tells && writer_left && runner_over && reader_over)
    :: served
    fi;
#else
    assert(served);
#endif
    assert(failed || (!keeps && unwritten == 0));
    assert(quitting && runs_open <= 1);
judged:
    skip
#endif
}

/* @ adapter/src/serving.rt: serve
 * @ adapter/src/tasks.rt: begin
 * Where a thread can't be started, the session's does its task once it has left, which never waits then; or none does it.
 */
init {
    atomic {
#if defined(CLOSES) || defined(STALLS) || defined(UNHEARD)
        run Client();
#endif
        if
#ifdef NO_WRITER
        :: run Runner(); run Reader(); run Session(true)
#else
        :: run Writer(); run Runner(); run Reader(); run Session(true)
        :: run Writer(); run Runner(); reader_over = true; run Session(false)
        :: run Writer(); runner_over = true; reader_over = true; run Session(false)
        :: writer_left = true; runner_over = true; reader_over = true; run Session(false)
#endif
        fi;
#if !defined(CLOSES) || defined(SILENT)
        run Judge()
#endif
    }
}

#ifdef CLOSES
/* Under weak fairness; `pause` and `ends` also with an inbox that is fair to its two senders. */
ltl pause { [] (pauses -> <> !pauses) }         /* a stop, or the end of the run or of the session */
ltl quits { [] (quitting -> <> (session_over && runner_over && writer_left)) }
ltl ends  { [] (input_closed -> <> served) }
ltl fails { [] (is_gone -> <> session_over) }
#endif
