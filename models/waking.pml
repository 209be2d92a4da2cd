/* How segcached's storage thread and its workers park, wait in a port, and are woken.

   Beside each step stands the code that it models: crate, file and function. Each load and each store of what threads share is
   a step of its own; what a thread does with memory of its own goes with them. An idle turn that spins does nothing but look
   again, and so does a poll that doesn't wait while a port spins: both are left out. So are all time-outs: who isn't
   woken sleeps for ever, and spin finds a run that ends before its threads do. The other wrong end that it finds is a run that
   goes on for ever.

   A client sends some requests at any time, waits for their answers and closes. There is one stream for each worker. A peer
   takes all that it is given, since a worker doesn't sleep while one doesn't; and the session of one that has closed ends at
   once, since it is owed nothing then.

   Without SOCKETS the port is any that brings requests, nothing or its end, and nothing only where the worker may not wait.
   With BY_WORKERS workers execute requests, and the storage thread does what they leave: one thread at a time holds the storage
   side. A look at a lane is one step, with all that is executed then. Ports are left out; one that has no more requests ends at
   once, or once no thread can go on. By then all that was posted has to be answered, since a bye would have it executed too.
   Each other name that is asked for by #ifdef makes a wrong protocol: tools/tests/test_waking.py has them refused. */

#ifndef WORKERS
#define WORKERS 2
#endif
#ifndef REQUESTS
#define REQUESTS 2           /* the most of the first client; each further one has one less, but with BY_WORKERS as many */
#endif
#ifndef WINDOW
#define WINDOW 3             /* proto/limits.rt: WINDOW */
#endif
#define EIGHTH 2             /* storage_thread/serving.rt: ANSWERS_PER_FLUSH */
#define WAKER_ROOM 1         /* the bytes that fit into a waker of which nobody reads */
#define NOBODY WORKERS

#ifdef SOCKETS
#define OWN
#else
#define OWN atomic           /* a port that is no socket: what it brings is the worker's own matter */
#endif

#define AWAKE 0
#define ANNOUNCED 1
#define PARKED 2

typedef ParkingWord { byte word; bool sleeps };

ParkingWord storage_word, worker_words[WORKERS];   /* exchange/signals.rt: parking, worker_parking */
byte posted[WORKERS];                              /* exchange/worker.rt: flush */
byte done[WORKERS];                                /* exchange/storage.rt: flush_answers */
byte bye[WORKERS];                                 /* the number of the worker's bye, once it stands in its slot */
byte streams[WORKERS];                             /* net/hand.rt: Hand */
bool has_ended[WORKERS];                           /* net/hand.rt: Hand */
byte wakes[WORKERS];                               /* the waker's bytes that weren't read */
bool waker_event[WORKERS], stream_event[WORKERS];  /* what epoll tells next */
bool is_registered[WORKERS], has_closed[WORKERS];
byte clients_left = WORKERS;
byte input[WORKERS], given[WORKERS];               /* requests in a stream, and answers that its peer was given */

inline announce(parking) { parking.word = ANNOUNCED }   /* exchange/signals.rt: announce */

inline cancel(parking) { parking.word = AWAKE }    /* exchange/signals.rt: cancel */

inline park(parking) {                             /* exchange/signals.rt: park */
#ifdef PARKS_OVER_A_WAKE
  parking.word = PARKED;
#else
  atomic { if :: parking.word == ANNOUNCED -> parking.word = PARKED :: else fi };
#endif
  atomic { if :: parking.word == PARKED -> parking.sleeps = true :: else fi };
  !parking.sleeps;
  cancel(parking)
}

inline unpark(parking) {                           /* exchange/signals.rt: unpark */
#ifndef NO_UNPARK
  if
  :: parking.word != AWAKE ->
     atomic { old_word = parking.word; parking.word = AWAKE };
     if :: old_word == PARKED -> d_step { parking.sleeps = false; old_word = AWAKE } :: else -> old_word = AWAKE fi
  :: else
  fi
#else
  skip
#endif
}

inline reset(parking) {                            /* exchange/idle_turns.rt: reset */
  if :: announced -> cancel(parking); announced = false :: else fi
}

inline turn(parking) {                             /* exchange/idle_turns.rt: turn */
  if
  :: announced -> park(parking); announced = false
  :: else ->
     announce(parking); announced = true;
#ifdef NO_SECOND_LOOK
     park(parking); announced = false
#endif
  fi
}

#ifdef BY_WORKERS
/* Who executes: a worker that has posted, or the storage thread. */

bool is_held, is_wanted;                           /* storage_thread/sharing.rt: SharedStorage */
byte counts[WORKERS], left = WORKERS;              /* storage_thread/side.rt: SideState */
bool is_quiet;                                     /* no thread could go on */

inline try_lock() {
  atomic { if :: !is_held -> is_held = true; holds = true :: else fi }
}

inline try_hold() {                                /* storage_thread/sharing.rt: try_hold */
  try_lock();
  if
  :: !holds ->
     is_wanted = true;
#ifndef TRIES_ONCE
     try_lock()
#endif
  :: else
  fi;
#ifndef TAKES_BACK_LATE
  if :: holds -> is_wanted = false :: else fi
#endif
}

inline put_back() {
#ifdef TAKES_BACK_LATE
  is_wanted = false;
#endif
  atomic { is_held = false; holds = false }
}

inline look_and_execute() {                        /* storage_thread/side.rt: serve_next */
  d_step {
    if
    :: posted[lane] > counts[lane] ->
       if :: posted[lane] == bye[lane] -> left-- :: else fi;
       counts[lane] = posted[lane]; found = true; is_new = true
    :: else -> lane++
    fi
  };
  if
  :: is_new ->
     d_step { done[lane] = counts[lane]; is_new = false };
     if :: lane != me -> unpark(worker_words[lane]) :: else fi;
     lane++
  :: !is_new
  fi
}

inline execute_all() {                             /* storage_thread/side.rt: serve_turn */
  do
  :: lane < WORKERS ->
     if
     :: look_and_execute()
     :: d_step {                                   /* storage_thread/side.rt: OTHERS_A_TURN */
          me != NOBODY && lane != me && posted[lane] > counts[lane] -> may_leave = true; lane++
        }
     fi
  :: else ->
     atomic {
       lane = 0; has_served = (me == NOBODY && (has_served || found));
       if :: found && !may_leave -> found = false :: else -> found = false; is_done = (left == 0); break fi
     }
  od
}

inline look_again() {                              /* storage_thread/sharing.rt: serve, serve_beside */
#ifndef NO_LAST_LOOK
  must_look = is_wanted
#else
  skip
#endif
}

inline serve() {                                   /* storage_thread/sharing.rt: serve */
  do
  :: true ->
     try_hold();
     if :: !holds -> break :: else fi;
     execute_all();
#ifdef LOOKS_BEFORE_IT_PUTS_BACK
     look_again(); put_back();
#else
     put_back(); look_again();
#endif
     if
#ifndef LEAVES_UNTOLD
     :: may_leave -> unpark(storage_word); break
#else
     :: may_leave -> break
#endif
#ifndef ENDS_UNTOLD
     :: is_done && !may_leave -> unpark(storage_word); break
#else
     :: is_done && !may_leave -> break
#endif
     :: must_look && !may_leave && !is_done ->
        if                                         /* storage_thread/sharing.rt: TURNS_IN_A_ROW */
        :: !is_last -> atomic { is_last = true; must_look = false }
        :: is_last -> unpark(storage_word); break
        fi
     :: !must_look && !may_leave && !is_done -> break
     fi
  od;
  atomic { may_leave = false; is_done = false; must_look = false; has_served = false; is_last = false }
}

proctype storage() {                               /* storage_thread/sharing.rt: serve_beside */
  byte me = NOBODY, lane, old_word;
  bool holds, found, is_new, may_leave, is_done, has_served, must_look, announced;
  do
  :: true ->
     if :: !holds -> try_hold() :: else fi;
     if
     :: holds ->
        execute_all();                             /* storage_thread/serving.rt: serve_until_idle */
        if :: is_done -> put_back(); break :: else fi;
#ifndef PARKS_HOLDING
        put_back();
#ifndef PARKS_WITHOUT_A_LOOK
        look_again()
#endif
#endif
     :: else
     fi;
     if
     :: has_served || must_look -> has_served = false; must_look = false; reset(storage_word)
     :: else -> turn(storage_word)
     fi
  od
}

inline wait_for_answers() {                        /* worker/pauses.rt: turn */
  do
  :: done[me] == sent -> reset(worker_words[me]); break
  :: else -> turn(worker_words[me])
  od
}

proctype worker(byte me) {                         /* worker/run.rt: run_worker */
  byte sent, lane, old_word;
  bool holds, found, is_new, may_leave, is_done, is_last, has_served, must_look, announced;
  do
  :: sent < REQUESTS ->
     d_step { sent++; posted[me] = sent };         /* exchange/worker.rt: flush */
     if
     :: unpark(storage_word)                       /* worker/worker.rt: posting */
     :: serve()                                    /* group/executing.rt: posted */
     fi;
     if :: sent < REQUESTS :: wait_for_answers() fi   /* it may read on before */
  :: sent == REQUESTS -> break
  od;
  wait_for_answers();
  if :: true -> is_quiet :: true fi;
  atomic { bye[me] = sent + 1; posted[me] = bye[me] };   /* exchange/steps.rt: put_bye */
  serve()                                          /* worker/run.rt: leave */
}

proctype quiet() {
  byte at;
  timeout;
  do
  :: at < WORKERS -> assert(posted[at] == done[at]); at++
  :: else -> break
  od;
  is_quiet = true
}

#else
/* The storage thread. */

inline flush_answers() {                           /* exchange/storage.rt: flush_answers */
  if
  :: waiting -> d_step {
       done[waiting_lane] = counts[waiting_lane];
       told = waiting_lane; waiting = false; waiting_lane = 0; untold = 0
     }
  :: else
  fi
}

inline unpark_told() {                             /* storage_thread/serving.rt: tell_workers */
  if
  :: told != NOBODY -> unpark(worker_words[told]); told = NOBODY
  :: else
  fi
}

inline tell() {                                    /* storage_thread/serving.rt: tell_workers */
#ifdef UNPARK_BEFORE_TELL
  if :: waiting -> unpark(worker_words[waiting_lane]) :: else fi;
  flush_answers(); told = NOBODY
#else
  flush_answers();
  unpark_told()
#endif
}

inline tell_before() {                             /* storage_thread/serving.rt: tells_before */
#ifdef NO_EIGHTH
  skip
#else
  if
  :: executed == 0 -> tell()
  :: else ->
     if
#ifndef TELLS_EIGHTHS_ALONE
     :: tell()                                     /* before a `get` for many keys */
#endif
     :: skip
     fi
  fi
#endif
}

inline look() {                                    /* exchange/storage.rt: look */
  d_step {
    lane = (last + 1 + looks) % WORKERS; looks++;
    looked_lane = lane; named = posted[lane]; found = (named > counts[lane]); is_bye = (counts[lane] + 1 == bye[lane])
  }
}

inline take_next() {                               /* storage_thread/serving.rt: take_next */
  if
  :: named > counts[looked_lane] ->                /* exchange/storage.rt: next_seen */
     d_step { lane = looked_lane; found = true; is_bye = (counts[lane] + 1 == bye[lane]) };
     tell_before()
  :: else ->
#ifndef TELLS_EIGHTHS_ALONE
     tell();
#endif
     do                                            /* exchange/storage.rt: next */
     :: looks < WORKERS && !found -> look()
     :: else -> looks = 0; break
     od
  fi
}

inline execute() {                                 /* storage_thread/serving.rt: execute */
  assert(untold < EIGHTH);
  if                                               /* exchange/storage.rt: flush_others */
  :: waiting && waiting_lane != lane -> flush_answers()
  :: else
  fi;
  d_step {                                         /* exchange/storage.rt: answer_later */
    counts[lane]++; waiting = true; waiting_lane = lane; untold++;
    executed = (executed + 1) % EIGHTH
  };
  unpark_told()
}

proctype storage() {                               /* storage_thread/serving.rt: serve */
  byte counts[WORKERS];
  byte last = WORKERS - 1, looked_lane, named, lane, looks, waiting_lane, untold, executed;
  byte left = WORKERS, told = NOBODY;
  byte old_word;
  bool waiting, found, is_bye, announced;
  do
  :: left == 0 -> tell(); break
  :: else ->
     take_next();
     if
     :: found && is_bye ->
        d_step { last = lane; counts[lane]++; done[lane] = counts[lane]; left-- };   /* exchange/storage.rt: take_named */
        reset(storage_word)
     :: found && !is_bye ->
        last = lane; execute(); reset(storage_word)   /* storage_thread/side.rt: serve_next */
     :: !found -> turn(storage_word)               /* storage_thread/serving.rt: pass_turn */
     fi;
     d_step { found = false; is_bye = false; lane = 0 }
  od
}

/* A worker and its port. */

#ifdef SOCKETS
inline open_next() {                               /* net/port.rt: open_next */
  if
  :: has_streams && streams[me] > 0 ->             /* net/hand.rt: take */
     d_step {                                      /* net/streams.rt: open */
       streams[me]--; is_open = true; event = true;
       is_registered[me] = true; stream_event[me] = input[me] > 0 || has_closed[me]
     }
  :: has_streams && streams[me] == 0 -> has_streams = false
  :: !has_streams
  fi
}

inline next_input() {                              /* net/streams.rt: next_input */
  if
  :: !event && is_ready ->                         /* net/streams.rt: read */
     d_step {
       is_ready = false;
       if
       :: input[me] > 0 -> unasked = unasked + input[me]; input[me] = 0; event = true; is_ready = saw_close
       :: input[me] == 0 && has_closed[me] -> is_open = false; event = true
       :: else
       fi
     }
  :: else
  fi
}

inline poll(waits) {                               /* net/port.rt: poll_if_due */
  atomic {
    !waits || waker_event[me] || stream_event[me];
    d_step {
      woken = waker_event[me]; waker_event[me] = false;
      has_streams = has_streams || (!woken && !stream_event[me]);
      if                                           /* net/streams.rt: hear_all */
      :: stream_event[me] -> stream_event[me] = false; is_ready = true; saw_close = has_closed[me]
      :: else
      fi
    }
  };
  if
  :: woken -> d_step { wakes[me] = 0; woken = false; has_streams = true }   /* net/hand.rt: clear_wakes */
  :: else
  fi
}

inline end_if_drained() {                          /* net/hand.rt: is_drained */
  if
  :: !event && !is_open && has_ended[me] ->
     if :: streams[me] == 0 -> d_step { event = true; port_ended = true } :: else fi
  :: else
  fi
}

inline known_event() {                             /* net/port.rt: next_event */
  open_next();
  next_input();
  end_if_drained()
}

inline next_event() {                              /* net/port.rt: next, poll_if_due */
  if
  :: is_ready || has_streams -> known_event()
  :: !is_ready && !has_streams ->
#ifndef ENDS_BEHIND_ITS_LOOK
     end_if_drained();
#endif
     if
     :: event
     :: !event && !may_wait                        /* net/polls.rt: CALLS_EACH_POLL */
     :: !event -> poll(may_wait); known_event()
     fi
  fi
}
#else
inline next_event() {                              /* worker_port/port.rt: Port */
  if
  :: unsent > 0 -> d_step { unsent--; unasked++; event = true }
  :: d_step { event = true; port_ended = true; unsent = 0 }
  :: !may_wait
  fi
}
#endif

inline ask_sessions() {                            /* worker/run.rt: ask_sessions */
  d_step {                                         /* exchange/worker.rt: put */
    asked = WINDOW - (sent + put - back);
    asked = (unasked < asked -> unasked : asked);
    put = put + asked; unasked = unasked - asked; asked = 0
  }
}

inline take_events() {                             /* worker/run.rt: take_events */
  do
  :: port_ended -> break
  :: !port_ended ->
     d_step {                                      /* worker/worker.rt: take_event */
       event = false;
#ifdef WAITS_OVER_UNSENT
       may_wait = sent == back && unasked == 0
#else
       may_wait = sent + put == back && unasked == 0
#endif
     };
     next_event();
     if
     :: !event -> break
     :: event ->
        moved = true;
        ask_sessions();
        if :: unasked > 0 -> break :: true -> break :: unasked == 0 fi   /* worker/run.rt: EVENTS_A_TURN */
     fi
  od;
  atomic { event = false; may_wait = false }
}

inline flush() {                                   /* worker/worker.rt: flush */
  if
  :: put > 0 ->
#ifdef WAKE_BEFORE_STORE
     unpark(storage_word);
#endif
     d_step { sent = sent + put; put = 0; posted[me] = sent };   /* exchange/worker.rt: flush */
#ifndef WAKE_BEFORE_STORE
     unpark(storage_word)
#endif
  :: else
  fi
}

inline settle_answers() {                          /* worker/run.rt: settle_answers */
  do
  :: sent == back -> break
  :: sent > back ->                                /* exchange/worker.rt: take, take_seen */
     d_step {
       known = done[me]; unoffered = unoffered + known - back;
       moved = (moved || known > back); known_all = (known == back); back = known; known = 0
     };
     if :: known_all -> known_all = false; break :: else fi
  od
}

inline give_output() {                             /* worker/run.rt: give_output */
  d_step { given[me] = given[me] + unoffered; unoffered = 0 }
}

proctype worker(byte me) {                         /* worker/run.rt: run_worker */
  byte unsent = REQUESTS - me, unasked, asked, put, sent, back, known, unoffered, old_word;
  bool is_open, is_ready, has_streams = true, saw_close, port_ended, woken, event, may_wait, moved, known_all, announced;
  do
  :: OWN {                                         /* worker/run.rt: take_turn */
       take_events();
       ask_sessions();
       moved = (moved || put > 0)
     };
     flush();
     settle_answers();
     give_output();
     if
     :: moved -> moved = false; reset(worker_words[me])   /* worker/pauses.rt: reset */
     :: !moved && port_ended && sent == back && unasked == 0 -> break   /* worker/run.rt: has_drained */
     :: !moved && sent > back -> turn(worker_words[me])   /* worker/pauses.rt: turn */
     :: !moved && sent == back && !port_ended      /* (it yields) */
     fi
  od;
  atomic { bye[me] = sent + 1; posted[me] = bye[me] };   /* exchange/steps.rt: put_bye */
#ifndef BYE_WITHOUT_WAKE
  unpark(storage_word)                             /* worker/run.rt: leave */
#endif
}

#endif

#ifdef SOCKETS
/* The listener and the clients. */

inline wake(which) {                               /* net/hand.rt: wake */
  atomic {
    if
    :: wakes[which] < WAKER_ROOM -> wakes[which]++; waker_event[which] = true
    :: else
    fi
  }
}

inline offer() {                                   /* net/hand.rt: offer */
#ifdef WAKE_BEFORE_OFFER
  wake(at);
#endif
  streams[at]++;
#ifndef WAKE_BEFORE_OFFER
#ifndef OFFER_WITHOUT_WAKE
  wake(at)
#endif
#endif
}

inline end() {                                     /* net/hand.rt: end */
  has_ended[at] = true;
#ifndef END_WITHOUT_WAKE
  wake(at)
#endif
}

proctype listener() {                              /* net/listener.rt: run_heard */
  byte at;
  bool ends_at_once;
  do
  :: at < WORKERS -> offer(); at++
  :: else -> at = 0; break
  od;
  if :: ends_at_once = true :: true fi;            /* it ends at once, or when all are served */
  ends_at_once || clients_left == 0;
  do
  :: at < WORKERS -> end(); at++
  :: else -> break
  od
}

proctype client(byte me) {
  byte sent;
  do
  :: sent < REQUESTS - me -> atomic { sent++; input[me]++; stream_event[me] = is_registered[me] }
  :: break
  od;
  given[me] == sent;
  atomic { has_closed[me] = true; stream_event[me] = is_registered[me]; clients_left-- }
}

#endif

init {
  byte at;
  atomic {
    run storage();
#ifdef BY_WORKERS
    run quiet();
#endif
#ifdef SOCKETS
    run listener();
#endif
    do
    :: at < WORKERS ->
       run worker(at);
#ifdef SOCKETS
       run client(at);
#endif
       at++
    :: else -> break
    od
  }
}
