/* The kinds of case, one function for each letter on the wire. */
#ifndef CASES_H
#define CASES_H

/* Makes room for the cases of each kind, once. */
void files_open(void);
void tables_open(void);
void states_open(void);
void sessions_open(void);
void stream_states_open(void);
void jumps_open(void);

void take_dialect(void);
void take_walked_file(void);
void take_long_file(void);
void take_table(void);
void take_hand_state(void);
void take_numbered_state(void);
void take_sessions(void);
void take_stream_hand_state(void);
void take_stream_numbered_state(void);
void take_unruly_session(void);
void take_jumps(void);

#endif
