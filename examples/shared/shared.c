#include "tables.h"

/* rl-data 2 one */
static const int one_start = 1;
static const int one_first_final = 3;
static const int one_error = 0;
static const int one_alphabet = 0;
static const int one_en_main = 1;
static const int _one_actions[] = { 0, 1, 1 };
static const int _one_key_offsets[] = { 0, 0, 1, 2 };
static const long long _one_trans_keys[] = { 97, 98, 0 };
static const int _one_single_lengths[] = { 0, 1, 1, 0 };
static const int _one_range_lengths[] = { 0, 0, 0, 0 };
static const int _one_cell_offsets[] = { 0, 0, 1, 2 };
static const int _one_cell_uses[] = { 0, 1, 0 };
static const int _one_cell_asks[] = { 0, 0, 0 };
static const int _one_cell_entries[] = { 0, 1, 0 };
static const int _one_trans_targs[] = { 2, 3, 0 };
static const int _one_trans_lists[] = { 1, 1, 0 };
static const int _one_from_lists[] = { 0, 0, 0, 0 };
static const int _one_to_lists[] = { 0, 0, 0, 0 };
static const int _one_eof_lists[] = { 0, 0, 0, 0 };
static const int _one_error_lists[] = { 0, 0, 0, 0 };
static const int _one_accept_lists[] = { 0, 0, 0, 0 };
static const int _one_state_kinds[] = { 0, 0, 0, 0 };
static const int _one_homes[] = { 0, 0, 0, 0 };
static const char *const _one_action_names[] = { "", "x" };
static const int _one_stmt_firsts[] = { 0, 1 };
static const int _one_stmt_counts[] = { 0, 0 };
static const int _one_stmt_kinds[] = { 0 };
static const int _one_stmt_outer[] = { 0 };
static const int _one_stmt_args[] = { 0 };
static const int _one_stmt_bases[] = { 0 };
static const char *const _one_cond_names[] = { "" };
static const char *const _one_entry_names[] = { "", "main" };
static const int _one_entry_states[] = { 0, 1 };
/* rl-end one */

int parse( const char *p, const char *pe );
