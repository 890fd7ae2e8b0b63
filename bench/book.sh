#!/usr/bin/env bash
# How fast a book is called, from one, two and four threads at once, and what waiting costs. The program is
# bench/book.txt, which is put into a crate of a copy and run there unproved.
. "$(dirname "$0")/copy.sh"
go_to_copy book 'book_bench may_wait=2: ce_model ce_lock atomic_table' rv_model ce_model ce_lock
rt try --seconds 600
