#!/usr/bin/env bash
# How fast a process with windows runs: bench/process.txt is put into a crate of a copy, proved, built and timed there.
. "$(dirname "$0")/copy.sh"
go_to_copy process 'process_bench: ce_model rv_image xm_owner rk_process' \
    rv_model ce_model rv_inst rv_image rv_step xm_block xm_owner rk_process
time_proved process
