#!/usr/bin/env bash
# How fast the script of the load is made, 100,000 times: bench/load.txt is put into a crate of a copy, proved, built and
# timed there.
. "$(dirname "$0")/copy.sh"
go_to_copy load 'load_bench: ce_model ce_script' \
    rv_model ce_model ce_set ce_text ce_daemon xm_block rk_mail rv_inst rv_image rv_asm ce_host ce_script
time_proved load
