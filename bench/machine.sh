#!/usr/bin/env bash
# How long the shared machine takes for 1,000,000 Sends and Takes, and for 50,000 grants: bench/machine.txt is put into a crate
# of a copy and tried there. That its calls fit is not shown, so it is not proved; and what is tried is built with checks of
# memory and without optimization, so its times are bounds for a program's.
. "$(dirname "$0")/copy.sh"
go_to_copy machine 'machine_bench: ce_model ce_daemon ce_lock ce_machine rk_mail xm_block' \
    rv_model ce_model rv_image ce_solo ce_set ce_lock xm_block rk_mail ce_daemon ce_machine
rt try --seconds 600
