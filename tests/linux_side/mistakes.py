"""Mistakes that are planted into Linux's functions, each of which has to be seen: what is wrong, in which text, at which place and how, by
which part, and in how many cases."""

SECCOMP, FILTER, CORE, FORK = "seccomp.inc", "filter.inc", "core.inc", "fork.inc"

MISTAKES = (
    ("of equally strict verdicts the oldest filter's counts", SECCOMP, "if (ACTION_ONLY(cur_ret) < ACTION_ONLY(ret))",
     "if (ACTION_ONLY(cur_ret) <= ACTION_ONLY(ret))", "strictest", 20000),
    ("actions are compared without a sign", SECCOMP, "#define ACTION_ONLY(ret) ((s32)", "#define ACTION_ONLY(ret) ((u32)", "strictest", 20000),
    ("shifts by 32 are taken", FILTER, "if (ftest->k >= 32)", "if (ftest->k > 32)", "programs", 50000),
    ("loads at 2 mod 4 are taken", SECCOMP, " || k & 3)", " || k & 1)", "programs", 20000),
    ("loads at 64 are taken", SECCOMP, "if (k >= sizeof(struct seccomp_data)", "if (k > sizeof(struct seccomp_data)", "programs", 50000),
    ("scratch word 16 is taken", FILTER, "if (ftest->k >= BPF_MEMWORDS)", "if (ftest->k > BPF_MEMWORDS)", "programs", 50000),
    ("a jump behind the end is taken", FILTER, "if (ftest->k >= (unsigned int)(flen - pc - 1))",
     "if (ftest->k > (unsigned int)(flen - pc - 1))", "programs", 50000),
    ("a way behind the end is taken", FILTER, "if (pc + ftest->jt + 1 >= flen", "if (pc + ftest->jt + 1 > flen", "programs", 50000),
    ("scratch words are not followed at jf", FILTER, "masks[pc + 1 + filter[pc].jf] &= memvalid;", "", "programs", 50000),
    ("xor with k is refused", SECCOMP, "\t\tcase BPF_ALU | BPF_XOR | BPF_K:\n", "", "programs", 20000),
    ("4,096 instructions are refused", SECCOMP, "fprog->len > BPF_MAXINSNS", "fprog->len > BPF_MAXINSNS - 1", "programs", 50000),
    ("by number and machine: jge as jgt", SECCOMP, "op_res = reg_value >= k;", "op_res = reg_value > k;", "programs", 100000),
    ("by number and machine: ALLOW with data", SECCOMP, "return k == SECCOMP_RET_ALLOW;",
     "return (k & 0xffff0000) == SECCOMP_RET_ALLOW;", "programs", 100000),
    ("by number and machine: jset turned", SECCOMP, "op_res = !!(reg_value & k);", "op_res = !(reg_value & k);", "programs", 50000),
    ("neg as not", CORE, "DST = (u32) -DST;", "DST = (u32) ~DST;", "programs", 20000),
    ("an error above 4,095 stays", SECCOMP, "if (data > MAX_ERRNO)", "if (0)", "effects", 20000),
    ("an unknown action ends the thread alone", SECCOMP, "if (action != SECCOMP_RET_KILL_THREAD ||",
     "if (action == SECCOMP_RET_KILL_PROCESS ||", "effects", 20000),
    ("a second listener is taken", SECCOMP, "if (has_duplicate_listener(prepared))", "if (0)", "scripts", 2000),
    ("each filter is an ancestor", SECCOMP, "\t\t    (thread->seccomp.mode == SECCOMP_MODE_FILTER &&\n\t\t     is_ancestor(",
     "\t\t    (thread->seccomp.mode == SECCOMP_MODE_FILTER ||\n\t\t     is_ancestor(", "scripts", 2000),
    ("TSYNC_ESRCH is not asked for", SECCOMP, "if (flags & SECCOMP_FILTER_FLAG_TSYNC_ESRCH)\n", "if (0)\n", "scripts", 5000),
    ("TSYNC and NEW_LISTENER together", SECCOMP, "((flags & SECCOMP_FILTER_FLAG_TSYNC_ESRCH) == 0))", "0)", "scripts", 2000),
    ("TSYNC reaches threads that have ended", SECCOMP, "if (thread->flags & PF_EXITING)", "if (0)", "scripts", 10000),
    ("a new thread has the oldest filter alone", FORK, "p->seccomp = current->seccomp;",
     "p->seccomp = current->seccomp; while (p->seccomp.filter->prev) p->seccomp.filter = p->seccomp.filter->prev;"
     " p->seccomp.filter->refs.counter += 1000; p->seccomp.filter->users.counter += 1000;", "scripts", 2000),
    ("the oldest notifying filter counts", SECCOMP, "*match = f;",
     "*match = f; } else if (ACTION_ONLY(cur_ret) == ACTION_ONLY(ret)) { *match = f;", "scripts", 10000),
    ("the limit counts no 4 more", SECCOMP, "walker->prog->len + 4;", "walker->prog->len;", "limits", 40),
    ("continue does not continue", SECCOMP, "if (flags & SECCOMP_USER_NOTIF_FLAG_CONTINUE)\n", "if (0)\n", "scripts", 5000),
)
