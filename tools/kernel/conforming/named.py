"""Names the rule that a difference breaks, by the event that made it and by what shows it."""
# Of an event and its answer by the rules: the rule, and the kernel's functions that follow it.
EVENTS = (
    ("load", "started", "loading a patch enables it: a transition to 1 begins", "klp_enable_patch"),
    ("load", "prefailed", "a failing pre-patch callback undoes what was enabled", "klp_cancel_transition"),
    ("load", "error 16 Busy", "no patch is enabled while another one is in transition", "__klp_enable_patch"),
    ("load", "error 22 Incompatible", "a patch has to support the installed system states", "klp_is_patch_compatible"),
    ("load", "error 22 NoSymbol", "a patch needs its symbols", "klp_find_object_symbol"),
    ("load", "error", "a load is refused", "klp_enable_patch"),
    ("echo", "reversed", "a reversal turns the transition: its target is the other state, and tasks are tried again",
     "klp_reverse_transition"),
    ("echo", "started", "disabling a patch begins a transition to 0", "__klp_disable_patch"),
    ("echo", "ok", "a force switches all tasks at once", "klp_force_transition"),
    ("echo", "error", "a write to a patch's file is refused", "enabled_store, force_store"),
    ("poll", "pending", "a try switches the sleepers that no version blocks, and no others",
     "klp_try_complete_transition, klp_check_stack"),
    ("poll", "completed", "a transition completes once no task lags", "klp_complete_transition"),
    ("poll", "error", "a try needs a transition", "klp_try_complete_transition"),
    ("insmod", "", "installed patches are applied to a coming module", "klp_module_coming"),
    ("rmmod", "", "patches are taken off a going module", "klp_module_going"),
    ("task fork", "", "a forked task has its parent's patch state", "klp_copy_process"),
    ("task exit", "", "a task switches when it goes back to user space", "klp_update_patch_state"),
    ("task", "", "a task alone changes no patch", "klp_update_patch_state"),
    ("shadow alloc", "", "a shadow variable is added once", "klp_shadow_alloc"),
    ("shadow getalloc", "", "a shadow variable is shown, or added where it isn't there", "klp_shadow_get_or_alloc"),
    ("shadow freeall", "", "all shadow variables of an id are removed", "klp_shadow_free_all"),
    ("shadow free", "", "a shadow variable is removed", "klp_shadow_free"),
)
# The events that a try may show to be wrong, the rarest first, with the answer by the rules.
TRIED = (("echo", "reversed"), ("echo", "ok"), ("task fork", ""), ("rmmod", "ok"), ("insmod", "ok"), ("task exit", ""),
         ("echo", "started"))
# What a question shows.
SIGHTS = (
    ("cat /proc", "the patch state of a task"), ("cat", "a file of a patch"), ("stack", "a function stack"),
    ("text", "entry sites"), ("pick", "the version that a call runs"), ("runs", "how often callbacks ran"),
    ("state", "the value of a system state"), ("shadow get", "a shadow variable"),
    ("ls", "the list of patches or files"), ("poll", "the answer to a try"),
)


def rule_of(event, answer):
    """The rule of an event that klpsim answers so, and the kernel's functions."""
    for form, begin, rule, functions in EVENTS:
        if (event + " ").startswith(form + " ") and answer.startswith(begin):
            return rule, functions
    return "what a question shows", "none"


def breaking_of(lines, answers):
    """The number of the event, of a script without a needless line, whose rule its last line shows to be broken. A try
    shows what went before it."""
    if lines[-1] == "poll":
        for form, begin in TRIED:
            for number, (line, answer) in enumerate(zip(lines, answers), 1):
                if (line + " ").startswith(form + " ") and answer.startswith(begin):
                    return number
    return len(lines)


def sight_of(line):
    return next((what for form, what in SIGHTS if line.startswith(form)), None)


def sentence(event, answer, row):
    """Which rule is broken, and by what it shows."""
    rule, functions = rule_of(event, answer)
    if any(it.startswith("callbacks: ") for it in row.rules):
        rule += "; callbacks run in another order, or others"
    sight = sight_of(row.line)
    return f"{rule} ({functions})" + (f"; it shows in {sight}" if sight else "")
