// SPDX-License-Identifier: GPL-2.0
/*
 * Finds what modules aren't given, and gates a transition's tries: klp_try_complete_transition() and the work function
 * that calls it each second are skipped, by ftrace as livepatch itself does it, unless `poll` opens the gate.
 *
 * The parameter `skip` makes a wrong kernel: it names one more function of the kernel, which is always skipped, and
 * returns 0.
 */
#include <linux/module.h>
#include <linux/ftrace.h>
#include <linux/kprobes.h>
#include <linux/livepatch.h>
#include "stepper.h"

struct kernel_symbols kernel;
bool is_gate_open;

static char *skip;
module_param(skip, charp, 0400);
MODULE_PARM_DESC(skip, "a function of the kernel that does nothing");

static unsigned long (*lookup)(const char *name);

static int find_lookup(void)
{
	struct kprobe probe = { .symbol_name = "kallsyms_lookup_name" };
	int failed = register_kprobe(&probe);

	if (failed) {
		pr_err("klp_stepper lacks kallsyms_lookup_name (%d)\n", failed);
		return failed;
	}
	lookup = (void *)probe.addr;
	unregister_kprobe(&probe);
	return 0;
}

int find_symbols(void)
{
	const struct { const char *name; void *into; } needed[] = {
		{ "klp_mutex", &kernel.mutex },
		{ "klp_transition_patch", &kernel.moving },
		{ "klp_patches", &kernel.patches },
		{ "klp_target_state", &kernel.target },
		{ "klp_try_complete_transition", &kernel.try_complete },
		{ "klp_transition_work_fn", &kernel.work },
		{ "klp_find_ops", &kernel.find_ops },
		{ "ftrace_location", &kernel.site },
		{ "user_mode_thread", &kernel.user_mode_thread },
		{ "klp_update_patch_state", &kernel.update_patch_state },
		{ "do_exit", &kernel.do_exit },
		{ "__module_address", &kernel.module_of },
		{ skip, &kernel.skipped },
	};
	int k, failed = find_lookup(), lacking = 0;

	if (failed)
		return failed;
	for (k = 0; k < ARRAY_SIZE(needed) && needed[k].name; k++) {
		unsigned long address = lookup(needed[k].name);

		*(unsigned long *)needed[k].into = address;
		if (!address) {
			pr_err("klp_stepper lacks %s\n", needed[k].name);
			lacking++;
		}
	}
	return lacking ? -ENOENT : 0;
}

static noinline long nothing(void)
{
	barrier();
	return 0;
}

static void notrace gate(unsigned long at, unsigned long parent, struct ftrace_ops *ops, struct ftrace_regs *registers)
{
	struct pt_regs *own = ftrace_get_regs(registers);
	bool is_skipped = kernel.skipped && at - (unsigned long)kernel.skipped < 16;

	if (own && (is_skipped || !is_gate_open))
		own->ip = (unsigned long)nothing;
}

static struct ftrace_ops gate_ops = {
	.func = gate,
	.flags = FTRACE_OPS_FL_SAVE_REGS | FTRACE_OPS_FL_IPMODIFY,
};

static int gate_at(const char *name, void *function)
{
	unsigned long site = function ? kernel.site((unsigned long)function) : 0;
	int failed = site ? ftrace_set_filter_ip(&gate_ops, site, 0, 0) : -ENOENT;

	if (failed)
		pr_err("klp_stepper lacks a call of __fentry__ in %s (%d)\n", name, failed);
	return failed;
}

int open_gate(void)
{
	int failed = gate_at("klp_try_complete_transition", kernel.try_complete) ?:
		     gate_at("klp_transition_work_fn", kernel.work) ?:
		     (skip ? gate_at(skip, kernel.skipped) : 0);

	return failed ?: register_ftrace_function(&gate_ops);
}
