// SPDX-License-Identifier: GPL-2.0
/* Looks: the list of patches, function stacks, the bytes at entry sites, and values of system states. */
#include <linux/module.h>
#include <linux/ftrace.h>
#include <linux/livepatch.h>
#include "stepper.h"

struct klp_ops_shape {		/* struct klp_ops of kernel/livepatch/patch.h */
	struct list_head node;
	struct list_head func_stack;
	struct ftrace_ops fops;
};

/* patches: the installed ones, oldest first. */
void do_patches(char **words, int count)
{
	const char *between = "";
	struct klp_patch *patch;

	mutex_lock(kernel.mutex);
	list_for_each_entry(patch, kernel.patches, list) {
		say("%s%s", between, patch->mod->name);
		between = " | ";
	}
	mutex_unlock(kernel.mutex);
}

static const char *owner_of(struct klp_func *function)
{
	struct klp_object *object;
	struct klp_patch *patch;
	struct klp_func *own;

	list_for_each_entry(patch, kernel.patches, list)
		list_for_each_entry(object, &patch->obj_list, node)
			list_for_each_entry(own, &object->func_list, node)
				if (own == function)
					return patch->mod->name;
	return "?";
}

/* stack MODULE INDEX: the function stack, newest entry first. */
void do_stack(char **words, int count)
{
	step_fn original = version_of(words[1], number(words[2]));
	struct klp_ops_shape *ops;
	const char *between = "";
	struct klp_func *entry;

	mutex_lock(kernel.mutex);
	ops = original ? kernel.find_ops(original) : NULL;
	if (!ops)
		say("empty");
	else
		list_for_each_entry(entry, &ops->func_stack, stack_node) {
			say("%s%s ", between, owner_of(entry));
			between = " | ";
			if (entry->nop)
				say("nop");
			else
				say_version(entry->new_func);
		}
	mutex_unlock(kernel.mutex);
}

/* below MODULE INDEX: what klp_check_stack_func() takes for the version below the oldest entry, which has none. */
void do_below(char **words, int count)
{
	step_fn original = version_of(words[1], number(words[2]));
	struct klp_ops_shape *ops = original ? kernel.find_ops(original) : NULL;
	struct klp_func *oldest, *below;

	if (!ops) {
		say("empty");
		return;
	}
	oldest = list_last_entry(&ops->func_stack, struct klp_func, stack_node);
	below = list_next_entry(oldest, stack_node);
	say("%px to %px", below->new_func, below->new_func + below->new_size);
}

static void say_site(step_fn function)
{
	static const u8 nop[] = { 0x0f, 0x1f, 0x44, 0x00, 0x00 };
	const u8 *site = (const u8 *)kernel.site((unsigned long)function);

	if (!site)
		say("nosite");
	else if (!memcmp(site, nop, sizeof(nop)))
		say("plain");
	else if (*site == 0xe8)
		say("hooked");
	else
		say("%*ph", 5, site);
	if (site)
		say(" +%ld", (long)(site - (const u8 *)function));
}

/* text MODULE COUNT: of each function whether its entry site has the NOP or a call, and where the site is. */
void do_text(char **words, int count)
{
	int k, functions = number(words[2]);

	if (!version_of(words[1], 0)) {
		say("NoModule");
		return;
	}
	for (k = 0; k < functions; k++) {
		say("%s", k ? " | " : "");
		say_site(version_of(words[1], k));
	}
}

/* state MODULE ID: the value of a patch's system state. */
void do_state(char **words, int count)
{
	struct klp_state *state = NULL;
	struct klp_patch *patch;

	mutex_lock(kernel.mutex);
	list_for_each_entry(patch, kernel.patches, list)
		if (!strcmp(patch->mod->name, words[1]))
			state = klp_get_state(patch, number(words[2]));
	if (state)
		say("value %lu", (unsigned long)state->data);
	else
		say("none");
	mutex_unlock(kernel.mutex);
}
