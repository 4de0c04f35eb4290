// SPDX-License-Identifier: GPL-2.0
/*
 * A livepatch whose klp_patch is built from what the stepper was told of this module's name, in rows that `;` divides:
 *
 *	replace				it is cumulative
 *	park K				which park of the stepper it changes too
 *	state ID VERSION
 *	object NAME			`-` is vmlinux
 *	func NAME SYMPOS INDEX		to the new function INDEX of this module
 *	cb WHICH STATUS EDIT ..		0 pre-patch, 1 post-patch, 2 pre-unpatch, 3 post-unpatch
 */
#include <linux/kernel.h>
#include <linux/livepatch.h>
#include <linux/module.h>
#include <linux/slab.h>
#include <linux/string.h>
#include "stepper.h"

#define NEW(k) \
	static noinline __noclone __used long new_##k(struct step_task *task) \
	{ long order = step_body(task, new_##k); barrier(); return order + 0; }
NEW(0) NEW(1) NEW(2) NEW(3) NEW(4) NEW(5) NEW(6) NEW(7)
NEW(8) NEW(9) NEW(10) NEW(11) NEW(12) NEW(13) NEW(14) NEW(15)
static step_fn versions[STEPPER_VERSIONS] = {
	new_0, new_1, new_2, new_3, new_4, new_5, new_6, new_7,
	new_8, new_9, new_10, new_11, new_12, new_13, new_14, new_15,
};

static int park;

static noinline __noclone __used long new_park(struct step_task *task)
{
	long order = step_park(task, park + 1);

	barrier();
	return order;
}

static struct klp_func functions[STEPPER_OBJECTS][STEPPER_VERSIONS + 1];
static struct klp_object objects[STEPPER_OBJECTS + 1];
static struct klp_state states[18];
static struct klp_patch patch = { .mod = THIS_MODULE, .objs = objects };
static int status[STEPPER_OBJECTS][4];
static char *edits[STEPPER_OBJECTS][4];
static char park_name[32];
static int object_count, function_count, state_count;

static int callback(struct klp_object *object, int which)
{
	int k = object - objects;

	return step_callback(&patch, k, which, status[k][which], edits[k][which]);
}

static int pre_patch(struct klp_object *object) { return callback(object, 0); }
static void post_patch(struct klp_object *object) { callback(object, 1); }
static void pre_unpatch(struct klp_object *object) { callback(object, 2); }
static void post_unpatch(struct klp_object *object) { callback(object, 3); }

static void add_object(char *name)
{
	objects[object_count].name = strcmp(name, "-") ? name : NULL;
	objects[object_count].funcs = functions[object_count];
	object_count++;
	function_count = 0;
}

static int add_function(char *name, char *position, step_fn version)
{
	struct klp_func *own = &functions[object_count - 1][function_count++];

	own->old_name = name;
	own->new_func = version;
	return kstrtoul(position, 10, &own->old_sympos);
}

static int add_callback(char *rest)
{
	char *which = strsep(&rest, " "), *returned = strsep(&rest, " ");
	struct klp_callbacks *own = &objects[object_count - 1].callbacks;
	int k;

	if (kstrtoint(which, 10, &k) || k < 0 || k > 3 || kstrtoint(returned, 10, &status[object_count - 1][k]))
		return -EDOM;
	edits[object_count - 1][k] = rest;
	if (k == 0)
		own->pre_patch = pre_patch;
	if (k == 1)
		own->post_patch = post_patch;
	if (k == 2)
		own->pre_unpatch = pre_unpatch;
	if (k == 3)
		own->post_unpatch = post_unpatch;
	return 0;
}

static int add_state(char *id, char *version)
{
	struct klp_state *own = &states[state_count++];

	patch.states = states;
	return kstrtoul(id, 10, &own->id) ?: kstrtouint(version, 10, &own->version);
}

static int add_row(char *row)
{
	char *word = strsep(&row, " ");

	if (!*word)
		return 0;
	if (!strcmp(word, "replace")) {
		patch.replace = true;
		return 0;
	}
	if (!strcmp(word, "park"))
		return kstrtoint(row, 10, &park);
	if (!strcmp(word, "state")) {
		char *id = strsep(&row, " ");

		return add_state(id, row);
	}
	if (!strcmp(word, "object")) {
		add_object(row);
		return 0;
	}
	if (!strcmp(word, "func")) {
		char *name = strsep(&row, " "), *position = strsep(&row, " ");

		return add_function(name, position, versions[simple_strtoul(row, NULL, 10) % STEPPER_VERSIONS]);
	}
	return add_callback(row);
}

/* Adds the rows, and the park, by which tasks are kept from being switched. */
static int read_spec(char *text)
{
	char *row;

	while ((row = strsep(&text, ";")))
		if (add_row(row))
			return -EDOM;
	add_object("klp_stepper");
	snprintf(park_name, sizeof(park_name), "step_park_%d", park);
	return add_function(park_name, "0", new_park);
}

static int __init any_patch_init(void)
{
	const char *spec = step_spec(THIS_MODULE->name);
	int failed;

	if (!spec)
		return -EDOM;
	failed = read_spec(kstrdup(spec, GFP_KERNEL));
	if (failed)
		return failed;
	step_register(THIS_MODULE->name, versions, STEPPER_VERSIONS);
	failed = klp_enable_patch(&patch);
	if (failed)
		step_unregister(THIS_MODULE->name);
	return failed;
}

static void __exit any_patch_exit(void)
{
	step_unregister(THIS_MODULE->name);
}

module_init(any_patch_init);
module_exit(any_patch_exit);
MODULE_LICENSE("GPL");
MODULE_DESCRIPTION("Any patch of a catalog");
MODULE_INFO(livepatch, "Y");
