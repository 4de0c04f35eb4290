// SPDX-License-Identifier: GPL-2.0
/*
 * A module to be patched. The player writes a name and the names of functions over those in the file before it inserts
 * it, so this one file can be any object of any catalog.
 */
#include <linux/module.h>
#include "stepper.h"

/* Static functions stand in the symbol table in this order, by which positions are counted. Names have 127 bytes. */
#define HALF xxxxxxxxxxxxxxxxxxxxxxxxxxxxxxxxxxxxxxxxxxxxxxxxxxxxxxxx
#define REST xxxxxxxxxxxxxxxxxxxxxxxxxxxxxxxxxxxxxxxxxxxxxxxxxxxxxxxxxx
#define JOINED(a, b, c) a##_##b##c
#define JOIN(a, b, c) JOINED(a, b, c)
#define NAME(k) JOIN(any_symbol_##k, HALF, REST)
#define SYMBOL(k) \
	static noinline __noclone __used long NAME(k)(struct step_task *task) \
	{ long order = step_body(task, NAME(k)); barrier(); return order + 0; }
SYMBOL(0) SYMBOL(1) SYMBOL(2) SYMBOL(3) SYMBOL(4) SYMBOL(5) SYMBOL(6) SYMBOL(7)

static step_fn versions[STEPPER_SYMBOLS] = { NAME(0), NAME(1), NAME(2), NAME(3), NAME(4), NAME(5), NAME(6), NAME(7) };

static int __init any_object_init(void)
{
	step_register(THIS_MODULE->name, versions, STEPPER_SYMBOLS);
	return 0;
}

static void __exit any_object_exit(void)
{
	step_unregister(THIS_MODULE->name);
}

module_init(any_object_init);
module_exit(any_object_exit);
MODULE_LICENSE("GPL");
MODULE_DESCRIPTION("Any object of a catalog");
