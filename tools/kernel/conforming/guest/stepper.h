/* SPDX-License-Identifier: GPL-2.0 */
/* The stepper steps a kernel through lines of the console. What the generic modules call of it, and its own parts. */
#ifndef STEPPER_H
#define STEPPER_H

#include <linux/types.h>

#define STEPPER_PARKS 16
#define STEPPER_VERSIONS 16
#define STEPPER_SYMBOLS 8
#define STEPPER_OBJECTS 9
#define STEPPER_TASKS 64
#define STEPPER_FRAMES 32

struct klp_patch;
struct step_task;
typedef long (*step_fn)(struct step_task *task);

/* What each version does: it calls the next function that its task is to sleep inside of, or waits for an order. */
long step_body(struct step_task *task, void *version);
/* Calls this park and those behind it, and waits for an order in the last one. */
long step_park(struct step_task *task, int park);
/* What the patch of this module's name consists of (the generic patch says how it is spelled). */
const char *step_spec(const char *module);
void step_register(const char *module, step_fn *versions, int count);
void step_unregister(const char *module);
/* Runs the edits of a callback, and returns its status. */
int step_callback(struct klp_patch *patch, int object, int which, int status, const char *edits);
void step_edit(struct klp_patch *patch, char *edit);

/* The stepper's own parts. */
__printf(1, 2) void say(const char *format, ...);
unsigned long number(const char *word);
step_fn version_of(const char *module, int index);
void say_version(void *version);
int find_symbols(void);
int open_gate(void);

struct list_head;
struct module;
struct mutex;
struct task_struct;
struct klp_ops_shape;

/* What the stepper needs of a kernel, and modules aren't given. */
struct kernel_symbols {
	struct mutex *mutex;
	struct klp_patch **moving;
	struct list_head *patches;
	int *target;
	void (*try_complete)(void);
	void *work;
	struct klp_ops_shape *(*find_ops)(void *function);
	unsigned long (*site)(unsigned long function);
	pid_t (*user_mode_thread)(int (*function)(void *), void *argument, unsigned long flags);
	void (*update_patch_state)(struct task_struct *task);
	void (*do_exit)(long code);
	struct module *(*module_of)(unsigned long address);
	void *skipped;
};
extern struct kernel_symbols kernel;
extern bool is_gate_open;

typedef void (*command_fn)(char **words, int count);
void do_spec(char *rest);
void do_begin(char **words, int count);
void do_runs(char **words, int count);
void do_ran(char **words, int count);
void do_shadow(char **words, int count);
void do_poll(char **words, int count);
void do_exit_task(char **words, int count);
void do_sleep(char **words, int count);
void do_wake(char **words, int count);
void do_end(char **words, int count);
void do_fork(char **words, int count);
void do_pick(char **words, int count);
void do_process(char **words, int count);
void do_repark(char **words, int count);
void do_patches(char **words, int count);
void do_stack(char **words, int count);
void do_text(char **words, int count);
void do_state(char **words, int count);
void do_below(char **words, int count);
void tasks_begin(int parks);
long stay(int number);

#endif
