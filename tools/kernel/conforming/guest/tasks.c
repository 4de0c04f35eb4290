// SPDX-License-Identifier: GPL-2.0
/*
 * Tasks. A script's task is a process that stays in an ioctl() here.
 *
 * While it is awake it waits in a chain of parks. Each patch of the script changes one park beside its own functions,
 * so the kernel's check of stacks never switches such a task. It is switched where it really returns to user space.
 * Asleep it waits inside of exactly the functions that the script names, which are entered behind the call at their
 * entry site.
 */
#include <linux/delay.h>
#include <linux/ftrace.h>
#include <linux/module.h>
#include <linux/livepatch.h>
#include <linux/sched.h>
#include <linux/sched/task.h>
#include <linux/wait.h>
#include "stepper.h"

enum order { NONE, CALL, EXIT, SLEEP, WAKE, END, FORK };

struct step_task {
	struct task_struct *process;
	wait_queue_head_t wait;
	int order, is_busy, pid;
	step_fn frames[STEPPER_FRAMES + 1];
	struct module *held[STEPPER_FRAMES + 1];
	int count, at;
	bool is_asleep, is_calling;
	step_fn called;
	void *ran;
	struct step_task *child;
};

static struct step_task tasks[STEPPER_TASKS];
static int park_count;
static DECLARE_WAIT_QUEUE_HEAD(done);

void tasks_begin(int parks)
{
	int k;

	park_count = parks;
	for (k = 0; k < STEPPER_TASKS; k++)
		if (!tasks[k].process)
			init_waitqueue_head(&tasks[k].wait);
}

static int child(void *argument);

static long wait_for_order(struct step_task *task)
{
	for (;;) {
		WRITE_ONCE(task->order, NONE);
		WRITE_ONCE(task->is_busy, 0);
		wake_up(&done);
		wait_event_idle(task->wait, READ_ONCE(task->order) != NONE);
		if (task->order == CALL) {
			task->ran = NULL;
			task->is_calling = true;
			task->called(task);
			task->is_calling = false;
		} else if (task->order == FORK) {
			task->child->pid = kernel.user_mode_thread(child, task->child, SIGCHLD);
		} else {
			return task->order;
		}
	}
}

long step_body(struct step_task *task, void *version)
{
	long order;

	if (task->is_calling) {
		task->ran = version;
		return 0;
	}
	if (task->at < task->count)
		order = task->frames[task->at++](task);
	else
		order = wait_for_order(task);
	barrier();
	return order;
}
EXPORT_SYMBOL_GPL(step_body);

#define PARK(k) \
	static noinline __noclone __used long step_park_##k(struct step_task *task) \
	{ long order = step_park(task, k + 1); barrier(); return order + 0; }
PARK(0) PARK(1) PARK(2) PARK(3) PARK(4) PARK(5) PARK(6) PARK(7)
PARK(8) PARK(9) PARK(10) PARK(11) PARK(12) PARK(13) PARK(14) PARK(15)
static step_fn parks[STEPPER_PARKS] = {
	step_park_0, step_park_1, step_park_2, step_park_3, step_park_4, step_park_5, step_park_6, step_park_7,
	step_park_8, step_park_9, step_park_10, step_park_11, step_park_12, step_park_13, step_park_14, step_park_15,
};

long step_park(struct step_task *task, int park)
{
	long order = park < park_count ? parks[park](task) : wait_for_order(task);

	barrier();
	return order;
}
EXPORT_SYMBOL_GPL(step_park);

static void wake_frames(struct step_task *task)
{
	int k;

	task->is_asleep = false;
	for (k = 0; k < task->count; k++) {
		module_put(task->held[k]);
		task->held[k] = NULL;
	}
	task->count = 0;
}

/* Keeps the task in the kernel until it is told to leave: returns 0 where it is to come back, 1 where it ends. */
static noinline long stay_in(struct step_task *task)
{
	for (;;) {
		long order = step_park(task, 0);

		if (order == SLEEP) {
			task->at = 0;
			task->is_asleep = true;
			order = step_body(task, NULL);
			wake_frames(task);
		}
		if (order == EXIT)
			return 0;
		if (order == END)
			return 1;
	}
}

static void leave(struct step_task *task)
{
	task->process = NULL;
	task->pid = 0;
	WRITE_ONCE(task->is_busy, 0);
}

/* A forked child stays in the kernel. Where it would return to user space, it does what the kernel does there. */
static int child(void *argument)
{
	struct step_task *task = argument;

	task->process = current;
	task->pid = current->pid;
	while (!stay_in(task))
		if (test_thread_flag(TIF_PATCH_PENDING))
			kernel.update_patch_state(current);
	leave(task);
	kernel.do_exit(0);
	return 0;
}

long stay(int number)
{
	struct step_task *task = &tasks[number];
	long is_ended;

	task->process = current;
	task->pid = current->pid;
	is_ended = stay_in(task);
	if (is_ended)
		leave(task);
	return is_ended;
}

static struct step_task *task_of(const char *word)
{
	return &tasks[number(word) % STEPPER_TASKS];
}

/* Whether the task has done what it was told. */
static bool is_done(struct step_task *task, enum order order)
{
	if (!task->process)
		return false;
	WRITE_ONCE(task->is_busy, 1);
	WRITE_ONCE(task->order, order);
	wake_up(&task->wait);
	return wait_event_timeout(done, !READ_ONCE(task->is_busy), 10 * HZ);
}

static void order_task(const char *word, enum order order)
{
	say(is_done(task_of(word), order) ? "ok" : "stuck");
}

/* exit T: the task returns to user space, and comes back. */
void do_exit_task(char **words, int count)
{
	order_task(words[1], EXIT);
}

void do_wake(char **words, int count)
{
	order_task(words[1], WAKE);
}

void do_end(char **words, int count)
{
	struct step_task *task = task_of(words[1]);

	if (!task->process) {
		say("NoTask");
		return;
	}
	WRITE_ONCE(task->order, END);
	wake_up(&task->wait);
	say("ok");
}

/* fork T CHILD */
void do_fork(char **words, int count)
{
	struct step_task *task = task_of(words[1]);

	task->child = task_of(words[2]);
	WRITE_ONCE(task->child->is_busy, 1);
	is_done(task, FORK);
	wait_event_timeout(done, !READ_ONCE(task->child->is_busy), 10 * HZ);
	say(task->child->pid > 0 ? "ok" : "stuck");
}

/* process T: its number, or 0. */
void do_process(char **words, int count)
{
	say("%d", task_of(words[1])->pid);
}

/* repark: after a force, the stack of a waiting task has to fit its new state. */
void do_repark(char **words, int count)
{
	int k;

	for (k = 0; k < STEPPER_TASKS; k++)
		if (tasks[k].process && !tasks[k].is_asleep)
			is_done(&tasks[k], EXIT);
	say("ok");
}

/* pick T MODULE INDEX: the version that runs where the task calls the function. */
void do_pick(char **words, int count)
{
	struct step_task *task = task_of(words[1]);

	task->called = version_of(words[2], number(words[3]));
	if (!task->process)
		say("NoTask");
	else if (!task->called)
		say("NoModule");
	else if (!is_done(task, CALL))
		say("stuck");
	else
		say_version(task->ran);
}

static struct module *module_of(void *version)
{
	struct module *found;

	preempt_disable();
	found = kernel.module_of((unsigned long)version);
	preempt_enable();
	return found;
}

/*
 * Adds a function that the task is to sleep inside of: `o:MODULE:INDEX` is an original, and `n:OBJECT/PATCH:INDEX` a
 * patch's new function. The sleeper came through the object, so it holds this module; nobody holds a livepatch.
 */
static bool add_frame(struct step_task *task, char *word)
{
	char *module = word + 2, *index = strrchr(module, ':'), *patch = strchr(module, '/');
	bool is_original = word[0] == 'o';
	step_fn version, through;

	*index++ = 0;
	if (patch)
		*patch++ = 0;
	version = version_of(patch ?: module, number(index));
	through = version_of(module, is_original ? number(index) : 0);
	if (!version || task->count == STEPPER_FRAMES) {
		say("noframe %s", word);
		return false;
	}
	task->held[task->count] = through ? module_of(through) : NULL;
	if (task->held[task->count])
		__module_get(task->held[task->count]);
	if (is_original)
		version = (step_fn)(kernel.site((unsigned long)version) + MCOUNT_INSN_SIZE);
	task->frames[task->count++] = version;
	return true;
}

/* sleep T FRAME .. */
void do_sleep(char **words, int count)
{
	struct step_task *task = task_of(words[1]);
	int k;

	task->count = 0;
	for (k = 2; k < count; k++)
		if (!add_frame(task, words[k]))
			return;
	order_task(words[1], SLEEP);
}

/* How many of the script's tasks aren't at the target. */
static int lagging(int target)
{
	int k, found = 0;

	for (k = 0; k < STEPPER_TASKS; k++)
		found += tasks[k].process && tasks[k].process->patch_state != target;
	return found;
}

static void say_others(int target)
{
	struct task_struct *group, *task;
	int named = 0;

	say("others");
	rcu_read_lock();
	for_each_process_thread(group, task)
		if (task->patch_state != target && named++ < 20)
			say(" %s", task->comm);
	rcu_read_unlock();
}

/* One try, and the target; -1 where no patch is in transition. */
static int try_once(bool *is_completed)
{
	int target = -1;

	mutex_lock(kernel.mutex);
	if (*kernel.moving) {
		target = *kernel.target;
		is_gate_open = true;
		kernel.try_complete();
		is_gate_open = false;
	}
	*is_completed = target >= 0 && !*kernel.moving;
	mutex_unlock(kernel.mutex);
	return target;
}

/* poll: tries a transition, until none but the script's tasks lag. */
void do_poll(char **words, int count)
{
	bool is_completed;
	int tries, target = 0, lag;

	for (tries = 0; tries < 40; tries++) {
		target = try_once(&is_completed);
		if (target < 0) {
			say("notmoving");
			return;
		}
		if (is_completed) {
			say("completed %d", target);
			msleep(60);
			return;
		}
		lag = lagging(target);
		if (lag) {
			say("pending %d", lag);
			return;
		}
		msleep(30);
	}
	say_others(target);
}
