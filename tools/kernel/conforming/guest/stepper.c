// SPDX-License-Identifier: GPL-2.0
/*
 * The stepper: takes commands through /proc/klp_stepper, one a write, and answers the next read.
 *
 * Everything of kernel/livepatch runs as it is, but when a transition is tried (gate.c).
 */
#include <linux/module.h>
#include <linux/proc_fs.h>
#include <linux/slab.h>
#include <linux/uaccess.h>
#include "stepper.h"

#define ANSWER 16384
#define WORDS 48

static char *answer;
static int answered;

void say(const char *format, ...)
{
	va_list list;

	va_start(list, format);
	answered += vscnprintf(answer + answered, ANSWER - answered, format, list);
	va_end(list);
}

unsigned long number(const char *word)
{
	unsigned long value = 0;

	WARN_ON(!word || kstrtoul(word, 10, &value));
	return value;
}

static const struct {
	const char *name;
	int words;
	command_fn run;
} commands[] = {
	{ "begin", 2, do_begin },
	{ "runs", 3, do_runs },
	{ "ran", 1, do_ran },
	{ "shadow", 3, do_shadow },
	{ "poll", 1, do_poll },
	{ "exit", 2, do_exit_task },
	{ "sleep", 2, do_sleep },
	{ "wake", 2, do_wake },
	{ "end", 2, do_end },
	{ "fork", 3, do_fork },
	{ "pick", 4, do_pick },
	{ "process", 2, do_process },
	{ "repark", 1, do_repark },
	{ "patches", 1, do_patches },
	{ "stack", 3, do_stack },
	{ "text", 3, do_text },
	{ "state", 3, do_state },
	{ "below", 3, do_below },
};

static void command(char *line)
{
	char *words[WORDS], *word;
	int count = 0, k;

	if (!strncmp(line, "spec ", 5)) {
		do_spec(line + 5);
		return;
	}
	while (count < WORDS && (word = strsep(&line, " ")))
		if (*word)
			words[count++] = word;
	for (k = 0; count && k < ARRAY_SIZE(commands); k++)
		if (!strcmp(commands[k].name, words[0]) && count >= commands[k].words) {
			commands[k].run(words, count);
			return;
		}
	say("unknown");
}

static ssize_t stepper_write(struct file *file, const char __user *from, size_t length, loff_t *offset)
{
	char *line = memdup_user_nul(from, min_t(size_t, length, 8000));

	if (IS_ERR(line))
		return PTR_ERR(line);
	answered = 0;
	answer[0] = 0;
	command(line);
	kfree(line);
	return length;
}

static ssize_t stepper_read(struct file *file, char __user *into, size_t length, loff_t *offset)
{
	return simple_read_from_buffer(into, length, offset, answer, answered);
}

static long stepper_ioctl(struct file *file, unsigned int order, unsigned long task)
{
	return stay(task % STEPPER_TASKS);
}

static const struct proc_ops stepper_ops = {
	.proc_read = stepper_read,
	.proc_write = stepper_write,
	.proc_ioctl = stepper_ioctl,
	.proc_lseek = default_llseek,
};

static int __init stepper_init(void)
{
	int failed = find_symbols();

	if (failed)
		return failed;
	answer = kzalloc(ANSWER, GFP_KERNEL);
	if (!answer)
		return -ENOMEM;
	tasks_begin(0);
	failed = open_gate();
	if (failed)
		return failed;
	return proc_create("klp_stepper", 0600, NULL, &stepper_ops) ? 0 : -ENOMEM;
}

module_init(stepper_init);
MODULE_LICENSE("GPL");
MODULE_DESCRIPTION("Steps a kernel through lines of klpsim's console");
