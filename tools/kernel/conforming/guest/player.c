/*
 * The first process of the machine: it plays what comes over the console, one operation a line, and prints what the
 * kernel answers. A play is sent as `PLAY BYTES`, and then in blocks: the player asks for each by `MORE`.
 *
 *	S NAME			a script begins: what is left of the one before goes
 *	Q N			the operations that follow are those of line N
 *	K COMMAND		a command of the stepper
 *	load NAME		inserts the generic livepatch under this name; an earlier one goes first
 *	insert NAME SYMBOL,..	inserts the generic object
 *	remove NAME		removes a module
 *	write PATH VALUE	`moving` in the answer: the patch was in transition before
 *	cat PATH, ls PATH
 *	new T, end T, state T	a process for the task; its patch_state
 *
 * An answer is a line `A ..`; `C ..` are the callbacks that ran, and `D ..` is of the kernel's own log. `DIRTY` is said
 * where patches couldn't be withdrawn before a script.
 */
#define _GNU_SOURCE
#include <dirent.h>
#include <errno.h>
#include <fcntl.h>
#include <stdarg.h>
#include <stdio.h>
#include <stdlib.h>
#include <string.h>
#include <sys/ioctl.h>
#include <sys/mount.h>
#include <sys/reboot.h>
#include <sys/stat.h>
#include <sys/syscall.h>
#include <sys/wait.h>
#include <termios.h>
#include <unistd.h>

/* Module names of the greatest length, as the Makefile has them. */
#define PATCH "klp_any_patch_xxxxxxxxxxxxxxxxxxxxxxxxxxxxxxxxxxxxxxxxx"
#define OBJECT "klp_any_object_xxxxxxxxxxxxxxxxxxxxxxxxxxxxxxxxxxxxxxxx"
#define SYMBOLS 8
#define TASKS 64
#define MODULES 64
#define BLOCK 4096
#define PARENT "/sys/kernel/livepatch"

struct file { char *bytes; long length; };

static struct file patch_file, object_file;
static int stepper = -1, log_of_kernel;
static char inserted[MODULES][64];
static int inserted_count;
static int processes[TASKS];

static struct file whole(const char *path)
{
	struct file it = { malloc(1 << 24), 0 };
	FILE *from = fopen(path, "r");

	if (!from) {
		printf("LACKS %s\n", path);
		return it;
	}
	it.length = fread(it.bytes, 1, (1 << 24) - 1, from);
	it.bytes[it.length] = 0;
	fclose(from);
	return it;
}

/* What the stepper answers. */
static char *command(const char *format, ...)
{
	static char line[8192], answer[16384];
	va_list list;
	long length;

	va_start(list, format);
	vsnprintf(line, sizeof(line), format, list);
	va_end(list);
	if (write(stepper, line, strlen(line)) < 0) {
		sprintf(answer, "write %d", errno);
		return answer;
	}
	length = pread(stepper, answer, sizeof(answer) - 1, 0);
	answer[length > 0 ? length : 0] = 0;
	return answer;
}

static int is_there(const char *format, const char *name)
{
	struct stat found;
	char path[512];

	snprintf(path, sizeof(path), format, name);
	return !stat(path, &found);
}

/* Writes a name over each `placeholder` in the file, whose whole length it has. */
static void rename_in(struct file it, const char *placeholder, const char *name)
{
	long length = strlen(placeholder);
	char *at = it.bytes;

	while ((at = memmem(at, it.bytes + it.length - at, placeholder, length))) {
		long old = strspn(at + length, "x") + length;

		memset(at, 0, old);
		memcpy(at, name, strlen(name));
		at += old;
	}
}

static void remember(const char *name)
{
	int k;

	for (k = 0; k < inserted_count; k++)
		if (!strcmp(inserted[k], name))
			return;
	if (inserted_count < MODULES)
		strcpy(inserted[inserted_count++], name);
}

static int insert(struct file from, const char *placeholder, const char *name, char *symbols)
{
	struct file it = { malloc(from.length), from.length };
	char *symbol, any[32];
	int k, failed;

	memcpy(it.bytes, from.bytes, from.length);
	rename_in(it, placeholder, name);
	symbol = symbols ? strtok(symbols, ",") : NULL;
	for (k = 0; symbol; symbol = strtok(NULL, ","), k++) {
		sprintf(any, "any_symbol_%d_x", k);
		rename_in(it, any, symbol);
	}
	failed = syscall(SYS_init_module, it.bytes, it.length, "") ? errno : 0;
	free(it.bytes);
	if (!failed)
		remember(name);
	return failed;
}

static int remove_module(const char *name)
{
	int tries, failed = EAGAIN;

	for (tries = 0; tries < 10 && failed == EAGAIN; tries++) {
		if (tries)
			usleep(20000);
		failed = syscall(SYS_delete_module, name, O_NONBLOCK) ? errno : 0;
	}
	return failed;
}

static void answer_file(const char *path)
{
	int file = open(path, O_RDONLY);
	char bytes[4096];
	long length = file < 0 ? -1 : read(file, bytes, sizeof(bytes) - 1);

	if (length < 0) {
		printf("A errno %d\n", errno);
	} else {
		bytes[length] = 0;
		bytes[strcspn(bytes, "\n")] = 0;
		printf("A %s\n", bytes);
	}
	if (file >= 0)
		close(file);
}

static int write_file(const char *path, const char *value)
{
	int file = open(path, O_WRONLY), failed = 0;

	if (file < 0)
		return errno;
	if (write(file, value, strlen(value)) < 0)
		failed = errno;
	close(file);
	return failed;
}

static void say_log(int is_shown)
{
	static const char * const words[] = { "livepatch", "WARNING", "BUG", "stepper", "shadow", "Oops" };
	char record[2048], *text;
	long length;
	unsigned k;

	while ((length = read(log_of_kernel, record, sizeof(record) - 1)) > 0 || (length < 0 && errno == EPIPE)) {
		if (length < 0)
			continue;
		record[length] = 0;
		text = strchr(record, ';');
		if (!is_shown || !text || strstr(text, "taint"))
			continue;
		text[strcspn(text, "\n")] = 0;
		for (k = 0; k < sizeof(words) / sizeof(*words); k++)
			if (strstr(text, words[k])) {
				printf("D %s\n", text + 1);
				break;
			}
	}
}

static void answer_event(const char *format, int failed, const char *more)
{
	printf(format, failed, more);
	printf("C%s\n", command("ran"));
	say_log(1);
}

static void op_load(char *name)
{
	int failed = 0;

	if (is_there("/sys/module/%s", name) && !is_there(PARENT "/%s", name))
		failed = remove_module(name);
	if (failed)
		answer_event("A pinned errno %d%s\n", failed, "");
	else
		answer_event("A errno %d%s\n", insert(patch_file, PATCH, name, NULL), "");
}

static void op_insert(char *name)
{
	char *symbols = strchr(name, ' ');

	if (symbols)
		*symbols++ = 0;
	answer_event("A errno %d%s\n", insert(object_file, OBJECT, name, symbols), "");
}

static void op_remove(char *name)
{
	answer_event("A errno %d%s\n", remove_module(name), "");
}

static void op_write(char *path)
{
	char *value = strchr(path, ' '), transition[512], moving[2] = "";
	int file;

	*value++ = 0;
	snprintf(transition, sizeof(transition), "%.*s/transition", (int)(strrchr(path, '/') - path), path);
	file = open(transition, O_RDONLY);
	if (file >= 0) {
		if (read(file, moving, 1) < 0)
			moving[0] = 0;
		close(file);
	}
	answer_event("A errno %d%s\n", write_file(path, value), moving[0] == '1' ? " moving" : "");
}

static void op_ls(char *path)
{
	struct dirent **names;
	int k, count = scandir(path, &names, NULL, alphasort);

	if (count < 0) {
		printf("A errno %d\n", errno);
		return;
	}
	printf("A ls");
	for (k = 0; k < count; k++)
		if (names[k]->d_name[0] != '.')
			printf(" %s", names[k]->d_name);
	printf("\n");
}

/* Waits, for at most a second, until the stepper has this process for a task. */
static void await_process(int task, int process)
{
	int tries;

	for (tries = 0; tries < 500 && atoi(command("process %d", task)) != process; tries++)
		usleep(2000);
}

static void op_new(char *word)
{
	int task = atoi(word) % TASKS, process = fork();

	if (!process) {
		int own = open("/proc/klp_stepper", O_RDWR);

		while (!ioctl(own, 0, task))
			;
		_exit(0);
	}
	processes[task] = process;
	await_process(task, process);
	usleep(5000);
	printf("A ok\n");
}

static void end_task(int task)
{
	command("end %d", task);
	await_process(task, 0);
	if (processes[task] > 0)
		waitpid(processes[task], NULL, 0);
	processes[task] = 0;
	while (waitpid(-1, NULL, WNOHANG) > 0)
		;
}

static void op_end(char *word)
{
	end_task(atoi(word) % TASKS);
	printf("A ok\n");
}

static void op_state(char *word)
{
	int process = atoi(command("process %s", word));
	char path[64];

	if (!process) {
		printf("A NoTask\n");
		return;
	}
	sprintf(path, "/proc/%d/patch_state", process);
	answer_file(path);
}

static void op_command(char *line)
{
	printf("A %s\n", command("%s", line));
	if (!strcmp(line, "poll"))
		printf("C%s\n", command("ran"));
	say_log(1);
}

static void write_to(const char *patch, const char *file, const char *value)
{
	char path[300];

	snprintf(path, sizeof(path), PARENT "/%s/%s", patch, file);
	write_file(path, value);
}

/* Completes what is in transition, by force if it doesn't end, and disables the newest patch, until none is left. */
static void withdraw_patches(void)
{
	char patches[4096], *patch, *newest;
	int turns, tries;

	for (turns = 0; turns < 20; turns++) {
		for (tries = 0; tries < 5 && !strstr(command("poll"), "notmoving"); tries++)
			;
		snprintf(patches, sizeof(patches), "%s", command("patches"));
		newest = NULL;
		for (patch = strtok(patches, " |"); patch; patch = strtok(NULL, " |")) {
			newest = patch;
			if (tries == 5)
				write_to(patch, "force", "1");
		}
		if (!newest)
			return;
		write_to(newest, "enabled", "0");
	}
}

static void clean_up(void)
{
	int k, failed;

	for (k = 0; k < TASKS; k++)
		if (atoi(command("process %d", k)))
			end_task(k);
	withdraw_patches();
	for (k = inserted_count - 1; k >= 0; k--)
		if (is_there("/sys/module/%s", inserted[k])) {
			failed = remove_module(inserted[k]);
			if (failed)
				printf("LEFT %s errno %d\n", inserted[k], failed);
		}
	inserted_count = 0;
	command("ran");
	say_log(0);
}

static void op_script(char *name)
{
	clean_up();
	if (*command("patches"))
		printf("DIRTY\n");
	printf("S %s\n", name);
}

static void op_line(char *number)
{
	printf("Q %s\n", number);
}

static void op_cat(char *path)
{
	answer_file(path);
}

static const struct { const char *name; void (*play)(char *); } operations[] = {
	{ "S", op_script }, { "Q", op_line }, { "K", op_command }, { "load", op_load }, { "insert", op_insert },
	{ "remove", op_remove }, { "write", op_write }, { "cat", op_cat }, { "ls", op_ls }, { "new", op_new },
	{ "end", op_end }, { "state", op_state },
};

static void play(char *line)
{
	char *rest = strchr(line, ' ');
	unsigned k;

	if (!rest)
		return;
	*rest++ = 0;
	for (k = 0; k < sizeof(operations) / sizeof(*operations); k++)
		if (!strcmp(line, operations[k].name))
			operations[k].play(rest);
}

/* Inserts the stepper; `skip=NAME` of the kernel's command line comes to this process's environment. */
static int has_stepper(void)
{
	char parameters[128] = "";
	int file = open("/klp_stepper.ko", O_RDONLY), failed;

	if (getenv("skip"))
		snprintf(parameters, sizeof(parameters), "skip=%s", getenv("skip"));
	failed = syscall(SYS_finit_module, file, parameters, 0) ? errno : 0;
	close(file);
	if (failed)
		printf("LACKS klp_stepper (%s)\n", strerror(failed));
	else
		stepper = open("/proc/klp_stepper", O_RDWR);
	say_log(1);
	return stepper >= 0;
}

static void end_machine(void)
{
	fflush(stdout);
	usleep(200000);
	reboot(RB_POWER_OFF);
}

static void take_bytes(char *into, long length)
{
	while (length > 0) {
		long came = read(0, into, length);

		if (came <= 0)
			end_machine();
		into += came;
		length -= came;
	}
}

/* The next play, or NULL where there is none. */
static char *next_play(void)
{
	char head[64], *bytes;
	long k = 0, length;

	printf("READY\n");
	do
		take_bytes(head + k, 1);
	while (head[k] != '\n' && ++k < (long)sizeof(head) - 1);
	head[k] = 0;
	if (strncmp(head, "PLAY ", 5))
		return NULL;
	length = atol(head + 5);
	bytes = malloc(length + 1);
	for (k = 0; k < length; k += BLOCK) {
		printf("MORE\n");
		take_bytes(bytes + k, length - k < BLOCK ? length - k : BLOCK);
	}
	bytes[length] = 0;
	return bytes;
}

static void play_all(char *bytes)
{
	char *line, *rest;

	for (line = strtok_r(bytes, "\n", &rest); line; line = strtok_r(NULL, "\n", &rest))
		play(line);
	clean_up();
	free(bytes);
}

static void set_up(void)
{
	struct termios raw;

	mkdir("/proc", 0755);
	mkdir("/sys", 0755);
	mount("proc", "/proc", "proc", 0, NULL);
	mount("sys", "/sys", "sysfs", 0, NULL);
	mount("dev", "/dev", "devtmpfs", 0, NULL);
	setvbuf(stdout, NULL, _IOLBF, 0);
	tcgetattr(0, &raw);
	cfmakeraw(&raw);
	tcsetattr(0, TCSANOW, &raw);
	log_of_kernel = open("/dev/kmsg", O_RDONLY | O_NONBLOCK);
	write_file("/proc/sys/kernel/printk", "1");
	printf("BEGUN\n");
}

int main(void)
{
	char *bytes;

	set_up();
	if (log_of_kernel < 0) {
		printf("LACKS /dev/kmsg (%s)\n", strerror(errno));
		end_machine();
	}
	if (!is_there("%s", PARENT)) {
		printf("LACKS livepatch (there is no " PARENT ")\n");
		end_machine();
	}
	patch_file = whole("/klp_any_patch.ko");
	object_file = whole("/klp_any_object.ko");
	if (!has_stepper())
		end_machine();
	while ((bytes = next_play()))
		play_all(bytes);
	end_machine();
	return 0;
}
