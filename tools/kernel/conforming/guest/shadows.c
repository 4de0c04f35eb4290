// SPDX-License-Identifier: GPL-2.0
/* Shadow variables and system states: the edits of callbacks, and the commands about them. */
#include <linux/module.h>
#include <linux/kernel.h>
#include <linux/livepatch.h>
#include "stepper.h"

struct blob { u8 length; u8 bytes[65]; };

static int freed;

static int blob_constructor(void *object, void *shadow, void *argument)
{
	struct blob *from = argument;

	memcpy(shadow, from, from->length + 1);
	return 0;
}

static void blob_destructor(void *object, void *shadow)
{
	freed++;
}

/* A number is eight bytes, lowest first; xHEX are these bytes. */
static void read_blob(const char *word, struct blob *into)
{
	u64 value = 0;

	memset(into, 0, sizeof(*into));
	if (word[0] == 'x') {
		into->length = strlen(word + 1) / 2;
		WARN_ON(into->length > 64 || hex2bin(into->bytes, word + 1, into->length));
		return;
	}
	WARN_ON(kstrtou64(word, 10, &value));
	into->length = 8;
	memcpy(into->bytes, &value, 8);
}

static void say_blob(struct blob *shown)
{
	int k;

	if (!shown) {
		say("none");
		return;
	}
	if (shown->length == 8) {
		say("value %llu", *(u64 *)shown->bytes);
		return;
	}
	say("value x");
	for (k = 0; k < shown->length; k++)
		say("%02x", shown->bytes[k]);
}

static void *allocated(unsigned long object, unsigned long id, const char *word, bool is_new)
{
	struct blob value;

	read_blob(word, &value);
	if (is_new)
		return klp_shadow_alloc((void *)object, id, value.length + 1, GFP_KERNEL, blob_constructor, &value);
	return klp_shadow_get_or_alloc((void *)object, id, value.length + 1, GFP_KERNEL, blob_constructor, &value);
}

static void edit_state(struct klp_patch *patch, bool is_taken, unsigned long id, const char *value)
{
	struct klp_state *state = klp_get_state(patch, id), *previous;

	if (!state)
		return;
	if (!is_taken) {
		state->data = (void *)number(value);
		return;
	}
	previous = klp_get_prev_state(id);
	if (previous)
		state->data = previous->data;
}

/* One edit of a callback, spelled as in a catalog. */
void step_edit(struct klp_patch *patch, char *edit)
{
	char *kind = strsep(&edit, ":"), *first = strsep(&edit, ":"), *second = strsep(&edit, ":");

	if (!strcmp(kind, "alloc"))
		allocated(number(first), number(second), edit, false);
	else if (!strcmp(kind, "free"))
		klp_shadow_free((void *)number(first), number(second), NULL);
	else if (!strcmp(kind, "freeall"))
		klp_shadow_free_all(number(first), NULL);
	else
		edit_state(patch, !strcmp(kind, "takeprev"), number(first), second);
}

/* shadow get OBJ ID, alloc OBJ ID V, getalloc OBJ ID V, free OBJ ID, freeall ID */
void do_shadow(char **words, int count)
{
	unsigned long object = number(words[2]), id = count > 3 ? number(words[3]) : 0;

	freed = 0;
	if (!strcmp(words[1], "get")) {
		say_blob(klp_shadow_get((void *)object, id));
	} else if (!strcmp(words[1], "alloc")) {
		say("%s", allocated(object, id, words[4], true) ? "ok" : "NULL");
	} else if (!strcmp(words[1], "getalloc")) {
		say_blob(allocated(object, id, words[4], false));
	} else if (!strcmp(words[1], "free")) {
		klp_shadow_free((void *)object, id, blob_destructor);
		say("freed %d", freed);
	} else if (!strcmp(words[1], "freeall")) {
		klp_shadow_free_all(object, blob_destructor);
		say("freed %d", freed);
	}
}
