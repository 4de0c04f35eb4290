// SPDX-License-Identifier: GPL-2.0
/* The versions of all functions, by module and number, and what the patches of a script consist of. */
#include <linux/module.h>
#include <linux/livepatch.h>
#include <linux/slab.h>
#include "stepper.h"

static struct { char name[64]; step_fn *versions; int count; } modules[1024];
static struct spec { char name[64]; char *text; int runs[STEPPER_OBJECTS][4]; } specs[STEPPER_PARKS];
static int spec_count;
static char ran[4096];
static int ran_length;

void step_register(const char *module, step_fn *versions, int count)
{
	int k;

	step_unregister(module);
	for (k = 0; k < ARRAY_SIZE(modules); k++)
		if (!modules[k].versions) {
			strscpy(modules[k].name, module, sizeof(modules[k].name));
			modules[k].count = count;
			modules[k].versions = versions;
			return;
		}
	WARN(1, "klp_stepper: too many modules\n");
}
EXPORT_SYMBOL_GPL(step_register);

void step_unregister(const char *module)
{
	int k;

	for (k = 0; k < ARRAY_SIZE(modules); k++)
		if (modules[k].versions && !strcmp(modules[k].name, module))
			modules[k].versions = NULL;
}
EXPORT_SYMBOL_GPL(step_unregister);

step_fn version_of(const char *module, int index)
{
	int k;

	for (k = 0; k < ARRAY_SIZE(modules); k++)
		if (modules[k].versions && !strcmp(modules[k].name, module) && index < modules[k].count)
			return modules[k].versions[index];
	return NULL;
}

/* Says MODULE:INDEX of a version. */
void say_version(void *version)
{
	int k, index;

	for (k = 0; k < ARRAY_SIZE(modules); k++)
		for (index = 0; modules[k].versions && index < modules[k].count; index++)
			if (modules[k].versions[index] == version) {
				say("%s:%d", modules[k].name, index);
				return;
			}
	say("%ps", version);
}

static struct spec *spec_of(const char *module)
{
	int k;

	for (k = 0; k < spec_count; k++)
		if (!strcmp(specs[k].name, module))
			return &specs[k];
	return NULL;
}

const char *step_spec(const char *module)
{
	struct spec *found = spec_of(module);

	return found ? found->text : NULL;
}
EXPORT_SYMBOL_GPL(step_spec);

/* spec MODULE TEXT */
void do_spec(char *rest)
{
	struct spec *own = &specs[spec_count];

	if (spec_count == ARRAY_SIZE(specs)) {
		say("full");
		return;
	}
	memset(own, 0, sizeof(*own));
	strscpy(own->name, strsep(&rest, " "), sizeof(own->name));
	own->text = kstrdup(rest ?: "", GFP_KERNEL);
	spec_count++;
	say("ok");
}

/* begin PARKS: forgets the patches of the script before. */
void do_begin(char **words, int count)
{
	while (spec_count)
		kfree(specs[--spec_count].text);
	ran_length = 0;
	tasks_begin(number(words[1]));
	say("ok");
}

/* runs MODULE OBJECT: how often the patch's callbacks for its object ran. */
void do_runs(char **words, int count)
{
	struct spec *own = spec_of(words[1]);
	int object = number(words[2]), *runs;

	if (!own || object >= STEPPER_OBJECTS) {
		say("unknown");
		return;
	}
	runs = own->runs[object];
	say("%d %d %d %d", runs[0], runs[1], runs[2], runs[3]);
}

/* ran: which callbacks ran since it was asked last, in their order. */
void do_ran(char **words, int count)
{
	say("%.*s", ran_length, ran);
	ran_length = 0;
}

static const char * const kinds[] = { "pre", "post", "preun", "postun" };

int step_callback(struct klp_patch *patch, int object, int which, int status, const char *edits)
{
	struct spec *own = spec_of(patch->mod->name);
	char *copy, *rest, *edit;

	if (own)
		own->runs[object][which]++;
	ran_length += scnprintf(ran + ran_length, sizeof(ran) - ran_length, " %s.%d.%s%s", patch->mod->name, object,
				kinds[which], status ? "!" : "");
	if (status)
		return which == 0 ? status : 0;
	rest = copy = kstrdup(edits ?: "", GFP_KERNEL);
	while ((edit = strsep(&rest, " ")))
		if (*edit)
			step_edit(patch, edit);
	kfree(copy);
	return 0;
}
EXPORT_SYMBOL_GPL(step_callback);
