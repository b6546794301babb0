/*
 * Makes a variant of a blob with libfdt's in-place calls.
 *
 *     vary IN OUT STEP...
 *
 * A step is one of
 *     property:PATH:NAME   turn the node's property into no-op tokens
 *     node:PATH            turn the node and all below it into no-op tokens
 *     tail:COUNT           write COUNT bytes after the total size (last step)
 */

#include <libfdt.h>
#include <stdio.h>
#include <stdlib.h>
#include <string.h>

#define ROOM 65536

static char blob[ROOM];

static void fail(const char *step, const char *what)
{
	fprintf(stderr, "vary: %s: %s\n", step, what);
	exit(1);
}

static int node_at(const char *step, const char *path)
{
	int node = fdt_path_offset(blob, path);

	if (node < 0)
		fail(step, fdt_strerror(node));
	return node;
}

/* Takes one step on the blob; gives the number of bytes to write after it. */
static int take(const char *step)
{
	static char text[1024];
	char *path, *name;
	int error = 0;

	if (strlen(step) >= sizeof(text) || !strchr(step, ':'))
		fail(step, "not a step");
	strcpy(text, step);
	path = strchr(text, ':');
	*path++ = '\0';

	if (!strcmp(text, "tail"))
		return atoi(path);
	if (!strcmp(text, "node")) {
		error = fdt_nop_node(blob, node_at(step, path));
	} else if (!strcmp(text, "property") && (name = strchr(path, ':'))) {
		*name++ = '\0';
		error = fdt_nop_property(blob, node_at(step, path), name);
	} else {
		fail(step, "not a step");
	}
	if (error)
		fail(step, fdt_strerror(error));
	return 0;
}

int main(int count, char **words)
{
	FILE *in, *out;
	size_t length;
	int error, tail = 0;

	if (count < 4) {
		fprintf(stderr, "usage: vary IN OUT STEP...\n");
		return 2;
	}
	in = fopen(words[1], "rb");
	if (!in)
		fail(words[1], "cannot be read");
	length = fread(blob, 1, sizeof(blob), in);
	fclose(in);
	error = fdt_check_full(blob, length);
	if (error)
		fail(words[1], fdt_strerror(error));

	for (int i = 3; i < count; i++)
		tail += take(words[i]);

	out = fopen(words[2], "wb");
	if (!out || fwrite(blob, 1, fdt_totalsize(blob), out) != fdt_totalsize(blob))
		fail(words[2], "cannot be written");
	/* Any bytes will do, so long as they are the same each time. */
	for (int i = 0; i < tail; i++)
		fputc((i * 73 + 0xd0) & 0xff, out);
	if (fclose(out))
		fail(words[2], "cannot be written");
	return 0;
}
