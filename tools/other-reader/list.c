/*
 * The other reader: lists the nodes, the interrupts and the board of flattened
 * devicetrees, on libfdt alone.
 *
 * The text that the gate expects of our own program is written by this one,
 * and never by our own program. So nothing here looks at a token: nodes,
 * names, paths and properties are all what libfdt says they are.
 *
 *     list FILE...
 *
 * For each node, in the order of the blob:  node PLACE DEPTH PATH
 * and after the last one:                   opened: N nodes, M properties, K phandles
 * For each interrupt specifier, in the order of the blob, one of
 *     route NODE INDEX via NEXUS:ROW NEXUS:ROW ends CONTROLLER cells C C PATH
 *     refused NODE INDEX layer L, number N, node P, property Q
 * (`via` and its list only where a nexus is passed), and after the last one:
 *     routes: N, refused: M
 * Then the board: for each controller one of the first two lines, for each route
 * the third; or, where the board is refused, the last alone.
 *     controller N KIND width W at PLACE lines B to E root
 *     controller N KIND width W at PLACE lines B to E cascaded at line K
 *     device N node P specifier I controller C input X line L sense S PATH
 *     board refused: layer L, number N, node P, property Q
 * With more than one file, a line FILE: comes before each listing. After the word
 * --nodes only the nodes and how much there is are listed.
 *
 * It lists blobs that open. One that libfdt turns down, that is more than 16
 * deep, or that has a phandle against the rules ends the program with a message.
 */

#include "routes.h"

#include <libfdt.h>
#include <stdio.h>
#include <stdlib.h>
#include <string.h>

/* A path is made of names of the blob, so it is shorter than the largest blob. */
#define PATH_ROOM 65536

#define MOST_DEPTH 16

void fail(const char *file, const char *what)
{
	fprintf(stderr, "list: %s: %s\n", file, what);
	exit(1);
}

static struct blob read_blob(const char *file)
{
	struct blob blob = { file, NULL, 0 };
	FILE *in = fopen(file, "rb");
	long length = 0;
	int error;

	if (!in || fseek(in, 0, SEEK_END) || (length = ftell(in)) < 0)
		fail(file, "cannot be read");
	rewind(in);
	blob.length = length;
	blob.bytes = malloc(blob.length + 1);
	if (!blob.bytes || fread(blob.bytes, 1, blob.length, in) != blob.length)
		fail(file, "cannot be read");
	fclose(in);

	/* libfdt's own look at the whole blob, bytes past the total size aside. */
	error = fdt_check_full(blob.bytes, blob.length);
	if (error)
		fail(file, fdt_strerror(error));
	return blob;
}

int place(const struct blob *blob, int offset)
{
	return fdt_off_dt_struct(blob->bytes) + offset;
}

const char *path_of(const struct blob *blob, int node)
{
	static char path[PATH_ROOM];
	int error = fdt_get_path(blob->bytes, node, path, sizeof(path));

	if (error)
		fail(blob->file, fdt_strerror(error));
	return path;
}

int next_node(const struct blob *blob, int node)
{
	int next = fdt_next_node(blob->bytes, node, NULL);

	if (next < 0 && next != -FDT_ERR_NOTFOUND)
		fail(blob->file, fdt_strerror(next));
	return next < 0 ? -1 : next;
}

static int count_properties(const struct blob *blob, int node)
{
	int property, count = 0;

	fdt_for_each_property_offset(property, blob->bytes, node)
		count++;
	if (property != -FDT_ERR_NOTFOUND)
		fail(blob->file, fdt_strerror(property));
	return count;
}

static void list_nodes(const struct blob *blob)
{
	int nodes = 0, properties = 0, phandles = 0;
	int node, depth = -1;	/* libfdt counts the root as depth 0 */

	node = fdt_next_node(blob->bytes, -1, &depth);
	while (node >= 0 && depth >= 0) {
		if (depth >= MOST_DEPTH)
			fail(blob->file, "too deep");
		printf("node %d %d %s\n", place(blob, node), depth + 1, path_of(blob, node));
		nodes++;
		properties += count_properties(blob, node);
		if (fdt_getprop(blob->bytes, node, "phandle", NULL))
			phandles++;
		node = fdt_next_node(blob->bytes, node, &depth);
	}
	if (node < 0 && node != -FDT_ERR_NOTFOUND)
		fail(blob->file, fdt_strerror(node));
	printf("opened: %d nodes, %d properties, %d phandles\n", nodes, properties, phandles);
}

int main(int count, char **words)
{
	int nodes_only = count > 1 && strcmp(words[1], "--nodes") == 0;
	char **files = words + 1 + nodes_only;
	int several = count - 1 - nodes_only;

	if (several < 1) {
		fprintf(stderr, "usage: list [--nodes] FILE...\n");
		return 2;
	}
	for (int i = 0; i < several; i++) {
		struct blob blob = read_blob(files[i]);

		if (several > 1)
			printf("%s:\n", files[i]);
		check_phandles(&blob);
		list_nodes(&blob);
		if (!nodes_only) {
			list_routes(&blob);
			list_board(&blob);
		}
		free(blob.bytes);
	}
	return 0;
}
