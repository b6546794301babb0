/* What list.c, routes.c and board.c share. */

#ifndef ROUTES_H
#define ROUTES_H

#include <stdbool.h>
#include <stddef.h>
#include <stdint.h>

#define MOST_CELLS 4		/* of a unit address, and of a specifier */
#define MOST_ROWS 8		/* taken in one walk */

/* The numbers of docs/REFUSALS.md that are found on the way to a controller. */
enum {
	VALUE = 8,
	NO_PHANDLE = 12,
	NO_PARENT = 13,
	SHORT = 14,
	NO_END = 15,
	ROW = 16,
	NO_ROW = 17,
	NINTH_ROW = 18
};

struct blob {
	const char *file;
	char *bytes;
	size_t length;
};

/* A property that is absent has place 0. */
struct property {
	int place;
	const char *value;
	int length;
};

/* Cells of a property's value, most significant byte first. */
struct cells {
	const char *first;
	int count;
};

struct fault {
	int number;
	int node;	/* place */
	int property;	/* place, 0 if it is missing */
};

struct passed {
	int nexus;
	int row;
};

/* A walk that ended at a controller, with the cells that arrive there. */
struct walk {
	int device;
	int passed;
	struct passed by[MOST_ROWS];
	int controller;
	struct cells specifier;
};

/* What is done with each specifier, in blob order: the route with the property of the specifier, or the fault. */
struct taker {
	void *state;
	void (*route)(const struct blob *blob, void *state, int index, struct property property,
		      const struct walk *walk);
	void (*refusal)(const struct blob *blob, void *state, int device, int index,
			const struct fault *fault);
};

/* list.c */

/* Ends the program with a message. */
void fail(const char *file, const char *what);

/* The byte offset in the blob of what libfdt names by an offset in the structure block. */
int place(const struct blob *blob, int offset);

/* The path of a node, in a buffer that the next call overwrites. */
const char *path_of(const struct blob *blob, int node);

/* The node after one in blob order, -1 after the last; -1 asks for the root. */
int next_node(const struct blob *blob, int node);

/* routes.c */

/* Sets the fault; false, so that a step can answer with it. */
bool refuse(struct fault *fault, int number, int node_place, int property_place);

/* The first property of a name. */
struct property find(const struct blob *blob, int node, const char *name);

uint32_t cell(struct cells cells, int index);

/* The cells of a property that has to be whole cells. */
bool whole(const struct blob *blob, int node, struct property property, struct cells *cells,
	   struct fault *fault);

/* Ends the program unless each phandle is as docs/FORMAT.md asks of an opened tree. */
void check_phandles(const struct blob *blob);

/* Walks each specifier in blob order, node by node and by index. */
void each_specifier(const struct blob *blob, struct taker taker);

/* A line for each specifier in blob order, then the line of counts. */
void list_routes(const struct blob *blob);

/* board.c */

/* The plan of the tree: a line for each controller, then for each route; or the one refusal. */
void list_board(const struct blob *blob);

#endif
