/*
 * The other reader's board: the plan of a tree, by docs/BOARDS.md and
 * docs/REFUSALS.md, on libfdt alone.
 *
 * Each step is finished for the whole tree before the next begins: the
 * controllers (8, 10), their number (11), the specifiers (8, 12 to 20), the
 * root and the parents (21), inputs with two specifiers (22).
 */

#include "routes.h"

#include <libfdt.h>
#include <stdio.h>
#include <string.h>

#define MOST_CONTROLLERS 4
#define MOST_ROUTES 256
#define MOST_INPUTS 64		/* of one controller */
#define MOST_PRIORITY 7
#define NONE (-1)

/* The numbers of docs/REFUSALS.md that only boards have. */
enum {
	NO_KIND = 10,
	CONTROLLERS = 11,
	NO_INPUT = 19,
	TOO_MANY_ROUTES = 20,
	PARENTS = 21,
	TAKEN = 22
};

enum make { I8259A, PLIC, MUX };

struct kind {
	const char *string;	/* of `compatible` */
	enum make make;
	const char *name;
	const char *width_property;
	uint32_t width;		/* the largest; without a width property the only one */
	uint32_t cells;		/* its `#interrupt-cells` */
};

static const struct kind kinds[] = {
	{ "intel,i8259", I8259A, "8259A", NULL, 8, 2 },
	{ "sifive,plic-1.0.0", PLIC, "PLIC", "riscv,ndev", 64, 1 },
	{ "factory,status-mux", MUX, "mux", "factory,inputs", 32, 1 },
};

struct controller {
	int node;
	const struct kind *kind;
	int width;
	int specifiers;		/* how many it has itself */
	int parent;		/* where its own specifier ends */
	int input;
	int first;		/* line; NONE if it is not placed */
};

struct route {
	int device;
	int index;
	int controller;
	int input;
	const char *sense;
};

struct board {
	int controllers;
	struct controller controller[MOST_CONTROLLERS];
	int routes;
	struct route route[MOST_ROUTES];
	bool taken[MOST_CONTROLLERS][MOST_INPUTS];
	struct fault of_specifiers;	/* the first, of 8 and 12 to 20; number 0 if none */
	struct fault of_inputs;		/* the first 22; number 0 if none */
};

/* ---- the controllers ---- */

/* Keeps of the faults of one node the smallest number, then the smallest property place. */
static void note(struct fault *least, int number, int node_place, int property_place)
{
	if (least->number && (least->number < number ||
			      (least->number == number && least->property <= property_place)))
		return;
	refuse(least, number, node_place, property_place);
}

static const struct kind *kind_of_string(const char *string)
{
	for (size_t i = 0; i < sizeof(kinds) / sizeof(kinds[0]); i++) {
		if (!strcmp(kinds[i].string, string))
			return &kinds[i];
	}
	return NULL;
}

/* The kind of the first string that has one. Each string is ended by a zero byte. */
static const struct kind *kind_of(struct property compatible)
{
	const char *end = compatible.value + compatible.length;

	for (const char *at = compatible.value; at < end; at += strlen(at) + 1) {
		const struct kind *kind = kind_of_string(at);

		if (kind)
			return kind;
	}
	return NULL;
}

/* The value of a property that is one cell in a range. */
static bool ranged(struct property property, uint32_t least, uint32_t most, uint32_t *value)
{
	struct cells only = { property.value, 1 };

	if (property.length != 4)
		return false;
	*value = cell(only, 0);
	return least <= *value && *value <= most;
}

static bool good_priorities(struct property property, uint32_t width)
{
	struct cells cells = { property.value, (int)width };

	if (property.length != 4 * (int)width)
		return false;
	for (int i = 0; i < cells.count; i++) {
		if (cell(cells, i) < 1 || cell(cells, i) > MOST_PRIORITY)
			return false;
	}
	return true;
}

/* What is read of a controller's node. False, and the fault that counts, if there is one. */
static bool read_controller(const struct blob *blob, int node, struct controller *controller,
			    struct fault *fault)
{
	struct property compatible = find(blob, node, "compatible");
	struct property cells = find(blob, node, "#interrupt-cells");
	const struct kind *kind = NULL;
	int at = place(blob, node);
	uint32_t count, width = 0;

	fault->number = 0;

	if (compatible.length && compatible.value[compatible.length - 1] != '\0') {
		note(fault, VALUE, at, compatible.place);
	} else {
		if (compatible.length)
			kind = kind_of(compatible);
		if (!kind)
			note(fault, NO_KIND, at, compatible.place);
	}

	if (cells.place && !ranged(cells, 1, MOST_CELLS, &count))
		note(fault, VALUE, at, cells.place);
	else if (kind && (!cells.place || count != kind->cells))
		note(fault, NO_KIND, at, cells.place);

	if (kind && kind->width_property) {
		struct property property = find(blob, node, kind->width_property);

		/* A missing one has place 0 and length 0. */
		if (!ranged(property, 1, kind->width, &width)) {
			note(fault, VALUE, at, property.place);
		} else if (kind->make == PLIC) {
			struct property priorities = find(blob, node, "factory,priorities");

			if (priorities.place && !good_priorities(priorities, width))
				note(fault, VALUE, at, priorities.place);
		}
	} else if (kind) {
		width = kind->width;
	}

	if (fault->number)
		return false;
	controller->node = node;
	controller->kind = kind;
	controller->width = (int)width;
	controller->specifiers = 0;
	controller->parent = NONE;
	controller->input = NONE;
	controller->first = NONE;
	return true;
}

static bool is_controller(const struct blob *blob, int node)
{
	return find(blob, node, "interrupt-controller").place != 0;
}

static bool read_controllers(const struct blob *blob, struct board *board, struct fault *fault)
{
	struct controller controller;
	int count = 0;
	int node;

	for (node = next_node(blob, -1); node >= 0; node = next_node(blob, node)) {
		if (!is_controller(blob, node))
			continue;
		if (!read_controller(blob, node, &controller, fault))
			return false;
		if (count < MOST_CONTROLLERS)
			board->controller[count] = controller;
		count++;
	}
	if (count < 1 || count > MOST_CONTROLLERS)
		return refuse(fault, CONTROLLERS, 0, 0);
	board->controllers = count;
	return true;
}

static int number_of(const struct blob *blob, const struct board *board, int node)
{
	for (int i = 0; i < board->controllers; i++) {
		if (board->controller[i].node == node)
			return i;
	}
	fail(blob->file, "a walk ends at no controller of the board");
	return NONE;
}

/* ---- the specifiers ---- */

/* The input and the sense that the cells of a specifier give at a controller. */
static bool input_of(const struct controller *controller, struct cells cells, int *input,
		     const char **sense)
{
	uint32_t given = cell(cells, 0);
	uint32_t width = (uint32_t)controller->width;

	switch (controller->kind->make) {
	case I8259A:
		if (given >= width || cell(cells, 1) > 3)
			return false;
		*sense = cell(cells, 1) < 2 ? "following" : "edge";
		break;
	case PLIC:
		if (given < 1 || given > width)
			return false;
		given--;
		*sense = "gated";
		break;
	case MUX:
		if (given >= width)
			return false;
		*sense = "following";
		break;
	}
	*input = (int)given;
	return true;
}

static void take_refusal(const struct blob *blob, void *state, int device, int index,
			 const struct fault *fault)
{
	struct board *board = state;

	(void)blob, (void)device, (void)index;
	if (!board->of_specifiers.number)
		board->of_specifiers = *fault;
}

static void take_route(const struct blob *blob, void *state, int index, struct property property,
		       const struct walk *walk)
{
	struct board *board = state;
	bool of_controller = is_controller(blob, walk->device);
	int at = place(blob, walk->device);
	int ends, input;
	const char *sense = NULL;

	if (board->of_specifiers.number)
		return;
	ends = number_of(blob, board, walk->controller);
	if ((uint32_t)walk->specifier.count != board->controller[ends].kind->cells)
		fail(blob->file, "a specifier with another number of cells than its controller's");
	if (!input_of(&board->controller[ends], walk->specifier, &input, &sense)) {
		refuse(&board->of_specifiers, NO_INPUT, at, property.place);
		return;
	}
	if (of_controller) {
		struct controller *own = &board->controller[number_of(blob, board, walk->device)];

		own->specifiers++;
		own->parent = ends;
		own->input = input;
	} else {
		struct route route = { walk->device, index, ends, input, sense };

		if (board->routes == MOST_ROUTES) {
			refuse(&board->of_specifiers, TOO_MANY_ROUTES, at, property.place);
			return;
		}
		board->route[board->routes++] = route;
	}
	if (board->taken[ends][input] && !board->of_inputs.number)
		refuse(&board->of_inputs, TAKEN, at, property.place);
	board->taken[ends][input] = true;
}

/* ---- the root and the placing ---- */

/* Whether the parents of a controller lead to the root. */
static bool leads_to(const struct board *board, int from, int root)
{
	for (int steps = 0; steps < board->controllers; steps++) {
		if (from == root)
			return true;
		from = board->controller[from].parent;
		if (from == NONE)
			return false;
	}
	return false;
}

static bool find_root(const struct board *board, int *root, struct fault *fault)
{
	int roots = 0;

	for (int i = 0; i < board->controllers; i++) {
		if (board->controller[i].specifiers > 1)
			return refuse(fault, PARENTS, 0, 0);
		if (board->controller[i].specifiers == 0) {
			*root = i;
			roots++;
		}
	}
	if (roots != 1)
		return refuse(fault, PARENTS, 0, 0);
	for (int i = 0; i < board->controllers; i++) {
		if (!leads_to(board, i, *root))
			return refuse(fault, PARENTS, 0, 0);
	}
	return true;
}

static void place_controllers(struct board *board, int root)
{
	int lines = board->controller[root].width;
	int placed = 1;

	board->controller[root].first = 0;
	while (placed < board->controllers) {
		for (int i = 0; i < board->controllers; i++) {
			struct controller *next = &board->controller[i];

			if (next->first == NONE && board->controller[next->parent].first != NONE) {
				next->first = lines;
				lines += next->width;
				placed++;
				break;
			}
		}
	}
}

static bool plan(const struct blob *blob, struct board *board, struct fault *fault)
{
	struct taker taker = { board, take_route, take_refusal };
	int root = NONE;

	if (!read_controllers(blob, board, fault))
		return false;
	each_specifier(blob, taker);
	if (board->of_specifiers.number) {
		*fault = board->of_specifiers;
		return false;
	}
	if (!find_root(board, &root, fault))
		return false;
	if (board->of_inputs.number) {
		*fault = board->of_inputs;
		return false;
	}
	place_controllers(board, root);
	return true;
}

/* ---- the listing ---- */

static int layer_of(int number)
{
	switch (number) {
	case NO_KIND:
	case CONTROLLERS:
	case NO_INPUT:
	case TOO_MANY_ROUTES:
	case PARENTS:
	case TAKEN:
		return 4;
	default:
		return 3;
	}
}

static int line_of(const struct board *board, int controller, int input)
{
	return board->controller[controller].first + input;
}

void list_board(const struct blob *blob)
{
	static const struct board empty;
	static struct board board;
	struct fault fault;

	board = empty;
	if (!plan(blob, &board, &fault)) {
		printf("board refused: layer %d, number %d, node %d, property %d\n",
		       layer_of(fault.number), fault.number, fault.node, fault.property);
		return;
	}
	for (int i = 0; i < board.controllers; i++) {
		const struct controller *controller = &board.controller[i];

		printf("controller %d %s width %d at %d lines %d to %d", i, controller->kind->name,
		       controller->width, place(blob, controller->node), controller->first,
		       controller->first + controller->width - 1);
		if (controller->parent == NONE)
			printf(" root\n");
		else
			printf(" cascaded at line %d\n",
			       line_of(&board, controller->parent, controller->input));
	}
	for (int i = 0; i < board.routes; i++) {
		const struct route *route = &board.route[i];

		printf("device %d node %d specifier %d controller %d input %d line %d sense %s %s\n",
		       i, place(blob, route->device), route->index, route->controller, route->input,
		       line_of(&board, route->controller, route->input), route->sense,
		       path_of(blob, route->device));
	}
}
