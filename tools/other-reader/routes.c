/*
 * The other reader's routes: where each interrupt specifier of a tree ends,
 * by docs/ROUTING.md and docs/REFUSALS.md, on libfdt alone.
 *
 * Nodes are libfdt's offsets here. Places are made of them where a line or a
 * fault needs one. A property that is absent has place 0.
 */

#include "routes.h"

#include <libfdt.h>
#include <stdio.h>
#include <string.h>

#define NO_NODE (-1)

#define MOST_CANDIDATES 64	/* looked at for one interrupt parent */

bool refuse(struct fault *fault, int number, int node_place, int property_place)
{
	fault->number = number;
	fault->node = node_place;
	fault->property = property_place;
	return false;
}

/* ---- properties ---- */

struct property find(const struct blob *blob, int node, const char *name)
{
	struct property found = { 0, NULL, 0 };
	int at;

	fdt_for_each_property_offset(at, blob->bytes, node) {
		const char *own;
		int length;
		const char *value = fdt_getprop_by_offset(blob->bytes, at, &own, &length);

		if (!value)
			fail(blob->file, fdt_strerror(length));
		if (!strcmp(own, name)) {
			found.place = place(blob, at);
			found.value = value;
			found.length = length;
			return found;
		}
	}
	if (at != -FDT_ERR_NOTFOUND)
		fail(blob->file, fdt_strerror(at));
	return found;
}

uint32_t cell(struct cells cells, int index)
{
	const unsigned char *byte = (const unsigned char *)cells.first + 4 * index;

	return (uint32_t)byte[0] << 24 | (uint32_t)byte[1] << 16 | (uint32_t)byte[2] << 8 | byte[3];
}

/* Count cells from an index on. */
static struct cells part(struct cells cells, int index, int count)
{
	struct cells some = { cells.first + 4 * index, count };

	return some;
}

bool whole(const struct blob *blob, int node, struct property property, struct cells *cells,
	   struct fault *fault)
{
	if (property.length % 4)
		return refuse(fault, VALUE, place(blob, node), property.place);
	cells->first = property.value;
	cells->count = property.length / 4;
	return true;
}

/* The value of a property that has to be one cell. */
static bool one_cell(const struct blob *blob, int node, struct property property, uint32_t *value,
		     struct fault *fault)
{
	struct cells only = { property.value, 1 };

	if (property.length != 4)
		return refuse(fault, VALUE, place(blob, node), property.place);
	*value = cell(only, 0);
	return true;
}

/* A count of cells: one cell, at least the given number. Missing, it is the given refusal. */
static bool count(const struct blob *blob, int node, const char *name, uint32_t least, int missing,
		  int *cells, struct fault *fault)
{
	struct property property = find(blob, node, name);
	uint32_t value;

	if (!property.place)
		return refuse(fault, missing, place(blob, node), 0);
	if (!one_cell(blob, node, property, &value, fault))
		return false;
	if (value < least || value > MOST_CELLS)
		return refuse(fault, VALUE, place(blob, node), property.place);
	*cells = (int)value;
	return true;
}

static bool interrupt_cells(const struct blob *blob, int node, int *cells, struct fault *fault)
{
	return count(blob, node, "#interrupt-cells", 1, NO_END, cells, fault);
}

static bool address_cells(const struct blob *blob, int node, int *cells, struct fault *fault)
{
	return count(blob, node, "#address-cells", 0, ROW, cells, fault);
}

/* Both counts of a node. Of two faults the smaller number counts, then the smaller place. */
static bool both_counts(const struct blob *blob, int node, int *address, int *interrupt,
			struct fault *fault)
{
	struct fault of_address, of_interrupt;
	bool address_good = address_cells(blob, node, address, &of_address);
	bool interrupt_good = interrupt_cells(blob, node, interrupt, &of_interrupt);

	if (address_good && interrupt_good)
		return true;
	if (address_good)
		*fault = of_interrupt;
	else if (interrupt_good)
		*fault = of_address;
	else if (of_address.number != of_interrupt.number)
		*fault = of_address.number < of_interrupt.number ? of_address : of_interrupt;
	else
		*fault = of_address.property < of_interrupt.property ? of_address : of_interrupt;
	return false;
}

/* ---- phandles ---- */

/* The phandle of a node, by `phandle` alone. */
static bool phandle_of(const struct blob *blob, int node, uint32_t *phandle)
{
	struct property property = find(blob, node, "phandle");
	struct fault unused;

	return property.place && one_cell(blob, node, property, phandle, &unused);
}

static int node_of_phandle(const struct blob *blob, uint32_t phandle)
{
	uint32_t own;
	int node;

	for (node = next_node(blob, -1); node >= 0; node = next_node(blob, node)) {
		if (phandle_of(blob, node, &own) && own == phandle)
			return node;
	}
	return NO_NODE;
}

void check_phandles(const struct blob *blob)
{
	uint32_t own;
	int node;

	for (node = next_node(blob, -1); node >= 0; node = next_node(blob, node)) {
		if (!find(blob, node, "phandle").place)
			continue;
		if (!phandle_of(blob, node, &own) || own == 0 || own == 0xffffffff)
			fail(blob->file, "a phandle of wrong length or value");
		if (node_of_phandle(blob, own) != node)
			fail(blob->file, "a phandle of two nodes");
	}
}

/* ---- the interrupt parent ---- */

static bool interrupt_parent(const struct blob *blob, int device, int *parent, struct fault *fault)
{
	int at = device;
	int looked_at;

	for (looked_at = 0; looked_at < MOST_CANDIDATES; looked_at++) {
		struct property property = find(blob, at, "interrupt-parent");
		int candidate;

		if (property.place) {
			uint32_t phandle;

			if (!one_cell(blob, at, property, &phandle, fault))
				return false;
			candidate = node_of_phandle(blob, phandle);
			if (candidate == NO_NODE)
				return refuse(fault, NO_PHANDLE, place(blob, at), property.place);
		} else {
			candidate = fdt_parent_offset(blob->bytes, at);
			if (candidate == -FDT_ERR_NOTFOUND)	/* the root has none */
				return refuse(fault, NO_PARENT, place(blob, device), 0);
			if (candidate < 0)
				fail(blob->file, fdt_strerror(candidate));
		}
		if (find(blob, candidate, "#interrupt-cells").place) {
			*parent = candidate;
			return true;
		}
		at = candidate;
	}
	return refuse(fault, NO_PARENT, place(blob, device), 0);
}

/* ---- the walk of one specifier ---- */

/* The first cells of the device's `reg`. */
static bool unit_address_of(const struct blob *blob, int device, int cells, struct cells *unit,
			    struct fault *fault)
{
	struct property reg = find(blob, device, "reg");
	struct cells all;

	if (!reg.place)
		return refuse(fault, ROW, place(blob, device), 0);
	if (!whole(blob, device, reg, &all, fault))
		return false;
	if (all.count < cells)
		return refuse(fault, ROW, place(blob, device), reg.place);
	*unit = part(all, 0, cells);
	return true;
}

/* The unit address, then the specifier, each cell ANDed with the mask's if there is a mask. */
static bool masked_cells(const struct blob *blob, int nexus, struct cells unit,
			 struct cells specifier, uint32_t *masked, struct fault *fault)
{
	struct property property = find(blob, nexus, "interrupt-map-mask");
	int all = unit.count + specifier.count;
	struct cells mask;
	int i;

	for (i = 0; i < unit.count; i++)
		masked[i] = cell(unit, i);
	for (i = 0; i < specifier.count; i++)
		masked[unit.count + i] = cell(specifier, i);
	if (!property.place)
		return true;
	if (!whole(blob, nexus, property, &mask, fault))
		return false;
	if (mask.count != all)
		return refuse(fault, ROW, place(blob, nexus), property.place);
	for (i = 0; i < all; i++)
		masked[i] &= cell(mask, i);
	return true;
}

static bool equal(struct cells cells, const uint32_t *other)
{
	int i;

	for (i = 0; i < cells.count; i++) {
		if (cell(cells, i) != other[i])
			return false;
	}
	return true;
}

/*
 * Takes the first row of a nexus that matches: the node, the unit address and
 * the specifier become those that the row gives.
 */
static bool take_row(const struct blob *blob, struct walk *walk, struct property property,
		     const uint32_t *masked, int child_cells, int *node, struct cells *unit,
		     struct cells *specifier, struct fault *fault)
{
	int nexus = *node;
	int row, at = 0;
	struct cells map;

	if (!whole(blob, nexus, property, &map, fault))
		return false;
	for (row = 0; ; row++) {
		int left = map.count - at;
		int parent, address, interrupt;

		if (left == 0)
			return refuse(fault, NO_ROW, place(blob, nexus), property.place);
		if (left < child_cells + 1)
			return refuse(fault, ROW, place(blob, nexus), property.place);
		parent = node_of_phandle(blob, cell(map, at + child_cells));
		if (parent == NO_NODE)
			return refuse(fault, NO_PHANDLE, place(blob, nexus), property.place);
		if (!both_counts(blob, parent, &address, &interrupt, fault))
			return false;
		if (left < child_cells + 1 + address + interrupt)
			return refuse(fault, ROW, place(blob, nexus), property.place);
		if (equal(part(map, at, child_cells), masked)) {
			if (walk->passed == MOST_ROWS)
				return refuse(fault, NINTH_ROW, place(blob, nexus), property.place);
			walk->by[walk->passed].nexus = nexus;
			walk->by[walk->passed].row = row;
			walk->passed++;
			*node = parent;
			*unit = part(map, at + child_cells + 1, address);
			*specifier = part(map, at + child_cells + 1 + address, interrupt);
			return true;
		}
		at += child_cells + 1 + address + interrupt;
	}
}

/* From the first arrival to a controller. */
static bool walk_on(const struct blob *blob, struct walk *walk, int node, struct cells specifier,
		    struct fault *fault)
{
	struct cells unit = { NULL, 0 };
	bool first = true;

	for (;;) {
		uint32_t masked[2 * MOST_CELLS];
		struct property map;
		int address, interrupt;

		if (find(blob, node, "interrupt-controller").place) {
			walk->controller = node;
			walk->specifier = specifier;
			return true;
		}
		map = find(blob, node, "interrupt-map");
		if (!map.place)
			return refuse(fault, NO_END, place(blob, node), 0);
		if (!both_counts(blob, node, &address, &interrupt, fault))
			return false;
		if (first && address > 0 &&
		    !unit_address_of(blob, walk->device, address, &unit, fault))
			return false;
		first = false;
		if (unit.count != address || specifier.count != interrupt)
			fail(blob->file, "a walk with another number of cells than its node's");
		if (!masked_cells(blob, node, unit, specifier, masked, fault))
			return false;
		if (!take_row(blob, walk, map, masked, address + interrupt, &node, &unit,
			      &specifier, fault))
			return false;
	}
}

/* ---- the specifiers of a tree ---- */

/* One specifier that is cut, from its first arrival. */
static void walk_one(const struct blob *blob, struct taker taker, int device, struct property property,
		     int index, int node, struct cells specifier)
{
	struct walk walk = { .device = device };
	struct fault fault;

	if (walk_on(blob, &walk, node, specifier, &fault))
		taker.route(blob, taker.state, index, property, &walk);
	else
		taker.refusal(blob, taker.state, device, index, &fault);
}

/* The specifiers of `interrupts`: one interrupt parent for all. */
static void each_of_interrupts(const struct blob *blob, struct taker taker, int device,
			       struct property property, struct cells cells)
{
	struct fault fault;
	int parent, each, at, index;

	if (!interrupt_parent(blob, device, &parent, &fault) ||
	    !interrupt_cells(blob, parent, &each, &fault)) {
		taker.refusal(blob, taker.state, device, 0, &fault);
		return;
	}
	for (at = 0, index = 0; at < cells.count; at += each, index++) {
		if (cells.count - at < each) {
			refuse(&fault, SHORT, place(blob, device), property.place);
			taker.refusal(blob, taker.state, device, index, &fault);
			return;
		}
		walk_one(blob, taker, device, property, index, parent, part(cells, at, each));
	}
}

/* The node that a specifier of `interrupts-extended` names, and its count. */
static bool named_node(const struct blob *blob, int device, struct property property,
		       uint32_t phandle, int *node, int *each, struct fault *fault)
{
	*node = node_of_phandle(blob, phandle);
	if (*node == NO_NODE)
		return refuse(fault, NO_PHANDLE, place(blob, device), property.place);
	return interrupt_cells(blob, *node, each, fault);
}

/* The specifiers of `interrupts-extended`: a phandle before each. */
static void each_of_extended(const struct blob *blob, struct taker taker, int device,
			     struct property property, struct cells cells)
{
	struct fault fault;
	int node, each, at, index;

	for (at = 0, index = 0; at < cells.count; at += each, index++) {
		if (!named_node(blob, device, property, cell(cells, at), &node, &each, &fault)) {
			taker.refusal(blob, taker.state, device, index, &fault);
			return;
		}
		at++;
		if (cells.count - at < each) {
			refuse(&fault, SHORT, place(blob, device), property.place);
			taker.refusal(blob, taker.state, device, index, &fault);
			return;
		}
		walk_one(blob, taker, device, property, index, node, part(cells, at, each));
	}
}

static void each_of_device(const struct blob *blob, struct taker taker, int device)
{
	struct property property = find(blob, device, "interrupts-extended");
	bool extended = property.place;
	struct cells cells;
	struct fault fault;

	if (!extended)
		property = find(blob, device, "interrupts");
	if (!property.place || property.length == 0)
		return;
	if (!whole(blob, device, property, &cells, &fault))
		taker.refusal(blob, taker.state, device, 0, &fault);
	else if (extended)
		each_of_extended(blob, taker, device, property, cells);
	else
		each_of_interrupts(blob, taker, device, property, cells);
}

void each_specifier(const struct blob *blob, struct taker taker)
{
	int node;

	for (node = next_node(blob, -1); node >= 0; node = next_node(blob, node))
		each_of_device(blob, taker, node);
}

/* ---- the listing ---- */

struct counts {
	int routes;
	int refused;
};

static void print_refusal(const struct blob *blob, void *state, int device, int index,
			  const struct fault *fault)
{
	struct counts *counts = state;

	printf("refused %d %d layer 3, number %d, node %d, property %d\n", place(blob, device),
	       index, fault->number, fault->node, fault->property);
	counts->refused++;
}

static void print_route(const struct blob *blob, void *state, int index, struct property property,
			const struct walk *walk)
{
	struct counts *counts = state;
	int i;

	(void)property;
	printf("route %d %d", place(blob, walk->device), index);
	for (i = 0; i < walk->passed; i++)
		printf("%s %d:%d", i ? "" : " via", place(blob, walk->by[i].nexus), walk->by[i].row);
	printf(" ends %d cells", place(blob, walk->controller));
	for (i = 0; i < walk->specifier.count; i++)
		printf(" %lu", (unsigned long)cell(walk->specifier, i));
	printf(" %s\n", path_of(blob, walk->device));
	counts->routes++;
}

void list_routes(const struct blob *blob)
{
	struct counts counts = { 0, 0 };
	struct taker taker = { &counts, print_route, print_refusal };

	each_specifier(blob, taker);
	printf("routes: %d, refused: %d\n", counts.routes, counts.refused);
}
