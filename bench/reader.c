/*
 * A reader on libfdt, as one would write it with libfdt's own calls: the whole check of a blob, all its nodes, and where each
 * interrupt specifier ends, by docs/ROUTING.md. It is tools/other-reader/routes.c without its reports, and with libfdt's searches in
 * place of its own: fdt_getprop, fdt_node_offset_by_phandle, fdt_parent_offset.
 */

#include <libfdt.h>
#include <stdbool.h>
#include <stdint.h>
#include <string.h>

#define MOST_CANDIDATES 64
#define MOST_ROWS 8
#define MOST_CELLS 4

struct cells {
	const fdt32_t *first;
	int count;
};

static const void *find(const void *blob, int node, const char *name, int *length)
{
	return fdt_getprop(blob, node, name, length);
}

static bool has(const void *blob, int node, const char *name)
{
	int length;

	return find(blob, node, name, &length);
}

/* A property of one cell. */
static bool one_cell(const void *blob, int node, const char *name, uint32_t *value)
{
	int length;
	const fdt32_t *found = find(blob, node, name, &length);

	if (!found || length != 4)
		return false;
	*value = fdt32_ld(found);
	return true;
}

static bool count(const void *blob, int node, const char *name, uint32_t least, int *cells)
{
	uint32_t value;

	if (!one_cell(blob, node, name, &value) || value < least || value > MOST_CELLS)
		return false;
	*cells = (int)value;
	return true;
}

static bool interrupt_cells(const void *blob, int node, int *cells)
{
	return count(blob, node, "#interrupt-cells", 1, cells);
}

static bool both_counts(const void *blob, int node, int *address, int *interrupt)
{
	return count(blob, node, "#address-cells", 0, address) &&
	       interrupt_cells(blob, node, interrupt);
}

static bool whole(const void *blob, int node, const char *name, struct cells *cells)
{
	int length;

	cells->first = find(blob, node, name, &length);
	if (!cells->first || length % 4)
		return false;
	cells->count = length / 4;
	return true;
}

static int interrupt_parent(const void *blob, int device)
{
	int at = device;
	int looked_at;

	for (looked_at = 0; looked_at < MOST_CANDIDATES; looked_at++) {
		uint32_t phandle;

		if (has(blob, at, "interrupt-parent")) {
			if (!one_cell(blob, at, "interrupt-parent", &phandle))
				return -1;
			at = fdt_node_offset_by_phandle(blob, phandle);
		} else {
			at = fdt_parent_offset(blob, at);
		}
		if (at < 0)
			return -1;
		if (has(blob, at, "#interrupt-cells"))
			return at;
	}
	return -1;
}

/* The first row that matches; the node, the unit address and the specifier become the row's. */
static bool take_row(const void *blob, const uint32_t *masked, int child, int *node, struct cells *unit,
		     struct cells *specifier)
{
	struct cells map;
	int at = 0;

	if (!whole(blob, *node, "interrupt-map", &map))
		return false;
	for (;;) {
		int left = map.count - at;
		int parent, address, interrupt, i;

		if (left < child + 1)
			return false;
		parent = fdt_node_offset_by_phandle(blob, fdt32_ld(map.first + at + child));
		if (parent < 0 || !both_counts(blob, parent, &address, &interrupt) ||
		    left < child + 1 + address + interrupt)
			return false;
		for (i = 0; i < child && fdt32_ld(map.first + at + i) == masked[i]; i++)
			;
		at += child + 1;
		if (i == child) {
			*node = parent;
			unit->first = map.first + at;
			unit->count = address;
			specifier->first = map.first + at + address;
			specifier->count = interrupt;
			return true;
		}
		at += address + interrupt;
	}
}

static bool walk(const void *blob, int device, int node, struct cells specifier)
{
	struct cells unit = { NULL, 0 };
	int rows = 0;

	for (;;) {
		uint32_t masked[2 * MOST_CELLS];
		int address, interrupt, i;
		struct cells mask;

		if (has(blob, node, "interrupt-controller"))
			return true;
		if (!has(blob, node, "interrupt-map") ||
		    !both_counts(blob, node, &address, &interrupt))
			return false;
		if (rows == 0 && address > 0 &&
		    (!whole(blob, device, "reg", &unit) || unit.count < address))
			return false;
		for (i = 0; i < address; i++)
			masked[i] = fdt32_ld(unit.first + i);
		for (i = 0; i < interrupt; i++)
			masked[address + i] = fdt32_ld(specifier.first + i);
		if (has(blob, node, "interrupt-map-mask")) {
			if (!whole(blob, node, "interrupt-map-mask", &mask) ||
			    mask.count != address + interrupt)
				return false;
			for (i = 0; i < mask.count; i++)
				masked[i] &= fdt32_ld(mask.first + i);
		}
		if (!take_row(blob, masked, address + interrupt, &node, &unit, &specifier))
			return false;
		if (rows++ == MOST_ROWS)
			return false;
	}
}

/* The specifiers of a device that have a route; -1 where one has none. */
static int routes_of(const void *blob, int device)
{
	struct cells cells;
	bool extended = has(blob, device, "interrupts-extended");
	int node = -1, each = 0, routes = 0;

	if (!extended && !has(blob, device, "interrupts"))
		return 0;
	if (!whole(blob, device, extended ? "interrupts-extended" : "interrupts", &cells))
		return -1;
	if (cells.count == 0)
		return 0;
	if (!extended) {
		node = interrupt_parent(blob, device);
		if (node < 0 || !interrupt_cells(blob, node, &each))
			return -1;
	}
	while (cells.count > 0) {
		if (extended) {
			node = fdt_node_offset_by_phandle(blob, fdt32_ld(cells.first));
			if (node < 0 || !interrupt_cells(blob, node, &each))
				return -1;
			cells.first++;
			cells.count--;
		}
		if (cells.count < each ||
		    !walk(blob, device, node, (struct cells){ cells.first, each }))
			return -1;
		cells.first += each;
		cells.count -= each;
		routes++;
	}
	return routes;
}

/* The whole check, then all nodes: how many, or -1. */
int reader_check(const void *blob, size_t length)
{
	int node, nodes = 0;

	if (fdt_check_full(blob, length))
		return -1;
	for (node = fdt_next_node(blob, -1, NULL); node >= 0; node = fdt_next_node(blob, node, NULL))
		nodes++;
	return nodes;
}

/* The check, and that the phandles are good and distinct. */
int reader_open(const void *blob, size_t length)
{
	int node, nodes = 0;

	if (fdt_check_full(blob, length))
		return -1;
	for (node = fdt_next_node(blob, -1, NULL); node >= 0; node = fdt_next_node(blob, node, NULL)) {
		uint32_t phandle;

		nodes++;
		if (!has(blob, node, "phandle"))
			continue;
		if (!one_cell(blob, node, "phandle", &phandle) || phandle == 0 || phandle == 0xffffffff)
			return -1;
		if (fdt_node_offset_by_phandle(blob, phandle) != node)
			return -1;
	}
	return nodes;
}

static int all_routes(const void *blob)
{
	int node, routes = 0;

	for (node = fdt_next_node(blob, -1, NULL); node >= 0; node = fdt_next_node(blob, node, NULL)) {
		int some = routes_of(blob, node);

		if (some < 0)
			return -1;
		routes += some;
	}
	return routes;
}

/* The check, then the route of every specifier, those of controllers too: how many, or -1 at the first that has none. */
int reader_routes(const void *blob, size_t length)
{
	return reader_check(blob, length) < 0 ? -1 : all_routes(blob);
}

/* The same, with the phandles tested first. */
int reader_plan(const void *blob, size_t length)
{
	return reader_open(blob, length) < 0 ? -1 : all_routes(blob);
}
