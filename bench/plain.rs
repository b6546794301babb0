//! The rules of docs/FORMAT.md, ROUTING.md, BOARDS.md, LINES.md, CONTROLLERS.md and REFUSALS.md in plain Rust, as one would write them with
//! no proof in mind: places are u32, sets of lines are words of 64 bits, and nothing is allocated. Where two ways of looking up are
//! usual, both stand here, so that the table can tell what the way costs from what the language costs:
//! `Scan` finds the node of a phandle by going over the tokens, as libfdt does; `Index` by a sorted table made at opening.
//! `Bits` keeps the lines of a controller as sets; `Rows` as an array of records that is searched from the front.

use std::cmp::Ordering;

// ---- faults ----

#[derive(Clone, Copy, PartialEq, Eq, Debug)]
pub struct Fault {
    pub layer: u8,
    pub number: u8,
    pub node: u32,
    pub property: u32,
}

impl Fault {
    fn new(layer: u8, number: u8, node: u32, property: u32) -> Fault {
        Fault {
            layer,
            number,
            node,
            property,
        }
    }

    fn route(number: u8, node: u32, property: u32) -> Fault {
        Fault::new(3, number, node, property)
    }

    pub fn code(&self) -> u32 {
        u32::from(self.layer) * 1000 + u32::from(self.number)
    }

    // Of two faults at one node the smaller number counts, then the smaller place of a property.
    fn sooner(self, other: Fault) -> Fault {
        match (other.number, other.property).cmp(&(self.number, self.property)) {
            Ordering::Less => other,
            _ => self,
        }
    }
}

type Res<T> = Result<T, Fault>;

// ---- bytes and cells ----

#[inline]
fn cell_at(bytes: &[u8], at: usize) -> Option<u32> {
    let cell = bytes.get(at..at.wrapping_add(4))?;
    Some(u32::from_be_bytes([cell[0], cell[1], cell[2], cell[3]]))
}

// Whole cells of a value.
#[derive(Clone, Copy, PartialEq, Eq, Debug)]
pub struct Cells<'a>(&'a [u8]);

impl<'a> Cells<'a> {
    #[inline]
    fn len(self) -> usize {
        self.0.len() / 4
    }

    fn is_empty(self) -> bool {
        self.0.is_empty()
    }

    #[inline]
    fn get(self, i: usize) -> u32 {
        cell_at(self.0, 4 * i).unwrap_or(0)
    }

    fn split(self, count: usize) -> (Cells<'a>, Cells<'a>) {
        let (front, rest) = self.0.split_at(4 * count);
        (Cells(front), Cells(rest))
    }

    pub fn iter(self) -> impl Iterator<Item = u32> + 'a {
        self.0
            .chunks_exact(4)
            .map(|c| u32::from_be_bytes([c[0], c[1], c[2], c[3]]))
    }
}

// ---- the blob ----

// The bytes of a blob up to its total size, and where its blocks are.
#[derive(Clone, Copy)]
pub struct Blob<'a> {
    bytes: &'a [u8],
    start: usize,
    end: usize,
    strings: usize,
    // Just past the last zero byte of the strings block: a name that begins before it is ended.
    names_end: usize,
}

#[derive(Clone, Copy)]
enum Token<'a> {
    Open(&'a [u8]),
    Close,
    // Where its name begins, and its value.
    Property(usize, &'a [u8]),
    Nothing,
    End,
}

#[derive(Clone, Copy, PartialEq, Eq, Debug)]
pub struct Node {
    pub place: u32,
    body: u32,
    pub depth: u32,
}

#[derive(Clone, Copy)]
pub struct Property<'a> {
    pub place: u32,
    name: usize,
    pub value: &'a [u8],
}

impl<'a> Blob<'a> {
    fn new(bytes: &'a [u8]) -> Res<Blob<'a>> {
        let refused = |number| Fault::new(1, number, 0, 0);
        if bytes.len() < 40 {
            return Err(refused(1));
        }
        let cell = |i: usize| {
            let at = 4 * i;
            u32::from_be_bytes([bytes[at], bytes[at + 1], bytes[at + 2], bytes[at + 3]])
        };
        let total = cell(1) as usize;
        if !(40..=65536).contains(&total) || total > bytes.len() {
            return Err(refused(1));
        }
        if cell(0) != 0xd00dfeed {
            return Err(refused(2));
        }
        if cell(5) < 17 || cell(6) > 17 {
            return Err(refused(3));
        }
        let (start, size) = (cell(2) as usize, cell(9) as usize);
        let (strings, strings_size) = (cell(3) as usize, cell(8) as usize);
        if start < 40
            || start + size > total
            || strings < 40
            || strings + strings_size > total
            || start % 4 != 0
            || size % 4 != 0
        {
            return Err(refused(4));
        }
        let names = &bytes[strings..strings + strings_size];
        let names_end = names.iter().rposition(|b| *b == 0).map_or(0, |i| i + 1);
        Ok(Blob {
            bytes: &bytes[..total],
            start,
            end: start + size,
            strings,
            names_end: strings + names_end,
        })
    }

    // The token at a multiple of 4 in the structure block, and the place of the next; none where it cannot be read.
    #[inline]
    fn token(&self, at: usize) -> Option<(Token<'a>, usize)> {
        let block = &self.bytes[..self.end];
        match cell_at(block, at)? {
            1 => {
                let rest = &block[at + 4..];
                let size = rest.iter().position(|b| *b == 0)?;
                Some((Token::Open(&rest[..size]), (at + 4 + size + 4) & !3))
            }
            2 => Some((Token::Close, at + 4)),
            3 => {
                let size = cell_at(block, at + 4)? as usize;
                let name = self.strings + cell_at(block, at + 8)? as usize;
                let value = block.get(at + 12..at + 12 + size)?;
                if name >= self.names_end {
                    return None;
                }
                Some((Token::Property(name, value), (at + 12 + size + 3) & !3))
            }
            4 => Some((Token::Nothing, at + 4)),
            9 => Some((Token::End, at + 4)),
            _ => None,
        }
    }

    // Whether a name is this one, which is given with its zero byte.
    #[inline]
    fn is_name(&self, at: usize, name: &[u8]) -> bool {
        self.bytes[..self.names_end]
            .get(at..)
            .is_some_and(|rest| rest.starts_with(name))
    }

    // The properties of a node of a blob whose tokens were tested.
    fn properties(&self, node: &Node) -> Properties<'a> {
        Properties {
            blob: *self,
            at: node.body as usize,
        }
    }

    // The first property of a name, which is given with its zero byte.
    fn find(&self, node: &Node, name: &[u8]) -> Option<Property<'a>> {
        self.properties(node).find(|p| self.is_name(p.name, name))
    }

    fn nodes(&self) -> Nodes<'a> {
        Nodes {
            blob: *self,
            at: self.start,
            depth: 0,
        }
    }
}

struct Properties<'a> {
    blob: Blob<'a>,
    at: usize,
}

impl<'a> Iterator for Properties<'a> {
    type Item = Property<'a>;

    #[inline]
    fn next(&mut self) -> Option<Property<'a>> {
        loop {
            let place = self.at;
            let (token, next) = self.blob.token(place)?;
            match token {
                Token::Property(name, value) => {
                    self.at = next;
                    return Some(Property {
                        place: place as u32,
                        name,
                        value,
                    });
                }
                Token::Nothing => self.at = next,
                _ => return None,
            }
        }
    }
}

struct Nodes<'a> {
    blob: Blob<'a>,
    at: usize,
    depth: u32,
}

impl Iterator for Nodes<'_> {
    type Item = Node;

    fn next(&mut self) -> Option<Node> {
        loop {
            let place = self.at;
            let (token, next) = self.blob.token(place)?;
            self.at = next;
            match token {
                Token::Open(_) => {
                    self.depth += 1;
                    return Some(Node {
                        place: place as u32,
                        body: next as u32,
                        depth: self.depth,
                    });
                }
                Token::Close => self.depth -= 1,
                Token::End => {
                    self.at = self.blob.end;
                    return None;
                }
                _ => {}
            }
        }
    }
}

// ---- opening ----

// What is told of each phandle in blob order, while the tokens are walked.
#[derive(Clone, Copy, PartialEq, Eq, PartialOrd, Ord)]
struct Handle {
    phandle: u32,
    node: u32,
    body: u32,
    depth: u32,
    property: u32,
}

// How the node of a phandle is found.
pub trait Lookup: Sized {
    // The table of a blob whose tokens were tested; 8 and 9.
    fn of(blob: &Blob<'_>) -> Res<Self>;
    fn node_of(&self, blob: &Blob<'_>, phandle: u32) -> Option<Node>;
}

// The nodes with a phandle, up to the first whose length or value is wrong.
struct Handles<'a> {
    blob: Blob<'a>,
    nodes: Nodes<'a>,
}

impl Iterator for Handles<'_> {
    type Item = Res<Handle>;

    fn next(&mut self) -> Option<Res<Handle>> {
        loop {
            let node = self.nodes.next()?;
            let Some(p) = self.blob.find(&node, b"phandle\0") else {
                continue;
            };
            let &[a, b, c, d] = p.value else {
                return Some(Err(Fault::route(8, node.place, p.place)));
            };
            let phandle = u32::from_be_bytes([a, b, c, d]);
            if phandle == 0 || phandle == u32::MAX {
                return Some(Err(Fault::route(9, node.place, p.place)));
            }
            return Some(Ok(Handle {
                phandle,
                node: node.place,
                body: node.body,
                depth: node.depth,
                property: p.place,
            }));
        }
    }
}

impl<'a> Blob<'a> {
    fn handles(&self) -> Handles<'a> {
        Handles {
            blob: *self,
            nodes: self.nodes(),
        }
    }

    // The tokens are one tree: 5, 6, 7.
    fn check_tokens(&self) -> Res<()> {
        let (mut at, mut depth) = (self.start, 0);
        let (mut begun, mut properties) = (false, false);
        loop {
            let place = at as u32;
            let refused = |number| Err(Fault::new(2, number, place, 0));
            let Some((token, next)) = self.token(at) else {
                return refused(5);
            };
            match token {
                Token::Open(name) => {
                    if depth == 0 && (begun || !name.is_empty()) {
                        return refused(6);
                    }
                    if depth == 16 {
                        return refused(7);
                    }
                    depth += 1;
                    (begun, properties) = (true, true);
                }
                Token::Close => {
                    if depth == 0 {
                        return refused(6);
                    }
                    depth -= 1;
                    properties = false;
                }
                Token::Property(..) => {
                    if !properties {
                        return refused(6);
                    }
                }
                Token::Nothing => {}
                Token::End => {
                    if !begun || depth > 0 || next != self.end {
                        return refused(6);
                    }
                    return Ok(());
                }
            }
            at = next;
        }
    }
}

// Goes over the tokens.
pub struct Scan;

impl Scan {
    fn first(blob: &Blob<'_>, phandle: u32, before: u32) -> Option<Node> {
        let wanted = phandle.to_be_bytes();
        blob.nodes()
            .take_while(|node| node.place < before)
            .find(|node| {
                blob.find(node, b"phandle\0")
                    .is_some_and(|p| p.value == wanted)
            })
    }
}

impl Lookup for Scan {
    fn of(blob: &Blob<'_>) -> Res<Scan> {
        for handle in blob.handles() {
            let handle = handle?;
            if Scan::first(blob, handle.phandle, handle.node).is_some() {
                return Err(Fault::route(9, handle.node, handle.property));
            }
        }
        Ok(Scan)
    }

    fn node_of(&self, blob: &Blob<'_>, phandle: u32) -> Option<Node> {
        Scan::first(blob, phandle, u32::MAX)
    }
}

// A node with a phandle has 28 bytes at least, so a blob has no more than these.
const MOST_HANDLES: usize = 2340;

// A table sorted by phandle.
pub struct Index {
    count: usize,
    handles: [(u32, u32); MOST_HANDLES],
}

impl Lookup for Index {
    fn of(blob: &Blob<'_>) -> Res<Index> {
        let mut index = Index {
            count: 0,
            handles: [(0, 0); MOST_HANDLES],
        };
        let mut wrong = None;
        for handle in blob.handles() {
            match handle {
                Ok(handle) => {
                    index.handles[index.count] = (handle.phandle, handle.node);
                    index.count += 1;
                }
                Err(fault) => wrong = Some(fault),
            }
            if wrong.is_some() {
                break;
            }
        }
        let handles = &mut index.handles[..index.count];
        handles.sort_unstable();
        let twice = handles
            .windows(2)
            .filter(|two| two[0].0 == two[1].0)
            .map(|two| two[1].1)
            .min();
        if let Some(node) = twice {
            let node = blob.node_at(node);
            let property = blob.find(&node, b"phandle\0").map_or(0, |p| p.place);
            return Err(Fault::route(9, node.place, property));
        }
        match wrong {
            Some(fault) => Err(fault),
            None => Ok(index),
        }
    }

    fn node_of(&self, blob: &Blob<'_>, phandle: u32) -> Option<Node> {
        let handles = &self.handles[..self.count];
        let i = handles.binary_search_by_key(&phandle, |h| h.0).ok()?;
        Some(blob.node_at(handles[i].1))
    }
}

impl Blob<'_> {
    // The node that opens at this place. Its depth is not needed where a phandle leads.
    fn node_at(&self, place: u32) -> Node {
        let body = self.token(place as usize).map_or(place as usize, |t| t.1);
        Node {
            place,
            body: body as u32,
            depth: 0,
        }
    }
}

// A blob that opening accepted.
pub struct Tree<'a, L> {
    blob: Blob<'a>,
    lookup: L,
}

impl<'a, L: Lookup> Tree<'a, L> {
    #[inline]
    pub fn open(bytes: &'a [u8]) -> Res<Tree<'a, L>> {
        let blob = Blob::new(bytes)?;
        blob.check_tokens()?;
        let lookup = L::of(&blob)?;
        Ok(Tree { blob, lookup })
    }

    pub fn count(&self) -> usize {
        self.blob.nodes().count()
    }

    // The node that a node is a subnode of.
    fn parent(&self, place: u32) -> Option<Node> {
        let mut above = [Node {
            place: 0,
            body: 0,
            depth: 0,
        }; 17];
        for node in self.blob.nodes() {
            if node.place == place {
                return (node.depth > 1).then(|| above[node.depth as usize - 1]);
            }
            above[node.depth as usize] = node;
        }
        None
    }
}

// ---- properties, checked when read ----

fn one_cell(node: &Node, p: &Property<'_>, least: u32, most: u32) -> Res<u32> {
    match p.value {
        &[a, b, c, d] => {
            let value = u32::from_be_bytes([a, b, c, d]);
            if (least..=most).contains(&value) {
                return Ok(value);
            }
        }
        _ => {}
    }
    Err(Fault::route(8, node.place, p.place))
}

fn whole<'a>(node: &Node, p: &Property<'a>) -> Res<Cells<'a>> {
    if p.value.len() % 4 != 0 {
        return Err(Fault::route(8, node.place, p.place));
    }
    Ok(Cells(p.value))
}

#[derive(Clone, Copy)]
struct Counts {
    address: usize,
    interrupt: usize,
}

impl<'a> Blob<'a> {
    fn cell(&self, node: &Node, name: &[u8], least: u32, most: u32) -> Res<Option<(u32, u32)>> {
        match self.find(node, name) {
            None => Ok(None),
            Some(p) => Ok(Some((p.place, one_cell(node, &p, least, most)?))),
        }
    }

    fn cells(&self, node: &Node, name: &[u8]) -> Res<Option<(u32, Cells<'a>)>> {
        match self.find(node, name) {
            None => Ok(None),
            Some(p) => Ok(Some((p.place, whole(node, &p)?))),
        }
    }

    fn interrupt_cells(&self, node: &Node) -> Res<usize> {
        match self.cell(node, b"#interrupt-cells\0", 1, 4)? {
            Some((_, n)) => Ok(n as usize),
            None => Err(Fault::route(15, node.place, 0)),
        }
    }

    fn address_cells(&self, node: &Node) -> Res<usize> {
        match self.cell(node, b"#address-cells\0", 0, 4)? {
            Some((_, n)) => Ok(n as usize),
            None => Err(Fault::route(16, node.place, 0)),
        }
    }

    fn counts(&self, node: &Node) -> Res<Counts> {
        match (self.address_cells(node), self.interrupt_cells(node)) {
            (Ok(address), Ok(interrupt)) => Ok(Counts { address, interrupt }),
            (Err(a), Err(b)) => Err(a.sooner(b)),
            (Err(fault), _) | (_, Err(fault)) => Err(fault),
        }
    }
}

// ---- from a specifier to a controller ----

#[derive(Clone, Copy, PartialEq, Eq, Debug)]
pub struct Hops {
    count: usize,
    list: [(u32, u32); 8],
}

struct Ended<'a> {
    controller: Node,
    cells: Cells<'a>,
    hops: Hops,
}

impl<'a, L: Lookup> Tree<'a, L> {
    fn node_of(&self, phandle: u32, node: u32, property: u32) -> Res<Node> {
        self.lookup
            .node_of(&self.blob, phandle)
            .ok_or(Fault::route(12, node, property))
    }

    // `above` are the nodes over the device, the root first.
    fn interrupt_parent(&self, device: &Node, above: &[Node]) -> Res<Node> {
        let mut at = *device;
        let mut above = Some(above);
        for _ in 0..64 {
            let candidate = match self.blob.cell(&at, b"interrupt-parent\0", 0, u32::MAX)? {
                Some((property, phandle)) => {
                    above = None;
                    Some(self.node_of(phandle, at.place, property)?)
                }
                None => match above {
                    Some(nodes) => {
                        let last = nodes.split_last();
                        above = last.map(|l| l.1);
                        last.map(|l| *l.0)
                    }
                    None => self.parent(at.place),
                },
            };
            at = candidate.ok_or(Fault::route(13, device.place, 0))?;
            if self.blob.find(&at, b"#interrupt-cells\0").is_some() {
                return Ok(at);
            }
        }
        Err(Fault::route(13, device.place, 0))
    }

    // The unit address of the device, for a nexus on the first arrival.
    fn unit_address(&self, device: &Node, count: usize) -> Res<Cells<'a>> {
        if count == 0 {
            return Ok(Cells(&[]));
        }
        match self.blob.cells(device, b"reg\0")? {
            None => Err(Fault::route(16, device.place, 0)),
            Some((place, reg)) if reg.len() < count => Err(Fault::route(16, device.place, place)),
            Some((_, reg)) => Ok(reg.split(count).0),
        }
    }

    // The walk of a specifier that arrives first at a node.
    fn route(&self, device: &Node, first: Node, cells: Cells<'a>) -> Res<Ended<'a>> {
        let blob = &self.blob;
        let mut hops = Hops {
            count: 0,
            list: [(0, 0); 8],
        };
        let (mut node, mut cells, mut given) = (first, cells, None);
        loop {
            if blob.find(&node, b"interrupt-controller\0").is_some() {
                return Ok(Ended {
                    controller: node,
                    cells,
                    hops,
                });
            }
            let Some(map) = blob.find(&node, b"interrupt-map\0") else {
                return Err(Fault::route(15, node.place, 0));
            };
            let counts = blob.counts(&node)?;
            let unit = match given {
                Some(unit) => unit,
                None => self.unit_address(device, counts.address)?,
            };
            let width = counts.address + counts.interrupt;
            // The cells to match, as they would stand in a row.
            let mut wanted = [0; 32];
            let wanted = &mut wanted[..4 * width];
            for (to, cell) in wanted.chunks_exact_mut(4).zip(unit.iter().chain(cells.iter())) {
                to.copy_from_slice(&cell.to_be_bytes());
            }
            if let Some((place, mask)) = blob.cells(&node, b"interrupt-map-mask\0")? {
                if mask.len() != width {
                    return Err(Fault::route(16, node.place, place));
                }
                for (byte, mask) in wanted.iter_mut().zip(mask.0) {
                    *byte &= mask;
                }
            }
            let mut rest = whole(&node, &map)?;
            let refused = |number| Fault::route(number, node.place, map.place);
            let mut row = 0;
            // The parent of the row before: maps name the same one again and again.
            let mut last: Option<(u32, Node, Counts)> = None;
            let (next, next_unit, next_cells) = loop {
                if rest.is_empty() {
                    return Err(refused(17));
                }
                if rest.len() <= width {
                    return Err(refused(16));
                }
                let (child, after) = rest.split(width);
                let (phandle, after) = after.split(1);
                let phandle = phandle.get(0);
                let (parent, counts) = match last {
                    Some((of, parent, counts)) if of == phandle => (parent, counts),
                    _ => {
                        let parent = self.node_of(phandle, node.place, map.place)?;
                        let counts = blob.counts(&parent)?;
                        last = Some((phandle, parent, counts));
                        (parent, counts)
                    }
                };
                if after.len() < counts.address + counts.interrupt {
                    return Err(refused(16));
                }
                let (unit, after) = after.split(counts.address);
                let (specifier, after) = after.split(counts.interrupt);
                if child.0 == wanted {
                    break (parent, unit, specifier);
                }
                rest = after;
                row += 1;
            };
            if hops.count == 8 {
                return Err(refused(18));
            }
            hops.list[hops.count] = (node.place, row);
            hops.count += 1;
            (node, cells, given) = (next, next_cells, Some(next_unit));
        }
    }
}

// ---- kinds ----

#[derive(Clone, Copy, PartialEq, Eq, Debug)]
pub enum Sense {
    Edge,
    Following,
    Gated,
}

#[derive(Clone, Copy, PartialEq, Eq, Debug)]
pub enum Make {
    I8259,
    Plic,
    Mux,
}

#[derive(Clone, Copy, PartialEq, Eq, Debug)]
pub struct Kind<'a> {
    pub make: Make,
    pub width: usize,
    pub priorities: Option<Cells<'a>>,
}

impl Kind<'_> {
    fn cells(&self) -> u32 {
        match self.make {
            Make::I8259 => 2,
            Make::Plic | Make::Mux => 1,
        }
    }

    fn input(&self, cells: Cells<'_>) -> Option<(usize, Sense)> {
        let first = cells.get(0) as usize;
        let (input, sense) = match self.make {
            Make::I8259 => match cells.get(1) {
                0 | 1 => (first, Sense::Following),
                2 | 3 => (first, Sense::Edge),
                _ => return None,
            },
            Make::Plic => (first.wrapping_sub(1), Sense::Gated),
            Make::Mux => (first, Sense::Following),
        };
        (input < self.width).then_some((input, sense))
    }
}

impl<'a> Blob<'a> {
    // The place of `compatible`, and the kind that its first known string names.
    fn named(&self, node: &Node) -> Res<(u32, Option<Kind<'a>>)> {
        let Some(p) = self.find(node, b"compatible\0") else {
            return Ok((0, None));
        };
        if p.value.last().is_some_and(|b| *b != 0) {
            return Err(Fault::route(8, node.place, p.place));
        }
        let make = p.value.split(|b| *b == 0).find_map(|name| match name {
            b"intel,i8259" => Some(Make::I8259),
            b"sifive,plic-1.0.0" => Some(Make::Plic),
            b"factory,status-mux" => Some(Make::Mux),
            _ => None,
        });
        let Some(make) = make else {
            return Ok((p.place, None));
        };
        let missing = Fault::route(8, node.place, 0);
        let (width, priorities) = match make {
            Make::I8259 => (8, None),
            Make::Mux => {
                let found = self.cell(node, b"factory,inputs\0", 1, 32)?;
                (found.ok_or(missing)?.1 as usize, None)
            }
            Make::Plic => {
                let found = self.cell(node, b"riscv,ndev\0", 1, 64)?;
                let width = found.ok_or(missing)?.1 as usize;
                let priorities = match self.cells(node, b"factory,priorities\0")? {
                    None => None,
                    Some((place, cells)) => {
                        if cells.len() != width || !cells.iter().all(|c| (1..=7).contains(&c)) {
                            return Err(Fault::route(8, node.place, place));
                        }
                        Some(cells)
                    }
                };
                (width, priorities)
            }
        };
        Ok((
            p.place,
            Some(Kind {
                make,
                width,
                priorities,
            }),
        ))
    }

    fn kind(&self, node: &Node) -> Res<Kind<'a>> {
        let named = self.named(node);
        let cells = self.cell(node, b"#interrupt-cells\0", 1, 4);
        if let (Err(a), Err(b)) = (&named, &cells) {
            return Err(a.sooner(*b));
        }
        let ((place, kind), cells) = (named?, cells?);
        let kind = kind.ok_or(Fault::new(4, 10, node.place, place))?;
        match cells {
            Some((_, n)) if n == kind.cells() => Ok(kind),
            Some((place, _)) => Err(Fault::new(4, 10, node.place, place)),
            None => Err(Fault::new(4, 10, node.place, 0)),
        }
    }
}

// ---- the plan ----

#[derive(Clone, Copy, PartialEq, Eq, Debug)]
pub struct Spot {
    pub controller: u8,
    pub input: u8,
}

#[derive(Clone, Copy, Debug)]
pub struct Controller<'a> {
    pub node: u32,
    pub kind: Kind<'a>,
    pub parent: Option<Spot>,
    specifiers: u32,
    pub first_line: Option<u16>,
}

#[derive(Clone, Copy, Debug)]
pub struct Route {
    pub device: u32,
    pub index: u32,
    pub hops: Hops,
    pub spot: Spot,
    pub sense: Sense,
}

pub struct Plan<'a> {
    controllers: [Controller<'a>; 4],
    count: usize,
    order: [u8; 4],
    routes: [Route; 256],
    route_count: usize,
    // The inputs of each controller at which a specifier ends.
    taken: [u64; 4],
    second: Option<(u32, u32)>,
}

impl<'a> Plan<'a> {
    #[inline]
    pub fn of<L: Lookup>(tree: &Tree<'a, L>) -> Res<Plan<'a>> {
        let mut plan = Plan {
            controllers: [Controller {
                node: 0,
                kind: Kind {
                    make: Make::I8259,
                    width: 8,
                    priorities: None,
                },
                parent: None,
                specifiers: 0,
                first_line: None,
            }; 4],
            count: 0,
            order: [0; 4],
            routes: [Route {
                device: 0,
                index: 0,
                hops: Hops {
                    count: 0,
                    list: [(0, 0); 8],
                },
                spot: Spot {
                    controller: 0,
                    input: 0,
                },
                sense: Sense::Edge,
            }; 256],
            route_count: 0,
            taken: [0; 4],
            second: None,
        };
        plan.find_controllers(&tree.blob)?;
        plan.read_specifiers(tree)?;
        plan.place()?;
        match plan.second {
            Some((node, property)) => Err(Fault::new(4, 22, node, property)),
            None => Ok(plan),
        }
    }

    fn find_controllers(&mut self, blob: &Blob<'a>) -> Res<()> {
        let mut found = 0;
        for node in blob.nodes() {
            if blob.find(&node, b"interrupt-controller\0").is_none() {
                continue;
            }
            let kind = blob.kind(&node)?;
            if let Some(controller) = self.controllers.get_mut(found) {
                controller.node = node.place;
                controller.kind = kind;
            }
            found += 1;
        }
        if !(1..=4).contains(&found) {
            return Err(Fault::new(4, 11, 0, 0));
        }
        self.count = found;
        Ok(())
    }

    fn read_specifiers<L: Lookup>(&mut self, tree: &Tree<'a, L>) -> Res<()> {
        let mut above = [Node {
            place: 0,
            body: 0,
            depth: 0,
        }; 16];
        for node in tree.blob.nodes() {
            let depth = node.depth as usize;
            above[depth - 1] = node;
            self.read_node(tree, &node, &above[..depth - 1])?;
        }
        Ok(())
    }

    fn read_node<L: Lookup>(&mut self, tree: &Tree<'a, L>, node: &Node, above: &[Node]) -> Res<()> {
        let blob = &tree.blob;
        if let Some((place, mut cells)) = blob.cells(node, b"interrupts-extended\0")? {
            let mut index = 0;
            while !cells.is_empty() {
                let (phandle, rest) = cells.split(1);
                let parent = tree.node_of(phandle.get(0), node.place, place)?;
                let count = blob.interrupt_cells(&parent)?;
                if rest.len() < count {
                    return Err(Fault::route(14, node.place, place));
                }
                let (specifier, rest) = rest.split(count);
                self.add(tree, node, place, index, parent, specifier)?;
                cells = rest;
                index += 1;
            }
            return Ok(());
        }
        let Some((place, mut cells)) = blob.cells(node, b"interrupts\0")? else {
            return Ok(());
        };
        if cells.is_empty() {
            return Ok(());
        }
        let parent = tree.interrupt_parent(node, above)?;
        let count = blob.interrupt_cells(&parent)?;
        let mut index = 0;
        while !cells.is_empty() {
            if cells.len() < count {
                return Err(Fault::route(14, node.place, place));
            }
            let (specifier, rest) = cells.split(count);
            self.add(tree, node, place, index, parent, specifier)?;
            cells = rest;
            index += 1;
        }
        Ok(())
    }

    fn number_of(&self, node: u32) -> Option<usize> {
        self.controllers[..self.count]
            .iter()
            .position(|c| c.node == node)
    }

    // One specifier: where it ends, and what that makes of the plan.
    fn add<L: Lookup>(
        &mut self,
        tree: &Tree<'a, L>,
        device: &Node,
        property: u32,
        index: u32,
        first: Node,
        cells: Cells<'a>,
    ) -> Res<()> {
        let end = tree.route(device, first, cells)?;
        let missing = Fault::route(15, end.controller.place, 0);
        let controller = self.number_of(end.controller.place).ok_or(missing)?;
        let refused = |number| Fault::new(4, number, device.place, property);
        let kind = self.controllers[controller].kind;
        let (input, sense) = kind.input(end.cells).ok_or(refused(19))?;
        let spot = Spot {
            controller: controller as u8,
            input: input as u8,
        };
        if self.taken[controller] >> input & 1 == 1 && self.second.is_none() {
            self.second = Some((device.place, property));
        }
        self.taken[controller] |= 1 << input;
        match self.number_of(device.place) {
            Some(k) => {
                let controller = &mut self.controllers[k];
                controller.parent = Some(spot);
                controller.specifiers += 1;
            }
            None => {
                let free = self
                    .routes
                    .get_mut(self.route_count)
                    .ok_or(refused(20))?;
                *free = Route {
                    device: device.place,
                    index,
                    hops: end.hops,
                    spot,
                    sense,
                };
                self.route_count += 1;
            }
        }
        Ok(())
    }

    fn place(&mut self) -> Res<()> {
        let mut lines = 0;
        for placed in 0..self.count {
            let next = self.controllers[..self.count].iter().position(|c| {
                c.first_line.is_none()
                    && match (c.specifiers, c.parent) {
                        (0, _) => placed == 0,
                        (1, Some(at)) => self.controllers[at.controller as usize]
                            .first_line
                            .is_some(),
                        _ => false,
                    }
            });
            let k = next.ok_or(Fault::new(4, 21, 0, 0))?;
            self.controllers[k].first_line = Some(lines);
            lines += self.controllers[k].kind.width as u16;
            self.order[placed] = k as u8;
        }
        Ok(())
    }

    pub fn controllers(&self) -> &[Controller<'a>] {
        &self.controllers[..self.count]
    }

    pub fn order(&self) -> &[u8] {
        &self.order[..self.count]
    }

    pub fn routes(&self) -> &[Route] {
        &self.routes[..self.route_count]
    }

    pub fn line(&self, spot: Spot) -> u16 {
        let controller = &self.controllers[spot.controller as usize];
        controller.first_line.unwrap_or(0) + u16::from(spot.input)
    }
}

// ---- lines ----

#[derive(Clone, Copy, PartialEq, Eq, Debug)]
pub struct Row {
    pub sense: Sense,
    pub level: bool,
    pub request: bool,
    pub service: bool,
    pub mask: bool,
}

#[derive(Clone, Copy, PartialEq, Eq, Debug)]
enum Change {
    Drive(bool),
    Mask(bool),
    Complete,
}

// The lines of one controller.
pub trait Lines {
    // Whether the route at an input is searched in the list of routes, and not looked up in a table.
    const SEARCHED: bool;
    fn new(kind: &Kind<'_>) -> Self;
    fn set_sense(&mut self, i: usize, sense: Sense);
    fn drive(&mut self, i: usize, high: bool);
    fn set_mask(&mut self, i: usize, on: bool);
    // False where it is not in service.
    fn complete(&mut self, i: usize) -> bool;
    fn offer(&self) -> Option<usize>;
    fn claim(&mut self, i: usize);
    fn row(&self, i: usize) -> Row;
}

// Sets of lines, one bit a line.
pub struct Bits {
    make: Make,
    level: u64,
    request: u64,
    service: u64,
    mask: u64,
    gated: u64,
    following: u64,
    // The lines of each priority of a PLIC.
    levels: [u64; 8],
}

#[inline]
fn lowest(set: u64) -> Option<usize> {
    (set != 0).then(|| set.trailing_zeros() as usize)
}

#[inline]
fn with(set: u64, bit: u64, on: bool) -> u64 {
    if on { set | bit } else { set & !bit }
}

impl Lines for Bits {
    const SEARCHED: bool = false;

    fn new(kind: &Kind<'_>) -> Bits {
        let mut levels = [0; 8];
        for i in 0..64 {
            let level = kind.priorities.map_or(1, |p| p.get(i));
            levels[(level & 7) as usize] |= 1 << i;
        }
        let sense = |make| if kind.make == make { u64::MAX } else { 0 };
        Bits {
            make: kind.make,
            level: 0,
            request: 0,
            service: 0,
            mask: u64::MAX,
            gated: sense(Make::Plic),
            following: sense(Make::Mux),
            levels,
        }
    }

    fn set_sense(&mut self, i: usize, sense: Sense) {
        let bit = 1 << i;
        self.gated = with(self.gated, bit, sense == Sense::Gated);
        self.following = with(self.following, bit, sense == Sense::Following);
        self.level &= !bit;
        self.request &= !bit;
    }

    #[inline]
    fn drive(&mut self, i: usize, high: bool) {
        let bit = 1 << i;
        let was = self.level & bit != 0;
        if high && !was {
            self.request |= bit & !(self.gated & self.service);
        } else if was && !high {
            self.request &= !(bit & self.following);
        }
        self.level = with(self.level, bit, high);
    }

    #[inline]
    fn set_mask(&mut self, i: usize, on: bool) {
        self.mask = with(self.mask, 1 << i, on);
    }

    #[inline]
    fn complete(&mut self, i: usize) -> bool {
        let bit = 1 << i;
        if self.service & bit == 0 {
            return false;
        }
        self.service &= !bit;
        self.request |= bit & self.gated & self.level;
        true
    }

    #[inline]
    fn offer(&self) -> Option<usize> {
        let waits = self.request & !self.service & !self.mask;
        match self.make {
            Make::I8259 => lowest(waits | self.service).filter(|i| waits >> i & 1 == 1),
            Make::Mux => lowest(waits),
            Make::Plic => {
                if waits == 0 {
                    return None;
                }
                (1..8).rev().find_map(|p| lowest(waits & self.levels[p]))
            }
        }
    }

    #[inline]
    fn claim(&mut self, i: usize) {
        let bit = 1 << i;
        self.service |= bit;
        self.request &= !bit | self.following;
    }

    fn row(&self, i: usize) -> Row {
        let has = |set: u64| set >> i & 1 == 1;
        let sense = match (has(self.gated), has(self.following)) {
            (true, _) => Sense::Gated,
            (_, true) => Sense::Following,
            _ => Sense::Edge,
        };
        Row {
            sense,
            level: has(self.level),
            request: has(self.request),
            service: has(self.service),
            mask: has(self.mask),
        }
    }
}

// A record a line, searched from the front.
pub struct Rows {
    make: Make,
    width: usize,
    rows: [Row; 64],
    levels: [u8; 64],
}

impl Row {
    #[inline]
    fn waits(&self) -> bool {
        self.request && !self.service && !self.mask
    }
}

impl Lines for Rows {
    const SEARCHED: bool = true;

    fn new(kind: &Kind<'_>) -> Rows {
        let sense = match kind.make {
            Make::I8259 => Sense::Edge,
            Make::Plic => Sense::Gated,
            Make::Mux => Sense::Following,
        };
        Rows {
            make: kind.make,
            width: kind.width,
            rows: [Row {
                sense,
                level: false,
                request: false,
                service: false,
                mask: true,
            }; 64],
            levels: std::array::from_fn(|i| kind.priorities.map_or(1, |p| p.get(i) as u8)),
        }
    }

    fn set_sense(&mut self, i: usize, sense: Sense) {
        let row = &mut self.rows[i];
        (row.sense, row.level, row.request) = (sense, false, false);
    }

    #[inline]
    fn drive(&mut self, i: usize, high: bool) {
        let row = &mut self.rows[i];
        if high && !row.level {
            row.request |= row.sense != Sense::Gated || !row.service;
        } else if row.level && !high && row.sense == Sense::Following {
            row.request = false;
        }
        row.level = high;
    }

    #[inline]
    fn set_mask(&mut self, i: usize, on: bool) {
        self.rows[i].mask = on;
    }

    #[inline]
    fn complete(&mut self, i: usize) -> bool {
        let row = &mut self.rows[i];
        let served = row.service;
        if served {
            row.service = false;
            row.request |= row.sense == Sense::Gated && row.level;
        }
        served
    }

    #[inline]
    fn offer(&self) -> Option<usize> {
        let rows = &self.rows[..self.width];
        match self.make {
            Make::I8259 => rows
                .iter()
                .position(|r| r.waits() || r.service)
                .filter(|&i| rows[i].waits()),
            Make::Mux => rows.iter().position(Row::waits),
            Make::Plic => {
                let mut best = None;
                let mut most = 0;
                for (i, row) in rows.iter().enumerate() {
                    if row.waits() && self.levels[i] > most {
                        (best, most) = (Some(i), self.levels[i]);
                    }
                }
                best
            }
        }
    }

    #[inline]
    fn claim(&mut self, i: usize) {
        let row = &mut self.rows[i];
        row.service = true;
        row.request &= row.sense == Sense::Following;
    }

    fn row(&self, i: usize) -> Row {
        self.rows[i]
    }
}

// ---- boards ----

#[derive(Clone, Copy, PartialEq, Eq, Debug)]
pub enum Call {
    Drive(usize, bool),
    Mask(usize, bool),
    Complete(usize),
    Claim,
}

#[derive(Clone, Copy, PartialEq, Eq, Debug)]
pub enum Answer {
    Done,
    Named(Option<usize>),
    Refused(u8),
}

const NOWHERE: u16 = u16::MAX;

// What stands at an input: nothing, a route, or a controller.
const CONTROLLER: u16 = 0x1000;

pub struct Board<K> {
    lines: [K; 4],
    // Where each controller is cascaded.
    parents: [Option<Spot>; 4],
    root: u8,
    spots: [Spot; 256],
    count: usize,
    at: [[u16; 64]; 4],
}

impl<K: Lines> Board<K> {
    #[inline]
    pub fn new(plan: &Plan<'_>) -> Board<K> {
        let mut board = Board {
            lines: std::array::from_fn(|k| K::new(&plan.controllers[k].kind)),
            parents: [None; 4],
            root: plan.order[0],
            spots: [Spot {
                controller: 0,
                input: 0,
            }; 256],
            count: plan.route_count,
            at: [[NOWHERE; 64]; 4],
        };
        for (k, controller) in plan.controllers().iter().enumerate() {
            if let Some(spot) = controller.parent {
                let (c, i) = (spot.controller as usize, spot.input as usize);
                board.parents[k] = Some(spot);
                board.at[c][i] = CONTROLLER | k as u16;
                board.lines[c].set_sense(i, Sense::Following);
                board.lines[c].set_mask(i, false);
            }
        }
        for (number, route) in plan.routes().iter().enumerate() {
            let (c, i) = (route.spot.controller as usize, route.spot.input as usize);
            board.spots[number] = route.spot;
            board.at[c][i] = number as u16;
            board.lines[c].set_sense(i, route.sense);
        }
        board
    }

    pub fn count(&self) -> usize {
        self.count
    }

    #[inline]
    fn route_at(&self, controller: usize, input: usize) -> usize {
        if K::SEARCHED {
            let wanted = Spot {
                controller: controller as u8,
                input: input as u8,
            };
            let spots = &self.spots[..self.count];
            return spots.iter().position(|s| *s == wanted).unwrap_or(0);
        }
        self.at[controller][input] as usize
    }

    // Drives the line over each controller, from this one up to the root, as its offer says.
    #[inline]
    fn settle(&mut self, mut controller: usize) {
        while let Some(at) = self.parents[controller] {
            let high = self.lines[controller].offer().is_some();
            controller = at.controller as usize;
            self.lines[controller].drive(at.input as usize, high);
        }
    }

    #[inline]
    fn change(&mut self, spot: Spot, change: Change) -> bool {
        let (c, i) = (spot.controller as usize, spot.input as usize);
        match change {
            Change::Drive(high) => self.lines[c].drive(i, high),
            Change::Mask(on) => self.lines[c].set_mask(i, on),
            Change::Complete => {
                if !self.lines[c].complete(i) {
                    return false;
                }
                // The line over a controller is in service while a line of it is.
                let mut child = c;
                while let Some(at) = self.parents[child] {
                    child = at.controller as usize;
                    self.lines[child].complete(at.input as usize);
                }
            }
        }
        self.settle(c);
        true
    }

    fn claim(&mut self) -> Option<usize> {
        let mut c = self.root as usize;
        loop {
            let i = self.lines[c].offer()?;
            self.lines[c].claim(i);
            let at = self.at[c][i];
            if at & CONTROLLER == 0 {
                self.settle(c);
                return Some(self.route_at(c, i));
            }
            c = (at & 7) as usize;
        }
    }

    pub fn call(&mut self, call: Call) -> Answer {
        let (route, change) = match call {
            Call::Claim => return Answer::Named(self.claim()),
            Call::Drive(route, high) => (route, Change::Drive(high)),
            Call::Mask(route, on) => (route, Change::Mask(on)),
            Call::Complete(route) => (route, Change::Complete),
        };
        match self.spots[..self.count].get(route).copied() {
            None => Answer::Refused(24),
            Some(spot) if self.change(spot, change) => Answer::Done,
            Some(_) => Answer::Refused(30),
        }
    }

    pub fn row(&self, route: usize) -> Row {
        let spot = self.spots[route];
        self.lines[spot.controller as usize].row(spot.input as usize)
    }
}

// ---- sums, word for word those of crates/bench_lib ----

pub struct Sum(u64);

impl Sum {
    pub fn new() -> Sum {
        Sum(1)
    }

    pub fn value(&self) -> u64 {
        self.0
    }

    #[inline]
    pub fn add(&mut self, word: u64) {
        self.0 = self.0.wrapping_mul(31).wrapping_add(word);
    }

    fn add_sense(&mut self, sense: Sense) {
        self.add(match sense {
            Sense::Edge => 1,
            Sense::Following => 2,
            Sense::Gated => 3,
        });
    }

    pub fn add_row(&mut self, row: Row) {
        self.add_sense(row.sense);
        for flag in [row.level, row.request, row.service, row.mask] {
            self.add(u64::from(flag));
        }
    }

    fn add_spot(&mut self, spot: Spot) {
        self.add(u64::from(spot.controller));
        self.add(u64::from(spot.input));
    }

    fn add_option(&mut self, number: Option<u16>) {
        self.add(u64::from(number.is_some()));
        if let Some(number) = number {
            self.add(u64::from(number));
        }
    }

    pub fn of_fault(fault: Fault) -> u64 {
        let mut sum = Sum::new();
        sum.add(u64::from(fault.layer));
        sum.add(u64::from(fault.number));
        sum.add(u64::from(fault.node));
        sum.add(u64::from(fault.property));
        sum.0
    }
}

pub fn tree_sum<L: Lookup>(tree: &Tree<'_, L>) -> u64 {
    let mut sum = Sum::new();
    let blob = &tree.blob;
    for node in blob.nodes() {
        sum.add(u64::from(node.place));
        sum.add(u64::from(node.depth));
        for p in blob.properties(&node) {
            let name = &blob.bytes[p.name..];
            sum.add(u64::from(p.place));
            sum.add(p.name as u64);
            sum.add(name.iter().position(|b| *b == 0).unwrap_or(0) as u64);
            sum.add(p.value.len() as u64);
        }
    }
    sum.0
}

pub fn plan_sum(plan: &Plan<'_>) -> u64 {
    let mut sum = Sum::new();
    for controller in plan.controllers() {
        sum.add(u64::from(controller.node));
        sum.add(controller.kind.width as u64);
        sum.add(u64::from(controller.kind.cells()));
        if let Some(priorities) = controller.kind.priorities {
            for priority in priorities.iter() {
                sum.add(u64::from(priority));
            }
        }
        match controller.parent {
            None => sum.add(0),
            Some(spot) => {
                sum.add(1);
                sum.add_spot(spot);
            }
        }
        sum.add_option(controller.first_line);
    }
    for number in plan.order() {
        sum.add(u64::from(*number));
    }
    for route in plan.routes() {
        sum.add(u64::from(route.device));
        sum.add(u64::from(route.index));
        for hop in &route.hops.list[..route.hops.count] {
            sum.add(u64::from(hop.0));
            sum.add(u64::from(hop.1));
        }
        sum.add_spot(route.spot);
        sum.add_sense(route.sense);
        sum.add_option(Some(plan.line(route.spot)));
    }
    sum.0
}

// ---- words ----

#[inline]
fn call_of(word: u32) -> Call {
    let route = (word % 65536) as usize;
    match word / 65536 {
        0 => Call::Drive(route, false),
        1 => Call::Drive(route, true),
        2 => Call::Mask(route, false),
        3 => Call::Mask(route, true),
        4 => Call::Complete(route),
        _ => Call::Claim,
    }
}

#[inline]
fn answer_word(answer: Answer) -> u64 {
    match answer {
        Answer::Done => 1,
        Answer::Named(None) => 2,
        Answer::Named(Some(route)) => 65536 + route as u64,
        Answer::Refused(number) => 1024 + u64::from(number),
    }
}

// ---- the same calls as the library's ----

#[inline(never)]
pub fn open<L: Lookup>(bytes: &[u8]) -> u32 {
    match Tree::<L>::open(bytes) {
        Ok(_) => 0,
        Err(fault) => fault.code(),
    }
}

#[inline(never)]
pub fn plan<L: Lookup>(bytes: &[u8]) -> u32 {
    match Tree::<L>::open(bytes).and_then(|tree| Plan::of(&tree).map(|_| ())) {
        Ok(()) => 0,
        Err(fault) => fault.code(),
    }
}

#[inline(never)]
pub fn nodes<L: Lookup>(bytes: &[u8]) -> usize {
    Tree::<L>::open(bytes).map_or(0, |tree| tree.count())
}

pub fn routes<L: Lookup>(bytes: &[u8]) -> usize {
    let Ok(tree) = Tree::<L>::open(bytes) else {
        return 0;
    };
    Plan::of(&tree).map_or(0, |plan| plan.routes().len())
}

pub fn tree_digest<L: Lookup>(bytes: &[u8]) -> u64 {
    match Tree::<L>::open(bytes) {
        Ok(tree) => tree_sum(&tree),
        Err(fault) => Sum::of_fault(fault),
    }
}

pub fn plan_digest<L: Lookup>(bytes: &[u8]) -> u64 {
    let tree = match Tree::<L>::open(bytes) {
        Ok(tree) => tree,
        Err(fault) => return Sum::of_fault(fault),
    };
    match Plan::of(&tree) {
        Ok(plan) => plan_sum(&plan),
        Err(fault) => Sum::of_fault(fault),
    }
}

#[inline(never)]
pub fn run<K: Lines>(bytes: &[u8], calls: &[u32], times: u32) -> u64 {
    let Ok(tree) = Tree::<Index>::open(bytes) else {
        return 0;
    };
    let Ok(plan) = Plan::of(&tree) else {
        return 0;
    };
    let mut board = Board::<K>::new(&plan);
    let mut sum = Sum::new();
    for _ in 0..times {
        for word in calls {
            sum.add(answer_word(board.call(call_of(*word))));
        }
    }
    for route in 0..board.count() {
        sum.add_row(board.row(route));
    }
    sum.value()
}

#[inline(never)]
pub fn one_call<L: Lookup, K: Lines>(bytes: &[u8], call: u32) -> u64 {
    let Ok(tree) = Tree::<L>::open(bytes) else {
        return 0;
    };
    let Ok(plan) = Plan::of(&tree) else {
        return 0;
    };
    let mut board = Board::<K>::new(&plan);
    answer_word(board.call(call_of(call)))
}

// The answer to each call of a list that is made while it is run: `next` is told the answer to the call before.
pub fn steer(bytes: &[u8], mut next: impl FnMut(Option<u64>, usize) -> Option<u32>) {
    let Ok(tree) = Tree::<Index>::open(bytes) else {
        return;
    };
    let Ok(plan) = Plan::of(&tree) else {
        return;
    };
    let mut board = Board::<Bits>::new(&plan);
    let mut last = None;
    while let Some(word) = next(last, board.count()) {
        last = Some(answer_word(board.call(call_of(word))));
    }
}
