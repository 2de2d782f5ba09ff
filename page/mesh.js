// The proved mesh, called from JavaScript. What is kept shares one instance of the module, whose memory grows with it; the calls that keep
// nothing have an instance each.

/** The module as base64, which tools/page puts here. */
const WASM = '/*WASM*/';
const PAGE = 65536;
const LEAST_HEAP = 2 ** 24, LARGEST_HEAP = 2 ** 30, LEAST_LENT = 2 ** 20, LEAST_TEXT = 2 ** 12, CELLS = 8, LINE_FEED = 10;
const DONE = 0, SHORT = 1, NO_MEMORY = 2, OUT_OF_RANGE = 3, UNFINISHED = 5, NO_ROOM = 7, CROSSES = 8;

/** The smallest module with a memory of 64-bit addresses. */
const LEAST_MODULE = Uint8Array.of(0, 97, 115, 109, 1, 0, 0, 0, 5, 3, 1, 4, 0);
const LACKS_MEMORY64 = 'this JavaScript engine has no WebAssembly memories with 64-bit addresses, which the mesh needs:'
  + ' Node has them from 24 on and, with --experimental-wasm-memory64, in 20, Chrome and Edge from 133 on, and Firefox from 134 on';

let compiled;

/** Replies to lines, each of which ends with a line feed, on an empty mesh. */
export function replies(lines) {
  const isShort = answer => /^refused 20 /m.test(textOf(answer));
  return textOf(call('mesh_page_replies', { given: bytesOf(lines), isShort }));
}

/** The picture, as SVG, of the mesh that lines leave. */
export function picture(lines, { anchors = false } = {}) {
  return textOf(call('mesh_page_picture', { given: bytesOf(lines), flags: [anchors ? 1 : 0] }));
}

/** The triangles of points with whole coordinates, each as three numbers of points. */
export function triangulate(points) {
  const coordinates = points.flat();
  if (coordinates.length !== 2 * points.length) throw new RangeError(OUTSIDE);
  const numbers = trianglesOf(coordinates);
  return Array.from({ length: numbers.length / 3 }, (_, at) => [...numbers.subarray(3 * at, 3 * at + 3)]);
}

/**
 * What is kept: one instance of the module, with a heap in its memory. Each thing that is kept has a desk, 16 bytes that the module writes.
 * Memory that a call is passed comes from `room`, and what is lent to the heap is never touched again.
 */
class Workshop {
  #exports;
  #memory;
  #lent = 0;
  #free = [];
  #cells;
  #scratch = { at: 0, size: 0 };
  #first;

  constructor() {
    compiled ??= compile();
    ({ memory: this.#memory, ...this.#exports } = new WebAssembly.Instance(compiled).exports);
    this.#cells = this.#grown(PAGE);
    this.#first = this.newDesk();
    this.lend();
  }

  /** The place of bytes that are used by nothing else. New memory is zero. */
  #grown(size) {
    try {
      return grown(this.#memory, Math.ceil(size / PAGE));
    } catch (error) {
      if (error instanceof RangeError) throw new RangeError(NO_MEMORY_LEFT);
      throw error;
    }
  }

  /** Lends the heap as much again as it has, or less where the engine has less. */
  lend() {
    for (let size = Math.max(LEAST_LENT, this.#lent); ; size = up(size / 2)) {
      try {
        return this.#lendThis(this.#grown(size), size);
      } catch (error) {
        if (!(error instanceof RangeError) || size < LEAST_LENT) throw error;
      }
    }
  }

  #lendThis(at, size) {
    this.#lent += size;
    const cell = this.cell(0);
    this.view().setBigUint64(cell, BigInt(at), true);
    this.view().setBigUint64(cell + 8, BigInt(size), true);
    this.#exports.mesh_page_lend(BigInt(this.#first), BigInt(cell));
  }

  /** One of the cells, 16 bytes each, that calls put what they tell into. */
  cell(number) {
    return this.#cells + 16 * number;
  }

  view() {
    return new DataView(this.#memory.buffer);
  }

  /** A place for so many bytes, until the next call of this. */
  room(size) {
    const { at, size: before } = this.#scratch;
    if (before >= size) return at;
    this.#scratch = { at: this.#grown(2 * size), size: up(2 * size) };
    if (before) this.#lendThis(at, before);
    return this.#scratch.at;
  }

  /** A typed array over memory, until it grows. */
  array(Kind, at, length) {
    return new Kind(this.#memory.buffer, at, length);
  }

  /** A desk that nothing uses. */
  newDesk() {
    if (!this.#free.length) {
      const at = this.#first === undefined ? this.#cells + 16 * CELLS : this.#grown(PAGE);
      const end = this.#first === undefined ? this.#cells + PAGE : at + PAGE;
      for (let desk = end - 16; desk >= at; desk -= 16) this.#free.push(desk);
    }
    return this.#free.pop();
  }

  /** Frees what is on a desk, which is used again. */
  clear(desk) {
    this.#exports.mesh_page_free(BigInt(desk));
    this.#free.push(desk);
  }

  /** Calls an export for a desk. */
  call(name, desk, ...given) {
    return this.#exports[`mesh_page_${name}`](BigInt(desk), ...given);
  }

  /** Makes a thing of a kind on a desk. */
  make(kind, desk) {
    this.insist(() => this.#exports[`mesh_page_${kind}`](BigInt(this.#first), BigInt(desk)));
  }

  /** Calls, and lends more memory as long as there is too little. What a call has left undone is told, and `finish` does it. */
  insist(call, finish, tell = () => {}) {
    for (let isUnfinished = false; ; this.lend()) {
      const status = isUnfinished ? finish() : call();
      if (status !== NO_MEMORY && status !== UNFINISHED) return status;
      if (status === UNFINISHED && !isUnfinished) tell();
      isUnfinished ||= status === UNFINISHED;
    }
  }

  /**
   * Has a call put a text into a buffer, and returns it. The call takes the place of what is given, and of the buffer its place and size and
   * the place of the length; `again` takes these three, and puts the same text once more: where the buffer was short, or memory ended.
   */
  text(call, again, given = new Uint8Array()) {
    const before = up(given.length), told = BigInt(this.cell(1)), at = this.room(before + LEAST_TEXT);
    this.array(Uint8Array, at, given.length).set(given);
    const buffer = [BigInt(at + before), BigInt(LEAST_TEXT), told];
    const status = this.insist(() => call(BigInt(at), ...buffer), () => again(...buffer));
    const length = Number(this.view().getBigUint64(Number(told), true));
    if (status !== SHORT) return textOf(this.array(Uint8Array, at + before, length));
    const larger = this.room(length);
    this.insist(() => again(BigInt(larger), BigInt(length), told));
    return textOf(this.array(Uint8Array, larger, length));
  }
}

let workshop;
const open = () => workshop ??= new Workshop();
const forgotten = typeof FinalizationRegistry === 'undefined' ? undefined : new FinalizationRegistry(desk => workshop.clear(desk));

/** The kind of a class's triangulations: what the export that makes one is called. */
const KIND = Symbol('kind');

/** What a class of triangulations uses of the private parts of the one that it extends. */
let parts;

/**
 * A Delaunay triangulation of points that are numbered as they come, as arrays of numbers. It is kept in the module: points are inserted,
 * moved and removed one by one. The module numbers vertices, of which the last one takes the place of one that is removed; here are tables
 * from points to vertices and back. Of equal points the least number stands for all.
 */
export class Delaunay {
  static [KIND] = 'delaunay';

  static {
    parts = {
      vertexOf: (made, point, name) => made.#checkPoint(point, name) ?? made.#vertexOf[point],
      call: (made, name, ...given) => made.#whole().call(name, made.#desk, ...given),
      cell: made => made.#whole().cell(1),
      view: made => made.#whole().view(),
      carryOut: (made, name, ...given) => made.#carryOut(shop => shop.call(name, made.#desk, ...given)),
      constraints: made => made.#lists.constraints ??= made.#listed('constraints', 2, 3 * made.#pointsOf.length),
    };
  }

  #desk;
  #xs = [];
  #kind;
  #coords;
  /** Of each point its vertex, or -1 once it was removed. */
  #vertexOf = [];
  /** Of each vertex its points, in ascending order. */
  #pointsOf = [];
  /** Whether nothing is left undone for want of memory. */
  #isWhole = true;
  /** What was read since the last change. */
  #lists = {};

  constructor(coords) {
    checkList(coords, 'coords');
    if (coords.length % 2) throw new RangeError('coords: the last point has no second coordinate');
    for (let at = 0; at < coords.length; at++) checkCoordinate(coords[at], `coords[${at}]`);
    this.#kind = coords.constructor;
    this.#coords = coords.slice();
    this.#xs = Array.from(coords);
    const shop = open();
    this.#desk = shop.newDesk();
    try {
      shop.make(new.target[KIND], this.#desk);
      this.#insertAll(shop);
    } catch (error) {
      shop.clear(this.#desk);
      throw error;
    }
    forgotten?.register(this, this.#desk, this);
  }

  #insertAll(shop) {
    const count = this.#xs.length / 2;
    if (count === 0) return;
    const given = shop.room(20 * count), told = given + 16 * count;
    shop.array(BigInt64Array, given, 2 * count).set(BigInt64Array.from(this.#xs, BigInt));
    const call = () => shop.call('insert_all', this.#desk, BigInt(given), BigInt(count), BigInt(told), BigInt(count));
    const status = shop.insist(call, () => this.#finish(shop) || call());
    if (status !== DONE) throw new RangeError(TOO_MANY);
    this.#vertexOf = Array.from(shop.array(Uint32Array, told, count));
    this.#vertexOf.forEach((vertex, point) => (this.#pointsOf[vertex] ??= []).push(point));
  }

  #shop() {
    if (this.#desk === undefined) throw new TypeError('the triangulation was freed');
    return workshop;
  }

  /** Does what was left undone for want of memory, and returns the status. */
  #finish(shop) {
    return shop.call('finish', this.#desk);
  }

  /** The workshop, once nothing is left undone. */
  #whole() {
    const shop = this.#shop();
    if (!this.#isWhole) shop.insist(() => this.#finish(shop));
    this.#isWhole = true;
    return shop;
  }

  /** Calls, and notes once what was changed, also where memory ends before all is done that belongs to it. Returns the status. */
  #carryOut(call, note = () => {}) {
    const shop = this.#whole();
    let isNoted = false;
    const noteOnce = () => {
      if (!isNoted) note();
      isNoted = true;
    };
    this.#change();
    this.#isWhole = false;
    const status = shop.insist(() => call(shop), () => this.#finish(shop), noteOnce);
    this.#isWhole = true;
    if (status === NO_ROOM) throw new RangeError(TOO_MANY);
    if (status === DONE) noteOnce();
    return status;
  }

  #change() {
    this.#lists = {};
  }

  /** The coordinates of all points, by number, those of removed ones too: an array of the kind that was given. */
  get coords() {
    const isBig = this.#kind === BigInt64Array || this.#kind === BigUint64Array;
    return this.#coords ??= this.#kind === Array ? [...this.#xs] : this.#kind.from(this.#xs, isBig ? BigInt : Number);
  }

  /** The corners of all triangles, three numbers of points for each. */
  get triangles() {
    return this.#lists.triangles ??= this.#listed('triangles', 3, 2 * this.#pointsOf.length);
  }

  /** A list that the module has, of so many items at most, each some vertices in a row, as numbers of points. */
  #listed(name, width, most) {
    const shop = this.#whole(), needed = shop.cell(1);
    let at;
    shop.insist(() => {
      at = shop.room(4 * width * most);
      return shop.call(`list_${name}`, this.#desk, BigInt(at), BigInt(most), BigInt(needed));
    });
    const count = Number(shop.view().getBigUint64(needed, true)), least = Uint32Array.from(this.#pointsOf, points => points[0]);
    return shop.array(Uint32Array, at, width * count).map(vertex => least[vertex]);
  }

  /** Of each side of a triangle the same side of the triangle across, or -1. */
  get halfedges() {
    return this.#lists.halfedges ??= sidesAcross(this.triangles, this.#vertexOf.length);
  }

  /** The points of the convex hull, counterclockwise. */
  get hull() {
    return this.#lists.hull ??= hullOf(this.triangles, this.halfedges);
  }

  /** Inserts a point, and returns its number. */
  insert(x, y) {
    checkCoordinate(x, 'x');
    checkCoordinate(y, 'y');
    const point = this.#vertexOf.length;
    this.#put(point, x, y);
    return point;
  }

  /** Moves a point. One that is there already stays, with its constraints. */
  move(point, x, y) {
    this.#checkPoint(point);
    checkCoordinate(x, 'x');
    checkCoordinate(y, 'y');
    if (this.#isAt(point, x, y)) return;
    this.#take(point);
    this.#put(point, x, y);
  }

  /** Removes a point. The others keep their numbers. */
  remove(point) {
    this.#checkPoint(point);
    this.#take(point);
  }

  /** The number of a point that no other one is nearer than, or -1 if there is none. Equal points have the least number. */
  nearest(x, y) {
    checkCoordinate(x, 'x');
    checkCoordinate(y, 'y');
    const shop = this.#whole(), told = shop.cell(1);
    shop.call('nearest', this.#desk, BigInt(this.#pointAt(shop, x, y)), BigInt(told));
    return this.#pointsOf[shop.view().getUint32(told, true)]?.[0] ?? -1;
  }

  /** Gives the memory back. Nothing can be asked of the triangulation afterwards. */
  free() {
    if (this.#desk === undefined) return;
    forgotten?.unregister(this);
    workshop.clear(this.#desk);
    this.#desk = undefined;
    this.#change();
  }

  #checkPoint(point, name = 'point') {
    this.#shop();
    if (!Number.isInteger(point) || !(this.#vertexOf[point] >= 0)) throw new RangeError(`${name} is ${String(point)}: there is no point of this number`);
  }

  #isAt(point, ...place) {
    return place.every((coordinate, axis) => Number(coordinate) === Number(this.#xs[2 * point + axis]));
  }

  #pointAt(shop, x, y) {
    const at = shop.cell(2);
    shop.view().setBigInt64(at, BigInt(x), true);
    shop.view().setBigInt64(at + 8, BigInt(y), true);
    return at;
  }

  /** Has a point stand at these coordinates. */
  #put(point, x, y) {
    const shop = this.#whole(), told = shop.cell(1);
    shop.view().setUint32(told, this.#pointsOf.length, true); // the new vertex, if memory runs out once it is there
    this.#carryOut(() => shop.call('insert', this.#desk, BigInt(this.#pointAt(shop, x, y)), BigInt(told)), () => {
      const vertex = shop.view().getUint32(told, true), points = this.#pointsOf[vertex] ??= [];
      points.push(point);
      points.sort((a, b) => a - b);
      this.#vertexOf[point] = vertex;
      [this.#xs[2 * point], this.#xs[2 * point + 1]] = [x, y];
      this.#coords = undefined;
    });
  }

  /** Takes a point away, and its vertex if no other point stands there. */
  #take(point) {
    const vertex = this.#vertexOf[point], points = this.#pointsOf[vertex];
    if (points.length > 1) {
      points.splice(points.indexOf(point), 1);
      this.#vertexOf[point] = -1;
      this.#change();
      return;
    }
    this.#carryOut(shop => shop.call('remove', this.#desk, vertex, BigInt(shop.cell(1))), () => {
      const last = this.#pointsOf.pop();
      if (vertex < this.#pointsOf.length) {
        this.#pointsOf[vertex] = last;
        for (const it of last) this.#vertexOf[it] = vertex;
      }
      this.#vertexOf[point] = -1;
    });
  }
}

/**
 * A Delaunay triangulation in which some edges stay, the constraints. Segments between points are made of them, from each point on a segment
 * to the next.
 */
export class ConstrainedDelaunay extends Delaunay {
  static [KIND] = 'constrained';

  constructor(coords, edges = []) {
    super(coords);
    try {
      const ends = endsOf(edges);
      for (const [point, name] of ends) parts.vertexOf(this, point, name);
      for (let at = 0; at < ends.length; at += 2) {
        const [[a, name], [b]] = ends.slice(at, at + 2);
        if (!this.addConstraint(a, b)) throw new RangeError(`${name}: the edge from ${a} to ${b} crosses one before it`);
      }
    } catch (error) {
      this.free();
      throw error;
    }
  }

  /** The ends of all constraints, two numbers of points for each. */
  get constraints() {
    return parts.constraints(this);
  }

  /** Makes the segment between two points one of constraints, and returns true; or false, and nothing changes, if it crosses one. */
  addConstraint(a, b) {
    return parts.carryOut(this, 'add_constraint', ...this.#vertices(a, b)) !== CROSSES;
  }

  /** Whether the segment between two points crosses no constraint. */
  canAddConstraint(a, b) {
    const vertices = this.#vertices(a, b), told = parts.cell(this);
    parts.call(this, 'can_add_constraint', ...vertices, BigInt(told));
    return parts.view(this).getUint8(told) !== 0;
  }

  /** Makes the constraint between two points none any more, and returns whether there was one. */
  removeConstraint(a, b) {
    const was = this.isConstraint(a, b);
    if (was) parts.carryOut(this, 'remove_constraint', ...this.#vertices(a, b), BigInt(parts.cell(this)));
    return was;
  }

  /** Whether a constraint joins two points. */
  isConstraint(a, b) {
    return parts.call(this, 'exists_constraint', ...this.#vertices(a, b)) !== 0;
  }

  #vertices(a, b) {
    return [parts.vertexOf(this, a, 'a'), parts.vertexOf(this, b, 'b')];
  }
}

/** A mesh that lines edit. It is kept in the module, so a line costs what it edits. */
export class Mesh {
  #desk;

  constructor(lines = '') {
    const shop = open();
    this.#desk = shop.newDesk();
    try {
      shop.make('mesh', this.#desk);
      this.run(lines);
    } catch (error) {
      shop.clear(this.#desk);
      throw error;
    }
    forgotten?.register(this, this.#desk, this);
  }

  #shop() {
    if (this.#desk === undefined) throw new TypeError('the mesh was freed');
    return workshop;
  }

  /** Has the mesh do what lines say, each of which ends with a line feed, and returns the replies. */
  run(lines) {
    const shop = this.#shop(), bytes = bytesOf(lines), answers = [];
    for (let at = 0, end; at < bytes.length; at = end + 1) {
      end = bytes.indexOf(LINE_FEED, at);
      if (end < 0) end = bytes.length;
      answers.push(this.#answer(shop, bytes.subarray(at, end)));
    }
    return answers.join('');
  }

  /** The reply to a line, which the module keeps: no line is carried out again for its reply. */
  #answer(shop, line) {
    const answer = (at, ...buffer) => shop.call('answer', this.#desk, at, BigInt(line.length), ...buffer);
    return shop.text(answer, (...buffer) => shop.call('last_reply', this.#desk, ...buffer), line);
  }

  /** The picture of the mesh, as SVG. */
  picture({ anchors = false } = {}) {
    const shop = this.#shop(), draw = (...buffer) => shop.call('draw', this.#desk, anchors ? 1 : 0, ...buffer);
    return shop.text((_, ...buffer) => draw(...buffer), draw);
  }

  /** Gives the memory back. Nothing can be asked of the mesh afterwards. */
  free() {
    if (this.#desk === undefined) return;
    forgotten?.unregister(this);
    workshop.clear(this.#desk);
    this.#desk = undefined;
  }
}

const OUTSIDE = 'a coordinate is no whole number from -2^53 to 2^53';
const NO_MEMORY_LEFT = 'the mesh finds no memory', TOO_MANY = 'there are too many points';
const up = length => Math.ceil(length / 16) * 16;
const isCoordinate = number => Number.isInteger(number) && Math.abs(number) <= 2 ** 53;
const isWide = number => typeof number === 'bigint' && number >= -(2n ** 53n) && number <= 2n ** 53n;

const isList = value => Array.isArray(value) || ArrayBuffer.isView(value) && !(value instanceof DataView);

/** Refuses what is no list, by the name of the argument. */
function checkList(value, name) {
  if (!isList(value)) throw new TypeError(`${name} is neither an array nor a typed array`);
}

/** The ends of edges, one after another, each with its name; they are given as numbers in a row or as pairs. */
function endsOf(edges) {
  checkList(edges, 'edges');
  if (!isList(edges[0])) {
    if (edges.length % 2) throw new RangeError('edges: the last edge has no second end');
    return Array.from(edges, (end, at) => [end, `edges[${at}]`]);
  }
  return Array.from(edges).flatMap((pair, at) => {
    if (!isList(pair) || pair.length !== 2) throw new RangeError(`edges[${at}] is ${String(pair)}, no two points`);
    return Array.from(pair, (end, place) => [end, `edges[${at}][${place}]`]);
  });
}

/** Refuses what is no coordinate, by the name of the argument. */
function checkCoordinate(value, name) {
  if (!isCoordinate(value) && !isWide(value)) throw new RangeError(`${name} is ${String(value)}, no whole number from -2^53 to 2^53`);
}

/** The corners of all triangles, three numbers for each. */
function trianglesOf(coordinates) {
  for (const it of coordinates) if (!isCoordinate(it) && !isWide(it)) throw new RangeError(OUTSIDE);
  const given = BigInt64Array.from(coordinates, BigInt);
  const answer = call('mesh_page_triangles', { given, givenSize: 16, room: coordinates.length, size: 12 });
  return new Uint32Array(answer.buffer);
}

/** The end of a side, which begins at its own number's corner. */
const endOf = (triangles, side) => triangles[side % 3 === 2 ? side - 2 : side + 1];

/**
 * Joins the sides of triangles. Those with the same lesser end are looked at together, and `waiting` has for each greater end the one
 * of them that has found no other yet.
 */
function sidesAcross(triangles, points) {
  const across = new Int32Array(triangles.length).fill(-1), waiting = new Int32Array(points).fill(-1);
  const lesser = side => Math.min(triangles[side], endOf(triangles, side)), greater = side => Math.max(triangles[side], endOf(triangles, side));
  const ends = new Uint32Array(points + 1), sorted = new Uint32Array(triangles.length);
  for (let side = 0; side < triangles.length; side++) ends[lesser(side)]++;
  for (let point = 1; point <= points; point++) ends[point] += ends[point - 1];
  for (let side = 0; side < triangles.length; side++) sorted[--ends[lesser(side)]] = side;
  for (let point = 0; point < points; point++) {
    const sides = sorted.subarray(ends[point], ends[point + 1]);
    for (const side of sides) {
      const other = waiting[greater(side)];
      if (other >= 0) [across[side], across[other]] = [other, side];
      waiting[greater(side)] = side;
    }
    for (const side of sides) waiting[greater(side)] = -1;
  }
  return across;
}

/** The beginnings of the sides that have no triangle across, one after another. */
function hullOf(triangles, across) {
  const sides = new Map();
  across.forEach((other, side) => other < 0 && sides.set(triangles[side], side));
  const hull = [];
  for (let side = sides.values().next().value; hull.length < sides.size; side = sides.get(endOf(triangles, side))) hull.push(triangles[side]);
  return Uint32Array.from(hull);
}

const bytesOf = text => new TextEncoder().encode(text);
const textOf = bytes => new TextDecoder().decode(bytes);

/** Calls an export with more and more memory, until it has enough, and returns the bytes of its answer. */
function call(name, { isShort = () => false, ...asked }) {
  for (let heap = LEAST_HEAP; ; heap *= 8) {
    const { status, answer } = callWithRoom(name, asked, heap);
    if (status === OUT_OF_RANGE) throw new RangeError('a coordinate is below -2^53 or above 2^53');
    if (status !== NO_MEMORY && (heap >= LARGEST_HEAP || !isShort(answer))) return answer;
    if (heap >= LARGEST_HEAP) throw new RangeError(NO_MEMORY_LEFT);
  }
}

/** Calls an export, and again if the answer had more items than there was room for. */
function callWithRoom(name, { room = 2 ** 20, ...asked }, heap) {
  const first = callOnce(name, asked, heap, room);
  return first.status === SHORT ? callOnce(name, asked, heap, first.needed) : first;
}

/**
 * Calls an export in a new instance. Behind the module's own memory stand, each at a multiple of 16: where the heap is and how
 * large, how many items the answer has, what is given, the answer, and the heap.
 */
function callOnce(name, { given, givenSize = 1, flags = [], size = 1 }, heap, room) {
  compiled ??= compile();
  const { memory, ...exports } = new WebAssembly.Instance(compiled).exports;
  const before = 32 + up(given.byteLength) + up(room * size);
  const base = grown(memory, Math.ceil((before + heap) / PAGE));
  const givenAt = base + 32, answerAt = givenAt + up(given.byteLength);
  const view = new DataView(memory.buffer), bytes = new Uint8Array(memory.buffer);
  view.setBigUint64(base, BigInt(base + before), true);
  view.setBigUint64(base + 8, BigInt(heap), true);
  bytes.set(new Uint8Array(given.buffer, given.byteOffset, given.byteLength), givenAt);
  const [struct, count, from, length, to, space] = [base, base + 16, givenAt, given.byteLength / givenSize, answerAt, room].map(BigInt);
  const status = exports[name](struct, from, length, ...flags, to, space, count);
  const needed = Number(view.getBigUint64(base + 16, true));
  return { status, needed, answer: bytes.slice(answerAt, answerAt + Math.min(needed, room) * size) };
}

/** Compiles the module. An engine without such memories says in a sentence what it lacks. */
function compile() {
  if (!WebAssembly.validate(LEAST_MODULE)) throw new WebAssembly.CompileError(LACKS_MEMORY64);
  return new WebAssembly.Module(Uint8Array.from(atob(WASM), letter => letter.charCodeAt(0)));
}

/** Adds pages to a memory with 64-bit addresses, and returns where they begin. */
function grown(memory, pages) {
  try {
    return Number(memory.grow(BigInt(pages))) * PAGE;
  } catch (error) {
    if (!(error instanceof TypeError)) throw error;
    return memory.grow(pages) * PAGE; // as Node 20 has it
  }
}
