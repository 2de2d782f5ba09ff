/**
 * Answers lines, in order, as dcel_run does; docs/LINES.md lists them. Each line ends with a line feed. Each call starts from an empty mesh.
 *
 * Like the other calls, it throws a RangeError if the mesh finds no memory. In an engine without 64-bit memories it throws a
 * WebAssembly.CompileError, whose message names that lack and engines that have them.
 */
export function replies(lines: string): string;

/**
 * Draws the mesh that lines leave, as SVG. What an open removal has given up is dashed. A bad or refused line changes nothing.
 *
 * `anchors` marks the half edge at which each vertex and face is anchored.
 */
export function picture(lines: string, options?: { anchors?: boolean }): string;

/**
 * A mesh that lines edit, and which is kept: each line costs what it edits, where `replies` and `picture` begin anew. Lines and replies are
 * those of `replies`, without an end to how many can come.
 *
 * Each call throws a RangeError if no memory is left, and a TypeError if the mesh was freed. Then the lines before the one that found no memory
 * are carried out. Of that one only the reply may be missing.
 */
export class Mesh {
  /** Begins with the mesh that these lines leave, each of which ends with a line feed; without them it is empty. */
  constructor(lines?: string);

  /** Has the mesh do what lines say, in order, and returns the replies. Each line ends with a line feed. */
  run(lines: string): string;

  /** Draws the mesh as SVG, as `picture` does. */
  picture(options?: { anchors?: boolean }): string;

  /** Gives back the memory, which happens too once nothing refers to the mesh. */
  free(): void;
}

/**
 * Returns the Delaunay triangulation of points: the numbers of the three corners of each triangle, counterclockwise if y points up.
 * Equal points are one, under the least of their numbers. Points on one line have no triangle.
 *
 * Throws a RangeError if a coordinate isn't a whole number from -2^53 to 2^53.
 */
export function triangulate(points: readonly (readonly [number, number])[]): [number, number, number][];

/** Coordinates of points one after another: x and y of the first, then of the next. */
export type Coordinates = readonly (number | bigint)[] | Float64Array | Float32Array | Int8Array | Uint8Array | Int16Array | Uint16Array
  | Int32Array | Uint32Array | BigInt64Array | BigUint64Array;

/** Edges between points, by their numbers: two numbers for each in a row, or pairs. */
export type Edges = readonly number[] | Int32Array | Uint32Array | Uint16Array | readonly (readonly [number, number] | Int32Array | Uint32Array)[];

/**
 * A Delaunay triangulation of points that is kept, as arrays of numbers under delaunator's names. Points have the numbers under which they
 * came, and keep them. Arrays are computed when they are first read, and again after a change.
 *
 * Each call throws a RangeError if a coordinate isn't a whole number from -2^53 to 2^53, no point has the number, or no memory is left, and
 * its message begins with the argument; a TypeError if `coords` is no array, or the triangulation was freed. A call that throws changes
 * nothing, except where memory ends: then a point may be inserted or removed all the same, and one that is moved may be gone.
 */
export class Delaunay<C extends Coordinates = Coordinates> {
  constructor(coords: C);

  /** The coordinates of all points by number, those of removed ones too. */
  get coords(): C;

  /** The numbers of the corners, three for each triangle, counterclockwise if y points up. Equal points are one, under the least number. */
  get triangles(): Uint32Array;

  /**
   * Side number 3t + k goes from corner k of triangle t to the next one, and back to the first from the last. For each side it is the
   * number of the same side of the triangle across, or -1 on the hull.
   */
  get halfedges(): Int32Array;

  /** The points of the convex hull, counterclockwise if y points up, those on its sides too; none if all points are on one line. */
  get hull(): Uint32Array;

  /** Inserts a point, and returns its number: how many there were before, those removed too. */
  insert(x: number | bigint, y: number | bigint): number;

  /** Moves a point, under its number. One that is there already stays, with its constraints. */
  move(point: number, x: number | bigint, y: number | bigint): void;

  /** Removes a point. */
  remove(point: number): void;

  /** The least number of a point that no other one is nearer than, or -1 if there is none. */
  nearest(x: number | bigint, y: number | bigint): number;

  /** Gives back the memory, which happens too once nothing refers to the triangulation. */
  free(): void;
}

/**
 * A constrained Delaunay triangulation that is kept: some edges have to stay, the constraints. All others are locally Delaunay, and no triangle
 * has a point inside its circle that it sees past no constraint. Points and arrays are as in `Delaunay`, and so is what calls throw.
 *
 * A point that comes to be on a constraint splits it in two. One that is removed or moved elsewhere takes the constraints along that end at
 * it, unless an equal point stays there. `nearest` looks at each point.
 */
export class ConstrainedDelaunay<C extends Coordinates = Coordinates> extends Delaunay<C> {
  /** Makes all edges constraints. Throws a RangeError that names the edge if an end is no point, or it crosses an edge before it. */
  constructor(coords: C, edges?: Edges);

  /** The ends of all constraints, two numbers of points for each. Equal points are one, under the least number. */
  get constraints(): Uint32Array;

  /**
   * Makes the segment between two points one of constraints, from each point on it to the next, and returns true. If it crosses a constraint
   * it returns false, and nothing changes. Where constraints only meet, also within the segment, they don't cross.
   */
  addConstraint(a: number, b: number): boolean;

  /** Returns whether `addConstraint` would be true. */
  canAddConstraint(a: number, b: number): boolean;

  /** Frees the constraint that joins two points, and returns whether there was one. Of a longer segment it frees no part. */
  removeConstraint(a: number, b: number): boolean;

  /** Returns whether one constraint joins two points. */
  isConstraint(a: number, b: number): boolean;
}
