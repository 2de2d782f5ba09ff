// Calls the module's exports with buffers of all sizes and with little memory, and looks whether anything is written beside the buffer.

const PAGE = 65536, FILL = 0xa5, GAP = 64;

const lines = new TextEncoder().encode('triangle 0 1 2\nappend 3\ninsert 3 1\nout 3\nappend 4\ninsert 4 2\nflip 3\nwords\n');
// To open the removal, the mesh is copied, which takes more memory than the picture: where that lacks, there may be none without the line.
const MANY = 8000;
const shrinking = new TextEncoder().encode([
  'triangle 0 0 0', 'append 0', 'insert 3 1', ...Array.from({ length: MANY }, () => 'append 0'),
  'isolate 3 1 3 5', 'cleanup 3 4 5 / 2 3 1', 'remove 3', ...Array.from({ length: MANY }, (_, at) => `remove ${MANY + 2 - at}`),
].join('\n'));
const points = new Uint8Array(BigInt64Array.of(0n, 0n, 4n, 0n, 0n, 3n, 5n, 5n, 2n, 2n, -9n, 4n, 4n, 0n).buffer);
const CALLS = [
  { name: 'mesh_page_replies', given: lines, count: lines.length, flags: [], size: 1 },
  { name: 'mesh_page_picture', given: lines, count: lines.length, flags: [0], size: 1 },
  { name: 'mesh_page_picture', given: shrinking, count: shrinking.length, flags: [0], size: 1 },
  { name: 'mesh_page_triangles', given: points, count: points.length / 16, flags: [], size: 12 },
];
const ENOUGH = 2 ** 22;

/** Calls an export with a buffer of so many items and so much memory, and tells what it answers and what else it wrote. */
function call(module, { name, given, count, flags, size }, room, heap) {
  const { memory, ...exports } = new WebAssembly.Instance(module).exports;
  const up = length => Math.ceil(length / 16) * 16 + GAP;
  const before = 32 + GAP + up(given.length) + up(room * size);
  const pages = Math.ceil((before + heap) / PAGE) + 1;
  let base;
  try {
    base = Number(memory.grow(BigInt(pages))) * PAGE;
  } catch {
    base = memory.grow(pages) * PAGE;
  }
  const bytes = new Uint8Array(memory.buffer, base), view = new DataView(memory.buffer, base);
  bytes.fill(FILL);
  const givenAt = 32 + GAP, answerAt = givenAt + up(given.length), end = before + heap;
  view.setBigUint64(0, BigInt(base + before), true);
  view.setBigUint64(8, BigInt(heap), true);
  bytes.set(given, givenAt);
  const places = [base, base + givenAt, count].map(BigInt), answer = [base + answerAt, room, base + 16].map(BigInt);
  const status = exports[name](...places, ...flags, ...answer);
  const needed = Number(view.getBigUint64(16, true));
  const put = Math.min(needed, room) * size;
  const isWhole = (from, to) => bytes.subarray(from, to).every(byte => byte === FILL);
  const isKept = isWhole(24, givenAt) && given.every((byte, at) => bytes[givenAt + at] === byte) && isWhole(givenAt + given.length, answerAt)
    && isWhole(answerAt + put, before) && isWhole(end, bytes.length);
  return { status, needed, answer: Buffer.from(bytes.subarray(answerAt, answerAt + put)).toString('hex'), isKept };
}

/** Adds to the faults, and returns how many calls were made. */
export function bufferFaults(wasm, faults) {
  const module = new WebAssembly.Module(wasm);
  const imports = WebAssembly.Module.imports(module);
  if (imports.length) faults.push(`the module imports ${imports.map(it => it.name).join(' ')}`);
  let calls = 0;
  for (const asked of CALLS) {
    const { status, needed, answer: whole } = call(module, asked, 2 ** 16, ENOUGH);
    if (status !== 0) faults.push(`${asked.name} has status ${status}`);
    const rooms = new Set([0, 1, 2, 3, needed - 1, needed, needed + 1, needed + 9]);
    for (let room = 0; room < needed; room += needed < 500 ? 1 : 97) rooms.add(room);
    for (const room of rooms) {
      const found = call(module, asked, room, ENOUGH);
      const isRight = found.status === (room < needed ? 1 : 0) && found.needed === needed && whole.startsWith(found.answer);
      if (!isRight || !found.isKept) faults.push(`${asked.name} with room for ${room}: ${JSON.stringify({ ...found, answer: 0 })}, all are ${needed}`);
      calls++;
    }
    for (let heap = 0, isEnough = false; !isEnough; heap += heap < 2048 ? 16 : 16 * Math.ceil(heap / 128)) {
      const found = call(module, asked, 2 ** 16, heap);
      const isRefused = found.status === 2 && found.needed === 0;
      const isTold = asked.name === 'mesh_page_replies' && found.status === 0 && found.answer !== whole; // a reply is refused 20
      isEnough = found.status === 0 && found.answer === whole;
      if (!found.isKept || !(isRefused || isTold || isEnough) || heap > ENOUGH) {
        faults.push(`${asked.name} with ${heap} bytes: ${JSON.stringify({ ...found, answer: 0 })}`);
        break;
      }
      calls++;
    }
  }
  return calls;
}
