// What a removal that is refused as BadRing may have meant: the same with the border loop of its vertex, or with the ring of its faces.

/**
 * The line that is offered in place of a refused one, or null. `ask` returns the replies to queries of the mesh that refused it, and `tried`
 * the reply that it would have to a line; one that it would refuse too isn't offered.
 */
export function offerFor(line, ask, tried) {
  const removal = line.startsWith('isolate ') ? ofVertex(line.split(' ')[1], ask) : ofFaces(line.split('/').at(-1), ask);
  return removal && tried(removal).startsWith('opened') ? removal : null;
}

/** The removal of a vertex with its border loop, or with its strip if it is on the hull. */
function ofVertex(vertex, ask) {
  const [out, words] = ask(`out ${vertex}`, 'words');
  const spokes = numbersIn(out), faces = facesOf(words), next = nextIn(faces);
  const outer = spokes.findIndex(half => faces[0].includes(half));
  if (outer < 0) return `isolate ${vertex} ${spokes.map(half => next.get(half)).reverse().join(' ')}`;
  const inner = [...spokes.slice(outer + 1), ...spokes.slice(0, outer)];
  return `strip ${[...inner, spokes[outer]].map(half => next.get(half)).join(' ')}`;
}

/** The removal of faces with their ring and the edges between them. */
function ofFaces(listed, ask) {
  const numbers = numbersIn(`remesh ${listed}`), faces = facesOf(ask('words')[0]);
  const next = nextIn(numbers.map(number => faces[number] ?? []));
  const isBorder = half => !next.has(half ^ 1);
  const border = [...next.keys()].filter(isBorder), ring = [];
  for (let half = border[0]; ring.length < border.length; ring.unshift(half)) {
    half = next.get(half);
    for (let tries = next.size; tries > 0 && !isBorder(half); tries--) half = next.get(half ^ 1);
  }
  const edges = [...next.keys()].filter(half => !isBorder(half) && half % 2 === 0).map(half => half / 2);
  return ring.length ? `remesh ${ring.join(' ')} / ${[...edges, ''].join(' ')}/ ${numbers.join(' ')}` : null;
}

/** The numbers behind a word. */
const numbersIn = text => text.split(' ').slice(1).filter(it => it).map(Number);

/** The half edges around each face, at the number of the face, in the reply to `words`. */
function facesOf(words) {
  const faces = [];
  for (const row of words.split('\n')) faces[row.slice(1).split(' ')[0]] = numbersIn(row);
  return faces;
}

/** The half edge after each half edge around these faces. */
const nextIn = faces => new Map(faces.flatMap(round => round.map((half, place) => [half, round[(place + 1) % round.length]])));
