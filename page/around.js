// The row below the picture: what is around the half edge, the vertex or the face that is chosen.

import { at } from './elements.js';

/** At most so many half edges have a button. */
const MOST_BUTTONS = 30;

let ask, view, chosen = null;

/** Asks the mesh by `asking`, which returns the replies to queries, and marks what is chosen in a view. */
export function startAround(asking, viewing) {
  ask = asking;
  view = viewing;
}

/** Shows what is around this; nothing without a kind. */
export function choose(kind, number) {
  chosen = kind ? [kind, number] : null;
  if (kind) at('kind').value = kind;
  at('number').value = number ?? '';
  at('steps').replaceChildren();
  at('told').textContent = '';
  at('how').hidden = Boolean(kind);
  view.mark([]);
  if (kind) SHOWN[kind](number);
}

/** Shows the same in another picture, if it is there. */
export const chooseAgain = () => choose(...(chosen && view.has(...chosen) ? chosen : []));

/** The half edges around each face, by the number of the face. */
const rounds = () => new Map(ask('words')[0].split('\n').map(row => row.slice(1).split(' ').map(Number)).map(([face, ...round]) => [face, round]));

const SHOWN = {
  half(half) {
    const [start] = ask(`origin ${half}`), origin = Number(start.split(' ')[1]);
    const [face, round] = [...rounds()].find(([, halves]) => halves.includes(half)) ?? [];
    if (!round) return tell(start);
    const place = round.indexOf(half);
    const [next, prev, twin] = [round[(place + 1) % round.length], round.at(place - 1), half ^ 1];
    tell('', ['next', 'half', next, 'after'], ['prev', 'half', prev, 'before'], ['twin', 'half', twin, 'twin'], ['face F', 'face', face], ['origin', 'vertex', origin]);
    view.mark([['half', half, 'chosen'], ['half', next, 'after'], ['half', prev, 'before'], ['half', twin, 'twin'], ['vertex', origin, 'chosen']]);
  },
  vertex(vertex) {
    const [out, datum] = ask(`out ${vertex}`, `get ${vertex}`);
    if (!out.startsWith('out')) return tell(out);
    const halves = out.split(' ').slice(1).map(Number);
    tell(`${datum}, ${halves.length ? 'out' : 'no half edge out of it'}`, ...halves.map(half => ['', 'half', half]));
    view.mark([['vertex', vertex, 'chosen'], ...halves.map(half => ['half', half, 'chosen'])]);
  },
  face(face) {
    const round = rounds().get(face);
    if (!round) return tell(`no live face F${face}`);
    tell(face ? 'around it' : 'the outer face, around it', ...round.map(half => ['', 'half', half]));
    view.mark([['face', face, 'chosen'], ...round.map(half => ['half', half, 'chosen'])]);
  },
};

/** Tells a text, and where one can go from here: each with its name, its kind, its number and a class. */
function tell(text, ...steps) {
  at('told').textContent = text;
  at('steps').append(...steps.slice(0, MOST_BUTTONS).map(([name, kind, number, mark = '']) => {
    const button = document.createElement('button');
    button.textContent = `${name}${name && !name.endsWith('F') ? ' ' : ''}${number}`;
    button.className = mark;
    button.onclick = () => choose(kind, number);
    return button;
  }), steps.length > MOST_BUTTONS ? '..' : '');
}

at('number').oninput = at('kind').oninput = () => at('number').value === '' ? choose() : choose(at('kind').value, Number(at('number').value));
