'use strict';

const form = document.querySelector('form[role=search]');
const box = form.querySelector('input');
const list = form.querySelector('ul');
const root = document.documentElement.dataset.root;
let names = [];

/** Takes in the list of names once somebody is about to search. */
function takeNames() {
  const script = document.createElement('script');
  script.src = `${root}names.js`;
  script.onload = show;
  document.head.append(script);
}

/**
 * How well something fits the words that were typed: the lower, the better; null if it doesn't. Names come before sentences, but for those
 * of types that begin with the words, or nearly; definitions, laws and signs come after calls and types.
 */
function rank([name, kind, , sentence], words) {
  const path = name.toLowerCase(), last = path.split('::').pop(), typed = words.join('_'), said = sentence.toLowerCase();
  const isOfContracts = ['definition', 'law', 'sign'].includes(kind), order = (isOfContracts ? 300 : 0) + Math.min(name.length, 99);
  if (last === typed) return isOfContracts ? order - 200 : order;
  if (last.startsWith(typed)) return 200 + order;
  if (kind === 'type' && said.slice(0, 30).includes(words.join(' '))) return 300 + order;
  if (words.every(it => path.includes(it))) return 400 + order;
  if (words.every(it => path.includes(it) || said.includes(it))) return (kind === 'type' || words.includes(last) ? 450 : 600) + order;
  return null;
}

function show() {
  const words = box.value.toLowerCase().split(/\s+/).filter(it => it);
  const found = words.length ? names.map(it => [rank(it, words), it]).filter(it => it[0] !== null) : [];
  found.sort((one, other) => one[0] - other[0]);
  list.replaceChildren(...found.slice(0, 20).map(([, [name, kind, address, sentence]]) => {
    const link = document.createElement('a'), item = document.createElement('li');
    link.title = sentence;
    link.href = root + address.split('#').map(encodeURI).join('#');
    const crate = address.replace('definitions/', '').split('/')[0];
    const of = kind === 'sign' ? 'sign of contracts' : `${kind} of ${crate}`;
    link.append(name, ' ', Object.assign(document.createElement('small'), { textContent: of }));
    item.append(link);
    return item;
  }));
}

box.addEventListener('focus', takeNames, { once: true });
box.addEventListener('input', show);
form.addEventListener('submit', event => {
  event.preventDefault();
  list.querySelector('a')?.click();
});
form.hidden = false;
