// Small things that all of the page uses.

/** The element with this id. */
export const at = id => document.getElementById(id);

/** Has the browser save a text as a file. */
export function save(name, type, text) {
  const link = document.createElement('a');
  link.href = URL.createObjectURL(new Blob([text], { type }));
  link.download = name;
  link.click();
  URL.revokeObjectURL(link.href);
}

/** Has Ctrl+Z undo while a tab is open, but in a field with a text, which undoes what was typed there. */
export function undoBy(tab, undo) {
  addEventListener('keydown', event => {
    const isUndo = (event.ctrlKey || event.metaKey) && !event.shiftKey && event.key.toLowerCase() === 'z';
    const field = document.activeElement;
    if (!isUndo || tab.hidden || field.matches('textarea, [type=number]') && field.value) return;
    event.preventDefault();
    undo();
  });
}
