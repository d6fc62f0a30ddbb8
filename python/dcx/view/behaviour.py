"""The little JavaScript of a page: tables are sorted, folded parts open to be printed, and each of many points of a
plot says what it is when it is pointed at. Without it all is there."""
from __future__ import annotations

SCRIPT = """
'use strict';
const ranks = (row) => row.dataset.k.split(' ');
for (const table of document.querySelectorAll('table.sortable')) {
  const body = table.tBodies[0];
  [...table.tHead.rows[0].cells].forEach((head, at) => {
    if (!body.rows.length || isNaN(ranks(body.rows[0])[at])) return;
    const button = document.createElement('button');
    button.type = 'button';
    button.append(...head.childNodes);
    head.append(button);
    button.addEventListener('click', () => {
      const was = head.getAttribute('aria-sort');
      const first = head.dataset.first === 'down' ? 'descending' : 'ascending';
      const now = was === null ? first : was === 'ascending' ? 'descending' : 'ascending';
      for (const other of head.parentNode.children) other.removeAttribute('aria-sort');
      head.setAttribute('aria-sort', now);
      const sign = now === 'ascending' ? 1 : -1;
      const rows = [...body.rows].map((row) => [Number(ranks(row)[at]), row]);
      rows.sort((a, b) => sign * (a[0] - b[0]));
      body.append(...rows.map((one) => one[1]));
    });
  });
}
const opened = [];
addEventListener('beforeprint', () => {
  for (const part of document.querySelectorAll('details:not([open]):not(.answer)')) {
    part.open = true;
    opened.push(part);
  }
});
addEventListener('afterprint', () => opened.splice(0).forEach((part) => { part.open = false; }));
addEventListener('pointerover', ({target}) => {
  if (target.localName !== 'circle' || target.firstChild) return;
  const title = document.createElementNS(target.namespaceURI, 'title');
  const across = target.closest('svg').querySelector('.label').textContent;
  title.append(`${across} ${target.dataset.x}: ${target.dataset.y}`);
  target.append(title);
});
const follow = () => {
  const target = document.getElementById(location.hash.slice(1));
  const part = target && target.closest('details');
  if (part) { part.open = true; target.scrollIntoView(); }
};
addEventListener('hashchange', follow);
follow();
"""
