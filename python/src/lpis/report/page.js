'use strict';
const data = JSON.parse(document.getElementById('data').textContent);
const FIRST = 100, MORE = 500; // rows that stand there, and that are added at a time

// Tables. All rows are in the data, the first of them in the page too. A click on a head sorts all of them.

document.querySelectorAll('table.sorted').forEach((table, number) => {
  const { rows, keys } = data.tables[number], body = table.tBodies[0], heads = Array.from(table.tHead.rows[0].cells);
  const more = document.getElementById(`more${number}`);
  const choices = Array.from(document.querySelectorAll(`.choices[data-table="${number}"] select`));
  const order = rows.map((_, i) => i), isNumber = heads.map(head => head.classList.contains('number'));
  const line = i => {
    const row = document.createElement('tr');
    row.dataset.row = i;
    if (keys[i]) { row.className = 'row'; row.tabIndex = 0; }
    rows[i].forEach((text, column) => {
      const cell = row.insertCell();
      cell.textContent = text;
      if (isNumber[column]) cell.className = 'number';
    });
    return row;
  };
  const isWanted = i => choices.every(choice => choice.value === '*' || String(rows[i][choice.dataset.column]) === choice.value);
  let seen = order;
  const show = (from, to) => {
    body.append(...seen.slice(from, to).map(line));
    more.hidden = body.rows.length >= seen.length;
    more.firstChild.textContent = `${seen.length - body.rows.length} more`;
  };
  choices.forEach(choice => choice.addEventListener('change', () => {
    seen = order.filter(isWanted);
    body.replaceChildren();
    show(0, FIRST);
    if (map) map.narrow(seen.map(i => keys[i]));
  }));
  heads.forEach((head, column) => head.addEventListener('click', () => {
    const down = head.dataset.down === '1' ? -1 : 1, value = i => isNumber[column] ? parseFloat(rows[i][column]) || 0 : String(rows[i][column]);
    const keyed = rows.map((_, i) => value(i));
    order.sort((a, b) => down * (keyed[a] < keyed[b] ? -1 : keyed[a] > keyed[b] ? 1 : a - b));
    heads.forEach(other => delete other.dataset.down);
    head.dataset.down = down === 1 ? '1' : '0';
    const count = Math.max(body.rows.length, 1);
    seen = order.filter(isWanted);
    body.replaceChildren();
    show(0, count);
  }));
  more.addEventListener('click', () => show(body.rows.length, body.rows.length + MORE));
  body.addEventListener('click', event => {
    const row = event.target.closest('tr.row');
    if (row && map) map.go(...keys[row.dataset.row]);
  });
});

// A row and a head do by Enter and by the space bar what they do by a click.
document.addEventListener('keydown', event => {
  if ((event.key !== 'Enter' && event.key !== ' ') || !event.target.matches('tr.row, table.sorted th, figure')) return;
  event.preventDefault();
  event.target.click();
});

const canvas = document.querySelector('canvas.map');
const map = canvas ? new Chart(canvas) : null;
if (map) { listen(map); listenToSearch(map); }

// The worst findings, each with what is beside it.
document.querySelectorAll('figure').forEach(figure => {
  const number = Number(figure.dataset.finding);
  map.picture(figure.querySelector('canvas'), number);
  figure.addEventListener('click', () => { map.go('findings', number); canvas.scrollIntoView({ block: 'nearest' }); });
});
