// A click on a head sorts the rows by that column, another turns the order. A row without a value there stays last.
for (const button of document.querySelectorAll('.runs th button')) {
  button.addEventListener('click', () => {
    const head = button.parentElement, body = head.closest('table').tBodies[0];
    const up = head.getAttribute('aria-sort') !== 'ascending';
    for (const other of head.parentElement.children) other.removeAttribute('aria-sort');
    head.setAttribute('aria-sort', up ? 'ascending' : 'descending');
    const text = row => row.cells[head.cellIndex]?.dataset.by ?? '';
    const order = (a, b) => {
      const [x, y] = [text(a), text(b)];
      const none = v => v === '' || v === 'NaN';
      if (none(x) || none(y)) return none(x) - none(y);
      const numbers = !isNaN(x) && !isNaN(y);
      const by = numbers ? x - y || 0 : x < y ? -1 : x > y ? 1 : 0;
      return up ? by : -by;
    };
    body.append(...[...body.rows].sort(order));
  });
}
