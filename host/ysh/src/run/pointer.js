// The values under the pointer, in all charts over the same bars at once.
(() => {
  const holder = document.getElementById('points');
  if (!holder) return;
  const { left, right, width, names, points } = JSON.parse(holder.textContent);
  const charts = [...document.querySelectorAll('.chart svg')];
  const box = document.createElement('div');
  box.className = 'under-pointer';
  box.hidden = true;
  document.body.append(box);
  const lines = charts.map((svg) => {
    const line = document.createElementNS(svg.namespaceURI, 'line');
    line.setAttribute('class', 'cursor');
    line.setAttribute('y1', 14);
    line.setAttribute('y2', svg.viewBox.baseVal.height - 26);
    line.style.display = 'none';
    svg.append(line);
    return line;
  });
  const show = (event, svg) => {
    const room = svg.getBoundingClientRect();
    const x = (event.clientX - room.left) / room.width * width;
    const share = points.length < 2 ? 0 : Math.max(0, Math.min(1, (x - left) / (right - left)));
    const place = Math.round(share * (points.length - 1));
    const at = points.length < 2 ? (left + right) / 2 : left + (right - left) * place / (points.length - 1);
    lines.forEach((line) => {
      line.style.display = '';
      line.setAttribute('x1', at);
      line.setAttribute('x2', at);
    });
    box.textContent = points[place].map((value, n) => names[n] + ' ' + value).join('\n');
    box.hidden = false;
    const over = event.clientX + 16 + box.offsetWidth > document.documentElement.clientWidth;
    box.style.left = (over ? event.clientX - 16 - box.offsetWidth : event.clientX + 16) + 'px';
    box.style.top = event.clientY + 12 + 'px';
  };
  const hide = () => {
    box.hidden = true;
    lines.forEach((line) => { line.style.display = 'none'; });
  };
  charts.forEach((svg) => {
    svg.addEventListener('pointermove', (event) => show(event, svg));
    svg.addEventListener('pointerleave', hide);
  });
})();
