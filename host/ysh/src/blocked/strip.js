// The strip: every bar of the stretch above, some of them below; a click shows a bar's chain.
(() => {
  const whole = document.getElementById('whole');
  if (!whole) return;
  const data = JSON.parse(document.getElementById('data').textContent);
  const near = document.getElementById('near');
  const COLOURS = { y: '#2f8f57', n: '#c0463d', m: '#e0a93a', '-': '#e1e4e9' };
  const ROW = 14, NEAR = 240;

  // Steps and how often each: the values that they lead to.
  const walk = (first, steps) => {
    const all = [first];
    for (const [step, count] of steps) for (let n = 0; n < count; n++) all.push(all[all.length - 1] + step);
    return all;
  };
  const numbers = walk(data.first[0], data.numbers);
  const times = walk(data.first[1], data.times);
  const bars = numbers.length;
  const letters = data.tests.map(([, runs]) => {
    let text = '';
    for (const [, letter, count] of runs.matchAll(/([ynm-])(\d+)/g)) text += letter.repeat(Number(count));
    return text;
  });
  const decided = [], yes = [];
  for (const [part, said, count] of data.decided) {
    for (let n = 0; n < count; n++) {
      decided.push(part);
      yes.push(said);
    }
  }

  // The lines of a bar's chain: the words of each, with its numbers in their places.
  const valuesOf = (bar) => {
    const some = data.values[Math.floor(bar / data.together)];
    const text = some === undefined ? '' : some.split(';')[bar % data.together];
    const filled = ([words, ...numbers]) => data.words[words].split('\u0001').map((part, n) => part + (numbers[n] ?? '')).join('');
    return text ? text.split('|').map((line) => filled(line.split(' '))) : null;
  };

  const time = (bar) => {
    if (data.clock === 'number') return String(times[bar]);
    const date = new Date(times[bar] * (data.clock === 'seconds' ? 1000 : 1));
    return date.toISOString().replace('T', ' ').replace(/(:00)?\.000Z$/, '').replace('Z', '');
  };

  // Bars from a place on, in a canvas: each pixel's column has the share of what the bars under it said.
  const draw = (canvas, from, count) => {
    const width = Math.max(1, canvas.clientWidth), ratio = window.devicePixelRatio || 1;
    canvas.width = width * ratio;
    canvas.height = ROW * letters.length * ratio;
    canvas.style.height = ROW * letters.length + 'px';
    const pen = canvas.getContext('2d');
    pen.scale(ratio, ratio);
    const columns = Math.min(width, count), wide = width / columns;
    letters.forEach((said, row) => {
      for (let column = 0; column < columns; column++) {
        const first = from + Math.floor(column * count / columns);
        const last = Math.max(first + 1, from + Math.floor((column + 1) * count / columns));
        const counts = { y: 0, n: 0, m: 0, '-': 0 };
        for (let bar = first; bar < last; bar++) counts[said[bar]]++;
        let top = row * ROW;
        for (const letter of 'ynm-') {
          const high = (ROW - 2) * counts[letter] / (last - first);
          pen.fillStyle = COLOURS[letter];
          if (high > 0) pen.fillRect(column * wide, top, Math.ceil(wide), high);
          top += high;
        }
      }
    });
    return pen;
  };
  const mark = (canvas, pen, from, count, first, bars) => {
    const wide = canvas.clientWidth / count;
    pen.strokeStyle = '#1c1f23';
    pen.lineWidth = 1.5;
    pen.strokeRect((first - from) * wide, 0.75, Math.max(2, bars * wide), ROW * letters.length - 2);
  };

  let from = 0, chosen = Math.max(0, decided.findIndex((part) => part >= 0));
  const some = Math.min(NEAR, bars);
  const line = (text, said) => {
    const item = document.createElement('li');
    item.textContent = text;
    if (said !== undefined) {
      const word = document.createElement('b');
      word.className = said ? 'yes' : 'no';
      word.textContent = said ? ' yes' : ' no';
      item.append(word);
    }
    return item;
  };
  const show = () => {
    from = Math.max(0, Math.min(bars - some, from));
    mark(whole, draw(whole, 0, bars), 0, bars, from, some);
    mark(near, draw(near, from, some), from, some, chosen, 1);
    document.getElementById('begin').textContent = time(0);
    document.getElementById('end').textContent = time(bars - 1);
    document.getElementById('from').textContent = 'bar ' + numbers[from] + ', ' + time(from);
    document.getElementById('to').textContent = 'bar ' + numbers[from + some - 1] + ', ' + time(from + some - 1);
    const box = document.getElementById('chain');
    box.replaceChildren();
    const head = document.createElement('p');
    head.innerHTML = '<b></b>';
    head.firstChild.textContent = 'Bar ' + numbers[chosen] + ', ' + time(chosen);
    box.append(head);
    const list = document.createElement('ol');
    list.className = 'chain';
    const part = decided[chosen];
    if (part < 0) {
      list.append(line('The rule was not asked at this bar.'));
    } else {
      // From the root, whose answer is known, down to what decided: a Not turns the answer around, the others have it from below.
      const way = [];
      for (let at = part; at >= 0; at = data.parts[at].above) way.unshift(at);
      let said = yes[chosen];
      for (const at of way) {
        list.append(line(data.parts[at].label + ':', said));
        if (data.parts[at].not) said = !said;
      }
      const below = data.tests.map(([of], n) => [of, n]).filter(([of]) => {
        for (let at = of; at >= 0; at = data.parts[at].above) if (at === part) return true;
        return false;
      });
      const values = valuesOf(chosen);
      if (values) values.forEach((text) => list.append(line(text)));
      else {
        below.forEach(([of, n]) => list.append(line(data.parts[of].label + ':', letters[n][chosen] === 'y')));
        list.append(line('The values: ' + data.why + ' FILE BARS --at bar:' + numbers[chosen]));
      }
    }
    box.append(list);
  };
  const place = (event, canvas, count) => {
    const box = canvas.getBoundingClientRect();
    return Math.max(0, Math.min(count - 1, Math.floor((event.clientX - box.left) / box.width * count)));
  };
  const choose = (bar) => {
    chosen = Math.max(0, Math.min(bars - 1, bar));
    if (chosen < from) from = chosen;
    if (chosen >= from + some) from = chosen - some + 1;
    show();
  };
  whole.addEventListener('click', (event) => {
    const bar = place(event, whole, bars);
    from = bar - Math.floor(some / 2);
    chosen = bar;
    show();
  });
  near.addEventListener('click', (event) => choose(from + place(event, near, some)));
  near.addEventListener('keydown', (event) => {
    if (event.key === 'ArrowLeft') choose(chosen - 1);
    else if (event.key === 'ArrowRight') choose(chosen + 1);
    else return;
    event.preventDefault();
  });
  window.addEventListener('resize', show);
  choose(chosen);
})();
