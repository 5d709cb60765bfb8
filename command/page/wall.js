// The script of the page for a wall. The page reads itself anew in a frame behind what is seen; a frame that has come tells its time and is put
// in front. So nothing is blank meanwhile, and where the page cannot be read the last drawing stays, and turns red when it is too old.
'use strict';
addEventListener('DOMContentLoaded', () => {
  const body = document.body, number = name => Number(body.dataset[name]);
  let drawn = number('drawn'), old = number('old');
  if (parent !== self) {
    // Two turns: the drawing is laid out before it is put in front.
    setTimeout(() => setTimeout(() => parent.postMessage([drawn, old], '*'), 60), 60);
    return;
  }
  let shown = null, behind = null, came = performance.now();
  const two = n => String(n).padStart(2, '0');
  const time = (at, now) => (at.toDateString() === now.toDateString() ? '' : `${at.getFullYear()}-${two(at.getMonth() + 1)}-${two(at.getDate())} `) + `${two(at.getHours())}:${two(at.getMinutes())}`;

  // By this machine's clock; and if that runs behind, by how long the same drawing has been seen.
  const look = () => {
    const now = Date.now(), isOld = now / 1000 - drawn > old || (performance.now() - came) / 1000 > old;
    if (isOld) document.getElementById('since').textContent = time(new Date(drawn * 1000), new Date(now));
    body.classList.toggle('old', isOld);
  };
  const read = () => {
    if (behind) behind.remove();
    behind = document.createElement('iframe');
    behind.setAttribute('aria-hidden', 'true');
    behind.src = location.href.replace(/[?#].*/, '') + '?' + Date.now();
    body.append(behind);
  };
  addEventListener('message', e => {
    if (!behind || e.source !== behind.contentWindow || !Array.isArray(e.data)) return;
    const before = shown;
    if (e.data[0] !== drawn) came = performance.now();
    [drawn, old] = e.data;
    shown = behind;
    behind = null;
    shown.className = 'shown';
    shown.removeAttribute('aria-hidden');
    body.classList.add('seen');
    if (before) before.className = '', setTimeout(() => before.remove(), 500);
    look();
  });
  setInterval(read, number('every') * 1000);
  setInterval(look, 1000);
  look();
});
