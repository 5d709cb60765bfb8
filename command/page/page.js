// The script of a page. It makes no element and reads no notes: it marks lines, and shows the piece of the notes that a line links to.
'use strict';
document.documentElement.classList.add('js');
addEventListener('DOMContentLoaded', () => {
  const $ = id => document.getElementById(id), root = document.documentElement, digest = $('digest'), notes = $('notes');
  const lines = digest ? [...digest.querySelectorAll('a')] : [];
  const held = () => root.classList.contains('held'), hold = on => root.classList.toggle('held', on);
  // Blank lines that are told together have one reason.
  const reason = at => $('r' + lines[at].id) || $(lines[at].hash.slice(1)).querySelector('p');
  let here = -1, mouse = '';

  // Marks a line, the others of its piece and, in the notes, the piece and the line's reason; or takes the marks away.
  const mark = (at, on) => {
    const a = lines[at], piece = a.hash;
    a.classList.toggle('on', on);
    for (let i = at; i >= 0 && lines[i].hash === piece; i--) lines[i].classList.toggle('p', on);
    for (let i = at + 1; i < lines.length && lines[i].hash === piece; i++) lines[i].classList.toggle('p', on);
    $(piece.slice(1)).classList.toggle('on', on);
    reason(at).classList.toggle('on', on);
    a.tabIndex = on ? 0 : -1;
    if (on) a.setAttribute('aria-current', 'true'), a.setAttribute('aria-describedby', reason(at).id);
    else a.removeAttribute('aria-current'), a.removeAttribute('aria-describedby');
  };
  // On a small screen the notes lie over the end of the digest: the line stays in sight above them.
  const keep = () => {
    if (here < 0 || getComputedStyle(notes).position !== 'sticky') return;
    const line = lines[here].getBoundingClientRect(), under = line.bottom - notes.getBoundingClientRect().top;
    if (under > 0) scrollBy(0, Math.ceil(under + line.height / 2));
  };
  const point = at => {
    if (at === here || !lines[at]) return;
    if (here >= 0) mark(here, false);
    else lines[0].tabIndex = -1, notes.classList.add('pointed');
    mark(here = at, true);
    notes.scrollTop = 0;
    keep();
  };
  const go = at => {
    if (!lines[at]) return;
    const left = digest.scrollLeft;
    point(at);
    lines[at].focus({ preventScroll: true });
    lines[at].scrollIntoView({ block: 'nearest' });
    digest.scrollLeft = left;
    keep();
  };
  const under = e => {
    const a = e.target.closest('#digest a');
    return a ? a.id - lines[0].id : -1;
  };

  if (lines.length) {
    for (const a of lines) a.tabIndex = -1;
    lines[0].tabIndex = 0;
    // The mouse has to move: a page that scrolls below it points at nothing.
    digest.addEventListener('pointermove', e => {
      const at = e.screenX + ' ' + e.screenY, moved = at !== mouse;
      mouse = at;
      if (moved && e.pointerType !== 'touch' && !held()) point(under(e));
    });
    digest.addEventListener('focusin', e => point(under(e)));
    // A line that is held stays while the mouse goes elsewhere; a second click lets go. By key one goes on to the notes.
    digest.addEventListener('click', e => {
      const at = under(e), key = e.detail === 0;
      if (at < 0) return;
      e.preventDefault();
      hold(key || !held() || at !== here);
      point(at);
      if (key) notes.focus();
    });
  }

  const wall = () => location.hash === '#wall';
  const leave = () => {
    if (wall()) location.hash = here < 0 ? '#top' : '#' + lines[here].id;
    hold(false);
    go(here);
  };
  const keys = {
    ArrowDown: () => go(Math.min(here + 1, lines.length - 1)),
    ArrowUp: () => go(Math.max(here - 1, 0)),
    Home: () => go(0),
    End: () => go(lines.length - 1),
    n: () => {
      const seen = lines.filter(a => a.matches('.d, .o')).map(a => a.id - lines[0].id);
      go(seen.find(at => at > here) ?? seen[0]);
    },
    w: () => wall() ? leave() : location.hash = '#wall',
    Escape: leave,
  };
  document.addEventListener('keydown', e => {
    const letter = e.key.length === 1 || e.key === 'Escape';
    if (e.ctrlKey || e.altKey || e.metaKey || !Object.hasOwn(keys, e.key) || (!letter && (wall() || !lines.length || notes.contains(e.target)))) return;
    e.preventDefault();
    keys[e.key]();
  });
  const follow = () => {
    const at = /^#\d+$/.test(location.hash) ? location.hash.slice(1) - 1 : -1;
    if (lines[at]) hold(true), go(at);
  };
  addEventListener('hashchange', follow);
  follow();

  // Letters of a face that is wider than their columns are drawn narrower, where they are seen.
  const fit = chunk => {
    for (const [i, room, ink] of [...chunk.querySelectorAll('i')].map(i => [i, i.clientWidth, i.scrollWidth]))
      if (room && ink > room + 1) i.style.transform = `scaleX(${room / ink})`, i.style.transformOrigin = i.classList.contains('r') ? 'right' : 'left';
  };
  // A line that goes on beyond the right edge is marked there: of those near the window, by its columns, which stand beside its reason.
  const near = new Set(), wide = [], width = digest && digest.querySelector('.width');
  const columns = at => wide[at] ??= +reason(at).querySelector('small').textContent.replace(/\D/g, '');
  const edges = () => {
    const column = width.getBoundingClientRect().width / width.textContent.length, seen = (digest.clientWidth + digest.scrollLeft) / column - 8;
    digest.classList.toggle('l', digest.scrollLeft > 0);
    for (const chunk of near) for (const a of chunk.children) a.classList.toggle('m', columns(a.id - lines[0].id) > seen + .1);
  };
  if (lines.length) {
    const sight = new IntersectionObserver(chunks => {
      for (const { target, isIntersecting } of chunks) {
        if (isIntersecting && !target.fitted) fit(target), target.fitted = true;
        near[isIntersecting ? 'add' : 'delete'](target);
      }
      edges();
    });
    for (const chunk of document.querySelectorAll('.k')) sight.observe(chunk);
    digest.addEventListener('scroll', edges);
    const size = new ResizeObserver(() => (edges(), keep()));
    size.observe(digest), size.observe(notes);
    addEventListener('resize', keep);
  }
});
