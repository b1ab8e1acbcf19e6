// browser.js: what is measured of each page that stands in a frame, in a real browser. Run by browser.py.

// A colour's red, green, blue and opacity.
function colour(text) {
  const parts = text.match(/[\d.]+/g).map(Number);
  return {r: parts[0], g: parts[1], b: parts[2], a: parts.length > 3 ? parts[3] : 1};
}

// How light a colour is, and how far two are apart, as WCAG 2 has it.
function luminance(c) {
  const [r, g, b] = [c.r, c.g, c.b].map(x => x / 255).map(x => x <= 0.04045 ? x / 12.92 : ((x + 0.055) / 1.055) ** 2.4);
  return 0.2126 * r + 0.7152 * g + 0.0722 * b;
}
function contrast(a, b) {
  const [high, low] = [luminance(a), luminance(b)].sort((x, y) => y - x);
  return (high + 0.05) / (low + 0.05);
}

// What stands behind an element.
function behind(window_, element) {
  for (let e = element; e; e = e.parentElement) {
    const c = colour(window_.getComputedStyle(e).backgroundColor);
    if (c.a > 0) return c;
  }
  return {r: 255, g: 255, b: 255, a: 1};
}

// The least contrast of a text with what is behind it.
function faintest(window_, document_) {
  let least = 21;
  for (const e of document_.body.querySelectorAll('*')) {
    const own = [...e.childNodes].some(n => n.nodeType === 3 && n.data.trim());
    if (own && !e.closest('svg')) least = Math.min(least, contrast(colour(window_.getComputedStyle(e).color), behind(window_, e)));
  }
  return least;
}

// Texts of a picture that lie outside of it, or over each other.
function misplaced(svg) {
  const frame = svg.getBoundingClientRect(), faults = [];
  const boxes = [...svg.querySelectorAll('text')].map(t => ({what: t.textContent, box: t.getBoundingClientRect()}));
  boxes.forEach(({what, box}, i) => {
    if (box.left < frame.left - 1 || box.right > frame.right + 1 || box.top < frame.top - 1 || box.bottom > frame.bottom + 1) faults.push('outside: ' + what);
    for (const other of boxes.slice(i + 1, i + 8)) {
      const o = other.box;
      if (box.left < o.right - 1 && o.left < box.right - 1 && box.top < o.bottom - 2 && o.top < box.bottom - 2) faults.push(what + ' over ' + other.what);
    }
  });
  return faults;
}

function measured(frame) {
  const d = frame.contentDocument, w = frame.contentWindow, names = {};
  for (const e of d.querySelectorAll('*')) names[e.localName] = (names[e.localName] || 0) + 1;
  const wide = [...d.querySelectorAll('body *')].filter(e => e.getBoundingClientRect().right > w.innerWidth + 1);
  return {
    name: frame.name, width: w.innerWidth, wide: [...new Set(wide.map(e => e.localName + '.' + e.getAttribute('class')))].slice(0, 5),
    across: d.documentElement.scrollWidth, names, misplaced: [...d.querySelectorAll('svg')].flatMap(misplaced).slice(0, 5),
    faintest: faintest(w, d), loaded: w.performance.getEntriesByType('resource').length, height: d.documentElement.scrollHeight,
    unnamed: [...d.querySelectorAll('svg')].filter(s => !s.getAttribute('aria-label') && s.getAttribute('aria-hidden') !== 'true').length};
}

addEventListener('load', () => {
  const result = document.createElement('pre');
  result.id = 'result';
  result.textContent = JSON.stringify([...document.querySelectorAll('iframe')].map(measured));
  document.body.append(result);
});
