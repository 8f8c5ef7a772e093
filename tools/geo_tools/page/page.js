(function () {
  'use strict';
  var root = document.documentElement, bar = document.querySelector('.bar');
  var find = document.getElementById('find'), found = document.getElementById('found');
  bar.hidden = false;

  // ---- pieces: texts that become elements as they are seen ----

  var short = document.getElementById('short'), long = short ? JSON.parse(short.textContent) : [];
  function textOf(piece) {
    return piece.textContent.replace(/[\ue000-\ue0ff]/g, function (letter) { return long[letter.charCodeAt(0) - 0xe000]; });
  }
  function fill(place) {
    var name = place && place.getAttribute('data-k');
    if (!name) { return; }
    place.removeAttribute('data-k');
    place.dataset.was = name;
    place.style.height = '';
    place.innerHTML = textOf(document.getElementById(name));
    if (seen) { seen.unobserve(place); }
  }
  var seen = 'IntersectionObserver' in window && new IntersectionObserver(function (entries) {
    entries.forEach(function (entry) { if (entry.isIntersecting) { fill(entry.target); } });
  }, { rootMargin: '1200px' });
  document.querySelectorAll('[data-k]').forEach(function (place) {
    if (!place.closest('.pt')) { if (seen) { seen.observe(place); } else { fill(place); } }
  });
  document.addEventListener('toggle', function (event) {
    if (event.target.open && event.target.classList.contains('pt')) { fill(event.target.querySelector('[data-k]')); }
  }, true);

  // ---- going to a row ----

  var current = null;
  function mark(row) {
    if (current) { current.classList.remove('cur'); }
    current = row;
    row.classList.add('cur');
  }
  function show(row) {
    for (var at = row.parentElement; at; at = at.parentElement) { if (at.tagName === 'DETAILS' && at.firstElementChild !== row) { at.open = true; } }
    mark(row);
    row.focus({ preventScroll: true });
    row.scrollIntoView({ block: 'center' });
  }
  function steppable(element) { return element && element.tagName === 'DETAILS' ? element.firstElementChild : element; }
  function fillWith(id) {
    var texts = document.querySelectorAll('script[type="text/plain"]');
    for (var at = 0; at < texts.length; at++) {
      if (textOf(texts[at]).indexOf('id="' + id + '"') >= 0) {
        fill(document.querySelector('[data-k="' + texts[at].id + '"]'));
        return;
      }
    }
  }
  function goTo(id) {
    if (!/^[a-z]+[0-9]*$/.test(id)) { return; }
    if (!document.getElementById(id)) { fillWith(id); }
    var row = steppable(document.getElementById(id));
    if (row && row.closest('.run')) { show(row); }
  }
  function followed() { goTo(location.hash.slice(1)); }
  window.addEventListener('hashchange', followed);

  // ---- step by step ----

  // a row in what is folded has a box too, so it is told by what it stands in
  function isShown(row) {
    for (var at = row; at && at.parentElement; at = at.parentElement) {
      var above = at.parentElement;
      if (above.tagName === 'DETAILS' && !above.open && at !== above.firstElementChild) { return false; }
    }
    return true;
  }
  function step(forward) {
    var piece = current && current.closest('.k');
    if (piece) { fill(forward ? piece.nextElementSibling : piece.previousElementSibling); }
    var rows = Array.prototype.filter.call(document.querySelectorAll('.run .st, .run details[open] > .p'), isShown);
    var at = rows.indexOf(current);
    var next = rows[at < 0 ? (forward ? 0 : rows.length - 1) : at + (forward ? 1 : -1)];
    if (!next && forward) {
      var rest = document.querySelector('.run > .k[data-k]');
      if (rest) { fill(rest); next = rest.querySelector('.st'); }
    }
    if (!next) { return; }
    if (!next.hasAttribute('tabindex') && next.tagName !== 'SUMMARY') { next.tabIndex = -1; }
    show(next);
    var id = next.id || (next.parentElement && next.parentElement.id);
    if (id) { history.replaceState(null, '', '#' + id); }
  }

  // ---- finding a message ----

  var plain = null, hits = [], hit = -1;
  function clear() {
    document.querySelectorAll('.hit').forEach(function (row) { row.classList.remove('hit'); });
    hits = [];
    hit = -1;
    found.textContent = '';
  }
  // the texts of pieces that are no elements yet: a row's name, then its text
  function pieceTexts() {
    if (!plain) {
      plain = {};
      document.querySelectorAll('script[type="text/plain"]').forEach(function (text) {
        plain[text.id] = textOf(text).replace(/<(?:div|details)[^>]* id="(\w+)"[^>]*>/g, '\u0001$1\u0002').replace(/<[^>]*>/g, '').toLowerCase();
      });
    }
    return plain;
  }
  function idsIn(text, words) {
    return text.split('\u0001').slice(1).filter(function (part) { return part.indexOf(words, part.indexOf('\u0002')) >= 0; })
      .map(function (part) { return part.slice(0, part.indexOf('\u0002')); });
  }
  function search() {
    var words = find.value.trim().toLowerCase().replace(/[&<>]/g, function (it) { return { '&': '&amp;', '<': '&lt;', '>': '&gt;' }[it]; });
    clear();
    if (!words) { return; }
    var inside = pieceTexts();
    document.querySelectorAll('.run .r, .run > .k').forEach(function (row) {
      if (row.classList.contains('k')) {
        if (row.hasAttribute('data-k')) { hits = hits.concat(idsIn(inside[row.getAttribute('data-k')], words)); }
      } else if (row.textContent.toLowerCase().indexOf(find.value.trim().toLowerCase()) >= 0) {
        row.classList.add('hit');
        hits.push(row.id);
      }
    });
    found.textContent = hits.length ? hits.length + (hits.length === 1 ? ' row' : ' rows') : 'in no row';
  }
  function nextHit() {
    if (!hits.length) { return; }
    hit = (hit + 1) % hits.length;
    goTo(hits[hit]);
    var row = document.getElementById(hits[hit]);
    if (row) { row.classList.add('hit'); }
    found.textContent = (hit + 1) + ' of ' + hits.length + ' rows';
  }
  find.addEventListener('input', search);
  find.addEventListener('keydown', function (event) {
    if (event.key === 'Enter') { nextHit(); event.preventDefault(); }
    if (event.key === 'Escape') { find.value = ''; clear(); find.blur(); }
  });

  // ---- buttons and keys ----

  function isDark() { return (root.dataset.theme || (matchMedia('(prefers-color-scheme: dark)').matches ? 'dark' : 'light')) === 'dark'; }
  var theme = document.getElementById('theme'), all = document.getElementById('all');
  function named() { theme.textContent = isDark() ? 'Light' : 'Dark'; }
  theme.addEventListener('click', function () { root.dataset.theme = isDark() ? 'light' : 'dark'; named(); });
  named();
  all.addEventListener('click', function () {
    var open = all.textContent === 'Open all';
    document.querySelectorAll('.run details').forEach(function (row) { if (!row.classList.contains('pt')) { row.open = open; } });
    all.textContent = open ? 'Fold all' : 'Open all';
  });
  document.addEventListener('keydown', function (event) {
    if (event.ctrlKey || event.metaKey || event.altKey || /^(INPUT|TEXTAREA|SELECT)$/.test(event.target.tagName)) { return; }
    if (event.key === 'j' || event.key === 'k') { step(event.key === 'j'); }
    else if (event.key === 'o' && current && current.tagName === 'SUMMARY') { current.parentElement.open = !current.parentElement.open; }
    else if (event.key === '/') { find.focus(); find.select(); }
    else if (event.key === 'n') { nextHit(); }
    else { return; }
    event.preventDefault();
  });
  // behind the browser's own way to the fragment, which takes the focus away
  window.addEventListener('load', function () { if (location.hash) { setTimeout(followed, 0); } });
}());
