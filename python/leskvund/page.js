// Shows a trace. A picture has the atoms and membranes of a process with their places; each is made from the one before.
'use strict';
const trace = JSON.parse(document.getElementById('trace').textContent);
const byId = id => document.getElementById(id);
const GAP = 14, LINK = 24, PADDING = 12, MOST_PARTED = 500, LONGEST_LINE = 30;

// ---- Processes: the first one, then each from the one before by what its firing changed.

const processes = [];

function processAfter(firings) {
  for (let n = processes.length; n <= firings; n++) processes.push(changed(processes[n - 1], trace.firings[n]));
  return processes[firings];
}

function changed(before, firing) {
  const old = before || { membranes: new Map(), atoms: new Map(), ends: new Map(), rules: new Map(), counts: null };
  const process = { membranes: new Map(old.membranes), atoms: new Map(old.atoms), ends: new Map(old.ends), rules: new Map(old.rules) };
  for (const atom of firing.gone || []) { process.atoms.delete(atom); process.ends.delete(atom); }
  for (const membrane of firing.membranesGone || []) { process.membranes.delete(membrane); process.rules.delete(membrane); }
  for (const [membrane, parent] of firing.membranes || []) process.membranes.set(membrane, parent);
  for (const [atom, membrane, name] of firing.atoms || []) {
    process.atoms.set(atom, { membrane, name: trace.names[name][0], ports: trace.names[name][1] });
    process.ends.set(atom, []);
  }
  for (const [atom, membrane] of firing.moved || []) process.atoms.set(atom, { ...process.atoms.get(atom), membrane });
  for (const [one, port, other, there] of firing.links || []) {
    setEnd(old, process, one, port, [other, there]);
    setEnd(old, process, other, there, [one, port]);
  }
  for (const [membrane, rules] of firing.rules || []) process.rules.set(membrane, rules);
  process.counts = firing.counts || old.counts;
  return process;
}

// The ends of an atom's links are shared with the process before until one of them changes.
function setEnd(old, process, atom, port, end) {
  if (process.ends.get(atom) === old.ends.get(atom)) process.ends.set(atom, process.ends.get(atom).slice());
  process.ends.get(atom)[port] = end;
}

// Each link once: an atom and its port, twice.
function linksOf(process) {
  const links = [];
  for (const [atom, ends] of process.ends)
    ends.forEach(([other, there], port) => { if (atom < other || atom === other && port < there) links.push([atom, port, other, there]); });
  return links;
}

// ---- Places. An atom or a membrane is a body, whose place is told from the middle of the membrane in which it lies.

// Keys of bodies: atoms are even, membranes odd.
const atomKey = atom => 2 * atom, membraneKey = membrane => 2 * membrane + 1;
// A body: its middle, its width and height and its radius; whether it wasn't there before, and whether it was moved or grew.
class Body {
  constructor(x, y, w, h, r, fresh) { this.x = x; this.y = y; this.w = w; this.h = h; this.r = r; this.fresh = fresh; this.stirred = false; }
  kept() { return new Body(this.x, this.y, this.w, this.h, this.r, false); }
}

// A name or a term as it stands on the picture: whole, in lines that end behind a comma, a blank or a parenthesis.
function linesOf(name) {
  const lines = [''];
  for (const word of name.match(/[^ ,(]*[ ,(]?/g)) {
    if (lines[lines.length - 1].length + word.length > LONGEST_LINE && lines[lines.length - 1] !== '') lines.push('');
    lines[lines.length - 1] += word;
  }
  return lines;
}

function bodyOf(name) {
  const lines = linesOf(name), w = Math.max(20, 12 + 6.4 * Math.max(...lines.map(line => line.length))), h = 6 + 14 * lines.length;
  return new Body(0, 0, w, h, Math.max(13, Math.hypot(w, h - 20) / 2), true);
}

// For each membrane the bodies that lie in it.
function bodiesOf(process) {
  const inside = new Map([...process.membranes.keys()].map(membrane => [membrane, []]));
  for (const [membrane, parent] of process.membranes) if (parent >= 0) inside.get(parent).push(membraneKey(membrane));
  for (const [atom, { membrane }] of process.atoms) inside.get(membrane).push(atomKey(atom));
  return inside;
}

// The membranes around an atom, from the atom itself outwards.
function wallsOf(process, atom) {
  const walls = [atomKey(atom)];
  for (let at = process.atoms.get(atom).membrane; at >= 0; at = process.membranes.get(at)) walls.push(membraneKey(at));
  return walls;
}

// For each membrane, the pairs of bodies in it that a link pulls together.
function pullsOf(process) {
  const pulls = new Map([...process.membranes.keys()].map(membrane => [membraneKey(membrane), []]));
  for (const [one, , other] of linksOf(process)) {
    const home = process.atoms.get(one).membrane;
    if (home === process.atoms.get(other).membrane) { pulls.get(membraneKey(home)).push([atomKey(one), atomKey(other)]); continue; }
    const a = wallsOf(process, one), b = wallsOf(process, other);
    let i = a.length - 1, j = b.length - 1;
    while (i > 0 && j > 0 && a[i - 1] === b[j - 1]) { i--; j--; }
    if (i > 0 && j > 0) pulls.get(a[i]).push([a[i - 1], b[j - 1]]);
  }
  return pulls;
}

const pictures = [];

function pictureAfter(firings) {
  for (let n = pictures.length; n <= firings; n++) pictures.push(placed(processAfter(n), pictures[n - 1], n ? processAfter(n - 1) : null));
  return pictures[firings];
}

// A picture of a process, in which all that stayed is where it was, but for what makes room.
function placed(process, before, processBefore) {
  const places = new Map(), inside = bodiesOf(process), pulls = pullsOf(process);
  const depth = membrane => membrane < 0 ? 0 : 1 + depth(process.membranes.get(membrane));
  const inwards = [...process.membranes.keys()].sort((one, other) => depth(other) - depth(one));
  const keep = (key, fresh) => places.set(key, before && before.has(key) ? before.get(key).kept() : fresh());
  for (const membrane of process.membranes.keys()) keep(membraneKey(membrane), () => new Body(0, 0, 0, 0, 20, true));
  for (const [atom, { name }] of process.atoms) keep(atomKey(atom), () => bodyOf(name));
  if (before) carryOver(process, processBefore, places, before);
  for (const membrane of inwards) settle(places.get(membraneKey(membrane)), inside.get(membrane), pulls.get(membraneKey(membrane)), places);
  return places;
}

// What moved into another membrane stays where it is on the picture, or comes so near that it touches what is in there.
function carryOver(process, processBefore, places, before) {
  const middle = (which, of, membrane) => {
    if (membrane < 0 || !of.has(membraneKey(membrane))) return { x: 0, y: 0 };
    const outer = middle(which, of, which.membranes.get(membrane)), own = of.get(membraneKey(membrane));
    return { x: outer.x + own.x, y: outer.y + own.y };
  };
  const carry = (key, from, to) => {
    if (from === to || places.get(key).fresh) return;
    const a = middle(processBefore, before, from), b = middle(process, places, to), place = places.get(key);
    const x = place.x + a.x - b.x, y = place.y + a.y - b.y, near = Math.min(1, (places.get(membraneKey(to)).r + place.r) / (Math.hypot(x, y) || 1));
    place.x = x * near; place.y = y * near; place.stirred = true;
  };
  for (const [membrane, parent] of process.membranes) if (processBefore.membranes.has(membrane)) carry(membraneKey(membrane), processBefore.membranes.get(membrane), parent);
  for (const [atom, { membrane }] of process.atoms) if (processBefore.atoms.has(atom)) carry(atomKey(atom), processBefore.atoms.get(atom).membrane, membrane);
}

// Places the bodies of one membrane: fresh ones near what they are linked to; then they push each other away, links pull.
function settle(own, bodies, pulls, places) {
  const started = bodies.some(body => !places.get(body).fresh);
  if (started) seat(bodies, pulls, places); else spread(bodies, pulls, places);
  const stirred = started ? stirredOf(bodies, pulls, places) : null;
  relax(bodies.map(body => places.get(body)), pulls.map(([one, other]) => [places.get(one), places.get(other)]), stirred);
  enclose(own, bodies.map(body => places.get(body)));
}

// The bodies that are fresh, that moved or grew, and those that are at most three links away.
function stirredOf(bodies, pulls, places) {
  const stirred = new Set(bodies.filter(body => places.get(body).fresh || places.get(body).stirred));
  for (let links = 0; links < 3; links++) {
    const known = new Set(stirred);
    for (const [one, other] of pulls) { if (known.has(one)) stirred.add(other); if (known.has(other)) stirred.add(one); }
  }
  return [...stirred].map(body => places.get(body));
}

// For each body those to which a link pulls it.
function neighboursOf(bodies, pulls) {
  const near = new Map(bodies.map(body => [body, []]));
  for (const [one, other] of pulls) { near.get(one).push(other); near.get(other).push(one); }
  return near;
}

// Bodies that are all fresh begin along a spiral, linked ones behind each other.
function spread(bodies, pulls, places) {
  const near = neighboursOf(bodies, pulls), order = [], seen = new Set();
  for (const body of bodies) {
    const todo = [body];
    while (todo.length) { const next = todo.pop(); if (!seen.has(next)) { seen.add(next); order.push(next); todo.push(...near.get(next)); } }
  }
  const step = 2 * Math.max(18, ...bodies.map(body => places.get(body).r * 0.7));
  let angle = 0;
  for (const body of order) {
    const radius = step * angle / (2 * Math.PI), place = places.get(body);
    place.x = radius * Math.cos(angle); place.y = radius * Math.sin(angle);
    angle += Math.min(1.2, step / Math.max(radius, step / 3));
  }
}

// Fresh bodies among others begin at the middle of what they are linked to.
function seat(bodies, pulls, places) {
  const near = neighboursOf(bodies, pulls);
  const waiting = bodies.filter(body => places.get(body).fresh), seated = new Set(bodies.filter(body => !places.get(body).fresh));
  let count = 0;
  for (const body of [...waiting, ...waiting]) {
    if (seated.has(body)) continue;
    const known = near.get(body).filter(other => seated.has(other)).map(other => places.get(other));
    if (!known.length && count++ < waiting.length) continue;
    const place = places.get(body), turn = 2.4 * (count + seated.size);
    place.x = mean(known.map(at => at.x)) + 16 * Math.cos(turn);
    place.y = mean(known.map(at => at.y)) + 16 * Math.sin(turn);
    seated.add(body);
  }
}

const mean = numbers => numbers.length ? numbers.reduce((sum, number) => sum + number, 0) / numbers.length : 0;

// Bodies that touch push each other away, and links pull. With `stirred` the others move less, and nothing moves for nothing.
function relax(bodies, pulls, stirred) {
  if (stirred && !stirred.length) return;
  const moving = stirred || bodies, isMoving = new Set(moving);
  const rounds = stirred ? 14 : Math.max(8, Math.min(200, Math.floor(4e7 / (bodies.length * bodies.length + 1))));
  const room = 1.25 * Math.sqrt(bodies.reduce((sum, { r }) => sum + (r + GAP) ** 2, 0));
  for (let round = 0; round < rounds; round++) {
    const step = stirred ? 0.4 : 0.5 * (1 - round / rounds) + 0.05;
    for (let i = 0; i < moving.length; i++)
      for (let j = stirred ? 0 : i + 1; j < bodies.length; j++) if (bodies[j] !== moving[i]) push(moving[i], bodies[j], step, isMoving);
    for (const [one, other] of pulls) pull(one, other, step, isMoving);
    for (const body of bodies) gather(body, stirred ? room : 0, step);
  }
  if (stirred && bodies.length <= MOST_PARTED) separate(bodies);
}

// Bodies that lie on each other part.
function separate(bodies) {
  for (let round = 0; round < 4; round++) {
    let touched = false;
    for (let i = 0; i < bodies.length; i++)
      for (let j = i + 1; j < bodies.length; j++) touched = moveApart(bodies[i], bodies[j]) || touched;
    if (!touched) return;
  }
}

function moveApart(one, other) {
  const dx = other.x - one.x, dy = other.y - one.y, wanted = one.r + other.r + 3;
  if (dx >= wanted || -dx >= wanted || dy >= wanted || -dy >= wanted) return false;
  const distance = Math.sqrt(dx * dx + dy * dy) || 0.01;
  if (distance >= wanted) return false;
  const force = (wanted - distance) / distance / 2;
  one.x -= dx * force; one.y -= dy * force;
  other.x += dx * force; other.y += dy * force;
  return true;
}

// A body that is further from the middle than there must be room is drawn to the middle.
function gather(body, room, step) {
  if (body.x * body.x + body.y * body.y <= room * room) return;
  body.x *= 1 - 0.05 * step; body.y *= 1 - 0.05 * step;
}

function push(one, other, step, isMoving) {
  const dx = other.x - one.x, dy = other.y - one.y, wanted = one.r + other.r + GAP, square = dx * dx + dy * dy;
  if (square >= wanted * wanted) return;
  const distance = Math.sqrt(square) || 0.01;
  shift(one, other, dx || 0.01, dy, step * (wanted - distance) / distance / 2, isMoving);
}

function pull(one, other, step, isMoving) {
  const dx = other.x - one.x, dy = other.y - one.y, distance = Math.hypot(dx, dy) || 0.01;
  shift(one, other, dx, dy, -step * 0.3 * Math.max(0, distance - one.r - other.r - LINK) / distance, isMoving);
}

function shift(one, other, dx, dy, force, isMoving) {
  const a = isMoving.has(one) ? 1 : 0.3, b = isMoving.has(other) ? 1 : 0.3;
  one.x -= a * dx * force; one.y -= a * dy * force;
  other.x += b * dx * force; other.y += b * dy * force;
}

// The membrane's circle goes around its bodies, which stay where they are on the picture.
function enclose(own, bodies) {
  if (!bodies.length) { own.stirred = own.r !== 20; own.r = 20; return; }
  let left = Infinity, right = -Infinity, top = Infinity, bottom = -Infinity;
  for (const { x, y, r } of bodies) { left = Math.min(left, x - r); right = Math.max(right, x + r); top = Math.min(top, y - r); bottom = Math.max(bottom, y + r); }
  const x = (left + right) / 2, y = (top + bottom) / 2, was = own.r;
  for (const body of bodies) { body.x -= x; body.y -= y; }
  own.x += x; own.y += y;
  own.r = Math.max(20, ...bodies.map(body => Math.hypot(body.x, body.y) + body.r + PADDING));
  own.stirred = own.stirred || own.r > was + 1 || Math.hypot(x, y) > 1;
}

// ---- Drawing.

function svg(tag, attributes, text) {
  const element = document.createElementNS('http://www.w3.org/2000/svg', tag);
  for (const name in attributes) element.setAttribute(name, attributes[name]);
  if (text !== undefined) element.textContent = text;
  return element;
}

const view = { left: -150, right: 150, top: -100, bottom: 100 };

// The view only grows, so that what stays doesn't move when other things come.
function widenView(x, y, r) {
  view.left = Math.min(view.left, x - r); view.right = Math.max(view.right, x + r);
  view.top = Math.min(view.top, y - r); view.bottom = Math.max(view.bottom, y + r);
}

// Where each body is on the picture.
function spotsOf(process, places) {
  const spots = new Map();
  const spot = membrane => {
    const key = membraneKey(membrane);
    if (!spots.has(key)) {
      const parent = process.membranes.get(membrane), outer = parent < 0 ? { x: 0, y: 0 } : spot(parent), own = places.get(key);
      spots.set(key, { x: outer.x + own.x, y: outer.y + own.y, r: own.r });
    }
    return spots.get(key);
  };
  for (const membrane of process.membranes.keys()) spot(membrane);
  for (const [atom, { membrane }] of process.atoms) { const own = places.get(atomKey(atom)), outer = spot(membrane); spots.set(atomKey(atom), { x: outer.x + own.x, y: outer.y + own.y, w: own.w, h: own.h, r: own.r }); }
  return spots;
}

// Where a line from the middle of an atom's box, in a direction, leaves the box.
function edgeOf(spot, ux, uy) {
  const reach = Math.min(spot.w / 2 / (Math.abs(ux) || 1e-9), spot.h / 2 / (Math.abs(uy) || 1e-9));
  return { x: spot.x + ux * reach, y: spot.y + uy * reach };
}

// How far a link bends aside, so that it doesn't run behind an atom which it doesn't join.
function bendOf(spots, process, one, other, from, to) {
  if (process.atoms.size > MOST_PARTED) return 0;
  const x = to.x - from.x, y = to.y - from.y, length = Math.hypot(x, y);
  if (length < 1) return 0;
  let bend = 0;
  for (const atom of process.atoms.keys()) {
    if (atom === one || atom === other) continue;
    const spot = spots.get(atomKey(atom)), along = ((spot.x - from.x) * x + (spot.y - from.y) * y) / length;
    const aside = ((spot.y - from.y) * x - (spot.x - from.x) * y) / length, reach = spot.h / 2 + (spot.w - spot.h) / 2 * Math.abs(y) / length;
    if (along < -spot.w / 2 || along > length + spot.w / 2 || Math.abs(aside) > reach) continue;
    const wanted = 2 * (aside > 0 ? aside - reach - GAP : aside + reach + GAP);
    if (Math.abs(wanted) > Math.abs(bend)) bend = wanted;
  }
  return bend;
}

function drawLink(picture, spots, process, [one, port, other, there]) {
  const a = spots.get(atomKey(one)), b = spots.get(atomKey(other));
  const distance = Math.hypot(b.x - a.x, b.y - a.y) || 1, ux = (b.x - a.x) / distance, uy = (b.y - a.y) / distance;
  if (one === other) {
    picture.append(svg('ellipse', { cx: a.x, cy: a.y - 14, rx: 9, ry: 9, fill: 'none', stroke: '#888' }));
    return;
  }
  const from = edgeOf(a, ux, uy), to = edgeOf(b, -ux, -uy), bend = bendOf(spots, process, one, other, from, to);
  const x = (from.x + to.x) / 2 - uy * bend, y = (from.y + to.y) / 2 + ux * bend;
  picture.append(svg('path', { d: `M${from.x} ${from.y}Q${x} ${y} ${to.x} ${to.y}`, class: 'link' }));
  const mark = (at, x, y, number) => picture.append(svg('text', { x: at.x + x * 6 - y * 5, y: at.y + y * 6 + x * 5, class: 'port' }, number + 1));
  if (process.atoms.get(one).ports > 1) mark(from, ux, uy, port);
  if (process.atoms.get(other).ports > 1) mark(to, -ux, -uy, there);
}

function drawAtom(picture, spot, atom, classes) {
  const group = svg('g', { class: ['atom', ...classes].join(' ') });
  const lines = linesOf(atom.name);
  group.append(svg('rect', { x: spot.x - spot.w / 2, y: spot.y - spot.h / 2, width: spot.w, height: spot.h, rx: 8 }));
  lines.forEach((line, number) => group.append(svg('text', { x: spot.x, y: spot.y + 14 * (number - (lines.length - 1) / 2) }, line)));
  group.append(svg('title', {}, `${atom.name} with ${atom.ports} link${atom.ports === 1 ? '' : 's'}`));
  picture.append(group);
}

const isHit = (atom, sought) => sought !== '' && atom.name.includes(sought);

function show(firings) {
  const process = processAfter(firings), places = pictureAfter(firings), spots = spotsOf(process, places), picture = byId('picture');
  const before = firings ? processAfter(firings - 1) : null, next = trace.firings[firings + 1], going = new Set(next && next.gone || []);
  const sought = byId('find').value.trim();
  const { x, y, r } = spots.get(membraneKey(0));
  widenView(x, y, r);
  picture.setAttribute('viewBox', `${view.left} ${view.top} ${view.right - view.left} ${view.bottom - view.top}`);
  picture.replaceChildren();
  for (const [membrane, parent] of process.membranes)
    if (parent >= 0) { const at = spots.get(membraneKey(membrane)); picture.append(svg('circle', { cx: at.x, cy: at.y, r: at.r, class: 'membrane' })); }
  for (const link of linksOf(process)) drawLink(picture, spots, process, link);
  let hits = 0;
  for (const [number, atom] of process.atoms) {
    const hit = isHit(atom, sought);
    hits += hit;
    drawAtom(picture, spots.get(atomKey(number)), atom, [before && !before.atoms.has(number) ? 'came' : '', going.has(number) ? 'going' : '', hit ? 'hit' : '']);
  }
  byId('found').textContent = sought === '' ? '' : `${hits} here`;
  showRules(process, firings);
  showCounts(process);
  byId('at').value = firings;
}

// How many atoms there are of each functor. Where terms stand in one piece these are told with the firing.
function countsOf(process) {
  const functor = (name, ports) => `${/^(-?\d+|[a-z]\w*)$|\(/.test(name) ? name : `'${name.replaceAll("'", "''")}'`}/${ports}`;
  if (process.counts) return process.counts.map(([name, count]) => [functor(...trace.names[name]), count]);
  const counts = new Map();
  for (const { name, ports } of process.atoms.values()) counts.set(functor(name, ports), (counts.get(functor(name, ports)) || 0) + 1);
  return [...counts].sort(([, one], [, other]) => other - one);
}

function showCounts(process) {
  byId('counts').replaceChildren(...countsOf(process).map(([functor, count]) => {
    const line = document.createElement('div');
    line.textContent = `${count}  ${functor}`;
    return line;
  }));
}

function showRules(process, firings) {
  const present = new Set([...process.rules.values()].flat()), fired = trace.firings[firings].by || [], next = (trace.firings[firings + 1] || {}).by || [];
  byId('rules').replaceChildren(...trace.rules.map((text, number) => {
    const line = document.createElement('div');
    line.textContent = `${number + 1}  ${text}`;
    line.className = next.includes(number) ? 'next' : fired.includes(number) ? 'fired' : present.has(number) ? '' : 'absent';
    return line;
  }));
  const label = numbers => numbers.length ? ', by ' + numbers.map(number => trace.labels[number]).join(' or ') : '';
  const last = firings === trace.firings.length - 1;
  const all = trace.firings.length - 1;
  byId('say').textContent = (firings ? `firing ${firings} of ${all}${label(fired)}` : all ? `before firing 1 of ${all}` : 'no firing') + (last ? `: ${trace.end}` : '');
}

// ---- Moving about.

const go = firings => show(Math.max(0, Math.min(trace.firings.length - 1, firings)));
const here = () => +byId('at').value;

function goToNextHit() {
  const sought = byId('find').value.trim();
  for (let n = here() + 1; n < trace.firings.length; n++)
    for (const atom of processAfter(n).atoms.values()) if (isHit(atom, sought)) return go(n);
}

// Places all bodies again, as if this were the first process; what comes later is placed from here.
function drawAnew() {
  const firings = here();
  pictures.length = firings;
  pictures[firings] = placed(processAfter(firings), null, null);
  Object.assign(view, { left: -150, right: 150, top: -100, bottom: 100 });
  show(firings);
}

byId('anew').onclick = drawAnew;
byId('at').max = trace.firings.length - 1;
byId('at').oninput = () => go(here());
byId('back').onclick = () => go(here() - 1);
byId('on').onclick = () => go(here() + 1);
byId('find').oninput = () => go(here());
document.onkeydown = event => {
  if (event.target === byId('find')) { if (event.key === 'Enter') goToNextHit(); return; }
  const step = { ArrowLeft: -1, ArrowRight: 1, PageUp: 10, PageDown: -10 }[event.key];
  if (event.key === 'Home') go(0); else if (event.key === 'End') go(trace.firings.length - 1); else if (step) go(here() + step); else return;
  event.preventDefault();
};
go(+location.hash.slice(1) || 0);
document.documentElement.dataset.shown = Math.round(performance.now());
