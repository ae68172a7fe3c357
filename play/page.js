"use strict";
const $ = id => document.getElementById(id), counted = (count, what) => `${count.toLocaleString("en")} ${what}${count === 1 ? "" : "s"}`;
const fail = message => { throw new Error(message); };
addEventListener("error", ({ message: it }) => { $("view").textContent = `${it}. The page needs WebAssembly with 64-bit memories, as in Chromium and Firefox.`; });
// The library, a WebAssembly module with a 64-bit memory ----------------------------------------------------------------------
const library = new WebAssembly.Instance(new WebAssembly.Module(Uint8Array.from(atob(MODULE), it => it.charCodeAt(0)))).exports;
const allocate = size => library.page_alloc(BigInt(size)) || fail("The page is out of memory.");
// A tree of the library, in the module's memory. Its lines and replies are those of docs/ARTRUN.md.
class Tree {
  room = 0; at = allocate(library.vokujin_tree_size());
  constructor() { library.vokujin_tree_new(this.at); }
  clear() { library.vokujin_tree_clear(this.at); }
  // Returns the replies to a text of lines, and the status. The reply to a line that changes the tree has at most six bytes for
  // each of its bytes, and 300 more. Where the buffer is too short for the replies to other lines, they are asked again.
  answer(text) {
    const room = Math.max(this.room, 6 * text.length + 300 * (1 + text.filter(it => it === 10).length));
    const at = allocate(8 + text.length + room), from = at + 8n, to = from + BigInt(text.length);
    new Uint8Array(library.memory.buffer).set(text, Number(from));
    const status = library.vokujin_tree_answer(this.at, from, BigInt(text.length), to, BigInt(room), at);
    const length = status === 1 ? 0 : Number(new BigUint64Array(library.memory.buffer, Number(at), 1)[0]);
    const replies = new Uint8Array(library.memory.buffer, Number(to), status === 3 ? 0 : length).slice();
    library.page_free(at);
    if (status !== 3) return [replies, status];
    this.room = 2 * length;
    return this.answer(text);
  }
  ask(lines) {
    const [replies, status] = this.answer(new TextEncoder().encode(lines.map(it => it + "\n").join("")));
    if (status !== 0) fail(status === 1 ? "The library is out of memory." : "The library does not know this line.");
    return new TextDecoder().decode(replies).split("\n").slice(0, -1);
  }
}
// Kinds of keys ---------------------------------------------------------------------------------------------------------------
const number = (text, most, what) => /^\d+$/.test(text) && Number(text) <= most ? Number(text)
  : fail(`“${text}” is not ${what}: a number from 0 to ${most}.`);
// The version 4, and then the bits of a network's prefix, each as 1 or 2, as the program route_table has them.
function network(text) {
  const [address, length = "32"] = text.split("/"), parts = address.split("."), count = number(length, 32, "the length of a prefix");
  if (parts.length !== 4) fail(`“${text}” is neither an address, such as 10.1.2.3, nor a network, such as 10.1.0.0/16.`);
  const bits = parts.map(it => number(it, 255, "a part of an address").toString(2).padStart(8, "0")).join("");
  if (bits.includes("1", count)) fail(`“${text}” is not a network: a bit after the first ${count} is set.`);
  return [4, ...[...bits.slice(0, count)].map(it => 1 + Number(it))];
}
// For each kind the bytes of a text, how a byte is shown, and whether an end mark, a zero, ends a key.
const kinds = {
  words: { bytes: text => [...new TextEncoder().encode(text)], ends: true,
    show: byte => byte > 32 && byte < 127 ? String.fromCharCode(byte) : byte ? `·${byte}` : "∎" },
  bytes: { bytes: text => text ? text.split(".").map(it => number(it, 255, "a byte")) : [], show: byte => `${byte} ` },
  numbers: { bytes: text => [24, 16, 8, 0].map(bit => number(text, 2 ** 32 - 1, "a number of four bytes") >>> bit & 255), show: byte => `${byte} ` },
  addresses: { bytes: network, ends: true, show: byte => ["∎", "0", "1"][byte] ?? "v4 " },
};
const LONGEST = 200, texts = new Map(), kind = () => kinds[$("kind").value], name_of = key => `${$("kind").value} ${key.join(".")}`;
const show = key => texts.get(name_of(key)) || "(empty)", line = (call, key, ...more) => [call, key.join(".") || "-", ...more].join(" ");
// The key that a text stands for. The text is kept, to show the key by it.
function key_of(text) {
  const key = [...kind().bytes(text), ...(kind().ends ? [0] : [])];
  if (key.length > LONGEST) fail(`This key is too long: it has ${key.length} bytes, and the page takes at most ${LONGEST}.`);
  texts.set(name_of(key), text);
  return key;
}
// Whether bytes are a prefix of a key; a text for a key, so that texts are ordered as keys are.
const is_prefix = (start, key) => start.every((it, at) => key[at] === it), ordered = key => String.fromCharCode(...key);
// The nodes of the tree, as the library lists them: a line each, indented by two spaces for each inner node above it ----------
const NODE = /^( *)(\*|\d+): (?:Leaf (\S+)=(\d+)|Node(\d+) prefix (\d+) stored (\S+) children (\d+))$/;
function read_nodes(lines) {
  const above = [], leaves = [], inner = [], listed = text => text === "-" ? [] : text.split(".").map(Number);
  for (const [, indent, byte, key, value, kind, prefix, stored, count] of lines.map(it => NODE.exec(it)).filter(it => it)) {
    const level = indent.length / 2, node = { level, byte: byte === "*" ? null : Number(byte), below: [], above: above[level - 1] };
    Object.assign(node, key ? { key: listed(key), value } : { kind: +kind, prefix: +prefix, stored: listed(stored), count: +count });
    (key ? leaves : inner).push(node);
    node.above?.below.push(node);
    above[level] = node;
  }
  if (above[0]) name_nodes(above[0], 0);
  leaves.forEach((it, at) => Object.assign(it, { before: leaves[at - 1], after: leaves[at + 1] }));
  return { root: above[0], leaves, inner, contents: new Map([...leaves, ...inner].map(it => [it.id, content_of(it)])) };
}
// A leaf is named by its key, an inner node by its kind and what all keys below it share: nodes that a call keeps have one name.
function name_nodes(node, from) {
  if (node.key) return Object.assign(node, { keys: 1, id: node.key.join("."), some: node.key });
  const to = from + node.prefix, all = node.below.map(it => name_nodes(it, to + 1)), some = all[0].some;
  return Object.assign(node, { keys: all.reduce((sum, it) => sum + it.keys, 0), id: `${node.kind}: ${some.slice(0, to).join(".")}`, some });
}
// A leaf stores its value and its neighbours, an inner node its prefix and its children. By that one counts what a call placed, freed and changed.
const content_of = node => String(node.key ? [node.value, node.before?.id, node.after?.id]
  : [node.prefix, node.stored, ...node.below.map(it => [it.byte, it.id])]);
function touched(old, now) {
  const only_in = (some, others) => [...some.keys()].filter(it => !others.has(it)).length;
  return [only_in(now, old), only_in(old, now), [...now].filter(([id, it]) => old.has(id) && old.get(id) !== it).length];
}
// The nodes that a lookup of a key reads, from this one on, which stands at this place of the key.
function path(key, node = tree.root, at = 0) {
  if (!node || node.key || !is_prefix(node.stored, key.slice(at))) return node ? [node] : [];
  return [node, ...path(key, node.below.find(it => it.byte === key[at + node.prefix]) ?? null, at + node.prefix + 1)];
}
// What a person asks: a call returns the library's replies, the script's remarks, what to light, nodes read and their bound ---
const stored = new Tree(), unused = library.page_used(), split = text => text.trim() ? text.trim().split(/[\s,]+/) : [""];
// The tree, what is lit in it, the lines that lead to it from none, what was asked, and how many of these steps are done.
let tree = read_nodes([]), lit = new Set(), lines = [], steps = [], done = 0;
function ask(more) {
  const replies = stored.ask([...more, "check", "nodes"]);
  tree = { ...read_nodes(replies.slice(more.length + 1)), check: replies[more.length] };
  return replies.slice(0, more.length);
}
const change = more => { lines = [...lines, ...more]; return ask(more); };
function insert(keys) {
  const replies = change(keys.map((it, at) => line("insert", it, lines.length + at + 1))), bad = keys.filter((_, at) => replies[at].startsWith("conflict"));
  const other = key => tree.leaves.find(it => is_prefix(it.key, key) || is_prefix(key, it.key)).key;
  const said = bad.map(it => `${show(it)} conflicts with the stored key ${show(other(it))}: one of the two is a prefix of the other.`);
  return { replies, said, is_bad: bad.length > 0, ...keys.length > 1 ? {} : { is_one: true, nodes: path(keys[0]) } };
}
const between = (from, to) => key => from <= ordered(key) && ordered(key) <= to;
// Selects the leaves for whose keys this holds, and all nodes above them.
function select(holds) {
  ask([]);
  const leaves = tree.leaves.filter(it => holds(it.key)), nodes = new Set(), some = leaves.slice(0, 50).map(it => show(it.key)).join(", ");
  for (const leaf of leaves) for (let it = leaf; it && !nodes.has(it); it = it.above) nodes.add(it);
  return { said: [`${counted(leaves.length, "key")}${some && ": "}${some}${leaves.length > 50 ? " …" : ""}`], nodes: [...nodes] };
}
const calls = {
  insert: text => insert(split(text).map(key_of)),
  remove(text) {
    const keys = split(text).map(key_of), read = path(keys[0]), replies = change(keys.map(it => line("delete", it)));
    return keys.length > 1 ? { replies } : { replies, is_one: true, read: [read.length, keys[0].length + 1], nodes: path(keys[0]) };
  },
  find: (text, key = key_of(text.trim()), nodes = path(key)) => ({ replies: ask([line("find", key)]), nodes, read: [nodes.length, key.length + 1] }),
  // A key with an end mark is no prefix of another one: the prefixes, each with an end mark, are looked up, the longest first.
  longest(text) {
    const key = key_of(text.trim()), ends = kind().ends, all = ends ? key.map((_, at) => [...key.slice(0, key.length - 1 - at), 0]) : [key];
    const replies = ask(all.map(it => line(ends ? "find" : "longest", it))), at = replies.findIndex(it => /^(yes|match)/.test(it));
    if (at < 0) return { replies, said: ["No stored key is a prefix of it."], nodes: path(key) };
    const found = ends ? all[at] : key.slice(0, Number(replies[at].split(" ")[1]));
    return { replies: replies.slice(0, at + 1), said: [`The longest stored key that is a prefix of it: ${show(found)}`], nodes: path(found) };
  },
  prefix: (text, start = kind().bytes(text.trim())) => select(it => is_prefix(start, it)),
  range: (...bounds) => select(between(...bounds.map(it => ordered(key_of(it.trim()))))),
  clear() {
    stored.clear();
    return { replies: ask(lines = []), said: ["The tree is empty."] };
  },
  // A link has a list of keys, and their kind in front where they are not words.
  load(link, sought) {
    const [, name = "words", keys] = /^#(?:(\w+):)?(.*)$/.exec(link);
    calls.clear(), chosen.clear();
    $("kind").value = Object.hasOwn(kinds, name) ? name : "words";
    const told = insert(keys.split(",").map(it => key_of(decodeURIComponent(it))));
    return { ...told, is_one: false, ...sought ? { ...calls.find(sought), replies: told.replies, said: [`Lit: what a lookup of ${sought} reads.`] } : {} };
  },
};
// What was done. A step back clears the tree and repeats the lines that lead to the step --------------------------------------
function perform(call, ...inputs) {
  steps.splice(done, Infinity, { call, inputs, kind: $("kind").value, before: lines });
  run(steps[done++]);
}
const go = to => { stored.clear(); ask(lines = steps[to - 1].before); run(steps[(done = to) - 1]); };
function run(step) {
  const old = tree.contents;
  let told;
  $("kind").value = step.kind;
  try { told = calls[step.call](...step.inputs); } catch (error) { told = { said: [error.message], is_bad: true }; }
  lit = new Set(told.nodes?.map(it => it.id));
  step.entry = entry_of(step, told);
  [$("now").innerHTML, $("before").innerHTML] = [step.entry, steps.slice(0, steps.indexOf(step)).map(it => it.entry).reverse().join("")];
  report(told.read ?? [], told.is_one ? touched(old, tree.contents) : []);
  [$("back").disabled, $("forward").disabled] = [steps[0] === step, steps.at(-1) === step];
  draw();
}
function entry_of(step, { replies = [], said = [], is_bad }) {
  const row = (kind, text) => `<span class="${kind}">${safe(text)}</span>`, times = it => replies.filter(other => other === it).length;
  const rows = [...[...new Set(replies)].map(it => row("", times(it) > 1 ? `${it} × ${times(it)}` : it)), ...said.map(it => row(is_bad ? "bad" : "said", it))];
  return `<div><b>${safe(cut([step.call, ...step.inputs].join(" "), 60))}</b>${rows.join("")}</div>`;
}
function report([read, most], [placed, freed, changed]) {
  const kinds = [4, 16, 48, 256].map(kind => [tree.inner.filter(it => it.kind === kind).length, kind]).filter(it => it[0]);
  const told = { read, most, placed, freed, changed, keys: counted(tree.leaves.length, "key"), check: tree.check,
    inner: counted(tree.inner.length, "inner node") + (kinds.length ? ": " : "") + kinds.map(it => `${it[0]} × Node${it[1]}`).join(", "),
    bytes: counted(Number(library.page_used() - unused), "byte") };
  for (const [id, text] of Object.entries(told)) $(id).textContent = text ?? "–";
  const keys = [...tree.leaves].sort((a, b) => a.value - b.value).map(it => encodeURIComponent(texts.get(name_of(it.key)))).join(",");
  $("link").href = keys.length < 32000 ? `#${$("kind").value === "words" ? "" : `${$("kind").value}:`}${keys}` : "#";
  history.replaceState(null, "", $("link").href);
}
// The picture -----------------------------------------------------------------------------------------------------------------
const TOP = 22, ROW = 96, BOX = 46, GAP = 26, MOST = 60, chosen = new Map(), view = $("view");
let scale = 1, zoom = null, whole = 1, shown = new Map();
const safe = text => text.replace(/[&<>"]/g, it => `&#${it.charCodeAt(0)};`), cut = (text, most) => text.length > most ? `${text.slice(0, most - 1)}…` : text;
const text = (x, y, words, kind, anchor = "middle") => words && `<text x="${x}" y="${y}" class="${kind}" text-anchor="${anchor}">${safe(words)}</text>`;
const rect = (kind, x, y, width, height, round) => `<rect class="${kind}" x="${x}" y="${y}" width="${width}" height="${height}" rx="${round}"/>`;
const curve = (kind, ...steps) => `<path class="${kind}" d="${steps.join(" ")}"/>`, is_lit = it => lit.has(it.id);
const width_of = text => [...text].reduce((sum, it) => sum + (it > "\u1100" ? 15 : 8), 0);
// In a tree of many keys all below the root is folded at first, but for what is lit.
const folds_first = node => tree.leaves.length > MOST && node.level > 0 && !(lit.size <= MOST && is_lit(node));
const is_folded = node => node.kind > 0 && (chosen.get(node.id) ?? folds_first(node));
const below = node => is_folded(node) ? [] : node.below, unfolded = node => [node, ...below(node).flatMap(unfolded)];
function measure(node) {
  const more = node.prefix - node.stored?.length, words = node.key ? show(node.key) : node.stored.map(kind().show).join("").trim();
  node.words = cut(words, 30) + (more > 0 ? ` +${more}` : "");
  node.width = Math.max(node.key ? 34 : node.kind > 48 ? 132 : 116, width_of(node.words) + (node.key ? 20 : 56));
  below(node).forEach(measure);
  node.across = below(node).reduce((sum, it) => sum + it.span + GAP, -GAP);
  node.span = Math.max(node.width + 6, node.across);
}
function place(node, left, base) {
  let at = left + (node.span - node.across) / 2;
  for (const it of below(node)) { place(it, at, base); at += it.span + GAP; }
  const all = below(node), middle = all.length ? (all[0].x + all.at(-1).x) / 2 : left + node.span / 2;
  node.x = Math.max(left + node.width / 2, Math.min(left + node.span - node.width / 2, middle));
  [node.top, node.y] = [TOP + node.level * ROW, node.key ? base : TOP + node.level * ROW];
}
const edge = it => curve(is_lit(it) && is_lit(it.above) ? "lit" : "", "M", it.above.x, it.above.y + BOX,
  "C", it.above.x, it.above.y + BOX + 24, it.x, it.top - 34, it.x, it.top - 12, "V", it.y);
function arrow(leaf, next) {
  const from = leaf.x + leaf.width / 2 + 3, to = next.x - next.width / 2 - 3, y = leaf.y + 20, ends = ["m-5-4l5 4l-5 4M", from + 5, y - 4, "l-5 4l5 4"];
  return leaf.after === next ? curve("list", "M", from, y, "H", to, ...ends) : curve("list gap", "M", from, y, "H", to);
}
function box(node) {
  const { width, words, kind: room, count, above } = node, x = -width / 2, on = is_lit(node) ? "lit" : "", keys = counted(node.keys, "key");
  const byte = above ? kind().show(node.byte).trim() : "", parts = [text(0, node.top - node.y - 9, byte, `byte ${on}`)];
  const label = room ? `Node${room}, prefix ${words || "empty"}, ${count} of ${room} children, ${keys} below` : `leaf ${show(node.key)}, value ${node.value}`;
  if (node.key) parts.push(rect(`leaf ${on}`, x, 0, width, 40, 18), text(0, 18, words, "mono"), text(0, 32, node.value, "dim"));
  else parts.push(rect(`k${room} ${on}`, x, 0, width, BOX, 5), text(x + 9, 16, `Node${room}`, "", "start"), text(-x - 9, 16, `${count}/${room}`, "dim", "end"),
    text(x + 9, 32, words ? "prefix" : "no prefix", "dim", "start"), text(x + 46, 32, words, "mono", "start"),
    rect("room", x + 9, 38, width - 18, 3.5, 1.5), rect("used", x + 9, 38, (width - 18) * count / room, 3.5, 1.5));
  if (is_folded(node)) parts.push(text(0, BOX + 16, `▸ ${keys}`, "dim"));
  return `<g class="node" transform="translate(${node.x} ${node.y})" data-id="${node.id}" role="treeitem" tabindex="${above ? -1 : 0}" aria-level="${node.level + 1}" \
${room ? `aria-expanded="${!is_folded(node)}"` : ""} aria-label="${safe(byte && `byte ${byte}, `)}${safe(label)}">${parts.join("")}</g>`;
}
// Draws the tree, with this place or what is lit in the middle.
function draw(middle) {
  const all = tree.root ? unfolded(tree.root) : [], leaves = all.filter(it => it.key), base = TOP + ROW * Math.max(0, ...all.map(it => it.kind ? it.level + 1 : 0));
  shown = new Map(all.map(it => [it.id, it]));
  if (!all.length) { view.innerHTML = `<p class="dim">No key is stored. Insert one, or choose an example.</p>`; return; }
  measure(tree.root);
  place(tree.root, 10, base);
  const width = 20 + tree.root.span, height = base + (leaves.length ? 48 : -22);
  whole = Math.min(1.2, (view.clientWidth - 28) / width, (view.clientHeight - 74) / height);
  scale = zoom ?? Math.max(0.8, whole);
  const edges = all.slice(1).sort((a, b) => is_lit(a) - is_lit(b)).map(edge), arrows = leaves.slice(1).map((it, at) => arrow(leaves[at], it));
  view.innerHTML = `<svg xmlns="http://www.w3.org/2000/svg" viewBox="0 0 ${width} ${height}" width="${width * scale}" height="${height * scale}" \
role="tree" aria-label="The tree">${[...edges, ...arrows, ...all.map(box)].join("\n")}</svg>`;
  const { x, y } = middle ?? all.findLast(is_lit) ?? tree.root;
  view.scrollTo(x * scale - view.clientWidth / 2, y * scale - view.clientHeight / 2);
}
function resize(to) {
  const middle = { x: (view.scrollLeft + view.clientWidth / 2) / scale, y: (view.scrollTop + view.clientHeight / 2) / scale };
  zoom = Math.max(0.005, Math.min(4, to));
  draw(middle);
}
const focus = node => document.querySelector(`[data-id="${node.id}"]`).focus(), fold = node => { chosen.set(node.id, !is_folded(node)); draw(); focus(node); };
// What a person does ----------------------------------------------------------------------------------------------------------
const node_at = event => shown.get(event.target.closest("[data-id]")?.dataset.id);
view.onclick = event => { if (node_at(event)?.kind) fold(node_at(event)); };
view.onkeydown = event => {
  const node = node_at(event), row = [...shown.values()].filter(it => it.y === node?.y), at = row.indexOf(node);
  const next = { ArrowUp: node?.above, ArrowDown: node && below(node)[0], ArrowLeft: row[at - 1], ArrowRight: row[at + 1] }[event.key];
  if (next) focus(next); else if (node?.kind && [" ", "Enter"].includes(event.key)) fold(node); else return;
  event.preventDefault();
};
$("zoom").onclick = ({ target: { id, dataset: { by, folds } } }) => {
  for (const it of folds ? tree.inner.filter(it => it.level > 0) : []) chosen.set(it.id, folds === "true");
  resize(by ? scale * Number(by) : id === "whole" ? whole : scale);
};
$("form").onsubmit = event => {
  event.preventDefault();
  const call = document.activeElement === $("last") ? "range" : event.submitter.dataset.call;
  perform(call, ...{ clear: [], range: [$("key").value, $("last").value] }[call] ?? [$("key").value]);
};
$("kind").onchange = () => perform("clear");
[$("back").onclick, $("forward").onclick] = [() => go(done - 1), () => go(done + 1)];
$("example").onchange = () => perform("load", $("example").value, $("key").value = $("example").selectedOptions[0].dataset.find);
addEventListener("resize", () => draw());
const open_link = () => location.hash.length > 1 ? perform("load", location.hash) : $("example").onchange();
addEventListener("hashchange", open_link), open_link();
