"use strict";
(async () => {

// Data

const VERDICTS = ["Down", "Incomplete", "NoPrimary", "Short", "Waiting", "NeedLog", "NeedUpThru", "Serve", "Unknown"];
const ABSENT = VERDICTS.length, UNKNOWN = 8, SERVE = 7;
const WORDS = {
  Down: "writes may be on devices that are down", Incomplete: "no copy that was heard is complete", NoPrimary: "no device of the acting set is up",
  Short: "too few members to take writes", Waiting: "members have yet to be heard", NeedLog: "a part of the log isn't in the dumps",
  NeedUpThru: "passes with the next map", Serve: "takes writes", Unknown: "no report of that time was kept",
};
const find = (id) => document.getElementById(id);

async function read() {
  const text = atob(find("data").textContent), bytes = new Uint8Array(text.length);
  for (let at = 0; at < text.length; at++) bytes[at] = text.charCodeAt(at);
  const stream = new Blob([bytes]).stream().pipeThrough(new DecompressionStream("gzip"));
  return JSON.parse(await new Response(stream).text());
}

let data;
try {
  data = await read();
} catch (fault) {
  find("loading").textContent = `The page can't be read: ${fault.message}. It needs a browser of 2023 or later.`;
  return;
}
const { first, last, groups, sets } = data;
const count = groups.pool.length;

// Where the spans and runs of each group begin, and the epochs of all, which are kept as differences.
function unpacked(counts, begins) {
  const from = new Int32Array(counts.length + 1);
  for (let at = 0; at < counts.length; at++) from[at + 1] = from[at] + counts[at];
  const epochs = new Int32Array(begins.length);
  for (let group = 0; group < counts.length; group++) {
    let epoch = first;
    for (let at = from[group]; at < from[group + 1]; at++) epochs[at] = epoch += begins[at];
  }
  return { from, epochs };
}
const spans = unpacked(groups.spans, groups.begins);
const runs = unpacked(groups.runs, groups.turns);

// The last of a group's spans or runs that begins no later than the epoch, -1 where none does.
function placeAt({ from, epochs }, group, epoch) {
  let low = from[group], high = from[group + 1];
  while (low < high) {
    const middle = (low + high) >> 1;
    if (epochs[middle] <= epoch) low = middle + 1; else high = middle;
  }
  return low === from[group] ? -1 : low - 1;
}
const verdictAt = (group, epoch) => { const at = placeAt(runs, group, epoch); return at < 0 ? ABSENT : groups.verdicts[at]; };
const actingAt = (group, epoch) => { const at = placeAt(spans, group, epoch); return at < 0 ? null : sets[groups.acting[at]]; };
const nameOf = (group) => `${data.pools[groups.pool[group]].id}.${groups.seed[group].toString(16)}`;
const byName = new Map();
for (let group = 0; group < count; group++) byName.set(nameOf(group), group);

const clocks = new Float64Array(last - first + 1);  // seconds, NaN where no map tells
{ let second = 0; data.clock.forEach((step, at) => { clocks[at] = step === null ? NaN : second += step; }); }
function clockText(epoch) {
  const second = clocks[epoch - first];
  return second === second ? new Date(second * 1000).toISOString().slice(0, 19).replace("T", " ") + " UTC" : "time not kept";
}

// The state of each device by epoch: 0 isn't there, 1 down, 2 up, and 4 more where it is in.
function stateAt(device, epoch) {
  let state = 0;
  for (const [begin, it] of device.runs) { if (begin > epoch) break; state = it; }
  return state;
}
const devices = new Map(data.devices.map((it) => [it.id, it]));
const hostOf = (osd) => { const it = devices.get(osd); return it && it.host >= 0 ? data.hosts[it.host] : ""; };

// Marks

function make(tag, attributes = {}, ...inside) {
  const node = document.createElement(tag);
  return fill(node, attributes, inside);
}
function mark(tag, attributes = {}, ...inside) {
  return fill(document.createElementNS("http://www.w3.org/2000/svg", tag), attributes, inside);
}
function fill(node, attributes, inside) {
  for (const [key, value] of Object.entries(attributes)) {
    if (key.startsWith("on")) node.addEventListener(key.slice(2), value);
    else if (value !== null && value !== undefined && value !== false) node.setAttribute(key, value === true ? "" : value);
  }
  node.append(...inside.filter((it) => it !== null && it !== undefined));
  return node;
}
const counted = (number, noun) => `${number.toLocaleString("en")} ${noun}${number === 1 ? "" : "s"}`;
const chip = (verdict) => make("span", { class: `mark ${VERDICTS[verdict] || "Absent"}` }, VERDICTS[verdict] || "not there yet");
const link = (words, act, label) => make("button", { type: "button", class: "link", onclick: act, "aria-label": label }, words);
const osdLink = (osd) => link(`osd.${osd}`, () => filterBy({ osd: `osd.${osd}` }), `osd.${osd}: show its groups`);
const groupLink = (name) => make("a", { href: `#group=${name}`, "aria-label": `Group ${name}` }, name);

function listed(items, most) {
  const shown = items.slice(0, most), parts = [];
  shown.forEach((it, at) => parts.push(at ? ", " : "", it));
  if (items.length > most) parts.push(` and ${counted(items.length - most, "other")}`);
  return parts;
}

// The state of the page

const kept = { epoch: last, group: -1, page: 0, sort: "verdict", down: false };
const PAGE = 100;
let verdictNow = new Uint8Array(count);

// The cluster by epoch

function countsByEpoch() {
  const width = last - first + 2, steps = VERDICTS.map(() => new Int32Array(width));
  for (let group = 0; group < count; group++) {
    for (let at = runs.from[group]; at < runs.from[group + 1]; at++) {
      const begin = runs.epochs[at] - first, end = at + 1 < runs.from[group + 1] ? runs.epochs[at + 1] - first : width - 1;
      if (groups.verdicts[at] < ABSENT) {
        steps[groups.verdicts[at]][begin]++;
        steps[groups.verdicts[at]][end]--;
      }
    }
  }
  for (const step of steps) for (let at = 1; at < width; at++) step[at] += step[at - 1];
  return steps;
}

// Above, how many groups are known not to serve, against the most that there ever were; below, the share of each verdict.
function drawYears() {
  const byEpoch = countsByEpoch(), wide = last - first + 1, view = 1000, tall = 70, strip = 14;
  const svg = mark("svg", { viewBox: `0 0 ${view} ${tall + strip + 4}`, preserveAspectRatio: "none", "aria-hidden": "true" });
  const troubles = byEpoch.map((_, verdict) => verdict).filter((verdict) => verdict < SERVE);
  const sums = new Int32Array(wide), wholes = new Int32Array(wide);
  for (let at = 0; at < wide; at++) {
    for (const verdict of troubles) sums[at] += byEpoch[verdict][at];
    wholes[at] = sums[at] + byEpoch[SERVE][at] + byEpoch[UNKNOWN][at];
  }
  const most = sums.reduce((a, b) => Math.max(a, b), 0), peak = sums.indexOf(most);
  if (most) stack(svg, byEpoch, troubles, () => most, 0, tall, wide);
  stack(svg, byEpoch, [...troubles, SERVE, UNKNOWN], (at) => Math.max(1, wholes[at]), tall + 4, strip, wide);
  svg.append(mark("line", { id: "here", class: "here", y1: 0, y2: tall + strip + 4, "vector-effect": "non-scaling-stroke" }));
  svg.addEventListener("click", (event) => {
    const box = svg.getBoundingClientRect();
    goTo(first + Math.floor((event.clientX - box.left) / box.width * wide));
  });
  const words = most ? `Groups known not to serve by epoch, at most ${counted(most, "group")} in epoch ` : "No group is known that didn't serve in epochs ";
  find("years").append(svg);
  find("years").setAttribute("aria-label", `${words}${most ? first + peak : `${first} to ${last}`}; below them the share of each verdict`);
  find("peak").replaceChildren(words, most ? link(String(first + peak), () => goTo(first + peak), `epoch ${first + peak}: go there`) : `${first} to ${last}`,
    ". Below them the share of each verdict.");
}

// One path for each verdict, one above the other, as high as its part of the whole.
function stack(svg, byEpoch, verdicts, whole, top, tall, wide) {
  const floor = new Float64Array(wide), x = (at) => (1000 * at / wide).toFixed(2);
  for (const verdict of verdicts) {
    const step = byEpoch[verdict], ups = [], downs = [];
    let from = 0;
    const put = (to) => {
      const low = top + tall * (1 - floor[from] / whole(from)), high = top + tall * (1 - (floor[from] + step[from]) / whole(from));
      ups.push(`${x(from)},${high.toFixed(1)} ${x(to)},${high.toFixed(1)}`);
      downs.push(`${x(to)},${low.toFixed(1)} ${x(from)},${low.toFixed(1)}`);
      from = to;
    };
    if (!step.some((it) => it > 0)) continue;
    for (let at = 1; at < wide; at++) if (step[at] !== step[at - 1] || floor[at] !== floor[at - 1] || whole(at) !== whole(at - 1)) put(at);
    put(wide);
    for (let at = 0; at < wide; at++) floor[at] += step[at];
    svg.append(mark("path", { d: `M${ups.join(" L")} L${downs.reverse().join(" L")}Z`, class: VERDICTS[verdict] }));
  }
}

// The epochs in which a verdict or a device changed.
let changes = null;
function changedEpochs() {
  if (changes) return changes;
  const found = new Set([first, last]);
  for (const epoch of runs.epochs) found.add(epoch);
  for (const device of data.devices) for (const [epoch] of device.runs) found.add(epoch);
  return changes = [...found].filter((it) => it >= first && it <= last).sort((a, b) => a - b);
}

function goTo(epoch, isQuiet) {
  if (!Number.isFinite(epoch)) return;
  kept.epoch = Math.min(last, Math.max(first, Math.round(epoch)));
  showEpoch();
  if (!isQuiet) keepAddress();
}

function showEpoch() {
  const epoch = kept.epoch;
  find("slider").value = epoch;
  find("epoch").value = epoch;
  find("slider").setAttribute("aria-valuetext", `Epoch ${epoch}, ${clockText(epoch)}`);
  find("clock").textContent = clockText(epoch);
  const second = clocks[epoch - first];
  if (second === second) find("clock").setAttribute("datetime", new Date(second * 1000).toISOString()); else find("clock").removeAttribute("datetime");
  const here = 1000 * (epoch - first + 0.5) / (last - first + 1);
  find("here").setAttribute("x1", here);
  find("here").setAttribute("x2", here);
  for (let group = 0; group < count; group++) verdictNow[group] = verdictAt(group, epoch);
  showCounts();
  showDevices();
  showRows();
}

function showCounts() {
  const sums = new Int32Array(ABSENT + 1);
  for (const verdict of verdictNow) sums[verdict]++;
  const rows = VERDICTS.map((name, verdict) => {
    if (!sums[verdict]) return null;
    const bar = mark("svg", { viewBox: "0 0 100 10", preserveAspectRatio: "none", "aria-hidden": "true" },
      mark("rect", { class: name, width: 100 * sums[verdict] / Math.max(1, count), height: 10 }));
    return make("tr", {}, make("th", { scope: "row" }, chip(verdict)),
      make("td", { class: "number" }, link(sums[verdict].toLocaleString("en"), () => filterBy({ verdicts: [verdict] }), `${counted(sums[verdict], "group")} ${name}: show them`)),
      make("td", {}, bar, make("span", { class: "soft" }, WORDS[name])));
  }).filter(Boolean);
  find("counts").tBodies[0].replaceChildren(...rows);
  const serving = sums[SERVE], there = count - sums[ABSENT];
  find("now").textContent = `Epoch ${kept.epoch}, ${clockText(kept.epoch)}: ${serving.toLocaleString("en")} of ${counted(there, "group")} serve` +
    (sums[UNKNOWN] ? `; of ${sums[UNKNOWN].toLocaleString("en")} no report of that time was kept.` : ".");
  for (const box of document.querySelectorAll("#verdicts input")) box.nextSibling.nextSibling.textContent = ` ${sums[box.value].toLocaleString("en")}`;
}

function showDevices() {
  const down = [], out = [], tiles = new Map();
  let there = 0;
  for (const device of data.devices) {
    const state = stateAt(device, kept.epoch), isUp = (state & 2) > 0, isIn = (state & 4) > 0;
    if (state) there++;
    if (state && !isUp) down.push(device.id);
    if (state && !isIn) out.push(device.id);
    const words = !state ? "isn't there" : `${isUp ? "up" : "down"}${isIn ? "" : ", out"}`;
    const kind = !state ? "gone" : !isUp ? "down" : !isIn ? "out" : "";
    const tile = make("span", { class: `osd ${kind}`, title: `osd.${device.id}, ${hostOf(device.id)}: ${words}` }, String(device.id));
    if (!tiles.has(device.host)) tiles.set(device.host, []);
    tiles.get(device.host).push(tile);
  }
  const hosts = [...tiles].sort((a, b) => a[0] - b[0]).map(([host, inside]) =>
    make("div", { class: "host" }, make("span", { title: data.hosts[host] || "" }, host >= 0 ? data.hosts[host] : "no host"), ...inside));
  find("devices").replaceChildren(...hosts);
  find("devices").setAttribute("aria-label", `${there - down.length} of ${counted(there, "device")} are up`);
  find("devices-text").replaceChildren(`${there - down.length} of ${counted(there, "device")} are up`,
    ...(down.length ? ["; down: ", ...listed(down.map(osdLink), 20)] : []), ...(out.length ? [`; out: ${out.slice(0, 20).map((it) => `osd.${it}`).join(", ")}${out.length > 20 ? " and others" : ""}`] : []), ".");
}

// What helps, who blocks, what if

function stepItem(step) {
  const frees = step.groups.length ? [`frees ${counted(step.count, "group")}: `, ...listed(step.groups.map(groupLink), 12)] : [];
  return make("li", {}, make("b", {}, step.what), step.where ? make("span", { class: "soft" }, ` on ${step.where}`) : null, make("br"), ...frees,
    step.more ? make("div", { class: "soft" }, step.more) : null);
}

function showHelps() {
  const { lead, steps, stays, losses } = data.helps;
  const part = find("steps");
  if (lead) part.append(make("p", {}, lead));
  if (steps.length) part.append(make("ol", {}, ...steps.map(stepItem)));
  else part.append(make("p", {}, data.serving === count ? "All groups serve: there is nothing to start." : "No start of a device frees a group that is Down or without a primary."));
  for (const line of stays) part.append(make("p", {}, line));
  if (losses.length) {
    find("losses").hidden = false;
    find("losses").lastElementChild.append(
      make("p", {}, "There is no way back from a loss. Image the disk or export its groups first (ceph-objectstore-tool --op export). A device is lost to all of its groups."),
      make("ul", {}, ...losses.map((it) => make("li", {}, ...listed(it.groups.map(groupLink), 12), `: ${it.what}`))));
  }
}

function showBlockers() {
  if (!data.blockers.length) {
    find("blockers").append(make("p", {}, "No device that is down blocks a group."));
    return;
  }
  const head = ["Device", "Host", "Down since", "Blocks"].map((it) => make("th", { scope: "col" }, it));
  const rows = data.blockers.map((it) => make("tr", {}, make("th", { scope: "row" }, osdLink(it.osd)), make("td", {}, hostOf(it.osd)),
    make("td", {}, it.since ? link(`epoch ${it.since}`, () => { goTo(it.since); toPart("cluster"); }, `epoch ${it.since}: go there`) : "before the first epoch", it.since ? `, ${clockText(it.since)}` : ""),
    make("td", {}, link(counted(it.blocks, "group"), () => filterBy({ blocker: it.osd }), `${counted(it.blocks, "group")} that osd.${it.osd} blocks: show them`))));
  find("blockers").append(make("table", {}, make("caption", { class: "hidden" }, "Devices that are down and block groups, at the last epoch"), make("thead", {}, make("tr", {}, ...head)), make("tbody", {}, ...rows)));
}

function showParts() {
  const { head, rows, words } = data.whatIf;
  if (!rows.length) {
    find("parts").append(make("p", { class: "soft" }, words));
    return;
  }
  const cells = (row, tag) => row.map((it, at) => make(at ? tag : "th", { scope: tag === "th" ? "col" : at ? null : "row", class: typeof rows[0][at] === "number" ? "number" : null },
    typeof it === "number" ? it.toLocaleString("en") : String(it)));
  find("parts").append(make("p", { class: "soft" }, words), make("table", {}, make("caption", { class: "hidden" }, "What stops serving if a part stops"),
    make("thead", {}, make("tr", {}, ...cells(head, "th"))), make("tbody", {}, ...rows.map((row) => make("tr", {}, ...cells(row, "td"))))));
}

// Groups

const COLUMNS = [["verdict", "Verdict"], ["name", "Group"], ["pool", "Pool"], ["acting", "Acting"], ["waits", "Blocked by"], ["ceph", "Ceph says"]];
const filters = { blocker: -1 };

function makeFilters() {
  for (let verdict = 0; verdict < ABSENT; verdict++) {
    const box = make("input", { type: "checkbox", value: verdict, id: `verdict-${verdict}` });
    find("verdicts").append(make("span", { class: "check" }, box, make("label", { for: `verdict-${verdict}` }, chip(verdict)), make("span", { class: "soft" })));
  }
  data.pools.forEach((pool, at) => find("pool").append(make("option", { value: at }, `${pool.id} ${pool.name}`)));
  const form = find("filters");
  form.addEventListener("input", () => { filters.blocker = -1; kept.page = 0; showRows(); keepAddress(); });
  form.addEventListener("submit", (event) => event.preventDefault());
  form.addEventListener("reset", () => setTimeout(() => { filters.blocker = -1; kept.page = 0; showRows(); keepAddress(); }));
  for (const [key, words] of COLUMNS) {
    find("heads").append(make("th", { scope: "col", id: `head-${key}` }, make("button", { type: "button", onclick: () => sortBy(key) }, words)));
  }
  find("back").addEventListener("click", () => { kept.page--; showRows(); });
  find("more").addEventListener("click", () => { kept.page++; showRows(); });
}

function sortBy(key) {
  kept.down = kept.sort === key && !kept.down;
  kept.sort = key;
  kept.page = 0;
  showRows();
}

function filterBy({ verdicts = [], osd = "", blocker = -1 }) {
  for (const box of document.querySelectorAll("#verdicts input")) box.checked = verdicts.includes(Number(box.value));
  find("pool").value = "";
  find("osd").value = osd;
  find("name").value = "";
  find("differs").checked = false;
  filters.blocker = blocker;
  if (blocker >= 0 && kept.epoch !== last) goTo(last, true);
  kept.page = 0;
  showRows();
  keepAddress();
  toPart("groups");
}

function toPart(id) {
  find(id).scrollIntoView();
  find(id).focus({ preventScroll: true });
}

function wanted() {
  const verdicts = new Set([...document.querySelectorAll("#verdicts input:checked")].map((it) => Number(it.value)));
  const pool = find("pool").value, name = find("name").value.trim().toLowerCase(), isOther = find("differs").checked;
  const number = find("osd").value.trim().replace(/^osd\.?/i, ""), osd = /^\d+$/.test(number) ? Number(number) : -1;
  const found = [];
  for (let group = 0; group < count; group++) {
    if (verdictNow[group] === ABSENT) continue;
    if (verdicts.size && !verdicts.has(verdictNow[group])) continue;
    if (pool !== "" && groups.pool[group] !== Number(pool)) continue;
    if (isOther && !data.rules[group]) continue;
    if (filters.blocker >= 0 && !(data.blocked[group] || []).includes(filters.blocker)) continue;
    if (number !== "") {
      const acting = actingAt(group, kept.epoch) || [];
      const isNamed = acting.includes(osd) || kept.epoch === last && (data.blocked[group] || []).includes(osd);
      if (!isNamed) continue;
    }
    if (name && !nameOf(group).startsWith(name)) continue;
    found.push(group);
  }
  return found;
}

function sorted(found) {
  const size = (group) => (actingAt(group, kept.epoch) || []).filter((it) => it !== null).length;
  const keys = {
    verdict: (group) => verdictNow[group], name: () => 0, pool: (group) => groups.pool[group], acting: size,
    waits: (group) => -(data.blocked[group] || []).length, ceph: (group) => data.states[groups.state[group]],
  };
  const key = keys[kept.sort], values = new Map(found.map((it) => [it, key(it)])), sign = kept.down ? -1 : 1;
  return found.sort((a, b) => {
    const one = values.get(a), other = values.get(b);
    return sign * (one < other ? -1 : one > other ? 1 : a - b);
  });
}

function placesText(places) {
  return places ? `[${places.map((it) => it === null ? "none" : it).join(", ")}]` : "";
}

function showRows() {
  const found = sorted(wanted()), isLast = kept.epoch === last;
  const pages = Math.max(1, Math.ceil(found.length / PAGE));
  kept.page = Math.min(Math.max(0, kept.page), pages - 1);
  const rows = found.slice(kept.page * PAGE, (kept.page + 1) * PAGE).map((group) => {
    const acting = actingAt(group, kept.epoch), pool = data.pools[groups.pool[group]];
    const members = acting ? acting.filter((it) => it !== null).length : 0;
    const few = members < pool.size ? make("span", { class: "soft" }, ` ${members} of ${pool.size}${members < pool.min_size ? `, too few to take writes` : ""}`) : null;
    const rule = data.rules[group];
    return make("tr", {}, make("td", {}, chip(verdictNow[group])), make("th", { scope: "row" }, groupLink(nameOf(group))), make("td", {}, pool.name),
      make("td", {}, placesText(acting), few), make("td", {}, ...(isLast ? listed((data.blocked[group] || []).map(osdLink), 6) : [])),
      make("td", {}, isLast ? data.states[groups.state[group]] : "", isLast && rule ? make("span", { class: "soft" }, ` (${rule})`) : null));
  });
  find("rows").tBodies[0].replaceChildren(...rows);
  for (const [key] of COLUMNS) {
    const head = find(`head-${key}`);
    if (key === kept.sort) head.setAttribute("aria-sort", kept.down ? "descending" : "ascending"); else head.removeAttribute("aria-sort");
  }
  const what = filters.blocker >= 0 ? ` that osd.${filters.blocker} blocks` : "";
  find("count").textContent = `${counted(found.length, "group")}${what} of ${count.toLocaleString("en")} in epoch ${kept.epoch}` + (isLast ? "." : "; what blocks them and what Ceph says is told of the last epoch alone.");
  find("place").textContent = found.length > PAGE ? `${kept.page * PAGE + 1} to ${Math.min(found.length, (kept.page + 1) * PAGE)}` : "";
  find("back").disabled = kept.page === 0;
  find("more").disabled = kept.page >= pages - 1;
  find("back").hidden = find("more").hidden = found.length <= PAGE;
}

// One group

function showGroup(group) {
  kept.group = group;
  find("group").hidden = group < 0;
  if (group < 0) return;
  const name = nameOf(group), pool = data.pools[groups.pool[group]], why = data.why[group], verdict = verdictAt(group, last);
  find("group-head").textContent = `Group ${name}`;
  find("says").replaceChildren(chip(verdict), " ", why ? why.says : verdict < ABSENT ? WORDS[VERDICTS[verdict]] : "", make("span", { class: "soft" }, ` ${pool.text}.`));
  const lines = (why ? why.helps : []).map((it) => make("p", {}, it));
  if (why && why.losses.length) lines.push(make("details", {}, make("summary", {}, "The last resort: ways that give up writes"), ...why.losses.map((it) => make("p", {}, it))));
  find("group-helps").replaceChildren(...lines);
  find("ceph").textContent = `Ceph says ${data.states[groups.state[group]] || "nothing"}.` + (data.rules[group] ? ` It differs: ${data.rules[group]}.` : "");
  find("spans").open = false;
  showSpans(group);
  drawGroup(group, find("chart"));
}

function spansOf(group) {
  const found = [];
  for (let at = spans.from[group]; at < spans.from[group + 1]; at++) {
    const end = at + 1 < spans.from[group + 1] ? spans.epochs[at + 1] - 1 : last;
    found.push({ first: spans.epochs[at], last: end, acting: sets[groups.acting[at]], up: groups.up[at] < 0 ? null : sets[groups.up[at]],
      wrote: (groups.flags[at] & 1) > 0, byReport: (groups.flags[at] & 2) > 0, matters: (groups.flags[at] & 4) > 0, isNow: at + 1 === spans.from[group + 1] });
  }
  return found;
}
function runsOf(group) {
  const found = [];
  for (let at = runs.from[group]; at < runs.from[group + 1]; at++) {
    found.push({ first: runs.epochs[at], last: at + 1 < runs.from[group + 1] ? runs.epochs[at + 1] - 1 : last, verdict: groups.verdicts[at] });
  }
  return found;
}
function writesText(span) {
  if (span.isNow) return "the current interval";
  if (!span.wrote) return "did not go read-write";
  return "may have gone read-write" + (span.byReport ? ", as a report alone says" : "") + (span.matters ? "" : ", before it last began to serve");
}

function showSpans(group) {
  const most = 500, all = spansOf(group).reverse(), rows = all.slice(0, most).map((it) => make("tr", {},
    make("th", { scope: "row" }, it.first === it.last ? String(it.first) : `${it.first} to ${it.last}`), make("td", {}, clockText(it.first)),
    make("td", {}, placesText(it.acting)), make("td", {}, writesText(it))));
  find("spans").querySelector("tbody").replaceChildren(...rows);
  find("spans").querySelector("summary").textContent = `${counted(all.length, "interval")} as a table` + (all.length > most ? `, the last ${most}` : "");
}

// The columns of the picture: an interval, a verdict or a device changes with each. Of more than 200 the oldest are one, except in
// intervals that block the group and in the last that may have gone read-write.
function columnsOf(group, all, turns) {
  const rows = new Set(all.flatMap((it) => it.acting).filter((it) => it !== null)), begins = new Set();
  for (const it of [...all, ...turns]) begins.add(it.first);
  for (const osd of rows) for (const [epoch] of (devices.get(osd) || { runs: [] }).runs) if (epoch >= all[0].first) begins.add(epoch);
  const from = [...begins].filter((it) => it >= all[0].first).sort((a, b) => a - b);
  let columns = from.map((it, at) => ({ first: it, last: at + 1 < from.length ? from[at + 1] - 1 : last, isFolded: false }));
  const MOST = 200;
  if (columns.length <= MOST) return columns;
  const blocked = new Set(data.blocked[group] || []), wrote = all.filter((it) => it.wrote);
  const never = [...wrote.filter((it) => it.matters && it.acting.some((osd) => blocked.has(osd))).slice(0, 20), ...wrote.slice(-1)];
  const isKept = (column) => never.some((it) => it.first === column.first);
  let over = columns.length - MOST;
  const found = [];
  for (const column of columns) {
    const before = found[found.length - 1];
    if (over > 0 && before && before.isOpen && !isKept(column)) {
      before.last = column.last;
      before.isFolded = true;
      over--;
    } else {
      found.push({ ...column, isOpen: !isKept(column) });
    }
  }
  return found;
}

function drawGroup(group, place) {
  const all = spansOf(group), turns = runsOf(group);
  if (!all.length) { place.replaceChildren("No interval of it was kept."); find("legend").replaceChildren(); return; }
  const columns = columnsOf(group, all, turns), blocked = data.blocked[group] || [], unheard = (data.why[group] || { unheard: [] }).unheard;
  const LEFT = 84, ROW = 26, BAR = 14, STRIP = 24, WAIT = 16, wide = Math.max(12, Math.min(84, 700 / columns.length)), top = 26;
  const x = (at) => LEFT + wide * at;
  const placesOf = (it) => {
    let from = columns.findIndex((column) => column.first >= it.first && !column.isFolded), to = from;
    while (to >= 0 && to < columns.length && columns[to].last <= it.last && !columns[to].isFolded) to++;
    return from >= 0 && to > from ? [from, to] : null;
  };
  const shown = all.map((it) => ({ ...it, place: placesOf(it) })).filter((it) => it.place);
  const osds = [...new Set(shown.flatMap((it) => [...it.acting, ...(it.up || [])]))].filter((it) => it !== null).sort((a, b) => a - b);
  const hasEmpty = shown.some((it) => it.acting.includes(null));
  const stripY = top + ROW * (osds.length + hasEmpty) + 28, waited = [...new Set([...blocked, ...unheard])].sort((a, b) => a - b);
  const waitsY = stripY + STRIP + (waited.length ? 26 : 8), height = waitsY + WAIT * waited.length + 10, right = x(columns.length), isWide = right > 1000, width = Math.max(760, right + (isWide ? LEFT : 24));
  const label = `Intervals of group ${nameOf(group)}: its acting sets by epoch and its verdicts; the table below has them in words`;
  const svg = mark("svg", { viewBox: `0 0 ${width} ${height}`, width, height, role: "img", "aria-label": label });
  const text = (a, b, words, kind) => mark("text", { x: a, y: b, class: kind }, words);
  const box = (a, b, w, h, kind, tip, round) => mark("rect", { x: a, y: b, width: Math.max(0.5, w), height: h, class: kind, rx: round || 2 }, tip ? mark("title", {}, tip) : null);
  const now = shown.find((it) => it.isNow), used = new Set();
  if (now) svg.append(box(x(now.place[0]), top + 2, x(now.place[1]) - x(now.place[0]), stripY + STRIP - top - 2, "band", null, 1),
    mark("line", { x1: x(now.place[0]), x2: x(now.place[0]), y1: top + 2, y2: stripY + STRIP, class: "edge" }));
  osds.forEach((osd, at) => {
    const y = top + ROW * at + 4;
    svg.append(text(LEFT - 10, y + ROW - 10, `osd.${osd}`, "end"), mark("line", { x1: LEFT, x2: right, y1: y + ROW - 1, y2: y + ROW - 1, class: "line" }));
    if (isWide) svg.append(text(right + 8, y + ROW - 10, `osd.${osd}`));
  });
  if (hasEmpty) svg.append(text(LEFT - 10, top + ROW * osds.length + ROW - 6, "no device", "end soft"));
  let free = 0;
  svg.append(text(LEFT - 10, top - 2, "epoch", "end soft"));
  columns.forEach((column, at) => {
    svg.append(mark("line", { x1: x(at), x2: x(at), y1: top, y2: top + 5, class: "axis" }));
    if (x(at) >= free) { svg.append(text(x(at) + 1, top - 2, String(column.first), "small soft")); free = x(at) + String(column.first).length * 6.2 + 6; }
  });
  for (const it of shown) {
    const kind = it.isNow ? "now" : it.wrote ? "wrote" : "idle", from = x(it.place[0]), span = x(it.place[1]) - from;
    used.add(kind);
    const lead = it.acting.find((osd) => osd !== null);
    osds.forEach((osd, at) => {
      const y = top + ROW * at + 12, tip = `osd.${osd}, epochs ${it.first} to ${it.last} (${clockText(it.first)}): ${writesText(it)}`;
      if (it.acting.includes(osd)) {
        svg.append(box(from + 0.5, y, span - 1, BAR, kind, tip));
        if (it.byReport) { used.add("byReport"); svg.append(box(from + 3, y + BAR - 3, span - 6, 1.5, `on-${kind}`)); }
        if (osd === lead) svg.append(mark("circle", { cx: from + 6, cy: y + BAR / 2, r: 2.6, class: `on-${kind}` }));
        if (data.pools[groups.pool[group]].by_place && span >= 22) svg.append(text(from + span / 2 + 3, y + 11, String(it.acting.indexOf(osd)), `small mid on-${kind}`));
      } else if (it.up && it.up.includes(osd)) {
        used.add("alone");
        svg.append(box(from + 1, y + 1, span - 2, BAR - 2, "alone", `${tip}, in up alone`));
      }
    });
    if (it.acting.includes(null)) {
      used.add("alone");
      const slots = it.acting.map((osd, slot) => osd === null ? slot : -1).filter((slot) => slot >= 0);
      svg.append(box(from + 1, top + ROW * osds.length + 13, span - 2, BAR - 2, "alone", `no device for shard ${slots.join(", ")}`));
    }
  }
  osds.forEach((osd, at) => {
    for (const [epoch, state] of (devices.get(osd) || { runs: [] }).runs) {
      const column = columns.findIndex((it) => it.first === epoch && !it.isFolded), before = stateAt(devices.get(osd), epoch - 1);
      if (column < 0 || epoch === first || (state & 2) === (before & 2)) continue;
      const a = x(column) + 1, y = top + ROW * at + 5, isUp = (state & 2) > 0;
      used.add(isUp ? "boots" : "falls");
      svg.append(mark("polygon", { class: isUp ? "boots" : "falls", points: isUp ? `${a},${y + 6} ${a + 7},${y + 6} ${a + 3.5},${y}` : `${a},${y} ${a + 7},${y} ${a + 3.5},${y + 6}` }));
    }
  });
  svg.append(text(LEFT - 10, stripY + 16, "verdict", "end"));
  for (const it of turns) {
    const at = placesOf(it);
    if (!at || it.verdict >= ABSENT) continue;
    const name = VERDICTS[it.verdict], from = x(at[0]), span = x(at[1]) - from, tip = `epochs ${it.first} to ${it.last} (${clockText(it.first)}): ${name}, ${WORDS[name]}`;
    svg.append(box(from + 0.5, stripY, span - 1, STRIP, name, tip));
    if (name.length * 7.5 < span - 4) svg.append(mark("text", { x: from + span / 2, y: stripY + 16, class: `mid on-${name === "Unknown" ? name : "verdict"}`, "pointer-events": "none" }, name));
  }
  if (waited.length) svg.append(text(LEFT - 10, waitsY - 5, "waits for", "end soft"));
  const end = now ? now.place : [columns.length - 1, columns.length];
  waited.forEach((osd, at) => {
    const y = waitsY + WAIT * at, isBlocking = blocked.includes(osd);
    used.add(isBlocking ? "blocks" : "unheard");
    svg.append(text(LEFT - 10, y + 11, `osd.${osd}`, "end"), mark("line", { x1: LEFT, x2: right, y1: y + WAIT - 0.5, y2: y + WAIT - 0.5, class: "line" }),
      isBlocking ? box(x(end[0]) + 1.5, y + 3, x(end[1]) - x(end[0]) - 3, 9, "blocks", `osd.${osd} is down and may come back`, 1) : box(x(end[0]) + 1.5, y + 4.5, x(end[1]) - x(end[0]) - 3, 6, "unheard", `osd.${osd} has yet to be heard`, 3));
  });
  columns.forEach((column, at) => {
    if (column.isFolded) { used.add("fold"); svg.append(box(x(at) + 1, top + 6, wide - 2, stripY + STRIP - top - 6, "fold", `epochs ${column.first} to ${column.last}, folded`)); }
  });
  place.replaceChildren(svg);
  place.scrollLeft = place.scrollWidth;
  showLegend(used);
}

function showLegend(used) {
  const small = (...inside) => mark("svg", { viewBox: "0 0 18 12", "aria-hidden": "true" }, ...inside);
  const sample = (kind) => small(mark("rect", { x: 1, y: 1, width: 15, height: 10, rx: 2, class: kind }));
  const items = [["wrote", "interval that may have gone read-write"], ["idle", "interval that did not"], ["now", "current interval"], ["alone", "in up alone, or an empty place"], ["blocks", "down, and blocks the group"],
    ["unheard", "has yet to be heard"], ["fold", "older intervals"]].filter(([kind]) => used.has(kind)).map(([kind, words]) => make("span", {}, sample(kind), words));
  items.push(make("span", {}, small(mark("circle", { cx: 8, cy: 6, r: 3, class: "soft" })), "primary"));
  if (used.has("boots")) items.push(make("span", {}, small(mark("polygon", { points: "4,9 12,9 8,2", class: "boots" })), "boots"));
  if (used.has("falls")) items.push(make("span", {}, small(mark("polygon", { points: "4,2 12,2 8,9", class: "falls" })), "goes down, or is destroyed"));
  if (used.has("byReport")) items.push(make("span", {}, "a line in a bar: so by a report alone"));
  find("legend").replaceChildren(...items);
}

// The address: #group=1.a&epoch=26&verdict=Down,Short&pool=1&osd=7&blocker=3&name=1.&differs

let isShown = false;
function keepAddress() {
  const parts = [];
  if (kept.group >= 0) parts.push(`group=${nameOf(kept.group)}`);
  if (kept.epoch !== last) parts.push(`epoch=${kept.epoch}`);
  const verdicts = [...document.querySelectorAll("#verdicts input:checked")].map((it) => VERDICTS[it.value]);
  if (verdicts.length) parts.push(`verdict=${verdicts.join(",")}`);
  if (find("pool").value !== "") parts.push(`pool=${data.pools[find("pool").value].id}`);
  for (const id of ["osd", "name"]) if (find(id).value) parts.push(`${id}=${encodeURIComponent(find(id).value)}`);
  if (filters.blocker >= 0) parts.push(`blocker=${filters.blocker}`);
  if (find("differs").checked) parts.push("differs");
  history.replaceState(null, "", parts.length ? `#${parts.join("&")}` : location.pathname + location.search);
}

function decoded(text) {
  try { return decodeURIComponent(text); } catch { return text; }
}

function followAddress() {
  const words = location.hash.slice(1), part = words && !words.includes("=") && words !== "differs" ? find(words) : null;
  if (part) {
    if (!isShown) goTo(last, true);
    isShown = true;
    toPart(words);
    return;
  }
  const named = new Map(words.split("&").filter(Boolean).map((it) => { const [key, ...value] = it.split("="); return [key, decoded(value.join("="))]; }));
  const group = byName.get(named.get("group"));
  if (isShown && group !== undefined && named.size === 1) {
    showGroup(group);
    toPart("group");
    return;
  }
  const verdicts = (named.get("verdict") || "").split(",");
  for (const box of document.querySelectorAll("#verdicts input")) box.checked = verdicts.includes(VERDICTS[box.value]);
  find("pool").value = named.has("pool") ? String(data.pools.findIndex((it) => String(it.id) === named.get("pool"))) : "";
  if (find("pool").selectedIndex < 0) find("pool").value = "";
  find("osd").value = named.get("osd") || "";
  find("name").value = named.get("name") || "";
  find("differs").checked = named.has("differs");
  filters.blocker = /^\d+$/.test(named.get("blocker") || "") ? Number(named.get("blocker")) : -1;
  goTo(/^\d+$/.test(named.get("epoch") || "") ? Number(named.get("epoch")) : last, true);
  isShown = true;
  showGroup(group === undefined ? -1 : group);
  if (group !== undefined) toPart("group");
}

// The page

function listen() {
  const slider = find("slider"), number = find("epoch");
  slider.min = number.min = first;
  slider.max = number.max = last;
  let due = 0;
  slider.addEventListener("input", () => { if (!due) due = requestAnimationFrame(() => { due = 0; goTo(Number(slider.value), true); }); });
  slider.addEventListener("change", () => goTo(Number(slider.value)));
  number.addEventListener("change", () => goTo(Number(number.value)));
  find("end").addEventListener("click", () => goTo(last));
  find("earlier").addEventListener("click", () => goTo(changedEpochs().filter((it) => it < kept.epoch).pop() ?? first));
  find("later").addEventListener("click", () => goTo(changedEpochs().find((it) => it > kept.epoch) ?? last));
  find("close").addEventListener("click", closeGroup);
  document.addEventListener("keydown", (event) => { if (event.key === "Escape" && kept.group >= 0) closeGroup(); });
  addEventListener("hashchange", followAddress);
}

function closeGroup() {
  const name = kept.group >= 0 ? nameOf(kept.group) : "";
  showGroup(-1);
  keepAddress();
  const row = [...find("rows").querySelectorAll("a")].find((it) => it.textContent === name);
  if (row) row.focus(); else toPart("groups");
}

document.querySelector("main").hidden = false;
makeFilters();
drawYears();
showHelps();
showBlockers();
showParts();
find("notes").append(...(data.notes.length ? data.notes : ["Nothing was left out."]).map((it) => make("li", {}, it)));
listen();
followAddress();
find("loading").remove();
document.documentElement.dataset.ready = String(Math.round(performance.now()));
})();
