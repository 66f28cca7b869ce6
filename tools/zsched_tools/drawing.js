"use strict";
// Reads a report as jobs with their attempts, and shows it in words and in pictures. Letters always have the same size.
const drawing = (() => {
const MINUTE = 60000n, HOUR = 60n * MINUTE, DAY = 24n * HOUR;
const LONG_UNITS = [[DAY, "d"], [HOUR, "h"], [MINUTE, "min"]];
const NEAREST_LABELS = 76;
const NARROWEST = 3;
const ALONE = 4;
const BLOCK = 12;
const LOAD_HEIGHT = 90;
const LIMIT = "the limit of the call";

// A duration in words, exactly.
function duration(time) {
  let ms = BigInt(time);
  if (ms < 1000n) return `${ms} ms`;
  const parts = [];
  for (const [unit, name] of LONG_UNITS) {
    if (ms >= unit) parts.push(`${ms / unit} ${name}`);
    ms %= unit;
  }
  if (ms) parts.push(`${ms / 1000n}.${String(ms % 1000n).padStart(3, "0")}`.replace(/\.?0{1,3}$/, "") + " s");
  return parts.join(" ");
}

const plural = (number, name) => `${number} ${name}${number === 1 ? "" : "s"}`;
const markup = text => String(text).replace(/&/g, "&amp;").replace(/</g, "&lt;").replace(/"/g, "&quot;");

// ---- A report's jobs

const ATTEMPT = /^attempt ([0-9]+) ([0-9]+)\.\.(?:([0-9]+) (ok|err) ([0-9]+)| running)$/;
const STEP = /^step [0-9]+ out (\S+) (?:next ([0-9]+)|done)$/;
const END = /^end (succeeded|failed|finished|unfinished)(?: (\S+))? at ([0-9]+) polls [0-9]+$/;

// The jobs of a report: name, mode, attempts, and ending. Moments are BigInt.
function rowsOf(report) {
  const rows = [];
  let row = null, last = null;
  for (const line of report.split("\n")) {
    if (line.startsWith("job ")) {
      const [, name, mode] = line.split(" ");
      row = { name, mode, attempts: [] };
      last = null;
    } else if (line.startsWith("attempt ")) {
      const [, number, begin, end, how, value] = ATTEMPT.exec(line);
      const attempt = { number, begin: BigInt(begin), end: end === undefined ? null : BigInt(end),
        how: how ?? "running", value, waited: last === null ? null : BigInt(begin) - last.end };
      row.attempts.push(attempt);
      last = attempt;
    } else if (line.startsWith("step ")) {
      [, last.out, last.next] = STEP.exec(line);
    } else if (line.startsWith("end ")) {
      const [, how, result, at] = END.exec(line);
      rows.push({ ...row, ending: { how, result, at: BigInt(at) } });
    }
  }
  return rows;
}

// A job up to the limit of its call, which counts from its first attempt. If the job goes on then, the limit ends it:
// an attempt that runs is cut, and none begins. Without a limit, or with one after the horizon, it is the job itself.
function limited(row, limit) {
  const [first] = row.attempts, at = limit && first ? first.begin + limit : null, { ending } = row;
  if (at === null || at > ending.at || at === ending.at && ending.how !== "unfinished") return row;
  const attempts = row.attempts.filter(({ begin }) => begin < at), last = attempts.at(-1);
  if (last.end === null || last.end > at)
    attempts.splice(-1, 1, { ...last, end: at, how: "running", out: undefined });
  return { ...row, attempts, ending: { how: "cut", at } };
}

// A job with what is known of it beside its report: the limit of its call; the first and the last moment at which each
// attempt begins, whatever is drawn; the latest end, with what says so; and how many layers are over it.
function known(row, { limit, draws = [], end, depth = 0 } = {}) {
  const moments = draws.map(pair => pair.map(BigInt)), latest = end && { at: BigInt(end[0]), said: end[1] };
  return { ...limited(row, limit && BigInt(limit)), draws: moments, end: latest, depth };
}

// The sum of a job's waits, and the longest one. A wait that has not ended at the horizon, or at the limit of the call,
// counts up to it.
function waitsOf({ attempts, ending }) {
  const waits = attempts.map(attempt => attempt.waited ?? 0n), last = attempts[attempts.length - 1];
  if (["unfinished", "cut"].includes(ending.how) && last && last.end !== null) waits.push(ending.at - last.end);
  return { total: waits.reduce((sum, wait) => sum + wait, 0n), longest: waits.reduce((a, b) => a > b ? a : b, 0n) };
}

// How a job ended, in words.
function verdict(row) {
  const { attempts, ending, mode } = row;
  if (attempts.length === 0) return `doesn't begin by ${duration(ending.at)}`;
  const many = plural(attempts.length, "attempt"), time = duration(ending.at - attempts[0].begin);
  const result = ending.result && ending.result.length > 24 ? `${ending.result.slice(0, 22)}..` : ending.result;
  const words = {
    succeeded: `succeeds with ${result} after ${many}, ${time}`,
    failed: `${mode === "retry" ? "gives up" : "fails"} with ${result} after ${many}, ${time}`,
    finished: `is finished with ${result} after ${many}, ${time}`,
    cut: `is ended by the call's limit after ${many}, ${time}`,
    unfinished: `is unfinished at ${duration(ending.at)}, after ${many}`,
  }[ending.how];
  const { total, longest } = waitsOf(row);
  return total ? `${words}; longest wait ${duration(longest)}, ${duration(total)} in all` : words;
}

// The longest form of a verdict that fits a width: whole, without the sum of the waits, without the waits, or cut.
function fitted(told, room) {
  const found = [told, told.replace(/, [^,;]* in all$/, ""), told.split(";")[0]].find(it => widthOf(it, 11) <= room);
  return found ?? cut(told, room, 11);
}

// Everything about an attempt, in words.
function attemptTitle(attempt, name) {
  const { number, begin, end, how, value, waited, out, next } = attempt;
  let words = end === null ? `attempt ${number} of ${name}: ${begin} ms .., still running at the horizon`
    : how === "running" ? `attempt ${number} of ${name}: ${begin}..${end} ms, cut by the call's limit`
    : `attempt ${number} of ${name}: ${begin}..${end} ms, ${how} ${value}; took ${duration(end - begin)}`;
  if (waited !== null) words += `, waited ${duration(waited)}`;
  if (out === undefined) return words;
  const short = out.length > 60 ? `${out.slice(0, 58)}..` : out;
  return `${words}; step: out ${short}, ${next === undefined ? "done" : `next ${next}`}`;
}

// ---- The axis of time

const SHORT_STEPS = [1, 2, 5, 10, 20, 50, 100, 200, 500, 1e3, 2e3, 5e3, 1e4, 15e3, 3e4, 6e4, 12e4, 3e5, 6e5, 9e5, 18e5,
  36e5, 72e5, 108e5, 216e5, 432e5];
const DAYS = Array.from({ length: 12 }, (_, power) => [1, 2, 5].map(it => it * 864e5 * 10 ** power)).flat();
const TIMES = [...SHORT_STEPS, ...DAYS];

// The least round step of time at which labels don't overlap.
function stepOf(time, room) {
  const least = time * NEAREST_LABELS / room;
  let step = SHORT_STEPS.find(it => it >= least);
  for (let days = 864e5; step === undefined; days *= 10) step = [1, 2, 5].map(it => it * days).find(it => it >= least);
  return step;
}

// Maps moments from `first` to `last`, as numbers since the moment `base`, to pixels. On a logarithmic axis equal
// ratios of the time since `first` have equal lengths, from a unit of time on.
function scaleOf({ base, first, last, left, right, isLog, unit }) {
  const span = Math.max(1, last - first), width = right - left;
  const share = isLog ? time => Math.log1p(Math.max(0, time) / unit) / Math.log1p(span / unit) : time => time / span;
  const at = moment => left + width * share(Number(moment - base) - first);
  const held = moment => Math.max(left - 1e4, Math.min(right + 1e4, at(moment)));
  return { first, last, left, right, base, isLog, at: held };
}

// The moments that have a label, as times since the base, with their words.
function labelsOf(scale) {
  const found = [], { first, last, left, right } = scale;
  const words = time => time ? duration(BigInt(time)) : "0";
  if (!scale.isLog) {
    const step = stepOf(last - first, right - left);
    for (let time = Math.ceil(first / step) * step; time <= last; time += step) found.push([time, words(time)]);
    return found;
  }
  let before = -Infinity;
  for (const since of [0, ...TIMES]) {
    const time = first + since, x = scale.at(scale.base + BigInt(Math.round(time)));
    if (time > last || x - before < NEAREST_LABELS * 0.8) continue;
    found.push([time, words(Math.round(time))]);
    before = x;
  }
  return found;
}

// The first and the last moment that a picture of some jobs shows, with the base from which they count. The time before
// the first attempt is left out if it would take a quarter of the width or more. The horizon is left out if the
// attempts would take less than a quarter.
function shownMoments(rows) {
  const begun = rows.filter(row => row.attempts.length > 0);
  const least = (a, b) => a < b ? a : b, most = (a, b) => a > b ? a : b;
  const lastOf = row => row.attempts[row.attempts.length - 1];
  const first = begun.map(row => row.attempts[0].begin).reduce(least, begun.length ? begun[0].attempts[0].begin : 0n);
  let last = begun.map(row => lastOf(row).end ?? lastOf(row).begin).reduce(most, first);
  for (const { ending: { how, at } } of rows)
    if (how === "cut" || how === "unfinished" && (first === last || at - first <= 4n * (last - first)))
      last = most(last, at);
  for (const { draws = [] } of rows) last = draws.map(([, it]) => it).reduce(most, last);
  const near = rows.map(({ end }) => end?.at ?? 0n).filter(at => at - first <= 4n * (last - first));
  last = near.reduce(most, last);
  return 4n * first < last ? [0n, 0, Number(last)] : [first, 0, Number(last - first)];
}

// ---- Shapes

const place = pixels => pixels.toFixed(1).replace(/\.0$/, "");
const titled = words => words ? `<title>${markup(words)}</title>` : "";

function rect(left, top, right, bottom, style, title = "", corner = 0) {
  return `<rect class="${style}" x="${place(left)}" y="${place(top)}" width="${place(Math.max(0, right - left))}" `
    + `height="${place(bottom - top)}"${corner ? ` rx="${corner}"` : ""}>${titled(title)}</rect>`;
}

const line = (steps, style, title = "") => `<path class="${style}" d="${steps}">${titled(title)}</path>`;

function words(left, base, text, style, anchor = "start", title = "") {
  const where = `x="${place(left)}" y="${place(base)}" text-anchor="${anchor}"`;
  return `<text class="${style}" ${where}>${markup(text)}${titled(title)}</text>`;
}

const pen = typeof document === "undefined" ? null : document.createElement("canvas").getContext("2d");

// The width of a text, in pixels.
function widthOf(text, size = 12, weight = "") {
  if (!pen) return text.length * size * 0.62;
  pen.font = `${weight} ${size}px system-ui, "DejaVu Sans", sans-serif`;
  return pen.measureText(text).width;
}

// A text, cut at its end if it is wider than `room`.
function cut(text, room, size = 12, weight = "") {
  if (widthOf(text, size, weight) <= room) return text;
  // No letter is narrower than a pixel, and a text of a policy has 65,536.
  text = text.slice(0, Math.max(0, Math.floor(room)));
  while (text && widthOf(`${text}…`, size, weight) > room) text = text.slice(0, -1);
  return `${text}…`;
}

// What is drawn as one shape: an attempt, or a block of attempts that are too close to each other.
function shapesOf(attempts, scale) {
  const shapes = [];
  for (const attempt of attempts) {
    const left = scale.at(attempt.begin), end = attempt.end === null ? scale.right : scale.at(attempt.end);
    if (end < scale.left - 1 || left > scale.right + 1) continue;
    const isNarrow = end - left < ALONE && attempt.end !== null, last = shapes[shapes.length - 1];
    const right = isNarrow ? Math.max(end, left + NARROWEST) : end;
    const failed = Number(attempt.how === "err");
    if (last && isNarrow && last.isNarrow && left - last.right < 1.5 && left - last.left < BLOCK)
      Object.assign(last, { last: attempt, right, count: last.count + 1, failed: last.failed + failed });
    else shapes.push({ left, right, isNarrow, first: attempt, last: attempt, count: 1, failed });
  }
  shapes.forEach((shape, at) => {
    const next = shapes[at + 1];
    if (next) shape.right = Math.max(Math.min(shape.right, next.left), shape.left + 0.8);
  });
  return shapes;
}

// Draws a shape in its row: a successful attempt is tall and round, a failed one low and square.
function drawShape(shape, middle, height, name, scale) {
  const left = Math.max(shape.left, scale.left), right = Math.min(shape.right, scale.right + NARROWEST);
  const top = middle - height / 2, bottom = middle + height / 2, low = bottom - height * 0.56;
  const { count, failed, first, last } = shape;
  if (count === 1) {
    const title = attemptTitle(first, name);
    if (first.how === "running") return rect(left, top, right, bottom, "running", title);
    return first.how === "err" ? rect(left, low, right, bottom, "err", title)
      : rect(left, top, right, bottom, "ok", title, Math.min(3, (right - left) / 2));
  }
  const title = `attempts ${first.number} to ${last.number} of ${name}: ${first.begin}..${last.end} ms, `
    + `${count - failed} ok, ${failed} err`;
  const split = failed === count ? low : failed ? bottom - (bottom - low) * failed / count : bottom;
  const upper = failed === count ? low : failed ? split - Math.max(2, (low - top) * (1 - failed / count)) : top;
  return `<g>${titled(title)}${failed < count ? rect(left, upper, right, split, "ok") : ""}`
    + `${failed ? rect(left, split, right, bottom, "err") : ""}`
    + `${line(`M${place((left + right) / 2)} ${place(upper)}V${place(bottom)}`, "many")}</g>`;
}

// The shapes of a row, and at each edge of the picture the next attempt outside of it.
function withEdges(row, shapes, scale) {
  const since = moment => Number(moment - scale.base), last = shapes[shapes.length - 1];
  const edge = (x, attempt) => ({ left: x, right: x, first: attempt, last: attempt });
  const before = row.attempts.filter(({ end }) => end !== null && since(end) < scale.first).pop();
  const after = row.attempts.find(({ begin }) => since(begin) > scale.last), all = [...shapes];
  if (before && shapes[0]?.first !== before) all.unshift(edge(scale.left, before));
  if (after && last?.last !== after) all.push(edge(scale.right, after));
  return all;
}

// Draws the waits between the shapes of a row, each with its length if that fits. A wait that begins or ends outside of
// the picture is drawn up to its edge.
function drawWaits(row, shapes, middle, scale, height) {
  const all = withEdges(row, shapes, scale), last = shapes[shapes.length - 1];
  let found = "";
  all.forEach((shape, at) => {
    const next = all[at + 1];
    if (!next) return;
    const left = Math.max(shape.right, scale.left), right = Math.min(next.left, scale.right);
    if (right - left < 2) return;
    const said = duration(next.first.begin - shape.last.end);
    found += line(`M${place(left)} ${place(middle)}H${place(right)}`, "wait");
    if (height >= 14 && widthOf(said, 11) + 8 < right - left)
      found += words((left + right) / 2, middle - 5, said, "wide", "middle");
  });
  const isOpen = ["unfinished", "cut"].includes(row.ending.how) && last && last.last.end !== null;
  const right = isOpen && row.ending.how === "cut" ? Math.min(scale.at(row.ending.at), scale.right) : scale.right;
  if (isOpen && right - last.right > 8)
    found += line(`M${place(Math.max(last.right, scale.left))} ${place(middle)}H${place(right)}`, "wait");
  return found;
}

// Draws how a job ended: a tick (succeeded), a square (finished) or a cross (failed).
function mark(how, x, y, size) {
  const half = size / 2;
  if (how === "failed")
    return rect(x - size, y - size, x + size, y + size, "err")
      + line(`M${place(x - half)} ${place(y - half)}l${size} ${size}m0 ${-size}l${-size} ${size}`, "sign");
  const disc = `<circle class="ok" cx="${place(x)}" cy="${place(y)}" r="${size}"></circle>`, part = size * 0.4;
  if (how === "finished") return disc + rect(x - part, y - part, x + part, y + part, "hole");
  const tick = `l${place(part)} ${place(size * 0.45)}l${place(size * 0.65)} ${place(-size * 0.9)}`;
  return disc + line(`M${place(x - half)} ${place(y)}${tick}`, "sign");
}

// ---- The picture

const styleOf = row => ({ failed: "bad", cut: "bad", unfinished: "" })[row.ending.how] ?? "good";

// How far the name of a job is to the right for the layers over it.
const indentOf = ({ depth = 0 }, width) => Math.min(12 * depth, width * 0.2);

// In a narrow picture: the name of a job as shown, the place at which its verdict begins, and the width for it.
function besideName(row, width) {
  const indent = indentOf(row, width), shown = cut(row.name, width * 0.5 - indent, 12, "600");
  const begin = indent + 14 + widthOf(shown, 12, "600") + 8;
  return { shown, indent, begin, room: width - begin - 4 };
}

// The layout of a picture. In a wide picture names are to the left of their rows, and verdicts to the right. In a
// narrow one both are above their rows. If one verdict doesn't fit beside its name, all verdicts are below the names.
function layoutOf(rows, options) {
  const { width } = options, isWide = width >= 900 && rows.length > 2;
  const hasRoom = row => widthOf(verdict(row).split(";")[0], 11) <= besideName(row, width).room;
  const isStacked = !isWide && !rows.every(hasRoom);
  const rowHeight = isWide ? (rows.length > 16 ? 22 : 34) : isStacked ? 63 : 48;
  const widest = texts => Math.max(0, ...texts);
  const names = Math.min(220, widest(rows.map(row => indentOf(row, width) + widthOf(row.name, 12, "600")))) + 18;
  const verdicts = Math.min(width * 0.34, widest(rows.map(row => widthOf(verdict(row), 11)))) + 26;
  const [left, right] = isWide ? [names, width - verdicts] : [10, width - 24];
  const [base, first, last] = shownMoments(rows);
  const from = options.from ?? first, to = options.to ?? last;
  const firsts = rows.filter(row => row.attempts.length).map(row => row.attempts[0]);
  const units = firsts.map(({ begin, end }) => Number((end ?? begin) - begin) || 1);
  const scale = scaleOf({ base, first: from, last: Math.max(to, from + 1), left, right, isLog: options.isLog,
    unit: Math.max(1, Math.min(...units, 1e6)) });
  const top = 26 + (base ? 16 : 0);
  return { ...options, isWide, isStacked, rowHeight, left, right, scale, base, top, all: [first, last], verdicts,
    bottom: top + rows.length * rowHeight };
}

function drawAxis(layout) {
  const { scale, top, bottom } = layout;
  let found = layout.base ? words(layout.left, 12, `time since moment ${layout.base} ms`, "axis") : "";
  for (const [time, label] of labelsOf(scale)) {
    const x = scale.at(scale.base + BigInt(Math.round(time)));
    const room = widthOf(label, 11) / 2, said = layout.base && label !== "0" ? `+${label}` : label;
    const [anchor, from] = x - room < 0 ? ["start", 1] : x + room <= layout.width ? ["middle", x] : ["end", layout.width - 1];
    found += line(`M${place(x)} ${place(top - 5)}V${place(bottom)}`, "grid");
    found += words(from, top - 9, said, "axis", anchor);
  }
  return found;
}

// Draws the background: a band for every other row, and the windows in which a service is down.
function drawBands(rows, { scale, top, bottom, left, right, width, rowHeight, windows = [] }) {
  let found = "";
  for (let number = 0; number < rows.length; number += 2)
    found += rect(0, top + number * rowHeight, width, top + (number + 1) * rowHeight, "band");
  for (const [begin, end] of windows) {
    const [a, b] = [Math.max(left, scale.at(begin)), Math.min(right, scale.at(end))];
    if (b > a) found += rect(a, top, b, bottom, "down", `down from ${begin} to ${end} ms`);
  }
  return found;
}

// Draws where each attempt of a row may begin, and the end of its call.
function drawDraws({ draws = [], end, name }, middle, { scale }, height) {
  const held = moment => Math.min(Math.max(scale.at(moment), scale.left), scale.right);
  const bands = draws.map(([least, most], at) => held(most) - held(least) < 1 ? "" : rect(held(least), middle - height,
    held(most), middle + height, "draws",
    `attempt ${at + 1} of ${name} begins from ${duration(least)} to ${duration(most)}`));
  if (!end || held(end.at) !== scale.at(end.at)) return bands.join("");
  return bands.join("") + line(`M${place(held(end.at))} ${place(middle - height)}V${place(middle + height)}`,
    styleOfEnd(end), `${end.said} of ${name}, ${duration(end.at)}`);
}

const styleOfEnd = ({ said }) => said === "proved end" ? "proof" : "claim";

function drawRow(row, number, layout) {
  const { scale, isWide, isStacked, rowHeight, left, right, width } = layout, top = layout.top + number * rowHeight;
  const height = isWide ? rowHeight * 0.42 : 16, middle = isWide ? top + rowHeight / 2 : top + rowHeight - 15;
  const shapes = shapesOf(row.attempts, scale), told = verdict(row), style = `verdict ${styleOf(row)}`;
  let found = drawDraws(row, middle, layout, height * 0.8) + drawWaits(row, shapes, middle, scale, height);
  found += shapes.map(shape => drawShape(shape, middle, height, row.name, scale)).join("");
  const last = shapes[shapes.length - 1], isLast = last && last.last === row.attempts[row.attempts.length - 1];
  if (isLast && !["unfinished", "cut"].includes(row.ending.how) && last.right <= scale.right + 4)
    found += mark(row.ending.how, last.right + 10, middle, 6);
  const limit = row.ending.how === "cut" ? scale.at(row.ending.at) : -1;
  if (limit >= scale.left && limit <= scale.right + 1)
    found += line(`M${place(limit)} ${place(middle - height)}V${place(middle + height / 2 + 3)}`, "horizon", LIMIT);
  if (isWide) {
    const base = middle + 4, indent = indentOf(row, width), name = cut(row.name, left - 14 - indent, 12, "600");
    return found + words(4 + indent, base, name, "name", "start", row.name)
      + words(right + 24, base, fitted(told, width - right - 26), style, "start", told);
  }
  const beside = besideName(row, width);
  const [begin, base, room] = isStacked ? [10, top + 30, width - 14] : [beside.begin, top + 15, beside.room];
  return found + words(10 + beside.indent, top + 15, beside.shown, "name", "start", row.name)
    + words(begin, base, fitted(told, room), style, "start", told);
}

// Draws, below the rows, the number of attempts that begin in each step of time: those that succeed above the others.
function drawLoad(rows, layout) {
  if (!layout.hasLoad) return "";
  const { scale, left, right, bottom } = layout, height = LOAD_HEIGHT - 34, base = bottom + LOAD_HEIGHT - 8;
  const many = Math.floor((right - left) / 5);
  const bins = Array.from({ length: many + 1 }, () => ({ good: 0, bad: 0 }));
  for (const { begin, how } of rows.flatMap(row => row.attempts)) {
    const x = scale.at(begin);
    if (x >= left && x <= right) bins[Math.floor((x - left) / 5)][how === "ok" ? "good" : "bad"]++;
  }
  const most = Math.max(1, ...bins.map(({ good, bad }) => good + bad));
  let found = words(left, bottom + 18, `attempts that begin, at most ${most} in a bar`, "legend")
    + line(`M${place(left)} ${base}H${place(right)}`, "grid");
  bins.forEach(({ good, bad }, at) => {
    const x = left + at * 5, split = base - height * bad / most;
    if (bad) found += rect(x, split, x + 4, base, "err", `${good} ok, ${bad} err or running`);
    if (good) found += rect(x, split - height * good / most, x + 4, split, "ok", `${good} ok, ${bad} err or running`);
  });
  return found;
}

// The entries of the legend for the ends of calls, with those that are outside of the picture.
function endsOf(rows, { base, last }) {
  const all = rows.flatMap(({ end }) => end ? [end] : []), kinds = [...new Set(all.map(({ said }) => said))];
  return kinds.map(kind => {
    const ends = all.filter(({ said }) => said === kind), away = ends.filter(({ at }) => Number(at - base) > last);
    const said = away.length ? `${kind}, outside: ${away.slice(0, 3).map(({ at }) => duration(at)).join(", ")}` : kind;
    return [true, (x, y) => line(`M${x + 7} ${y - 8}v16`, styleOfEnd(ends[0])), said];
  });
}

// Draws the meaning of each shape that the picture has. Returns it with the height of the picture.
function drawLegend(rows, layout) {
  const hows = new Set(rows.flatMap(row => row.attempts.map(attempt => attempt.how)));
  const endings = new Set(rows.map(row => row.ending.how));
  const entries = [
    [hows.has("ok"), (x, y) => rect(x, y - 6, x + 14, y + 6, "ok", "", 3), "attempt ok"],
    [hows.has("err"), (x, y) => rect(x, y - 1, x + 14, y + 6, "err"), "attempt err"],
    [hows.has("running"), (x, y) => rect(x, y - 6, x + 14, y + 6, "running"), "still running"],
    [true, (x, y) => line(`M${x} ${y}h14`, "wait"), "waiting"],
    [endings.has("succeeded"), (x, y) => mark("succeeded", x + 7, y, 6), "succeeded"],
    [endings.has("failed"), (x, y) => mark("failed", x + 7, y, 6), "failed"],
    [endings.has("finished"), (x, y) => mark("finished", x + 7, y, 6), "finished"],
    [endings.has("cut"), (x, y) => line(`M${x + 7} ${y - 8}v16`, "horizon"), LIMIT],
    [rows.some(({ draws }) => draws?.length), (x, y) => rect(x, y - 6, x + 14, y + 6, "draws"), "an attempt may begin"],
    ...endsOf(rows, layout.scale),
    [layout.windows?.length, (x, y) => rect(x, y - 6, x + 14, y + 6, "down"), "the service is down"],
  ].filter(([isThere]) => isThere);
  let x = 10, y = layout.bottom + 18 + (layout.hasLoad ? LOAD_HEIGHT : 0), found = "";
  for (const [, shape, text] of entries) {
    const width = 20 + widthOf(text, 11);
    if (x + width > layout.width) [x, y] = [10, y + 20];
    found += shape(x, y) + words(x + 20, y + 4, text, "legend");
    x += width + 16;
  }
  return [found, y + 14];
}

// An SVG of a width and a height.
function framed(width, height, inner, more) {
  const size = `viewBox="0 0 ${width} ${height}" width="${width}" height="${height}"`;
  return `<svg class="drawn" ${size} ${more}>${inner}</svg>`;
}

// The picture of some jobs, its axis as a separate picture, the moments that it can show, and those that it shows.
function picture(rows, options) {
  const layout = layoutOf(rows, options), [legend, height] = drawLegend(rows, layout), axis = drawAxis(layout);
  const said = rows.slice(0, 4).map(row => `${row.name} ${verdict(row)}`).join("; ");
  const jobs = rows.map((row, number) => drawRow(row, number, layout)).join("");
  const whole = drawBands(rows, layout) + axis + jobs + drawLoad(rows, layout) + legend;
  const { width, top, base, all, left, right, scale } = layout;
  return { svg: framed(width, height, whole, `role="img" aria-label="${markup(said)}"`),
    axis: framed(width, top, axis, ""), top, base, all, shown: [scale.first, scale.last], left, right };
}

// The moments of a picture that shows `times` as much time around a place from 0 to 1, moved by a share of the time.
function zoomed({ all: [least, most], shown: [first, last] }, times, around, moved) {
  const long = last - first, next = Math.min(Math.max(long * times, 2), most - least);
  const held = Math.min(1, Math.max(0, around)), middle = first + long * (held + moved);
  const from = Math.min(Math.max(middle - next * held, least), most - next);
  return next >= most - least ? [undefined, undefined] : [Math.floor(from), Math.ceil(from + next)];
}

return { attemptTitle, cut, duration, framed, known, limited, line, markup, picture, place, plural, rect, rowsOf,
  stepOf, verdict, waitsOf, widthOf, words, zoomed };
})();
