// Of patterns with their texts, those whose cost grows too fast from n to 2n repeated units: as tests/costs.py does it.
"use strict";
const [{ patterns, ratio: most, units, long: slow }] = [JSON.parse(require("fs").readFileSync(0, "utf8"))];
const cost = (work, times = 1) => {
  let least = Infinity;
  for (let time = 0; time < times; time++) {
    const begin = process.cpuUsage();
    work();
    const { user, system } = process.cpuUsage(begin);
    least = Math.min(least, 1000 * (user + system));
  }
  return least;
};
const median = numbers => numbers.sort((one, other) => one - other)[numbers.length >> 1];
// By the least times, or by the median of pairs, the less of both, as tests/costs.py does it.
const ratio = (work, number) => {
  const whole = [], half = [];
  let found = Infinity;
  for (let time = 0; time < 35 && (time < 7 || found > most); time++) {
    whole.push(cost(() => work(number)));
    half.push(Math.max(slow / 8, cost(() => work(number / 2))));
    found = Math.min(Math.min(...whole) / Math.min(...half), median(whole.map((it, at) => it / half[at])));
  }
  return found;
};
const grows = (pattern, [before, unit, after]) => {
  const work = number => (before + unit.repeat(number) + after).replace(pattern, "");
  let number = 32;
  while (number < Math.min(units, 65536 / unit.length) && cost(() => work(number)) < slow) number *= 2;
  // A single time may be too long by what else the process did.
  if (cost(() => work(number), 7) < slow) return null;
  // A cost that grows too fast does so from twice the number, too.
  const found = Math.min(ratio(work, number), ratio(work, 2 * number));
  return found > most ? [number, found] : null;
};
const found = [];
for (const [source, flags, contexts] of patterns) {
  const pattern = new RegExp(source, flags);
  for (const context of contexts) {
    const how = grows(pattern, context);
    if (how) {
      found.push([source, context, how]);
      break;
    }
  }
}
console.log(JSON.stringify(found));
