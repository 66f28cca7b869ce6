// Calls functions of docs/play.html that need no browser: `node page_scripts.js play.html`.
//
// Each line of standard input is a list in JSON, a function's name and its arguments. Its line of standard output is
// what the function returns, with whole numbers as texts, or {"fault": ..} for what it throws. `page` has more of them.
"use strict";
const fs = require("fs");
const vm = require("vm");

const MOST_ATTEMPTS = 2100;
const MOST_OF_A_CLIENT = 100000;
const FIELDS = { a: "recurs(3)", b: "", mode: "retry", world: "script", script: "5 err 7, 5 ok 1", until: "1s",
  start: "", clients: "20", spread: "10s", capacity: "", down: "5s..35s", bad: "50 err 503", good: "40 ok 200",
  seed: "1", attempt: "", late: "", asked: "" };

const text = fs.readFileSync(process.argv[2], "utf8");
const named = vm.runInThisContext;
const textOf = id => new RegExp(` id="${id}">\n(.*?)</script>`, "s").exec(text)[1];
for (const name of ["evaluator", "drawing", "proved", "proving", "bounding"]) named(textOf(name), { filename: name });
globalThis.document = { getElementById: id => ({ textContent: textOf(id) }) };
named(textOf("asking"), { filename: "asking" });

globalThis.page = {
  // The status, report and fault's line of a plan, which is in base 64.
  answer(plan) {
    const { status, report = "", fault } = named("zsched").answer(Buffer.from(plan, "base64"), MOST_ATTEMPTS);
    return [status, report, fault === undefined ? "" : `zsched: ${fault}\n`];
  },
  // The plan of the fields, but for these.
  plan(changed, most = MOST_OF_A_CLIENT) {
    const { text, services } = named("asking").questionOf({ ...FIELDS, ...changed }, most);
    return { text, services: services && [...services.values()] };
  },
  // The report of that plan, and its fault.
  report: changed => page.answer(Buffer.from(page.plan(changed).text).toString("base64"))[1],
  fault: changed => page.answer(Buffer.from(page.plan(changed).text).toString("base64"))[2],
  // The jobs of that report as the page shows them, and what each ends with.
  rows: changed => named("asking").rowsOf(page.report(changed), named("asking").policiesOf({ ...FIELDS, ...changed })),
  verdicts: changed => page.rows(changed).map(named("drawing").verdict),
  // How each job of that report ends, its attempts, its end and its waits; and what holds for every input of its policy.
  tried: changed => page.rows(changed).map(row => ({ how: row.ending.how, attempts: row.attempts.length,
    end_ms: row.ending.at - row.attempts[0].begin, ...named("drawing").waitsOf(row) })),
  bounded(changed) {
    const { policies: [policy], driver } = named("asking").questionOf({ ...FIELDS, ...changed }, MOST_OF_A_CLIENT);
    const { scope, words } = named("bounding");
    return `${scope(policy.drivenBy(driver), policy.isDrawn)}: ${words(policy.bounds(driver), policy.call)}`;
  },
  // Where the attempts of each policy may begin, whatever is drawn.
  draws(changed) {
    const { policies } = named("asking").questionOf({ ...FIELDS, ...changed }, MOST_OF_A_CLIENT);
    return policies.map(it => it.draws);
  },
  // The picture of a report.
  picture: (report, options) => named("drawing").picture(named("drawing").rowsOf(report), options).svg,
  // The fault of a policy in words, or what it becomes, and its least and greatest draw, and that of a client.
  explained(text) {
    const fault = named("asking").faultOf(text);
    if (fault) return { ...fault, line: undefined };
    const [policy] = named("asking").policiesOf({ a: text, b: "" });
    const ends = [() => (_, low) => low, () => (_, low, high) => high], { seeded } = named("asking");
    const draws = [...ends, seeded(7n, 3)].map(it => policy.texts(it));
    const part = policy.isPart ? ["without bounds"] : [];
    return [policy.name, ...policy.becomes(), ...part, ...policy.isDrawn ? draws : []];
  },
  // What holds for every input of a schedule, attempts of these durations and these waits, in numbers and in words.
  bounds: (schedule, steps = null, attempt = [1, null], waits = [100, 100, 0, 0]) => {
    const [durations, shares] = [attempt, waits].map(list => list.map(it => it === null ? null : BigInt(it)));
    return named("bounding").boundsOf(schedule, steps, { attempt: durations, waits: shares });
  },
  everyInput: (...given) => named("it => `${bounding.scope(it.driver)}: ${bounding.words(it)}`")(page.bounds(...given)),
};

function called(line) {
  const [name, ...given] = JSON.parse(line);
  try {
    return named(name)(...given);
  } catch (fault) {
    return { fault: fault.message, field: fault.field };
  }
}

require("readline").createInterface({ input: process.stdin }).on("line", line => {
  const result = JSON.stringify(called(line), (_, value) => typeof value === "bigint" ? String(value) : value);
  fs.writeSync(1, `${result}\n`);
});
