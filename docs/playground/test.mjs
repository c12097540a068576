#!/usr/bin/env node
// Tests the page in headless Chromium: docs/playground/test.mjs PROGRAM [SCREENSHOTS]. Each command line is
// carried out by the page's module and by PROGRAM, as crates/sblog/out/sblog, and both are compared.
import { spawn, spawnSync } from "node:child_process";
import { createServer } from "node:http";
import fs from "node:fs";
import os from "node:os";
import path from "node:path";

const out = import.meta.dirname ?? path.dirname(new URL(import.meta.url).pathname);
const top = path.resolve(out, "../..");
const [native, shots] = process.argv.slice(2).map((it) => path.resolve(it));
if (!native) {
  console.error("usage: docs/playground/test.mjs PROGRAM [SCREENSHOTS]");
  process.exit(2);
}
const kinds = { ".html": "text/html", ".js": "text/javascript", ".wasm": "application/wasm" };
let faults = 0;
const holds = (name, is, more = "") => {
  if (!is) faults++;
  console.log(`${is ? "ok  " : "FAIL"} ${name}${is ? "" : ` ${more}`}`);
};

const server = createServer((request, response) => {
  const name = path.basename(request.url.split("?")[0]) || "index.html";
  const file = `${out}/${name}`;
  if (!fs.existsSync(file)) return response.writeHead(404).end();
  response.writeHead(200, { "content-type": kinds[path.extname(name)] ?? "text/plain" }).end(fs.readFileSync(file));
});
await new Promise((done) => server.listen(0, "127.0.0.1", done));
const home = `http://127.0.0.1:${server.address().port}/index.html`;

// ---- Chromium, over its pipe

const folder = fs.mkdtempSync(path.join(os.tmpdir(), "page-"));
const browser = spawn("chromium", ["--headless=new", "--no-sandbox", "--disable-gpu", "--remote-debugging-pipe", `--user-data-dir=${folder}`, "about:blank"], {
  stdio: ["ignore", "ignore", "ignore", "pipe", "pipe"],
});
let last = 0;
const waits = new Map();
const events = [];
let rest = "";
browser.stdio[4].on("data", (data) => {
  const all = (rest + data).split("\0");
  rest = all.pop();
  for (const it of all) {
    const message = JSON.parse(it);
    if (message.id) {
      const { done, fail } = waits.get(message.id);
      waits.delete(message.id);
      message.error ? fail(new Error(JSON.stringify(message.error))) : done(message.result);
    } else events.push(message);
  }
});
const send = (method, params = {}, sessionId) =>
  new Promise((done, fail) => {
    waits.set(++last, { done, fail });
    browser.stdio[3].write(JSON.stringify({ id: last, method, params, sessionId }) + "\0");
  });
const { targetId } = await send("Target.createTarget", { url: "about:blank" });
const { sessionId } = await send("Target.attachToTarget", { targetId, flatten: true });
const tab = (method, params) => send(method, params, sessionId);
const get = async (expression) => {
  const { result, exceptionDetails } = await tab("Runtime.evaluate", { expression, awaitPromise: true, returnByValue: true });
  if (exceptionDetails) throw new Error(exceptionDetails.exception?.description ?? exceptionDetails.text);
  return result.value;
};
const until = async (expression, seconds = 20) => {
  for (const end = Date.now() + 1000 * seconds; Date.now() < end; await new Promise((done) => setTimeout(done, 20))) if (await get(expression).catch(() => false)) return true;
  return false;
};
await tab("Page.enable");
await tab("Runtime.enable");

try {
  await tab("Emulation.setDeviceMetricsOverride", { width: 1500, height: 1100, deviceScaleFactor: 1, mobile: false });
  await tab("Page.navigate", { url: home });
  const shown = await until("document.documentElement.dataset.shown > 0");
  holds("the page runs", shown, await get("document.getElementById('state').textContent"));
  const { product } = await send("Browser.getVersion");
  console.log(`     ${product}, ${await get("document.getElementById('state').textContent")}`);

  // ---- every command line as the command has it

  await get(`(async () => {
    const module = await WebAssembly.compile(await (await fetch("playground.wasm")).arrayBuffer());
    const worker = new Worker("playground.js");
    worker.postMessage({ module });
    const files = Object.fromEntries([
      ...Object.entries(EXAMPLES.images).map(([name, it]) => [name, Uint8Array.from(atob(it), (c) => c.charCodeAt(0))]),
      ...Object.entries({ ...EXAMPLES.scenarios, ...EXAMPLES.handlers }).map(([name, it]) => [name, new TextEncoder().encode(it)]),
    ]);
    globalThis.carried = (calls) => new Promise((done, fail) => {
      worker.onmessage = ({ data }) => done({ milliseconds: data.milliseconds, answers: data.answers.map((it) => ({ ...it, written: [...it.written] })) });
      worker.onerror = (e) => fail(new Error(e.message));
      worker.postMessage({ calls, files });
    });
  })()`);
  const names = await get("({ scenarios: Object.keys(EXAMPLES.scenarios), handlers: Object.keys(EXAMPLES.handlers), images: Object.keys(EXAMPLES.images) })");
  const calls = [
    ...names.scenarios.flatMap((it) => [["run", it], ["draw", it, "OUT"]]),
    ...names.images.flatMap((it) => [["check", it], ["explain", it], ["dis", it]]),
    ...names.handlers.flatMap((it) => [["asm", it, "OUT", "--state", "8"], ["asm", it, "OUT", "--state", "16", "--form", "2"]]),
    [], ["--help"], ["help", "run"], ["fly"], ["run"], ["run", "none"], ["check", "examples/adder.s"], ["asm", "examples/adder.s", "OUT", "--state", "1025"],
  ];
  let alike = 0;
  let slowest = ["", 0];
  for (const words of calls) {
    const { milliseconds, answers: [page] } = await get(`carried(${JSON.stringify([words])})`);
    if (milliseconds > slowest[1]) slowest = [words.join(" "), milliseconds];
    const place = `${folder}/written`;
    fs.rmSync(place, { force: true });
    const ran = spawnSync(native, words.map((it) => (it === "OUT" ? place : it)), { cwd: top });
    const told = ran.stderr.toString().replaceAll(place, "OUT");
    const written = fs.existsSync(place) ? fs.readFileSync(place) : Buffer.alloc(0);
    const same = page.status === ran.status && page.printed === ran.stdout.toString() && page.told === told && Buffer.from(page.written).equals(written);
    if (same) alike++;
    else holds(`sblog ${words.join(" ")}`, false, JSON.stringify({ page: { ...page, written: page.written.length }, native: [ran.status, ran.stdout.toString(), told, written.length] }).slice(0, 600));
  }
  holds(`${alike} of ${calls.length} command lines print the same bytes as the command; the slowest took ${slowest[1].toFixed(1)} ms: ${slowest[0]}`, alike === calls.length);

  // ---- the page's own text

  for (const name of names.scenarios) {
    const before = await get("document.documentElement.dataset.shown");
    await get(`(() => { const it = document.getElementById("scenarios"); it.value = ${JSON.stringify(name)}; it.onchange(); })()`);
    await until(`document.documentElement.dataset.shown !== ${JSON.stringify(before)}`);
    await until(`document.getElementById("scenario").value === EXAMPLES.scenarios[${JSON.stringify(name)}]`);
    const page = await get(`[...document.querySelectorAll("#trace div"), document.getElementById("report")].map((it) => it.textContent + "\\n").join("")`);
    const want = spawnSync(native, ["run", name], { cwd: top }).stdout.toString();
    const sorted = (it) => it.split("\n").filter((it) => it).sort().join("\n");
    holds(`page shows ${name}, ${await get("document.getElementById('state').textContent")}`, sorted(page) === sorted(want));
  }

  // ---- typing: a crash in the middle, and a mistake

  const type = async (value) => {
    const before = await get("document.documentElement.dataset.shown");
    await get(`document.getElementById("scenario").focus(), document.getElementById("scenario").select()`);
    await tab("Input.insertText", { text: value });
    await until(`document.documentElement.dataset.shown !== ${JSON.stringify(before)}`);
    await new Promise((done) => setTimeout(done, 300));
  };
  const written = "process a examples/adder.sbi\ninput a 5\ninput a 6\ndrive 100\ncrash a\nrecover a\ndrive 100\n";
  await type(written);
  fs.writeFileSync(`${folder}/typed.scenario`, written);
  const typed = spawnSync(native, ["run", `${folder}/typed.scenario`], { cwd: top }).stdout.toString();
  const entries = typed.split("\n").filter((it) => /^\d{6} /.test(it)).join("\n");
  holds("a typed scenario with a crash", (await get(`[...document.querySelectorAll("#trace div")].map((it) => it.textContent).join("\\n")`)) === entries);
  spawnSync(native, ["draw", `${folder}/typed.scenario`, `${folder}/typed.svg`], { cwd: top });
  holds("and its picture", await get(`(() => { const want = document.createElement("div"); want.innerHTML = ${JSON.stringify(fs.readFileSync(`${folder}/typed.svg`, "utf8"))}; return want.innerHTML === document.getElementById("picture").innerHTML; })()`));
  const lit = async (place, kind) => get(`(() => {
    ${place}.dispatchEvent(new MouseEvent(${JSON.stringify(kind)}, { bubbles: true }));
    return [...document.querySelectorAll(".lit")].map((it) => it.dataset.entry ? "entry " + it.dataset.entry : "line " + it.textContent).sort().join(", ") + ", column at " + document.querySelector("#lit")?.getAttribute("x");
  })()`);
  await type("process a examples/adder.sbi\nfinish a\ninput a 5\ndrive 100\n");
  holds("an entry, its line and its column light up together", (await lit(`document.querySelector('#trace [data-entry="3"]')`, "mouseover")) === "entry 3, line 4, column at 250");
  holds("and so do the line and the column of a refused order", (await lit(`document.querySelector("#gutter").children[1]`, "mouseover")) === "line 2, column at 178");
  await type("process a examples/adder.sbi\ninput b 5\n");
  holds("a mistake is marked on its line", (await get(`document.querySelector("#gutter .faulty")?.textContent`)) === "2");
  holds("nothing was thrown", events.every((it) => it.method !== "Runtime.exceptionThrown"), JSON.stringify(events.filter((it) => it.method === "Runtime.exceptionThrown")).slice(0, 800));

  if (shots) {
    fs.mkdirSync(shots, { recursive: true });
    await get(`(() => { const it = document.getElementById("scenarios"); it.value = "examples/scenarios/two_failures.scenario"; it.onchange(); })()`);
    await new Promise((done) => setTimeout(done, 800));
    await get(`document.querySelector('#trace [data-entry="14"]').dispatchEvent(new MouseEvent("mouseover", { bubbles: true }))`);
    for (const [name, width, height, scheme] of [["light", 1500, 1150, "light"], ["dark", 1500, 1150, "dark"], ["narrow", 420, 1400, "light"], ["narrow_dark", 420, 1400, "dark"]]) {
      await tab("Emulation.setDeviceMetricsOverride", { width, height, deviceScaleFactor: 1, mobile: false });
      await tab("Emulation.setEmulatedMedia", { features: [{ name: "prefers-color-scheme", value: scheme }] });
      const { data } = await tab("Page.captureScreenshot", { format: "png" });
      fs.writeFileSync(`${shots}/${name}.png`, Buffer.from(data, "base64"));
    }
  }
} finally {
  const closed = new Promise((done) => browser.on("exit", done));
  await Promise.race([send("Browser.close").catch(() => {}), closed]);
  await closed;
  server.close();
  fs.rmSync(folder, { recursive: true, force: true, maxRetries: 5 });
}
console.log(faults ? `${faults} failed` : "all hold");
process.exit(faults ? 1 : 0);
