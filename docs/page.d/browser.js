// Drives chromium over its debugging pipe (no packages): see docs/page.d/browser. Arguments: chromium, profile, page, folder.
"use strict";
const { spawn } = require("child_process");
const { writeFileSync } = require("fs");
const { pathToFileURL } = require("url");
const [chromium, profile, page, folder] = process.argv.slice(2);
const url = pathToFileURL(page).href;

const browser = spawn(chromium, ["--headless", "--no-sandbox", "--disable-gpu", "--hide-scrollbars", "--remote-debugging-pipe",
  `--user-data-dir=${profile}`, "about:blank"], { stdio: ["ignore", "ignore", "ignore", "pipe", "pipe"] });
const waiting = new Map();
const heard = [];
const complaints = [];
let count = 0;
let session;

function send(method, params = {}) {
  count += 1;
  browser.stdio[3].write(JSON.stringify({ id: count, method, params, sessionId: session }) + "\0");
  return new Promise((resolve, reject) => waiting.set(count, { resolve, reject, method }));
}

// what the page says or asks for while it is loaded
function listen({ method, params }) {
  if (method === "Runtime.exceptionThrown") complaints.push(`exception: ${params.exceptionDetails.text}`);
  if (method === "Runtime.consoleAPICalled") complaints.push(`console: ${params.args.map((a) => a.value).join(" ")}`);
  if (method === "Log.entryAdded" && params.entry.level !== "verbose") complaints.push(`log: ${params.entry.text}`);
  if (method === "Network.requestWillBeSent") {
    const asked = params.request.url;
    if (asked.split("#")[0] !== url && !asked.startsWith("data:")) complaints.push(`asks for ${asked}`);
  }
  if (method === "Page.loadEventFired") heard.splice(0).forEach((resolve) => resolve());
}

let rest = "";
browser.stdio[4].on("data", (data) => {
  const parts = (rest + data).split("\0");
  rest = parts.pop();
  for (const message of parts.map((part) => JSON.parse(part))) {
    const call = waiting.get(message.id);
    waiting.delete(message.id);
    if (!call) listen(message);
    else if (message.error) call.reject(new Error(`${call.method}: ${message.error.message}`));
    else call.resolve(message.result);
  }
});

async function evaluate(expression) {
  const { result, exceptionDetails } = await send("Runtime.evaluate", { expression, returnByValue: true, awaitPromise: true });
  if (exceptionDetails) throw new Error(exceptionDetails.exception.description);
  return result.value;
}

async function load(width, height, scale, mobile, scheme) {
  await send("Emulation.setDeviceMetricsOverride", { width, height, deviceScaleFactor: scale, mobile });
  await send("Emulation.setEmulatedMedia", { features: [{ name: "prefers-color-scheme", value: scheme }] });
  const loaded = new Promise((resolve) => heard.push(resolve));
  await send("Page.navigate", { url });
  await loaded;
}

// run in the page: what is wrong with it
function faults() {
  const wrong = [];
  for (const link of document.querySelectorAll("a[href]")) {
    const to = link.getAttribute("href");
    const target = document.getElementById(decodeURIComponent(to.slice(1)));
    if (!to.startsWith("#") || !target) wrong.push(`link ${to} leads nowhere`);
    else if (!target.checkVisibility() && target.id !== "contents") wrong.push(`link ${to} leads into a shut fold`);
  }
  for (const image of document.images) if (!image.complete || !image.naturalWidth) wrong.push(`picture ${image.alt} is not shown`);
  const wide = document.documentElement.scrollWidth;
  if (wide > innerWidth) wrong.push(`the page is ${wide} wide on a screen of ${innerWidth}`);
  return wrong;
}

async function shot(name) {
  const { data } = await send("Page.captureScreenshot", { format: "png" });
  writeFileSync(`${folder}/${name}.png`, Buffer.from(data, "base64"));
}

// the places that a look is worth, each with the clause's fold opened, as a reader comes to them
const places = ["", "versions", "the-bus", "c4.6", "c4.13", "c7.11", "c7.37", "table-1", "r12",
  "A", "C.1", "C.3", "C.5", "C.8", "D", "w-sound", "E", "F"];

async function screen(name, width, height, scale, mobile, scheme, names) {
  await load(width, height, scale, mobile, scheme);
  complaints.push(...(await evaluate(`(${faults})()`)).map((fault) => `${name}: ${fault}`));
  for (const place of names) {
    if (place && !(await evaluate(`!!document.getElementById("${place}")`))) continue;
    await evaluate(`(() => { const at = document.getElementById("${place}");
      const fold = at && (at.querySelector("details") || (at.nextElementSibling || at).closest("details"));
      if (fold) fold.open = true; location.hash = "${place}"; if (!at) scrollTo(0, 0); })()`);
    await new Promise((resolve) => setTimeout(resolve, 150));
    await shot(`${name}-${place || "top"}`);
  }
  complaints.push(...(await evaluate(`(${faults})()`)).map((fault) => `${name}, folds open: ${fault}`));
}

async function print() {
  await load(1280, 900, 1, false, "light");
  const { data } = await send("Page.printToPDF", { preferCSSPageSize: true, printBackground: true, displayHeaderFooter: false });
  writeFileSync(`${folder}/annex.pdf`, Buffer.from(data, "base64"));
}

async function run() {
  const { targetId } = await send("Target.createTarget", { url: "about:blank" });
  session = (await send("Target.attachToTarget", { targetId, flatten: true })).sessionId;
  for (const domain of ["Page", "Runtime", "Log", "Network"]) await send(`${domain}.enable`);
  await screen("laptop", 1280, 900, 1, false, "light", places);
  await screen("wide", 1600, 1000, 1, false, "light", ["", "c7.11", "table-1"]);
  await screen("dark", 1280, 900, 1, false, "dark", ["", "the-bus", "c7.11", "C.1"]);
  await screen("phone", 390, 844, 2, true, "light", places);
  await print();
}

// until the verdict the run counts as failed, so that a browser that dies is no pass
process.exitCode = 1;
const ended = new Promise((resolve) => browser.on("exit", resolve).on("error", resolve));
browser.stdio[3].on("error", () => {});
const died = ended.then(() => { throw new Error(`${chromium} has ended`); });

Promise.race([run(), died]).catch((error) => complaints.push(String(error))).then(async () => {
  browser.kill();
  await ended;
  for (const complaint of new Set(complaints)) console.error(complaint);
  console.log(complaints.length ? "the page fails in the browser" : `the page loads, its links lead somewhere; pictures and PDF in ${folder}`);
  process.exitCode = complaints.length ? 1 : 0;
});
