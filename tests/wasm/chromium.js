// Drives a headless Chromium by its protocol for debugging, over two pipes: open pages, evaluate, type, press keys.
"use strict";

const { spawn } = require("child_process");
const fs = require("fs");
const os = require("os");
const path = require("path");

// How long a page may take until it has what a test waits for, in milliseconds.
const PATIENCE = 60000;

const KEYS = {
  Tab: 9, End: 35, Home: 36, ArrowLeft: 37, ArrowUp: 38, ArrowRight: 39, ArrowDown: 40, Delete: 46, Backspace: 8, a: 65, Enter: 13,
};
const CONTROL = 2;

// A page, by its session.
class Page {
  constructor(browser, session) {
    this.send = (method, parameters) => browser.send(method, parameters, session);
  }

  // The value of an expression, which may be a promise.
  async evaluate(expression) {
    const { result, exceptionDetails } = await this.send("Runtime.evaluate", { expression, returnByValue: true, awaitPromise: true });
    if (exceptionDetails) throw new Error(exceptionDetails.exception?.description ?? exceptionDetails.text);
    return result.value;
  }

  // Waits until an expression is true.
  async until(expression) {
    for (const end = Date.now() + PATIENCE; Date.now() < end; await new Promise((resolve) => setTimeout(resolve, 50)))
      if (await this.evaluate(expression)) return;
    throw new Error(`not within ${PATIENCE} ms: ${expression}`);
  }

  async press(key, modifiers = 0) {
    const words = { key, code: key.length === 1 ? `Key${key.toUpperCase()}` : key, windowsVirtualKeyCode: KEYS[key], modifiers };
    const commands = key === "a" && modifiers === CONTROL ? ["selectAll"] : [];
    await this.send("Input.dispatchKeyEvent", { type: "rawKeyDown", commands, ...words });
    await this.send("Input.dispatchKeyEvent", { type: "keyUp", ...words });
  }

  // Types a text in the place of all that the focused element has.
  async type(text) {
    await this.press("a", CONTROL);
    await this.press("Delete");
    await this.send("Input.insertText", { text });
  }
}

class Browser {
  constructor(program) {
    this.name = "Chromium";
    this.folder = fs.mkdtempSync(path.join(os.tmpdir(), "chromium-"));
    const words = ["--headless=new", "--remote-debugging-pipe", "--no-sandbox", "--disable-gpu", "--no-first-run", "--disable-dev-shm-usage"];
    this.process = spawn(program, [...words, `--user-data-dir=${this.folder}`, "about:blank"], {
      stdio: ["ignore", "ignore", "ignore", "pipe", "pipe"],
      env: { ...process.env, HOME: this.folder },
    });
    this.waiting = new Map();
    this.requests = [];
    this.count = 0;
    let rest = "";
    this.process.stdio[4].setEncoding("utf8").on("data", (data) => {
      const messages = (rest + data).split("\0");
      rest = messages.pop();
      for (const message of messages) this.receive(JSON.parse(message));
    });
    this.process.on("exit", () => {
      for (const { reject } of this.waiting.values()) reject(new Error("Chromium ended"));
    });
  }

  receive({ id, result, error, method, params }) {
    if (method === "Network.requestWillBeSent") this.requests.push(params.request.url);
    const waiting = this.waiting.get(id);
    if (waiting === undefined) return;
    this.waiting.delete(id);
    if (error) waiting.reject(new Error(error.message));
    else waiting.resolve(result);
  }

  send(method, params = {}, sessionId = undefined) {
    const id = ++this.count;
    this.process.stdio[3].write(`${JSON.stringify({ id, method, params, sessionId })}\0`);
    return new Promise((resolve, reject) => this.waiting.set(id, { resolve, reject }));
  }

  // Opens an address in a page of its own. What the page asks for is in `requests`.
  async open(url) {
    const { targetId } = await this.send("Target.createTarget", { url: "about:blank" });
    const { sessionId } = await this.send("Target.attachToTarget", { targetId, flatten: true });
    const page = new Page(this, sessionId);
    for (const name of ["Page", "Runtime", "Network"]) await page.send(`${name}.enable`);
    await page.send("Page.navigate", { url });
    await page.until("document.readyState === 'complete'");
    return page;
  }

  async close() {
    const ended = new Promise((resolve) => this.process.on("exit", resolve));
    this.send("Browser.close").catch(() => {});
    await ended;
    fs.rmSync(this.folder, { recursive: true, force: true, maxRetries: 5 });
  }
}

module.exports = { Browser };
