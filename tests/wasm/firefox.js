// Drives a headless Firefox by WebDriver BiDi, over a WebSocket: open pages, evaluate, type, press keys. Its classes have the methods of
// those of chromium.js.
"use strict";

const { spawn } = require("child_process");
const crypto = require("crypto");
const fs = require("fs");
const http = require("http");
const os = require("os");
const path = require("path");

// How long Firefox may take until it listens, and a page until it has what a test waits for, in milliseconds.
const PATIENCE = 60000;

// The keys that aren't characters, as WebDriver numbers them.
const KEYS = {
  Backspace: "\uE003", Tab: "\uE004", Enter: "\uE007", Control: "\uE009", End: "\uE010", Home: "\uE011", ArrowLeft: "\uE012",
  ArrowUp: "\uE013", ArrowRight: "\uE014", ArrowDown: "\uE015", Delete: "\uE017",
};

// A frame of a WebSocket, as a client sends it: its length takes the fewest bytes.
function frame(kind, data) {
  const long = data.length < 126 ? 0 : data.length < 65536 ? 2 : 8;
  const head = Buffer.from([0x80 | kind, 0x80 | (long === 0 ? data.length : long === 2 ? 126 : 127), ...Array(long).fill(0)]);
  if (long !== 0) head.writeUIntBE(data.length, long === 2 ? 2 : 4, long === 2 ? 2 : 6);
  const mask = crypto.randomBytes(4);
  return Buffer.concat([head, mask, Buffer.from(data.map((byte, i) => byte ^ mask[i % 4]))]);
}

// The first frame of what a server sent, and the rest; or null, if it isn't whole yet.
function firstFrame(data) {
  if (data.length < 2) return null;
  const [first, short] = data;
  const [begin, length] =
    short < 126 ? [2, short] : short === 126 ? [4, data.length < 4 || data.readUInt16BE(2)] : [10, data.length < 10 || data.readUInt32BE(6)];
  if (length === true || data.length < begin + length) return null;
  return { isLast: first >= 0x80, kind: first & 15, text: data.subarray(begin, begin + length), rest: data.subarray(begin + length) };
}

// Connects to a WebSocket; `receive` gets each text that comes. Returns its socket.
function connect(port, receive) {
  let [rest, parts] = [Buffer.alloc(0), []];
  const key = crypto.randomBytes(16).toString("base64");
  const headers = { Connection: "Upgrade", Upgrade: "websocket", "Sec-WebSocket-Key": key, "Sec-WebSocket-Version": "13" };
  return new Promise((resolve, reject) => {
    const request = http.get({ host: "127.0.0.1", port, path: "/session", headers });
    request.on("error", reject).on("response", ({ statusCode }) => reject(new Error(`Firefox responds with ${statusCode}`)));
    request.on("upgrade", (response, socket) => {
      socket.on("data", (data) => {
        rest = Buffer.concat([rest, data]);
        for (let found; (found = firstFrame(rest)) !== null; ) {
          rest = found.rest;
          if (found.kind === 9) socket.write(frame(10, found.text));
          if (found.kind > 2) continue;
          parts.push(found.text);
          if (found.isLast) receive(Buffer.concat(parts.splice(0)).toString());
        }
      });
      resolve(socket);
    });
  });
}

// A page, by its context.
class Page {
  constructor(browser, context) {
    this.send = (method, parameters) => browser.send(method, { context, ...parameters });
    this.target = { context };
  }

  // The value of an expression, which may be a promise.
  async evaluate(expression) {
    const words = { expression: `(async () => JSON.stringify(await (${expression})))()`, target: this.target, awaitPromise: true };
    const { result, exceptionDetails } = await this.send("script.evaluate", words);
    if (exceptionDetails) throw new Error(exceptionDetails.text);
    return result.value && JSON.parse(result.value);
  }

  // Waits until an expression is true.
  async until(expression) {
    for (const end = Date.now() + PATIENCE; Date.now() < end; await new Promise((resolve) => setTimeout(resolve, 50)))
      if (await this.evaluate(expression)) return;
    throw new Error(`not within ${PATIENCE} ms: ${expression}`);
  }

  async act(...actions) {
    await this.send("input.performActions", { actions: [{ type: "key", id: "keys", actions }] });
  }

  async press(key) {
    const value = KEYS[key];
    await this.act({ type: "keyDown", value }, { type: "keyUp", value });
  }

  // Types a text in the place of all that the focused element has, key by key.
  async type(text) {
    const [down, up] = ["keyDown", "keyUp"].map((type) => (value) => ({ type, value }));
    await this.act(down(KEYS.Control), down("a"), up("a"), up(KEYS.Control), down(KEYS.Delete), up(KEYS.Delete));
    const keys = [...text].map((it) => (it === "\n" ? KEYS.Enter : it));
    await this.act(...keys.flatMap((value) => [down(value), up(value)]));
  }
}

class Browser {
  constructor(program) {
    this.name = "Firefox";
    this.folder = fs.mkdtempSync(path.join(os.tmpdir(), "firefox-"));
    const words = ["--headless", "--no-remote", "--profile", this.folder, "--remote-debugging-port", "0", "about:blank"];
    this.process = spawn(program, words, { stdio: ["ignore", "ignore", "pipe"], env: { ...process.env, HOME: this.folder } });
    this.waiting = new Map();
    this.requests = [];
    this.count = 0;
    this.ended = new Promise((resolve) => this.process.on("exit", resolve));
    this.ended.then(() => {
      for (const { reject } of this.waiting.values()) reject(new Error("Firefox ended"));
    });
    this.socket = this.begin();
  }

  // The port that Firefox says it listens at.
  port() {
    return new Promise((resolve, reject) => {
      let said = "";
      this.process.stderr.setEncoding("utf8").on("data", (data) => {
        said += data;
        const found = /BiDi listening on ws:\/\/[^:]+:(\d+)/.exec(said);
        if (found) resolve(Number(found[1]));
      });
      this.ended.then(() => reject(new Error(`Firefox ended: ${said}`)));
      setTimeout(() => reject(new Error(`Firefox doesn't listen: ${said}`)), PATIENCE).unref();
    });
  }

  async begin() {
    return connect(await this.port(), (text) => this.receive(JSON.parse(text)));
  }

  receive({ id, result, message, method, params }) {
    if (method === "network.beforeRequestSent") this.requests.push(params.request.url);
    const waiting = this.waiting.get(id);
    if (waiting === undefined) return;
    this.waiting.delete(id);
    if (result === undefined) waiting.reject(new Error(message));
    else waiting.resolve(result);
  }

  async send(method, params) {
    const socket = await this.socket;
    const id = ++this.count;
    socket.write(frame(1, Buffer.from(JSON.stringify({ id, method, params }))));
    return new Promise((resolve, reject) => this.waiting.set(id, { resolve, reject }));
  }

  // Opens an address in a page of its own. What the page asks for is in `requests`.
  async open(url) {
    if (this.count === 0) {
      await this.send("session.new", { capabilities: {} });
      await this.send("session.subscribe", { events: ["network.beforeRequestSent"] });
    }
    const { context } = await this.send("browsingContext.create", { type: "tab" });
    const page = new Page(this, context);
    await page.send("browsingContext.navigate", { url, wait: "complete" });
    return page;
  }

  async close() {
    this.process.kill();
    await this.ended;
    fs.rmSync(this.folder, { recursive: true, force: true, maxRetries: 5 });
  }
}

module.exports = { Browser };
