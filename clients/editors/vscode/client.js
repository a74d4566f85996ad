"use strict";
// A client of the Language Server Protocol over the standard streams of a process. It knows nothing of an editor.

const { spawn } = require("child_process");

class Client {
  /** Starts `command`. `onNote(method, params)` takes what the server says by itself, `onEnd(text)` how it ended. */
  constructor(command, words, onNote, onEnd) {
    this.onNote = onNote;
    this.waiting = new Map();
    this.number = 0;
    this.bytes = Buffer.alloc(0);
    this.isStopped = false;
    this.process = spawn(command, words, { stdio: ["pipe", "pipe", "pipe"] });
    this.said = "";
    this.process.stderr.on("data", (piece) => (this.said = (this.said + piece).slice(-4000)));
    this.process.stdout.on("data", (piece) => this.take(piece));
    this.process.stdin.on("error", () => {});
    const ended = (text) => {
      if (this.hasEnded) return;
      this.hasEnded = true;
      for (const { fail } of this.waiting.values()) fail(new Error(text));
      this.waiting.clear();
      onEnd(this.isStopped ? "" : `${text}\n${this.said}`.trim());
    };
    this.process.on("error", (error) => ended(`${command}: ${error.message}`));
    this.process.on("close", (status) => ended(`${command} has ended with status ${status}`));
  }

  /** The answer to a request; fails with the words of the server. */
  request(method, params) {
    if (this.hasEnded) return Promise.reject(new Error("the language server has ended"));
    const id = ++this.number;
    return new Promise((done, fail) => {
      this.waiting.set(id, { done, fail });
      this.send({ id, method, params });
    });
  }

  notify(method, params) {
    if (!this.hasEnded) this.send({ method, params });
  }

  /** Ends the server; it is gone when the promise is done. */
  async stop() {
    this.isStopped = true;
    if (this.hasEnded) return;
    const gone = new Promise((done) => this.process.once("close", done));
    await this.request("shutdown", null).catch(() => {});
    this.notify("exit", null);
    this.process.stdin.end();
    const timer = setTimeout(() => this.process.kill(), 5000);
    await gone;
    clearTimeout(timer);
  }

  send(message) {
    const body = Buffer.from(JSON.stringify({ jsonrpc: "2.0", ...message }));
    this.process.stdin.write(`Content-Length: ${body.length}\r\n\r\n`);
    this.process.stdin.write(body);
  }

  take(piece) {
    this.bytes = Buffer.concat([this.bytes, piece]);
    for (;;) {
      const end = this.bytes.indexOf("\r\n\r\n");
      if (end < 0) return;
      const length = Number(/Content-Length: *(\d+)/i.exec(this.bytes.toString("latin1", 0, end))[1]);
      if (this.bytes.length < end + 4 + length) return;
      const message = JSON.parse(this.bytes.toString("utf8", end + 4, end + 4 + length));
      this.bytes = this.bytes.subarray(end + 4 + length);
      if (message.method) {
        this.onNote(message.method, message.params);
        continue;
      }
      const one = this.waiting.get(message.id);
      this.waiting.delete(message.id);
      if (one && message.error) one.fail(new Error(message.error.message));
      else if (one) one.done(message.result);
    }
  }
}

module.exports = { Client };
