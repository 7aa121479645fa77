// A connection to a language server that runs as a process: messages with their headers, and requests.

const { spawn } = require("child_process");

class Connection {
  // `notified` takes the method and parameters of each notification and request of the server.
  constructor(command, words, notified, ended) {
    this.notified = notified;
    this.waiting = new Map();
    this.asked = 0;
    this.rest = Buffer.alloc(0);
    this.process = spawn(command, words, { stdio: ["pipe", "pipe", "inherit"] });
    this.process.stdout.on("data", (piece) => this.take(piece));
    this.process.stdin.on("error", () => {});
    this.process.on("error", (error) => ended(error.message));
    this.process.on("exit", (status) => ended(`ended with status ${status}`));
  }

  take(piece) {
    this.rest = Buffer.concat([this.rest, piece]);
    for (;;) {
      const head = this.rest.indexOf("\r\n\r\n");
      if (head < 0) return;
      const length = Number(/content-length: *(\d+)/i.exec(this.rest.toString("latin1", 0, head))[1]);
      const end = head + 4 + length;
      if (this.rest.length < end) return;
      const body = this.rest.toString("utf8", head + 4, end);
      this.rest = this.rest.subarray(end);
      this.message(JSON.parse(body));
    }
  }

  message(message) {
    if (message.method === undefined) {
      const answer = this.waiting.get(message.id);
      this.waiting.delete(message.id);
      if (answer) answer(message.result);
      return;
    }
    if (message.id !== undefined) this.send({ id: message.id, result: null });
    this.notified(message.method, message.params);
  }

  send(message) {
    const body = Buffer.from(JSON.stringify({ jsonrpc: "2.0", ...message }));
    this.process.stdin.write(`Content-Length: ${body.length}\r\n\r\n`);
    this.process.stdin.write(body);
  }

  notify(method, params) {
    this.send({ method, params });
  }

  // The result of a request; undefined where it is refused.
  ask(method, params) {
    const id = ++this.asked;
    return new Promise((answer) => {
      this.waiting.set(id, answer);
      this.send({ id, method, params });
    });
  }
}

module.exports = { Connection };
