// ---- a batch: records from standard input, answers to standard output
//
// A record is a line `MODEL ENTRY LENGTH`, LENGTH bytes and a line feed; an answer `answer N`, N bytes and a line feed.

const fs = require("fs");

const LINE_FEED = 10;
const CHUNK = 1 << 20;

// standard input, read as far as is needed
class Input {
  constructor() {
    this.bytes = Buffer.alloc(0);
    this.at = 0;
  }

  // false at the end of the input
  more() {
    const chunk = Buffer.allocUnsafe(CHUNK);
    const count = readSome(chunk);
    if (count === 0) return false;
    this.bytes = Buffer.concat([this.bytes.subarray(this.at), chunk.subarray(0, count)]);
    this.at = 0;
    return true;
  }

  // a line without its line feed, or null at the end
  line() {
    for (;;) {
      const end = this.bytes.indexOf(LINE_FEED, this.at);
      if (end >= 0) {
        const line = this.bytes.toString("latin1", this.at, end);
        this.at = end + 1;
        return line;
      }
      if (!this.more()) {
        if (this.at < this.bytes.length) throw new Error("the batch ends in the middle of a line");
        return null;
      }
    }
  }

  counted(length) {
    while (this.bytes.length - this.at < length) {
      if (!this.more()) throw new Error("the batch ends in the middle of a record");
    }
    const part = this.bytes.subarray(this.at, this.at + length);
    this.at += length;
    return part;
  }
}

function readSome(chunk) {
  for (;;) {
    try {
      return fs.readSync(0, chunk);
    } catch (error) {
      if (error.code === "EOF") return 0;
      if (error.code !== "EAGAIN") throw error;
      Atomics.wait(new Int32Array(new SharedArrayBuffer(4)), 0, 0, 5);
    }
  }
}

function writeAll(bytes) {
  let at = 0;
  while (at < bytes.length) {
    try {
      at += fs.writeSync(1, bytes, at);
    } catch (error) {
      if (error.code !== "EAGAIN") throw error;
      Atomics.wait(new Int32Array(new SharedArrayBuffer(4)), 0, 0, 5);
    }
  }
}

function readHeader(line) {
  const words = line.split(" ");
  const entry = ENTRIES[words[1]];
  if (words.length !== 3 || entry === undefined || !/^\d+$/.test(words[0]) || !/^\d+$/.test(words[2])) {
    throw new Error(`\`${line}\` is no record header (MODEL ENTRY LENGTH)`);
  }
  return { model: natural(BigInt(words[0])), entry, length: Number(words[2]) };
}

function answerTo(model, entry, text) {
  const bytes = arrayOf(apply2(entry, model, listOf(text)));
  if (!bytes.every((b) => Number.isInteger(b) && b < 256)) throw new Error("an answer has something in it that is no byte");
  return Buffer.from(bytes);
}

// Records that take this many milliseconds are told on standard error.
const SLOW = Number(process.argv[2] ?? Infinity);

function timed(record, header, answer) {
  const start = process.hrtime.bigint();
  const result = answer();
  const took = Number(process.hrtime.bigint() - start) / 1e6;
  if (took >= SLOW) console.error(`record ${record} (${header}): ${took.toFixed(0)} ms`);
  return result;
}

function answerBatch() {
  const input = new Input();
  let record = 0;
  for (let line = input.line(); line !== null; line = input.line()) {
    const { model, entry, length } = readHeader(line);
    const text = input.counted(length);
    if (input.counted(1)[0] !== LINE_FEED) throw new Error("a record's text is not followed by a line feed");
    const answer = timed(record++, line, () => answerTo(model, entry, text));
    forget();
    writeAll(Buffer.concat([Buffer.from(`answer ${answer.length}\n`), answer, Buffer.from("\n")]));
  }
}

answerBatch();
