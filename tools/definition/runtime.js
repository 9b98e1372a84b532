"use strict";
// What the translated functions stand on. Numbers: a JavaScript number up to 2^53 - 1, a BigInt above.

const LARGEST = Number.MAX_SAFE_INTEGER;

function unmatched() {
  throw new Error("no clause matches: the translation is wrong");
}

// ---- natural numbers

const bothSmall = (a, b) => typeof a === "number" && typeof b === "number";

function natural(big) {
  return big <= LARGEST ? Number(big) : big;
}

function add(a, b) {
  if (bothSmall(a, b)) {
    const sum = a + b;
    if (sum <= LARGEST) return sum;
  }
  return natural(BigInt(a) + BigInt(b));
}

// 0 where the second is larger
function subtract(a, b) {
  if (a <= b) return 0;
  return bothSmall(a, b) ? a - b : natural(BigInt(a) - BigInt(b));
}

function multiply(a, b) {
  if (bothSmall(a, b)) {
    const product = a * b;
    if (product <= LARGEST) return product;
  }
  return natural(BigInt(a) * BigInt(b));
}

// x / 0 is 0
function divide(a, b) {
  if (b === 0) return 0;
  return bothSmall(a, b) ? (a - (a % b)) / b : natural(BigInt(a) / BigInt(b));
}

// x % 0 is x
function remainder(a, b) {
  if (b === 0) return a;
  return bothSmall(a, b) ? a % b : natural(BigInt(a) % BigInt(b));
}

function power(a, b) {
  return natural(BigInt(a) ** BigInt(b));
}

function pred(a) {
  if (typeof a === "number") return a === 0 ? 0 : a - 1;
  return natural(a - 1n);
}

const bitAnd = (a, b) => natural(BigInt(a) & BigInt(b));
const bitOr = (a, b) => natural(BigInt(a) | BigInt(b));
const bitXor = (a, b) => natural(BigInt(a) ^ BigInt(b));

const min = (a, b) => (a <= b ? a : b);
const max = (a, b) => (a <= b ? b : a);
const compare = (a, b) => (a < b ? k0 : a === b ? k1 : k2);
const eqb_ = (a, b) => a === b;
const leb_ = (a, b) => a <= b;
const ltb_ = (a, b) => a < b;

// ---- truth values, where they stand as functions

const and = (a, b) => a && b;
const or = (a, b) => a || b;
const not = (a) => !a;
const cond = (a, b, c) => (a ? b : c);

// ---- texts

const code = (character) => character.codePointAt(0);
const firstCharacter = (text) => String.fromCodePoint(text.codePointAt(0));
const afterFirst = (text) => text.slice(firstCharacter(text).length);
const joined = (a, b) => a + b;
const count = (text) => Array.from(text).length;
const len = (text) => Buffer.byteLength(text);

// ---- lists

class Cons {
  constructor(head, tail) {
    this.head = head;
    this.tail = tail;
    this.cells = null; // all cells from this one on in an array, once a far one was asked for
  }
}
const NIL = new Cons(undefined, undefined);

function listOf(array) {
  let list = NIL;
  for (let i = array.length - 1; i >= 0; i--) list = new Cons(array[i], list);
  return list;
}

function arrayOf(list) {
  const array = [];
  for (let rest = list; rest !== NIL; rest = rest.tail) array.push(rest.head);
  return array;
}

// Walking costs less than an array where the cell is near.
const NEAR = 8;

function cellsOf(list) {
  if (list.cells === null) {
    const cells = [];
    for (let rest = list; rest !== NIL; rest = rest.tail) cells.push(rest);
    list.cells = cells;
  }
  return list.cells;
}

function length(list) {
  if (list.cells !== null) return list.cells.length;
  let n = 0;
  for (let rest = list; rest !== NIL; rest = rest.tail) n++;
  return n;
}

function drop(count, list) {
  if (count < NEAR) {
    let rest = list;
    for (let i = count; i > 0 && rest !== NIL; i--) rest = rest.tail;
    return rest;
  }
  if (list === NIL) return NIL;
  const cells = cellsOf(list);
  return count < cells.length ? cells[count] : NIL;
}

function getOr(list, index, otherwise) {
  const cell = drop(index, list);
  return cell === NIL ? otherwise : cell.head;
}

// ---- values that are computed when they are first asked for

class Later {
  constructor(compute) {
    this.compute = compute;
    this.found = undefined;
  }
  value() {
    if (this.compute !== null) {
      const compute = this.compute;
      this.found = compute();
      this.compute = null;
    }
    return this.found;
  }
}

function once(compute) {
  let known = false;
  let found;
  return () => {
    if (!known) {
      found = compute();
      known = true;
    }
    return found;
  };
}

// ---- functions whose results are kept until `forget`: by numbers' values and all other arguments' identity

const remembering = [];

function remembered(f) {
  let known = new Map();
  remembering.push(() => {
    known = new Map();
  });
  return waitingFor(f.length, (...given) => {
    let at = known;
    for (const argument of given) {
      if (!at.has(argument)) at.set(argument, new Map());
      at = at.get(argument);
    }
    if (at.found === undefined) at.found = f(...given);
    return at.found;
  });
}

function forget() {
  for (const forgetOne of remembering) forgetOne();
}

// ---- calls of functions that are not known by name: `length` says how many arguments one takes

function apply1(f, a) {
  return f.length === 1 ? f(a) : applyAll(f, [a]);
}

function apply2(f, a, b) {
  return f.length === 2 ? f(a, b) : applyAll(f, [a, b]);
}

function apply3(f, a, b, c) {
  return f.length === 3 ? f(a, b, c) : applyAll(f, [a, b, c]);
}

function apply4(f, a, b, c, d) {
  return f.length === 4 ? f(a, b, c, d) : applyAll(f, [a, b, c, d]);
}

function apply5(f, a, b, c, d, e) {
  return f.length === 5 ? f(a, b, c, d, e) : applyAll(f, [a, b, c, d, e]);
}

function apply6(f, ...given) {
  return applyAll(f, given);
}

function applyAll(f, given) {
  const wanted = f.length;
  if (given.length === wanted) return f(...given);
  if (given.length > wanted) return applyAll(f(...given.slice(0, wanted)), given.slice(wanted));
  return waitingFor(wanted - given.length, (...more) => f(...given, ...more));
}

// a function whose `length` is the number of arguments that are still missing
function waitingFor(missing, f) {
  return Object.defineProperty((...more) => f(...more), "length", { value: missing });
}

// ---- values as text, for people

function show(value) {
  if (value === NIL) return "[]";
  if (value instanceof Cons) return "[" + arrayOf(value).map(show).join(", ") + "]";
  if (typeof value === "function") return "<function>";
  if (typeof value === "string") return JSON.stringify(value);
  if (typeof value !== "object") return String(value);
  return "tag" in value ? showData(value) : showFields(value);
}

function showData(value) {
  const parts = Object.keys(value).filter((key) => key !== "tag");
  const shown = [TAG_NAMES[value.tag], ...parts.map((key) => show(value[key]))].join(" ");
  return parts.length === 0 ? shown : `(${shown})`;
}

function showFields(value) {
  const keys = Object.keys(value);
  if (keys.every((key, i) => key === `_${i}`)) return "(" + keys.map((key) => show(value[key])).join(", ") + ")";
  return "{" + keys.map((key) => `${key.slice(1)} = ${show(value[key])}`).join("; ") + "}";
}
