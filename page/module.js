'use strict';
// A call of the checker's module, for the worker and for tests: each has a fresh instance, so that nothing is left of an earlier one.
//
// The bytes of the inputs, the rooms for texts and the reply lie behind all that the module has for itself; its heap begins behind them.

const MEMORY_PAGE = 65536;
const REPLY = { length: 0, status: 8, certLength: 32, bytes: 64 }; // places of its fields, and its own length

class OutOfMemory extends Error {}

const upTo16 = length => Math.ceil(length / 16) * 16;

/** Makes the memory longer by so many bytes, and gives the place where they begin. */
function grow(memory, bytes) {
  const start = memory.buffer.byteLength;
  try {
    memory.grow(Math.ceil(bytes / MEMORY_PAGE));
  } catch (error) {
    throw new OutOfMemory();
  }
  return start;
}

/** Puts the inputs and rooms into a memory: the words of the call, where the rooms are, and where the reply is. */
function lay(memory, inputs, rooms) {
  const lengths = [...inputs.map(input => input.length), ...rooms];
  const start = grow(memory, lengths.reduce((sum, length) => sum + upTo16(length), REPLY.bytes));
  const view = new Uint8Array(memory.buffer);
  const words = [], places = [];
  let at = start + REPLY.bytes;
  for (const length of lengths) {
    words.push(BigInt(at), BigInt(length));
    places.push(at);
    at += upTo16(length);
  }
  inputs.forEach((input, number) => view.set(input, places[number]));
  if (rooms.length > 1) words.push(BigInt(start + REPLY.certLength));
  words.push(BigInt(start));
  return { words, rooms: places.slice(inputs.length), start };
}

/** One call. `lengths` are those of the texts, also where a text is longer than its room: then it is not answered. */
function callOnce(module, name, inputs, rooms) {
  const { exports } = new WebAssembly.Instance(module, {});
  const laid = lay(exports.memory, inputs, rooms);
  const isAnswered = Boolean(exports[name](...laid.words));
  const { buffer } = exports.memory, reply = new DataView(buffer, laid.start, REPLY.bytes);
  const lengthAt = place => Number(reply.getBigUint64(place, true));
  const lengths = rooms.length > 1 ? [lengthAt(REPLY.certLength), lengthAt(REPLY.length)] : [lengthAt(REPLY.length)];
  const texts = isAnswered ? lengths.map((length, number) => new Uint8Array(buffer.slice(laid.rooms[number], laid.rooms[number] + length))) : [];
  return { isAnswered, status: reply.getUint8(REPLY.status), lengths, texts, memory: buffer.byteLength };
}

/** A call that is made again with the room that is needed, where what it has is too small. */
function call(module, name, inputs, rooms) {
  const answer = callOnce(module, name, inputs, rooms);
  const isShort = answer.lengths.some((length, number) => length > rooms[number]);
  return isShort ? callOnce(module, name, inputs, answer.lengths.map((length, number) => Math.max(length, rooms[number]))) : answer;
}

const CALLS = {
  area: (module, table) => call(module, 'lpis_area', [table], [table.length + 4096]),
  check: (module, parcels, covers, classes, cert) => call(module, 'lpis_check', [parcels, covers, classes, cert], [2 * parcels.length + 65536]),
  cut: (module, parcels, covers, classes) => call(module, 'lpis_cut', [parcels, covers, classes], [5 * covers.length + 65536, 4096]),
};
